#!/usr/bin/env bash
# Builds the library of C, and tests the calls of include/ from C, C++, Python and Rust: c_api.sh [WQRUN]. Where the program WQRUN is
# named, it judges the histories of the random runs. Tools that are not installed are left out, each with a line: valgrind, rustc,
# c++, clang, clang++, python3, make, pkg-config, and the sanitizers of cc and of clang. Three minutes of a processor, beside the proof
# of wq_c; the other compiler of the kit takes that proof as it is kept.
set -euo pipefail
wqrun=${1:+$(realpath "$1")}
cd "$(dirname "${BASH_SOURCE[0]}")/.."
work=$(mktemp -d)
trap 'rm -rf "$work"' EXIT
if [[ $work = *[[:space:]]* ]]; then
    echo "c: pkg-config takes a path apart at a space: name a folder without one by TMPDIR" >&2
    exit 1
fi
export LD_LIBRARY_PATH=$work YEANGVOS_LIBRARY=$work/libyeangvos.so PYTHONPATH=include PYTHONDONTWRITEBYTECODE=1
unset PYTHONOPTIMIZE # which leaves out what the programs in Python assert
if ! command -v "${CC:-cc}" >/dev/null; then
    echo "c: no C compiler, so nothing was tested: name one by CC" >&2
    exit 1
fi
checks/c_library.sh "$work"
strict=(-std=c99 -pedantic -O2 -g -Wall -Wextra -Werror -pthread -Iinclude -Ichecks/c)

library=$work/libyeangvos.a

# built NAME FLAG..: the program of checks/c/NAME.c, strictly: of C99, and of nothing that a program has to ask for (_GNU_SOURCE),
# unless it does so itself
built() {
    "${CC:-cc}" "${strict[@]}" "${@:2}" -o "$work/$1" "checks/c/$1.c" "$library"
}
left_out() {
    echo "$1: not installed, so left out"
}
# A sanitizer's memory must not meet the program's, so addresses are not mixed where the system allows that.
unmixed=()
! setarch -R true 2>/dev/null || unmixed=(setarch -R)
# sanitizes COMPILER SANITIZER: whether a program that the compiler makes with it runs
sanitizes() {
    echo 'int main(void) { return 0; }' | "$1" -x c -fsanitize="$2" -o "$work/tried" - 2>/dev/null && "${unmixed[@]}" "$work/tried" 2>/dev/null
}
# refuses LINE COMMAND..: the command ends with an error and says so, in a line of its own
refuses() {
    if "${@:2}" >"$work/said" 2>&1 || ! grep -qxF "$1" "$work/said"; then
        echo "not refused by '$1': ${*:2}"
        exit 1
    fi
}
does_not_run() {
    echo "$1: not there, or does not run, so left out"
}

built codes
timeout 60 "$work/codes"
built codes -DWQ_UNCHECKED
timeout 60 "$work/codes" >"$work/said"
built threads
timeout 60 "$work/threads" 2000
built threads -DWQ_UNCHECKED
timeout 60 "$work/threads" 500 >"$work/said"
built contended
timeout 60 "$work/contended" pauses
built misuse
timeout 60 "$work/misuse"
# each call of wq.h that takes a seat, but what makes one of its memory
calls=$(sed -nE 's/^static inline uint32_t (wq_[a-z_]+)\(wq_seat .*/\1/p' include/wq.h | grep -vxE 'wq_enter|wq_init')
for call in $calls; do
    grep -qF "CHECK($call(seat" checks/c/misuse.c || { echo "misuse: $call is not asked for what it finds out"; exit 1; }
done
built worker
timeout 60 "$work/worker"
built worker -DWQ_UNCHECKED
timeout 60 "$work/worker" >"$work/said"
built worker_answers
timeout 60 "$work/worker_answers"
built signals
timeout 60 "$work/signals"
built signals -DWQ_UNCHECKED
timeout 60 "$work/signals" >"$work/said"
built refusals -Wl,--wrap=wq_c_seat_size,--wrap=wq_c_seat_align,--wrap=pthread_create,--wrap=pthread_join
timeout 60 "$work/refusals"
# the headers alone, as each compiler that is there takes them, without a warning
alone=(-pedantic -Wall -Wextra -Wconversion -Wsign-conversion -Wshadow -Wredundant-decls -Werror -Iinclude -fsyntax-only)
for compiler in "${CC:-cc}" clang; do
    command -v "$compiler" >/dev/null || { left_out "$compiler"; continue; }
    for standard in c99 c11 c2x gnu11; do
        for checked in -UWQ_UNCHECKED -DWQ_UNCHECKED; do
            printf '#include <wq_worker.h>\n#include <wq_pure.h>\nint main(void) { return 0; }\n' |
                "$compiler" -x c -std=$standard $checked "${alone[@]}" -
        done
    done
done
for compiler in "${CXX:-c++}" clang++; do
    command -v "$compiler" >/dev/null || { left_out "$compiler"; continue; }
    for standard in c++11 c++17 c++20; do
        for checked in -UWQ_UNCHECKED -DWQ_UNCHECKED; do
            "$compiler" -std=$standard $checked "${alone[@]}" checks/c/client.cc
        done
    done
done
# elsewhere than on x86-64 Linux they say why they are refused
for elsewhere in -U__x86_64__ -U__linux__ -D__ILP32__; do
    for header in wq.h wq_worker.h wq_pure.h; do
        if echo "#include <$header>" | "${CC:-cc}" -x c $elsewhere -Iinclude -fsyntax-only - 2>"$work/said" ||
            ! grep -qF '"wq.h: ' "$work/said"; then
            echo "$header: not refused with $elsewhere"
            exit 1
        fi
    done
done
built pure
timeout 60 "$work/pure"
built memory -Wl,--wrap=malloc,--wrap=realloc,--wrap=free
timeout 60 "$work/memory"

mkdir "$work/runs"
built random
timeout 60 "$work/random" "$work/runs" 1 2000
if [ -n "$wqrun" ]; then
    for file in "$work"/runs/*.legal; do
        if [ "$("$wqrun" check "$file" | head -n 1)" != legal ]; then
            echo "random: $(basename "$file") is not legal"
            "$wqrun" check "$file"
            exit 1
        fi
    done
    for file in "$work"/runs/*.broken; do
        if [ "$("$wqrun" check "$file" | head -n 1)" != "not legal" ]; then
            echo "random: $(basename "$file") is legal"
            exit 1
        fi
    done
    echo "random: $(find "$work/runs" -name '*.legal' | wc -l) histories are legal, and $(find "$work/runs" -name '*.broken' | wc -l) without a hold are not"
else
    echo "random: no wqrun was named, so the histories were not judged"
fi

# the same exports, compiled by the compiler that is written in Rattle in place of LLVM
mkdir "$work/rattle"
BACKEND=rattle checks/c_library.sh "$work/rattle"
library=$work/rattle/libyeangvos.a
for program in codes "threads 200" misuse contended; do
    built "${program%% *}"
    # shellcheck disable=SC2086 # the words of the program
    timeout 60 "$work/"$program >"$work/said"
done
library=$work/libyeangvos.a
echo "the other compiler of the kit: each code as it is said, each sender's items in its order"

if command -v valgrind >/dev/null; then
    built codes
    built threads
    for program in codes "threads 10" pure "random $work/runs 1 20"; do
        # shellcheck disable=SC2086 # the words of the program
        timeout 120 valgrind -q --leak-check=full --error-exitcode=9 "$work/"$program >"$work/said"
    done
    echo "valgrind: no error, no leak"
else
    left_out valgrind
fi
for sanitizer in address,undefined thread; do
    if sanitizes "${CC:-cc}" $sanitizer; then
        for program in codes "threads 100" worker "worker_answers 100" pure "random $work/runs 1 20"; do
            built "${program%% *}" -fsanitize=$sanitizer -fno-sanitize-recover=all
            # shellcheck disable=SC2086 # the words of the program
            timeout 60 "${unmixed[@]}" "$work/"$program >"$work/said"
        done
        echo "-fsanitize=$sanitizer: no report"
    else
        does_not_run "-fsanitize=$sanitizer"
    fi
done
if sanitizes clang thread; then
    CC=clang built threads -fsanitize=thread
    timeout 60 "${unmixed[@]}" "$work/threads" 100 >"$work/said"
    echo "-fsanitize=thread of clang: no report"
else
    does_not_run "-fsanitize=thread of clang"
fi
if command -v "${CXX:-c++}" >/dev/null; then
    "${CXX:-c++}" -std=c++11 -O2 -Wall -Wextra -Werror -pthread -Iinclude -o "$work/client" checks/c/client.cc "$work/libyeangvos.a"
    timeout 60 "$work/client"
fi
"${CC:-cc}" "${strict[@]}" -o "$work/logger" examples/c/logger.c "$work/libyeangvos.a"
timeout 60 "$work/logger" >"$work/lines"
if command -v python3 >/dev/null; then
    timeout 60 python3 checks/c/client.py
    timeout 60 python3 checks/c/codes.py
    timeout 60 python3 checks/c/misuse.py
    timeout 60 python3 examples/c/logger.py >"$work/python_lines"
else
    left_out python3
fi
for lines in "$work/lines" "$work/python_lines"; do
    [ -e "$lines" ] || continue
    for number in 0 1 2 3; do
        grep "^thread $number" "$lines" | diff - <(for line in 0 1 2 3; do echo "thread $number line $line"; done)
    done
    grep -v "^thread" "$lines" | diff - <(for line in 4 5 6 7; do echo "again: thread 0 line $line"; done)
done
echo "loggers: each thread's lines in its order"
"${CC:-cc}" "${strict[@]}" -o "$work/sensors" examples/c/sensors.c "$work/libyeangvos.a"
for _ in $(seq 20); do
    timeout 60 "$work/sensors" | diff - <(for sensor in 0 1 2; do echo "sensor $sensor: 1000"; done)
done
echo "sensors: an owner without a worker shows each thread's last value"
if command -v rustc >/dev/null && rustc --version >/dev/null 2>&1; then
    rustc --edition 2021 -O -o "$work/rust" checks/c/client.rs -C link-arg="$work/libyeangvos.a"
    timeout 60 "$work/rust"
else
    left_out rustc
fi
checks/c_install.sh "$work" "$work/installed"
# what is installed below a DESTDIR is the same, also where another folder names it, and names it nowhere
checks/c_install.sh "$work" /opt/wq "$work/staged"
diff <(cd "$work/installed" && find . | sort) <(cd "$work/staged/opt/wq" && find . | sort)
top=$PWD
(cd "$work" && "$top/checks/c_install.sh" . /opt/wq from/here)
diff -r "$work/staged" "$work/from/here"
# what is no place or no library is refused before anything is installed
for given in "$work" --remove; do
    refuses "c_install.sh: PREFIX is opt/wq, and no path from the root" checks/c_install.sh "$given" opt/wq "$work/refused"
done
refuses "c_library.sh: $(realpath -m "$work/refused") is no folder" checks/c_library.sh "$work/refused"
refuses "c_install.sh: $(realpath "$work/runs") has no libyeangvos.a" checks/c_install.sh "$work/runs" /opt/wq "$work/refused"
[ ! -e "$work/refused" ] || { echo "install: something is installed of a folder without the library"; exit 1; }
# left BELOW: the files there
left() {
    (cd "$1" && find . ! -type d | sort)
}
echo "a file of another program" >"$work/from/here/opt/wq/share/doc/yeangvos/other"
(cd "$work" && "$top/checks/c_install.sh" --remove /opt/wq from/here)
left "$work/from/here" | diff - <(echo ./opt/wq/share/doc/yeangvos/other)
# what make puts there besides, of any program; it is told that all is built
if command -v make >/dev/null; then
    made=(env -u MAKEFLAGS make -s -o build -o library PROGRAM="${wqrun:-$work/codes}" LIBRARY="$work" DESTDIR="$work/made")
    "${made[@]}" PREFIX=/opt/wq install
    checks/c_install.sh --remove /opt/wq "$work/made"
    [ -x "$work/made/opt/wq/bin/wqrun" ] || { echo "make install: no program"; exit 1; }
    left "$work/made/opt/wq" | diff - <(printf './%s\n' bin/wqrun share/doc/wqrun/{FORMATS.md,RECORDING.md,wq_trace.py} share/man/man1/wqrun.1)
    "${made[@]}" PREFIX=/opt/wq install
    "${made[@]}" PREFIX=/opt/wq uninstall
    left "$work/made" | diff - /dev/null
    for target in install uninstall; do
        refuses "PREFIX is opt/wq, and no path from the root" "${made[@]}" PREFIX=opt/wq $target
    done
else
    left_out make
fi
echo "install: what was installed is removed, and nothing else"
if grep -rl "$work/staged" "$work/staged" || [[ $(readlink "$work/staged/opt/wq/lib/libyeangvos.so") = */* ]]; then
    echo "install: the DESTDIR is named"
    exit 1
fi
# a program that runs, unlike one that is linked, finds the library by its major number alone
shared=$(readlink "$work/installed/lib/libyeangvos.so")
grep -qF "/$shared" docs/C.md || { echo "docs/C.md names another library than $shared"; exit 1; }
mkdir "$work/running"
cp "$work/installed/lib/$shared" "$work/running"
if command -v python3 >/dev/null; then
    env -u YEANGVOS_LIBRARY LD_LIBRARY_PATH="$work/running" PYTHONPATH="$work/installed/share/yeangvos/python" python3 -c 'import wq'
fi
# each call of the headers, which is each function there that is none of the helpers, has a page, which begins with its name, and
# stands in docs/C.md; and no call stands there that is none
headers=(include/wq.h include/wq_worker.h include/wq_pure.h)
helpers=$(sed -nE 's|^/\* Helpers, no calls of a program: (.*)\. \*/$|\1|p' "${headers[@]}" | tr -d ',' | tr ' ' '\n')
calls=$(sed -nE 's/^static inline [a-z0-9_ ]+[ *](wq_[a-z_]+)\(.*/\1/p' "${headers[@]}" | grep -vxF "$helpers" | sort)
told=$(sed -n '/^## The calls/,/^## Ownership/p' docs/C.md | grep -oE '`wq_[a-z_]+\(' | tr -d '`(' | sort -u)
unknown=$(comm -13 <(echo "$calls") <(echo "$told"))
[ -z "$unknown" ] || { echo "docs/C.md tells calls that no header has: $unknown"; exit 1; }
for call in $calls; do
    grep -qw "$call" docs/C.md || { echo "docs/C.md does not tell $call"; exit 1; }
    page=$work/installed/share/man/man3/$call.3
    linked=$(sed -n 's|^\.so man3/||p' "$page" 2>/dev/null || true)
    if ! sed -n '/^\.SH NAME/,/^\.SH SYNOPSIS/p' "${page%/*}/${linked:-$call.3}" | grep -qw "$call"; then
        echo "man: no page begins with $call"
        exit 1
    fi
done
echo "man: each call has a page"
files=$(grep -oE 'examples/c/[a-z.]+' docs/C.md)
for file in $files; do
    [ -e "$work/installed/share/doc/yeangvos/$file" ] || { echo "docs/C.md names $file, which is not installed"; exit 1; }
done
# defines LIBRARY NAMES: it defines calls of C, and nothing else that does not match these names
defines() {
    local names defined
    names=$(nm -D --defined-only "$1" | awk '{ print $3 }')
    grep -q '^wq_c_build$' <<<"$names" || { echo "the library defines no wq_c_build"; exit 1; }
    defined=$(grep -vxE "$2" <<<"$names" || true)
    [ -z "$defined" ] || { echo "$(basename "$1") defines names that docs/C.md does not tell: $defined"; exit 1; }
}
defines "$work/libyeangvos.so" 'wq_c_[a-z_]+'
# of the static one those are told that it defines where all of it is linked
"${CC:-cc}" -shared -o "$work/whole.so" -Wl,--whole-archive "$work/libyeangvos.a" -Wl,--no-whole-archive
defines "$work/whole.so" 'wq_c_[a-z_]+|rattle_(alloc|realloc|dealloc)'
if command -v pkg-config >/dev/null; then
    export LD_LIBRARY_PATH=$work/running PKG_CONFIG_PATH=$work/installed/lib/pkgconfig
    [ "libyeangvos.so.$(pkg-config --modversion yeangvos)" = "$shared" ] || { echo "pkg-config: another version than that of $shared"; exit 1; }
    read -ra flags < <(pkg-config --cflags --libs yeangvos)
    "${CC:-cc}" -o "$work/logger" examples/c/logger.c "${flags[@]}"
    timeout 60 "$work/logger" | sort | diff <(sort "$work/lines") -
    awk '/^    #include <stdio.h>/ { on = 1 } on { sub(/^    /, ""); print } /^int main/ { main = 1 } main && /^}$/ { exit }' docs/C.md >"$work/page.c"
    "${CC:-cc}" -Wall -Wextra -Werror -o "$work/page" "$work/page.c" "${flags[@]}"
    # a queueing between the worker's first take and its rest wakes nobody
    timeout 60 "$work/page" | sed 's/|WAKES$//' | sort | diff <(printf 'QUEUED|FIRST\nitem 2 of mine\n' | sort) -
    read -ra flags < <(pkg-config --cflags yeangvos)
    for compiler in "${CXX:-c++}" clang++; do
        command -v "$compiler" >/dev/null || continue
        for checked in -UWQ_UNCHECKED -DWQ_UNCHECKED; do
            "$compiler" -x c++ -std=c++11 $checked -Wall -Wextra -Werror "${flags[@]}" -fsyntax-only "$work/page.c"
        done
    done
    odd="/opt/a \"b'c\\d #e"
    checks/c_install.sh "$work" "$odd" "$work/odd"
    eval "flags=($(PKG_CONFIG_PATH=$work/odd$odd/lib/pkgconfig pkg-config --cflags yeangvos))"
    [ "${flags[0]-}" = "-I$odd/include" ] || { echo "pkg-config: ${flags[0]-nothing} for a PREFIX $odd"; exit 1; }
    echo "pkg-config: the installed library serves, and the program of docs/C.md runs"
else
    left_out pkg-config
fi
