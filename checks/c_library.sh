#!/usr/bin/env bash
# Builds the library of C from crates/wq_c, FOLDER/libyeangvos.a and FOLDER/libyeangvos.so, with what of the kit it calls: three
# functions over malloc, realloc and free, which the shared one keeps to itself. That one is a link to the file of its name and major
# number, by which a program that is linked with it asks for it. What wq_c stands on is built by build.py, which proves nothing twice.
# PROVED=1 says that `rt ci` has proved and built it in this tree, and wq_c is built over that.
set -euo pipefail
folder=$(realpath "${1:?usage: checks/c_library.sh FOLDER}")
[ -d "$folder" ] || { echo "c_library.sh: $folder is no folder" >&2; exit 1; } # else the library would be a file of that name
cd "$(dirname "${BASH_SOURCE[0]}")/.."
read -ra cc <<<"${CC:-cc}" # which may have words behind it, as of ccache
for it in "${cc[0]}" ar; do # before the proofs
    command -v "$it" >/dev/null || { echo "c_library.sh: there is no $it" >&2; exit 1; }
done
kit=$(dirname "$(dirname "$(realpath "$(command -v rt)")")")
backend=${BACKEND:-llvm}

# Whether each library that `rt ci` built is there: behind it comes back to its place what an earlier run of another command had built.
has_all() {
    local it crate
    for it in crates/*/out/rlib; do
        crate=$(basename "${it%/out/rlib}")
        [ -e "$it/$crate.rlib" ] || return 1
    done
}
if [ "${PROVED:-0}" = 1 ] && has_all; then
    libraries=out/rlib
else
    libraries=out/rlib/statements
    checks/build.py wq_seats wq_rows
fi

# wq_c proved and built over the libraries of its crates as they stand.
built() {
    local crates=.. below=(--extern "std=$kit/rlibs/std.rlib" -L "dependency=$kit/rlibs") it
    for it in "$crates"/*/"$libraries"; do
        below+=(-L "dependency=$it")
    done
    for it in wq_seats wq_rows; do
        below+=(--extern "$it=$crates/$it/$libraries/$it.rlib")
    done
    mkdir -p out
    "$kit/bin/rattle" build --crate-name wq_c src/lib.rt "${below[@]}" --links wq_c= --crate-type staticlib \
        --antt-project "$kit/rattle/logic/antt-project.json" --logic-built "$kit/logic_built" \
        --toolchain "$kit/toolchain" --backend "$backend" --jobs 1 --incremental out/incremental -o out/libwq_c.a
}

# Another run in this repository would build crates/wq_c/out/libwq_c.a anew, for another backend, before it is copied, and build.py,
# which takes this lock too, what is built over. What is started here has the lock as well, and keeps it where this is killed.
exec 9<crates.txt
flock 9
made=$(mktemp -d)
# rt builds in no folder with a link, and a run for crates/wq_c/out has left one there
link=crates/wq_c/out/libyeangvos.so
linked=$(readlink "$link" || true)
put_back() {
    rm -rf "$made"
    [ -z "$linked" ] || [ -L "$link" ] || ln -s "$linked" "$link"
}
trap put_back EXIT
rm -f "$link"
(cd crates/wq_c && built >"$made/said" 2>&1) || { tail -20 "$made/said" >&2; exit 1; }
rm -f "$folder/libyeangvos.a"
# by bare names, since a script of ar reads no path with a space or a letter of its own
cp crates/wq_c/out/libwq_c.a "$kit/c/liblibc_c.a" "$made"
(cd "$made" && printf 'create libyeangvos.a\naddlib libwq_c.a\naddlib liblibc_c.a\nsave\nend\n' | ar -M)
install -m 644 "$made/libyeangvos.a" "$folder"
echo '{ global: wq_c_*; local: *; };' >"$made/exports"
shared=libyeangvos.so.$(sed -n 's/^#define WQ_MAJOR \([0-9]*\).*/\1/p' include/wq.h)
"${cc[@]}" -shared -Wl,-soname,"$shared" -Xlinker "--version-script=$made/exports" -o "$folder/$shared" \
    -Wl,--whole-archive "$folder/libyeangvos.a" -Wl,--no-whole-archive
ln -sf "$shared" "$folder/libyeangvos.so"
