#!/usr/bin/env bash
# Refuses each allocation of each call that takes memory, one at a time, and compares what came of it with refused_memory.report:
# refused_memory.sh PROGRAM [--all], with test_memory as PROGRAM. A case of it makes one call in such a way that its Nth allocation is
# the program's hundredth, which checks/c/faults.c refuses, and tells whether that one was refused in the call. For each call there are
# the cases up to the one behind its last allocation. Then each of the fifteen threads that the examples want is refused in turn. With
# --all the report is made anew, from 97 cases for each call. It wants a C compiler.
set -euo pipefail
# the order of `sort` that the report has, whatever the caller's locale
export LC_ALL=C
program=$(realpath "${1:?usage: checks/refused_memory.sh PROGRAM [--all]}")
all=${2:-}
cd "$(dirname "${BASH_SOURCE[0]}")"
report=$PWD/refused_memory.report
folder=$(mktemp -d)
trap 'rm -rf "$folder"' EXIT
if [[ $folder = *[[:space:]]* ]]; then
    echo "refused_memory: LD_PRELOAD takes a path apart at a space: name a folder without one by TMPDIR" >&2
    exit 1
fi
"${CC:-cc}" -O2 -Wall -Wextra -shared -fPIC -o "$folder/faults.so" c/faults.c
# each call of the program has its line in the report, and each line its call
if ! diff <(cut -d: -f1 ../crates/test_memory/stdout | sort) <(cut -d' ' -f1 "$report" | sort); then
    echo "A call of crates/test_memory/stdout (<) has no line in checks/refused_memory.report, or a line (>) no call. Add a line with the" >&2
    echo "call's name alone, or take the line away, make the report anew by --all, and read what changed." >&2
    exit 1
fi

refuse() {
    LD_PRELOAD=$folder/faults.so FAULT="allocation fails" FAULT_AT=100 FAULT_TOLD=$folder/told \
        timeout 60 "$program" <<<"$1 $2" 2>&1 || echo "$1 $2 ended with status $?"
}
while read -r call _ count _; do
    if [ "$all" = --all ]; then count=96; fi
    for place in $(seq 1 $((count + 1))); do refuse "$call" "$place"; done
done <"$report" >"$folder/said"

# For each call how many of its allocations were refused, and what it then answered: `again` is want of memory and then the right
# answer, by what was left or came back; `right` that it went on: a row that was refused more room than it wants, or an example without
# memory for a thread. What the threads of `log` take comes in another order in each run, so of that call it is told that none was
# wrong. In the other examples the memory for threads has fixed places, or only such memory is taken beside it, and each message that is
# refused gives the same answer, so their counts are the same in each run.
awk -F': |, ' '
    / refused (in|before|after) it$/ {
        split($1, name, " ")
        said[name[1]]++
        if ($3 == "refused in it") { refused[name[1]]++; of[name[1] ": " $2]++ }
        if ($3 == "refused before it") print "another allocation than the call'\''s:", $0
        if ($3 == "refused after it") { after[name[1]]++; if ($2 != "right") print "without a refusal:", $0 }
        next
    }
    { print "no answer:", $0 }
    END {
        for (call in said) {
            if (!after[call]) print call, "has more allocations than were refused"
            line = call " refused " refused[call] + 0
            if (call == "log") {
                fine = of[call ": memory"] + of[call ": thread"] + of[call ": right"]
                print line " memory, thread or right " fine + 0 " wrong " of[call ": wrong"] + 0
                continue
            }
            line = line " memory " of[call ": memory"] + 0 " again " of[call ": memory and again"] + 0
            print line " right " of[call ": right"] + 0 " wrong " of[call ": wrong"] + 0
        }
    }' "$folder/said" | sort >"$folder/report"
cat "$folder/report"
# Each call without a line on standard input. The logs' workers want the first thread that is made, and without it nothing is written;
# a further worker and a client do without one of their own, and so do all of `threads` (the fourth to the sixth thread), `served`,
# `messages` (two each) and `own_pool` (five).
for place in $(seq 1 15); do
    expected=$(sed "$([ "$place" = 1 ] && echo 's/^log: right/log: thread/')" ../crates/test_memory/stdout)
    said=$(LD_PRELOAD=$folder/faults.so FAULT="thread fails" FAULT_AT=$place FAULT_TOLD=$folder/thread$place \
        timeout 60 "$program" </dev/null 2>&1) || said="$said (ended with status $?)"
    if ! [ -e "$folder/thread$place" ] || ! diff <(echo "$expected") <(echo "$said"); then
        echo "thread $place is refused, and what comes of it is not as expected (<)" >&2
        exit 1
    fi
done
if [ "$all" = --all ]; then cp "$folder/report" "$report"; exit; fi
diff "$report" "$folder/report"
echo "as stored in checks/refused_memory.report"
