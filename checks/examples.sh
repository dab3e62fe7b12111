#!/bin/bash
# Runs each example with the program that is named, and compares what it writes, what it says of failures and its status with what
# stands beside it: NAME.report, NAME.faults and NAME.status. Where one of them is missing, nothing and 0 are wanted. One that
# does not end is stopped after 60 seconds. Each has its line in examples/README.md. A kernel trace goes through the converter,
# which runs the `wqrun` that it finds in the PATH. The history of each schedule, as `steps --history` writes it, is read and
# found legal. What is stored belongs to an example, and what has a line in examples/README.md is there.
program=${1:?usage: checks/examples.sh PROGRAM}
folder=$(dirname "$0")/../examples
faults=$(mktemp)
trap 'rm -f "$faults"' EXIT

# The file, or nothing where there is none.
stored() {
    if [ -e "$1" ]; then cat "$1"; fi
}

# Whether there is an example of this name.
has_example() {
    local file
    for file in "$1".{wq,steps,json,history,trace,ftrace}; do
        if [ -e "$file" ]; then return; fi
    done
    return 1
}

PATH=$(realpath "$(dirname "$program")"):$PATH
failed=0
for file in "$folder"/*.wq "$folder"/*.steps "$folder"/*.json "$folder"/recording/*.{history,trace,ftrace}; do
    name=${file%.*}
    case $file in
        *.wq) command=("$program" script) ;;
        *.steps) command=("$program" steps) ;;
        *.json) command=("$program" live) ;;
        *.history | *.trace) command=("$program" check --drained) ;;
        *.ftrace) command=("$folder/recording/wq_trace.py" --check --drained "${name##*/}") ;;
    esac
    wanted=$(stored "$name.status")
    same=yes
    timeout 60 "${command[@]}" "$file" 2>"$faults" | diff - <(stored "$name.report")
    ended=("${PIPESTATUS[@]}")
    status=${ended[0]}
    [ "${ended[1]}" = 0 ] || same=no
    diff "$faults" <(stored "$name.faults") || same=no
    [ "$status" = "${wanted:-0}" ] || same=no
    grep -qF "| \`${file#"$folder"/}\` |" "$folder/README.md" || { echo "$file: no line in README.md" && same=no; }
    if [ "$same" = yes ]; then
        echo "$file: as stored, with status $status"
    else
        echo "$file: differs, with status $status"
        failed=1
    fi
done
for kept in "$folder"/*.{report,faults,status} "$folder"/recording/*.{report,faults,status}; do
    if [ -e "$kept" ] && ! has_example "${kept%.*}"; then
        echo "$kept: of no example"
        failed=1
    fi
done
while read -r name; do
    if [ ! -e "$folder/$name" ]; then
        echo "$folder/$name: not there, and has a line in README.md"
        failed=1
    fi
done < <(sed -n 's/^| `\([^`]*\)` |.*/\1/p' "$folder/README.md")
# The history of each schedule is a legal recording.
for file in "$folder"/*.steps; do
    said=$(timeout 60 "$program" steps --history "$file" | timeout 60 "$program" check /dev/stdin; echo "${PIPESTATUS[*]}")
    if [ "${said%%$'\n'*}" = legal ] && [ "${said##*$'\n'}" = "0 0" ]; then
        echo "$file: its history is legal"
    else
        echo "$file: its history is not legal: $said"
        failed=1
    fi
done
exit $failed
