#!/bin/bash
# Records queue.c anew, once without a bug and once with each of its bugs, and stores what the program that is named says of each:
# record.sh PROGRAM. The bugs are seen, but where each recording ends is not the same twice.
set -euo pipefail
program=$(realpath "${1:?usage: examples/recording/record.sh PROGRAM}")
[ -x "$program" ] || { echo "record.sh: $program is no program" >&2; exit 1; }
cd "$(dirname "$0")"
made=$(mktemp)
trap 'rm -f "$made"' EXIT

bug=0
for name in right overtaking overlap lost twice; do
    "${CC:-cc}" -O2 -Wall -Wextra -pthread -DBUG=$bug -o "$made" queue.c
    "$made" >$name.trace
    status=0
    "$program" check --drained $name.trace >$name.report || status=$?
    [ $status = 0 ] || [ $status = 4 ] || exit 1
    rm -f $name.status
    [ $status = 0 ] || echo $status >$name.status
    echo "$name.trace: status $status"
    bug=$((bug + 1))
done
