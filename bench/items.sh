#!/usr/bin/env bash
# Queues and executes items in one thread by the program given and by the same scheme in C, five times in turn, and counts
# the instructions of both where valgrind is there. `threads.py` measures sender threads.
set -euo pipefail
program=$1
scheme=$(mktemp)
counts=$(mktemp)
trap 'rm -f "$scheme" "$counts"' EXIT
"${CC:-cc}" -std=c11 -D_GNU_SOURCE -O2 -pthread -o "$scheme" "$(dirname "${BASH_SOURCE[0]}")/scheme.c"

# The instructions of a command's whole run, in units of its million items.
instructions() {
  valgrind --tool=callgrind --callgrind-out-file=/dev/null "$@" 2> "$counts" > /dev/null || { cat "$counts" >&2; return 1; }
  awk '/Collected/ { printf "%.1f instructions an item\n", $NF / 1000000 }' "$counts"
}

grep -m1 'model name' /proc/cpuinfo | cut -d: -f2 | sed 's/^ //'
for _ in 1 2 3 4 5; do
  said=$("$program" 0 256 5000000)
  echo "queue: $said"
  said=$("$scheme" eager 0 256 5000000)
  echo "in C:  $said"
done
if command -v valgrind > /dev/null; then
  said=$(instructions "$program" 0 256 1000000)
  echo "queue: $said"
  said=$(instructions "$scheme" eager 0 256 1000000)
  echo "in C:  $said"
fi
