#!/usr/bin/env bash
# Arms, moves and cancels items of a delay table and lets them go, by the program given and by a timing wheel in C, three
# times in turn, over 4,096 items and over 16.
set -euo pipefail
program=$1
wheel=$(mktemp)
trap 'rm -f "$wheel"' EXIT
"${CC:-cc}" -std=c11 -O2 -o "$wheel" "$(dirname "${BASH_SOURCE[0]}")/wheel.c"
for plan in "4096 100" "16 20000"; do
  for _ in 1 2 3; do
    said=$("$program" delays $plan | tr '\n' ' ')
    echo "table $plan: $said"
    said=$("$wheel" $plan | tr '\n' ' ')
    echo "in C  $plan: $said"
  done
done
