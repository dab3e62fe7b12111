#!/usr/bin/env bash
# Times the program given on a script of a megabyte, five times.
set -euo pipefail
program=$1
script=$(mktemp)
trap 'rm -f "$script"' EXIT
"$(dirname "${BASH_SOURCE[0]}")/generate.py" > "$script"
echo "$(wc -c < "$script") bytes, $(wc -l < "$script") lines, $(grep -m1 'model name' /proc/cpuinfo | cut -d: -f2 | sed 's/^ //')"
for _ in 1 2 3 4 5; do
  start=$(date +%s%N)
  "$program" script "$script" > /dev/null
  end=$(date +%s%N)
  echo "$(( (end - start) / 1000000 )) ms"
done
