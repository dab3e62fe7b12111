#!/usr/bin/env bash
# Tries the wrong bodies that the gate leaves out, checks/wrong_bodies/NAME/*.edit, on a copy of the crates: of all crates that have
# some, or of those that are named. The prover must refuse each, as those in crates/NAME/must-fail, which the gate tries. What a gate
# on this machine has proved is not proved again.
#
# With --controls it tries checks/controls/NAME/*.edit, each of which is a wrong body of the gate with the right answer in its place,
# and compares where the prover refuses it, if it does, with the file goals.
set -euo pipefail
cd "$(dirname "${BASH_SOURCE[0]}")/.."
checks=$PWD/checks
folder=wrong_bodies
if [ "${1:-}" = --controls ]; then folder=controls && shift; fi
names=("$@")
if [ ${#names[@]} -eq 0 ]; then mapfile -t names < <(ls "checks/$folder"); fi
room=$(mktemp -d)
trap 'rm -rf "$room"' EXIT
# as they stand: with what is not added yet, and without what is taken away
git ls-files -z -co --exclude-standard crates crates.txt HANDLES | while IFS= read -r -d '' file; do
    if [ -e "$file" ]; then printf '%s\0' "$file"; fi
done | xargs -0 cp --parents -t "$room"
for name in "${names[@]}"; do
    rm -rf "$room/crates/$name/must-fail"
    cp -r "checks/$folder/$name" "$room/crates/$name/must-fail"
done
cd "$room"
git init -q
if [ "$folder" = wrong_bodies ]; then
    rt must-fail "${names[@]}"
else
    # where a right body is proved, rt says that a wrong one was not refused
    rt must-fail "${names[@]}" >"$room/said" || true
    "$checks/goals.py" --controls "$room/said" "${names[@]}"
fi
