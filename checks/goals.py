#!/usr/bin/env python3
"""Compares where the prover refused each wrong body with the file `goals`: goals.py LOG, goals.py --controls LOG CRATE.., or
goals.py --write LOG.

LOG is what `rt ci` printed. A line of `goals` is a wrong body of the gate and the first goal at which it is refused: a clause of the
function that it changes, what a call in it requires, or what every value of a type keeps. A body that comes to be refused at another
goal first may have lost its attack, or its clause. Behind that stands, where the body's control was tried, a goal at which the body is
refused and the control is not: the `first`, another, or `none`. With --controls LOG is what `rt must-fail` printed of the controls of
these crates: each is shown with the first goal at which it is refused, if it is, which must not be that one, and each has to be there.
The log has first goals alone, so a goal behind the first and `none` are not compared whole. With --write the first goals are written
anew: read then what changed.
"""
import re
import sys
from pathlib import Path

GOALS = Path(__file__).resolve().parent / "goals"
CRATES = GOALS.parent.parent / "crates"
# the log has the beginning of the first goal alone, so a long name may be cut off: one that is whole ends with its backquote
REFUSED = re.compile(r"must-fail (\S+)\.edit: refused, as it must be: note: src/\S+: .*?\(`([\w-]*`?)")
# with which option there are how many words at least
FEWEST = {"--write": 2, "--controls": 3}
PROVED = re.compile(r"must-fail (\S+)\.edit: NOT REFUSED")


def is_goal(goal, seen):
    """Whether what the log has of a goal is this goal: its whole name, or the beginning of it where the log cut it off."""
    return f"{goal}`".startswith(seen)


def named(seen):
    """The name that the log has of a goal."""
    return seen.rstrip("`")


def controls_of(crates):
    """The controls of these crates, by the names of their bodies."""
    return {f"{it.parent.name}/{it.stem}" for it in GOALS.parent.glob("controls/*/*.edit") if it.parent.name in crates}


def compare_controls(rows, refused, proved, wanted):
    """Shows what became of each control; whether all have a verdict, and none is refused at the goal that tells its body from it."""
    faults = 0
    for body in sorted(wanted - refused.keys() - proved):
        faults += 1
        print(f"{body}: no verdict: not tried, not to be applied, or refused for a limit or a name")
    for body in sorted(refused.keys() | proved):
        goal, tells = (*rows.get(body, []), None, None)[:2]
        found = refused.get(body)
        is_wrong = bool(found) and is_goal(goal if tells == "first" else tells or "", found)
        faults += is_wrong
        print(f"{body}: {f'refused first at {named(found)}' if found else 'proved'}{', which is to tell its body from it' if is_wrong else ''}")
    print(f"goals: {len(refused) + len(proved)} controls, {len(proved)} proved, {faults} not as wanted")
    return bool(wanted) and faults == 0


def bodies():
    """The wrong bodies of the gate, as they stand in the crates."""
    return {f"{it.parent.parent.name}/{it.stem}" for it in CRATES.glob("*/must-fail/*.edit")}


def compare(rows, refused):
    """Shows each wrong body that is refused at another goal than is wanted; whether there is none."""
    faults = 0
    for body in sorted(rows.keys() | refused.keys() | bodies()):
        goal, seen = rows.get(body, [None])[0], refused.get(body)
        if not (goal and seen and is_goal(goal, seen)):
            print(f"{body}: refused at {named(seen) if seen else 'no goal of the source'}, and not at {goal or 'one that is written down'}")
            faults += 1
    print(f"goals: {len(rows)} wrong bodies, {faults} not as wanted")
    return faults == 0


def main(words):
    if not words or len(words) < FEWEST.get(words[0], 1):
        sys.exit(__doc__)
    said = Path(words[words[0] in FEWEST]).read_text(errors="replace")
    refused = dict(REFUSED.findall(said))
    rows = {body: goals for body, *goals in map(str.split, GOALS.read_text().splitlines())}
    if words[0] == "--write":
        lines = [[body, named(goal), *rows.get(body, [])[1:]] for body, goal in sorted(refused.items())]
        GOALS.write_text("".join(f"{' '.join(line)}\n" for line in lines))
        return 0
    if words[0] == "--controls":
        return 0 if compare_controls(rows, refused, set(PROVED.findall(said)), controls_of(words[2:])) else 1
    return 0 if compare(rows, refused) else 1


if __name__ == "__main__":
    sys.exit(main(sys.argv[1:]))
