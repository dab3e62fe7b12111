#!/usr/bin/env python3
"""Says what a gate's provers took of the processors, crate by crate: gate_times.py, beside a gate, from its beginning on.

It looks at the provers of this machine twice a second, and when none has been there for a minute, or at Ctrl-C, it prints the processor
seconds of each crate: its own proof, the proof of its tests, the proof that its wrong bodies begin with, and the wrong bodies, with how
many there were. A prover that comes and goes between two looks is not seen, and what one takes behind the last look is not counted.
"""
import os
import sys
import time
from collections import defaultdict
from pathlib import Path

KINDS = ("proof", "tests", "base", "bodies")
EACH = 0.5
QUIET = 60
TICKS = os.sysconf("SC_CLK_TCK")


def kind_of(words, folder):
    """What a prover with this command proves in this folder: a wrong body is tried in a copy of its crate, over what a first check kept."""
    if "--test" in words:
        return "tests"
    if "/rt-edit-" not in f"{folder}/":
        return "proof"
    kept = words[words.index("--incremental") + 1] if "--incremental" in words else ""
    return "base" if Path(kept).name == "seed" else "bodies"


def look(process):
    """A prover that is at work, which none other is: its number and beginning; its crate and kind; its processor seconds."""
    words = (process / "cmdline").read_text(errors="replace").split("\0")
    if Path(words[0]).name != "rattle" or "--crate-name" not in words:
        return None
    numbers = (process / "stat").read_text().rpartition(")")[2].split()
    crate = words[words.index("--crate-name") + 1]
    seconds = (int(numbers[11]) + int(numbers[12])) / TICKS
    return (process.name, numbers[19]), (crate, kind_of(words, os.readlink(process / "cwd"))), seconds


def watch(took):
    """Waits for the first prover, and notes what each has taken until none has been there for a while."""
    last = None
    while last is None or time.monotonic() - last < QUIET:
        for process in Path("/proc").glob("[0-9]*"):
            try:
                found = look(process)
            except (OSError, ValueError, IndexError):
                # it has ended meanwhile, or is nobody's to see
                continue
            if found:
                last = time.monotonic()
                took[found[0]] = found[1:]
        time.sleep(EACH)


def show(took):
    """A line for each crate, the dearest first, and the sums in minutes."""
    table, bodies = defaultdict(lambda: dict.fromkeys(KINDS, 0.0)), defaultdict(int)
    for (crate, kind), seconds in took.values():
        table[crate][kind] += seconds
        bodies[crate] += kind == "bodies"
    print(f"{'processor seconds':20}" + "".join(f"{kind:>8}" for kind in KINDS))
    for crate, row in sorted(table.items(), key=lambda it: -sum(it[1].values())):
        print(f"{crate:20}" + "".join(f"{row[kind]:8.0f}" for kind in KINDS) + (f" of {bodies[crate]}" if bodies[crate] else ""))
    print(f"{'in all, minutes':20}" + "".join(f"{sum(row[kind] for row in table.values()) / 60:8.1f}" for kind in KINDS))


def main():
    took = {}
    try:
        watch(took)
    except KeyboardInterrupt:
        pass
    show(took)


if __name__ == "__main__":
    sys.exit(main() if len(sys.argv) == 1 else __doc__)
