#!/usr/bin/env python3
"""Says which modules took longest in the last check of a crate, and how long each kind took: module_times.py [CRATE..] [HOW_MANY].

A check keeps each module that it has proved as a file below crates/CRATE/out/incremental, so the time between two files is
what the later one took. It is exact after `rm -r out/incremental; rt check --jobs 1`; several jobs run side by side. With no
CRATE it goes over all crates that have such files.
"""
import sys
from collections import Counter
from pathlib import Path

CRATES = Path(__file__).resolve().parent.parent / "crates"
# the kinds of modules that CONTRIBUTING speaks of ("How long things take"), and those that are much of any check
KINDS = ("Lts", "Proof", "Tie", "Answers", "Reads", "Layout", "Kinds", "Goals")


def modules(crate):
    """What each module of the crate took, in seconds, with its name."""
    files = sorted((it.stat().st_mtime, it.name) for it in (CRATES / crate / "out" / "incremental").glob("*/*"))
    return [(time - before, f"{crate} {name.removesuffix('.oantt')}") for (before, _), (time, name) in zip(files, files[1:])]


def main():
    words = sys.argv[1:]
    count = int(words.pop()) if words and words[-1].isdigit() else 20
    checked = sorted(it.parent.parent.name for it in CRATES.glob("*/out/incremental"))
    lacking = [it for it in words if it not in checked]
    if lacking or not checked:
        sys.exit(f"{(lacking or ['no crate'])[0]} was not checked: run rt check in the crate's folder first")
    took = sorted((it for crate in words or checked for it in modules(crate)), reverse=True)
    for seconds, name in took[:count]:
        print(f"{seconds:6.1f} {name}")
    kinds = Counter()
    for seconds, name in took:
        kind = name.rpartition(".")[2]
        kinds[kind if kind in KINDS else "others"] += seconds
    print("by kind:", ", ".join(f"{kind} {seconds:.0f}" for kind, seconds in kinds.most_common()))


if __name__ == "__main__":
    main()
