#!/usr/bin/env python3
"""Times the program given on queues of more and more items, in some rounds (else 5): each call that goes over all items.

usage: large.py PROGRAM [ROUNDS]

A row is such a call, a column a number of items. A cell has the median over the rounds in nanoseconds an item, and how many bytes of
memory an item were resident more after the call, where that is a byte at least. What takes no longer for more items stays the same
along its row.
"""
import statistics
import subprocess
import sys

COUNTS = (4_096, 16_384, 65_536)


def stages(program, items):
    """The stages of a run: a name, nanoseconds and bytes an item."""
    output = subprocess.run([program, "large", str(items)], check=True, capture_output=True, text=True).stdout
    for line in output.splitlines():
        name, figures = line.rsplit(": ", 1)
        nanos, bytes_ = (int(part.split()[0]) for part in figures.split(", "))
        yield name, nanos / items, bytes_ / items


def cell(figures):
    nanos, bytes_ = (statistics.median(column) for column in zip(*figures))
    return f"{nanos:.1f}" + (f", {bytes_:.0f} bytes" if bytes_ >= 1 else "")


def main():
    if len(sys.argv) < 2:
        sys.exit(__doc__)
    program = sys.argv[1]
    rounds = int(sys.argv[2]) if len(sys.argv) > 2 else 5
    got = {}
    for _ in range(rounds):
        for items in COUNTS:
            for place, (name, *figures) in enumerate(stages(program, items)):
                got.setdefault((place, name), {}).setdefault(items, []).append(figures)
    print("| | " + " | ".join(f"{items:,}" for items in COUNTS) + " |")
    print("| --- " * (len(COUNTS) + 1) + "|")
    for (_, name), columns in got.items():
        print(f"| {name} | " + " | ".join(cell(columns[items]) for items in COUNTS) + " |")


main()
