#!/usr/bin/env python3
"""Times items that bring a value of 8 or of 64 bytes, which sender threads queue and another thread executes, by bench_queue, in turn
with items of its own that bring nothing, and with channels of Rust that carry the item's number and such a value.

usage: values.py PROGRAM ROUNDS [ITEMS [WORD..]]

PROGRAM is bench_queue as it was built. Each round runs each row once in each cell, in turn, with so many items (500,000). The words
stand in front of each command, as in threads.py, and the table is laid out as the first one there.
"""
import os
import sys

from threads import CELLS, folder_and_load, items, measured, peers_of_rust, show_items

WIDTHS = (8, 64)


def rows(program, rust):
    """The rows of the table: a name, and the command without its numbers."""
    yield 'this queue, without values', [program]
    for width in WIDTHS:
        yield f'this queue, {width} bytes', [program, 'values', str(width)]
    if rust:
        for name, kind in (("crossbeam's channel", 'channel'), ("std's mpsc", 'mpsc')):
            for width in WIDTHS:
                yield f'{name}, {width} bytes', [rust, f'{kind}{width}']


def main():
    if len(sys.argv) < 3:
        sys.exit(__doc__)
    program, rounds = os.path.abspath(sys.argv[1]), int(sys.argv[2])
    count = int(sys.argv[3]) if len(sys.argv) > 3 else 500000
    before = sys.argv[4:]
    with folder_and_load() as folder:
        table = [(name, before + words) for name, words in rows(program, peers_of_rust(folder))]
        show_items(table, measured(rounds, table, CELLS, lambda cell: (*cell, count), items))


if __name__ == '__main__':
    main()
