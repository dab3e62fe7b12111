#!/usr/bin/env python3
"""Times items that threads of C queue and another executes by the calls of wq.h, in turn with bench_queue, the same words in C, a
mutex and a ring, and GLib's GAsyncQueue and GThreadPool where it is there.

usage: seats.py PROGRAM FOLDER ROUNDS [ITEMS [WORD..]]

FOLDER has libyeangvos.a. Each round runs each row once in each cell, in turn, with so many items (500,000). The words stand in
front of each command, as `chrt -f 10`. The table has for each row the median in nanoseconds an item with its quartiles. Without senders
one thread queues a slice and executes it in turn; of the GThreadPool another thread executes there too.
"""
import os
import subprocess
import sys
from threads import HERE, at, compiled, folder_and_load, items, measured, show

CELLS = [(0, 256), (1, 256), (2, 256), (3, 256), (1, 16), (3, 16)]


def glib():
    """The flags of GLib, or none where it is not there."""
    try:
        said = subprocess.run(['pkg-config', '--cflags', '--libs', 'glib-2.0'], capture_output=True, text=True, check=False)
    except OSError:
        print('no GAsyncQueue and no GThreadPool: pkg-config is not there', file=sys.stderr)
        return None
    if said.returncode:
        print('no GAsyncQueue and no GThreadPool: pkg-config does not find glib-2.0', file=sys.stderr)
    return said.stdout.split() if said.returncode == 0 else None


def rows(program, folder, library):
    """The rows of the table: a name, and the command without its numbers."""
    os.environ['CPATH'] = os.path.join(HERE, '..', 'include')
    archive = [os.path.join(library, 'libyeangvos.a')]
    checked = compiled(folder, 'seats', libraries=archive)
    unchecked = compiled(folder, 'seats', '-DWQ_UNCHECKED', libraries=archive)
    yield 'bench_queue', [program]
    yield 'wq.h', [checked, 'seats']
    yield 'wq.h with `WQ_UNCHECKED`', [unchecked, 'seats']
    yield 'the same words in C', [compiled(folder, 'scheme'), 'patient']
    yield 'a mutex and a ring', [unchecked, 'mutex']
    flags = glib()
    if flags is not None:
        of_glib = compiled(folder, 'seats', '-DGLIB=1', libraries=archive + flags)
        yield 'GAsyncQueue', [of_glib, 'async']
        yield 'GThreadPool, one exclusive thread', [of_glib, 'pool']


def read(command):
    """Nanoseconds an item."""
    return items(command)[0] if int(command[-3]) else lone_thread(command)


def lone_thread(command):
    """Nanoseconds an item in one thread, where no sender queued fewest."""
    words = subprocess.run(command, check=True, capture_output=True, text=True, timeout=60).stdout.replace(',', '').split()
    return int(words[words.index('nanos') + 1]) / int(words[words.index('items') + 1])


def main():
    if len(sys.argv) < 4:
        sys.exit(__doc__)
    program, library, rounds = os.path.abspath(sys.argv[1]), os.path.abspath(sys.argv[2]), int(sys.argv[3])
    count = int(sys.argv[4]) if len(sys.argv) > 4 else 500000
    before = sys.argv[5:]
    with folder_and_load() as folder:
        table = [(name, before + words) for name, words in rows(program, folder, library)]
        got = measured(rounds, table, CELLS, lambda cell: (*cell, count), read)
        show(['senders, slice'] + [f'{senders}, {size}' for senders, size in CELLS])
        show(['---'] * (len(CELLS) + 1))
        for name, _ in table:
            show([name] + [f'{at(got[name, cell], .5):.0f} ({at(got[name, cell], .25):.0f} to {at(got[name, cell], .75):.0f})' for cell in CELLS])


if __name__ == '__main__':
    main()
