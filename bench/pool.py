#!/usr/bin/env python3
"""Times a pool of workers over eight queues that four senders queue on, by the program given and in C.

usage: pool.py PROGRAM ROUNDS [ITEMS [WORD..]]

Each round makes each row once with 1, 2 and 4 workers, in turn, with so many items (800,000). The words stand in front of each
command, as `chrt -f 10`, under which the threads that are measured go before all other work. The table has for each row the median
of a million items a second with its quartiles, and below how many picks of a queue an item took. In C there is a mutex and a ring
a queue, served by as many workers, and GLib's `GThreadPool` with one exclusive thread a queue: eight threads in each column.
Without GLib that row is left out, with a line on standard error.
"""
import os
import subprocess
import sys

sys.dont_write_bytecode = True
from threads import at, compiled, folder_and_load, measured, output, show  # noqa: E402

QUEUES = 8
SENDERS = 4
WORKERS = (1, 2, 4)
MISSING = ('bench/pool.py: `GThreadPool` is not measured: `pkg-config glib-2.0` finds nothing. '
           'On Debian `apt install pkg-config libglib2.0-dev` installs what is missing')


def glib():
    """What the compiler is told of GLib, or None where GLib is not there."""
    command = ['pkg-config', '--cflags', '--libs', 'glib-2.0']
    try:
        return subprocess.run(command, check=True, capture_output=True, text=True).stdout.split()
    except (OSError, subprocess.CalledProcessError):
        print(MISSING, file=sys.stderr)
        return None


def rows(program, folder):
    """The rows of the table: a name, and the command without its numbers."""
    yield 'this pool', [program, 'pool']
    yield 'a mutex and a ring a queue, in C', [compiled(folder, 'pool_mutex')]
    yield 'the same, the whole ring at one lock', [compiled(folder, 'pool_mutex', '-DWHOLE=1')]
    libraries = glib()
    if libraries is not None:
        yield '`GThreadPool`, one exclusive thread a queue', [compiled(folder, 'pool_glib', libraries=libraries)]


def speed(command):
    """Million items a second, and picks an item."""
    words = output(command)
    values = {words[place]: int(words[place + 1]) for place in range(0, len(words), 2)}
    if values['items'] == 0 or values['strays'] != 0:
        sys.exit(f'bench/pool.py: {" ".join(command)} answered {" ".join(words)}')
    return values['items'] * 1000 / values['nanos'], values['picks'] / values['items']


def show_speeds(table, got):
    show(['workers'] + [str(workers) for workers in WORKERS])
    show(['---'] * (len(WORKERS) + 1))
    for name, _ in table:
        speeds = [[pair[0] for pair in got[name, workers]] for workers in WORKERS]
        picks = [[pair[1] for pair in got[name, workers]] for workers in WORKERS]
        show([name] + [f'{at(row, .5):.2f} ({at(row, .25):.2f} to {at(row, .75):.2f})' for row in speeds])
        show(['picks an item'] + [f'{at(row, .5):.4f}' for row in picks])


def main():
    if len(sys.argv) < 3:
        sys.exit(__doc__)
    program, runs = os.path.abspath(sys.argv[1]), int(sys.argv[2])
    items = int(sys.argv[3]) if len(sys.argv) > 3 else 800000
    before = sys.argv[4:]
    with folder_and_load() as folder:
        table = [(name, before + words) for name, words in rows(program, folder)]
        show_speeds(table, measured(runs, table, WORKERS, lambda workers: (QUEUES, workers, SENDERS, items), speed))


if __name__ == '__main__':
    main()
