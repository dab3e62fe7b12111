#!/usr/bin/env python3
"""Times items that sender threads queue and another thread executes, by the program given and in C, with patience and without,
and by queues of Rust that a user might take instead.

usage: threads.py PROGRAM ROUNDS [ITEMS [WORD..]]

Each round runs each row once in each cell, in turn, with so many items (500,000). The words stand in front of each command, as
`chrt -f 10`, under which the threads that are measured go before all other work. The first table has for each row the median in
nanoseconds an item with its quartiles, and below how many items a take found, and the share of the sender that queued fewest, where
1 is an even share; the second one has the time until one item ran that
was queued so many microseconds after the last one.
"""
import contextlib
import glob
import os
import resource
import shutil
import subprocess
import sys
import tempfile
import time

HERE = os.path.dirname(os.path.abspath(__file__))
CELLS = [(senders, size) for size in (256, 16) for senders in (1, 2, 3)]
GAPS = (0, 2, 5, 20, 1000)
TICK = os.sysconf('SC_CLK_TCK')


def busy():
    """Processor seconds that the machine has spent on anything so far."""
    with open('/proc/stat') as stat:
        fields = [int(word) for word in stat.readline().split()[1:]]
    return (sum(fields[:3]) + sum(fields[5:8])) / TICK


def own():
    """Processor seconds of this process and its children so far."""
    return sum(use.ru_utime + use.ru_stime for use in map(resource.getrusage, (resource.RUSAGE_SELF, resource.RUSAGE_CHILDREN)))


def output(command):
    """What a command printed, word by word, after a pause that leaves the machine to others."""
    time.sleep(0.05)
    return subprocess.run(command, check=True, capture_output=True, text=True, timeout=60).stdout.replace(',', '').split()


def items(command):
    """Nanoseconds an item, items a take, and how many the sender queued that queued fewest, to an even share of what ran."""
    words = output(command)
    values = {words[at]: int(words[at + 1]) for at in range(0, len(words), 2)}
    senders = int(command[-3])
    return values['nanos'] / values['items'], values['items'] / values['takes'], values['least'] * senders / values['items']


def lone(command):
    """The median of the times of one item, and their 95th percentile."""
    words = output(command)
    return int(words[1]), int(words[4])


def at(values, part):
    return sorted(values)[min(len(values) - 1, int(len(values) * part))]


def compiled(folder, name, *flags, libraries=()):
    """The program of a file in C."""
    program = os.path.join(folder, '-'.join((name, *flags)))
    source = os.path.join(HERE, name + '.c')
    command = [os.environ.get('CC', 'cc'), '-std=c11', '-D_GNU_SOURCE', '-O2', '-pthread', *flags, '-o', program, source, *libraries]
    subprocess.run(command, check=True)
    return program


# Debian's packages librust-crossbeam-queue-dev and librust-crossbeam-channel-dev lay their sources there.
REGISTRY = '/usr/share/cargo/registry'
MANIFEST = """[package]
name = "peers"
version = "1.0.0"
edition = "2021"
[dependencies]
crossbeam-queue = "*"
crossbeam-channel = "*"
crossbeam-utils = "*"
[[bin]]
name = "peers"
path = "peers.rs"
[profile.release]
opt-level = 3
"""


def peers_of_rust(folder):
    """The program of peers.rs, or None where its crates or cargo are not there, with a line that says so."""
    if not glob.glob(f'{REGISTRY}/crossbeam-queue-*') or not glob.glob(f'{REGISTRY}/crossbeam-channel-*') or not shutil.which('cargo'):
        print(f'no queues of Rust: cargo or the crates of crossbeam in {REGISTRY} are not there', file=sys.stderr)
        return None
    room = os.path.join(folder, 'peers')
    os.makedirs(os.path.join(room, '.cargo'))
    shutil.copy(os.path.join(HERE, 'peers.rs'), room)
    with open(os.path.join(room, 'Cargo.toml'), 'w') as file:
        file.write(MANIFEST)
    with open(os.path.join(room, '.cargo', 'config.toml'), 'w') as file:
        file.write(f'[source.crates-io]\nreplace-with = "debian"\n[source.debian]\ndirectory = "{REGISTRY}"\n')
    subprocess.run(['cargo', 'build', '--release', '--offline', '--quiet'], cwd=room, check=True)
    return os.path.join(room, 'target', 'release', 'peers')


def rows(program, scheme, fewest, rust):
    """The rows of the first table: a name, and the command without its numbers."""
    yield 'this queue, with patience', [program]
    yield 'this queue, without', [program, 'eager']
    for name, peer in (('the same words in C', scheme), ('the fewest steps, in C', fewest)):
        yield f'{name}, with patience', [peer, 'patient']
        yield f'{name}, without', [peer, 'eager']
    yield '`Worker::serve`', [program, 'serve']
    yield 'a worker without patience', [program, 'eager', 'serve']
    yield 'a worker that rests, woken on `wakes`', [program, 'resting', 'serve']
    if rust:
        yield "crossbeam's ArrayQueue", [rust, 'array']
        yield "crossbeam's channel", [rust, 'channel']
        yield "std's mpsc", [rust, 'mpsc']
        yield 'a mutex and a deque', [rust, 'mutex']


def lone_rows(program, futex):
    """The rows of the second table."""
    yield '`Worker::serve`', [program, 'lone']
    yield 'a worker without patience', [program, 'eager', 'lone']
    yield 'a futex in C', [futex]


def measured(rounds, table, cells, numbers, read):
    """What each row has given in each cell, in the order of the rounds."""
    got = {}
    for turn in range(rounds):
        for name, command in table:
            for cell in cells:
                got.setdefault((name, cell), []).append(read(command + [str(word) for word in numbers(cell)]))
        print(f'round {turn + 1} of {rounds}', file=sys.stderr)
    return got


@contextlib.contextmanager
def folder_and_load():
    """A folder for what is compiled; afterwards it prints how many processors other processes used meanwhile."""
    start, used, mine = time.monotonic(), busy(), own()
    with tempfile.TemporaryDirectory() as folder:
        yield folder
    others = (busy() - used - (own() - mine)) / (time.monotonic() - start)
    print(f'{os.cpu_count()} processors, of which other processes used {others:.1f} in the mean')


def show(cells):
    print('| ' + ' | '.join(cells) + ' |')


def show_items(table, got):
    show(['senders, slice'] + [f'{senders}, {size}' for senders, size in CELLS])
    show(['---'] * (len(CELLS) + 1))
    for name, _ in table:
        nanos = [[triple[0] for triple in got[name, cell]] for cell in CELLS]
        takes = [[triple[1] for triple in got[name, cell]] for cell in CELLS]
        show([name] + [f'{at(row, .5):.0f} ({at(row, .25):.0f} to {at(row, .75):.0f})' for row in nanos])
        show(['items a take'] + [f'{at(row, .5):.0f}' for row in takes])
        shares = [[triple[2] for triple in got[name, cell]] for cell in CELLS]
        show(['least share'] + [f'{at(row, .5):.2f} (least {min(row):.2f})' for row in shares])


def show_lone(table, got):
    show(['microseconds before'] + [str(gap) for gap in GAPS])
    show(['---'] * (len(GAPS) + 1))
    for name, _ in table:
        pairs = [[at([pair[part] for pair in got[name, gap]], .5) / 1000 for part in (0, 1)] for gap in GAPS]
        show([name] + [f'{middle:.1f} (95th {high:.1f})' for middle, high in pairs])


def main():
    if len(sys.argv) < 3:
        sys.exit(__doc__)
    program, rounds = os.path.abspath(sys.argv[1]), int(sys.argv[2])
    count = int(sys.argv[3]) if len(sys.argv) > 3 else 500000
    before = sys.argv[4:]
    with folder_and_load() as folder:
        peers = compiled(folder, 'scheme'), compiled(folder, 'scheme', '-DFEWEST=1'), peers_of_rust(folder)
        table = [(name, before + words) for name, words in rows(program, *peers)]
        lone_table = [(name, before + words) for name, words in lone_rows(program, compiled(folder, 'lone'))]
        show_items(table, measured(rounds, table, CELLS, lambda cell: (*cell, count), items))
        print()
        show_lone(lone_table, measured(rounds, lone_table, GAPS, lambda gap: (200, gap), lone))


if __name__ == '__main__':
    main()
