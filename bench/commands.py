#!/usr/bin/env python3
"""Times the program given on scripts of a megabyte, each of one command alone: commands.py PROGRAM [ROUNDS [VERSION [ITEMS..]]].

ROUNDS is 5, VERSION 1 or 2 and else 1, ITEMS as many as a script of that version may have, where they are left out. Of all items a
state names at most 24,576, since more leave no room for the command. A row of the table is a command in a state. For each number
of items it says how often the command stands there, the median over the rounds with the shortest and the longest run, in which is
what the state takes, and how long each command takes: that of the script less that of one with the state alone, over their number.
Of several numbers of items the last column has how many times as long each takes over the last as over the first, and the last line
names the greatest of these. Each round runs each number of items in turn.
"""
import statistics
import subprocess
import sys
import tempfile
import time

LIMIT = 1_048_576
MOST = {1: 4_096, 2: 65_536}
NAMED = 24_576


def cases(items):
    """A name, the state, and the command by its place."""
    named = range(min(items, NAMED))
    queued = [f"queue 0 {k}" for k in named]
    round_ = [f"follow {k} {k}" for k in named] + queued  # each item follows itself, so that the queue is never empty
    near = [f"arm {k} {k % 256 + 1}" for k in named]
    far = [f"arm {k} 4294967295" for k in named]
    one_slot = [f"arm {k} {(k % 4095 + 1) * 1_048_576}" for k in named[:-1]]
    drain = [f"queue 0 {items - 1}", f"queue 0 {items - 2}", "drain 1"]  # in version 2 the queue drains behind it
    return [
        ("queue, idle items and then pending ones", [], lambda n: f"queue {n % 8} {n * 7 % items}"),
        ("queue, closed", ["close"], lambda n: f"queue {n % 8} {n * 7 % items}"),
        ("flush", [], lambda n: f"flush {n % 8} {n % 16}"),
        ("done", [], lambda n: f"done {n % 8} {n % 16}"),
        ("stop", [], lambda n: f"stop {n % 8}"),
        ("check", queued, lambda n: f"check {n * 7 % items}"),
        ("run, nothing waits", [], lambda n: "run 9"),
        ("run 1, each item follows itself", round_, lambda n: "run 1"),
        ("drain 1, each item follows itself", round_ + ["close"], lambda n: "drain 1"),
        ("drain 9, not closed", queued, lambda n: "drain 9"),
        ("drain 1, an item queued before each", [], lambda n: "drain 1" if n % 2 else f"queue 0 {n * 7 % items}"),
        ("queue, draining", ["queue 0 0", "queue 0 1", "drain 1"], lambda n: f"queue {n % 8} {n * 7 % (items - 2) + 2}"),
        ("advance, by nothing, all items late in a drain", [*near, *drain, "advance 256"], lambda n: "advance 256"),
        ("close", queued, lambda n: "close"),
        ("report", queued, lambda n: "report"),
        ("follow, one item", [], lambda n: f"follow {n * 7 % items} {n % items}"),
        ("follow, four items", [], lambda n: f"follow {n * 7 % items} 1 2 3 4"),
        ("arm, idle items and then pending ones", [], lambda n: f"arm {n * 7 % items} {n % 512 + 1}"),
        ("arm, too far", [], lambda n: f"arm {n * 7 % items} 4294967296"),
        ("cancel, items on the table and then none", near, lambda n: f"cancel {n * 7 % items}"),
        ("modify, items on the table", near, lambda n: f"modify {n * 7 % items} {n % 512 + 1}"),
        ("advance, by nothing, an empty table", [], lambda n: "advance 0"),
        ("advance, by nothing, all items on it", far, lambda n: "advance 0"),
        ("advance, by nothing, all items out", near + ["advance 256"], lambda n: "advance 256"),
        ("advance, backwards, all items on the table", far + ["advance 9"], lambda n: "advance 1"),
        ("advance, by a tick, an empty table", [], lambda n: f"advance {n}"),
        ("advance, by a tick, items due at the first ticks", near, lambda n: f"advance {n}"),
        ("advance, by a tick, all items far away", far, lambda n: f"advance {n}"),
        ("advance, by 256 ticks, an empty table", [], lambda n: f"advance {256 * n}"),
        ("advance, by 256 ticks, an item far away", far[:1], lambda n: f"advance {256 * n}"),
        ("advance, by 256 ticks, all items far away", far, lambda n: f"advance {256 * n}"),
        ("advance, by 256 ticks, all items in one slot", one_slot, lambda n: f"advance {256 * n}"),
    ]


def scripts(version, items, state, command):
    """The state alone, the state with as many of the command as a script may have, and how many these are."""
    lines = [f"wq {version}", f"items {items}", "senders 8", "barriers 16", *state]
    before = "".join(f"{line}\n" for line in lines)
    parts, size, count = [before], len(before), 0
    while size + len(line := f"{command(count)}\n") <= LIMIT:
        parts.append(line)
        size += len(line)
        count += 1
    return before, "".join(parts), count


def millis(program, text):
    """How long the program takes for a script."""
    with tempfile.NamedTemporaryFile("w", suffix=".wq") as file:
        file.write(text)
        file.flush()
        start = time.perf_counter()
        subprocess.run([program, "script", file.name], stdout=subprocess.DEVNULL, check=True)
        return (time.perf_counter() - start) * 1000


def timed(program, rounds, texts):
    """For each number of items how often the command stands there, the times of the script, and nanoseconds for each command."""
    got = [([], []) for _ in texts]
    for _ in range(rounds):
        for (before, whole, _), (alone, times) in zip(texts, got):
            alone.append(millis(program, before))
            times.append(millis(program, whole))
    for (_, _, count), (alone, times) in zip(texts, got):
        yield count, times, (statistics.median(times) - statistics.median(alone)) * 1e6 / count


def cells(count, times, each):
    said = f"{each:,.0f} ns" if each < 10_000 else f"{each / 1000:,.0f} us"
    return f"{count:,} | {statistics.median(times):,.0f} ms ({min(times):,.0f} to {max(times):,.0f}) | {said}"


def main():
    if len(sys.argv) < 2:
        sys.exit(__doc__)
    program = sys.argv[1]
    rounds = int(sys.argv[2]) if len(sys.argv) > 2 else 5
    version = int(sys.argv[3]) if len(sys.argv) > 3 else 1
    counts = [int(word) for word in sys.argv[4:]] or [MOST[version]]
    several = len(counts) > 1
    print(f"| version {version} | " + " | ".join(f"{items:,} items | time | each" for items in counts) + " |" + " times |" * several)
    print("| --- " * (3 * len(counts) + 1 + several) + "|")
    ratios = []
    for row in zip(*map(cases, counts)):
        name = row[0][0]
        texts = [scripts(version, items, state, command) for items, (_, state, command) in zip(counts, row)]
        got = list(timed(program, rounds, texts))
        ratios.append((got[-1][2] / got[0][2], name))
        print(f"| {name} | " + " | ".join(cells(*it) for it in got) + " |" + f" {ratios[-1][0]:.2f} |" * several, flush=True)
    if several:
        print(f"the greatest: {max(ratios)[1]}, {max(ratios)[0]:.2f} times")


main()
