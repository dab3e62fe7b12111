#!/usr/bin/env python3
"""Runs scripts of a delay table with the program that is named, beside a plain sorted list: random_delays.py PROGRAM.

The list is that of the model of scripts in random_scripts.py. Each random script arms, moves, cancels and queues items, leads the
table on by jumps within a turn of the wheel, to its edge and far beyond, and runs what went out; each fourth goes on near the last
tick, and each is closed before its end. A script that fails is made again from its number. One more script has as many items as
version 1 allows, and lets them go in one advance.
"""
import random
import subprocess
import sys
import tempfile
from pathlib import Path

from random_scripts import LONGEST_DELAY, Script1
from texts import LAST

SCRIPTS = 800
TURNS = 40
ITEMS = 12
JUMPS = [0, 1, 2, 255, 256, 257, 700, 2**40]
DELAYS = [0, 1, 1, 2, 255, 256, 257, 512, LONGEST_DELAY, LONGEST_DELAY + 1]


def new_model(items):
    """The model of a script of one sender and so many items, in which nothing was queued."""
    model = Script1()
    model.size["items"] = items
    return model


def made(model, word, *values):
    """The line of a command, and that of its answer."""
    (answer,) = model.does((word, values))
    return " ".join([word, *map(str, values)]), answer


def change(draws, model):
    """A random command of one item, and its answer."""
    item, delay = draws.randrange(ITEMS), draws.choice(DELAYS)
    kind = draws.randrange(10)
    if kind == 0:
        return made(model, "queue", 0, item)
    if kind < 3:
        return made(model, "cancel", item)
    return made(model, "modify" if kind < 6 else "arm", item, delay)


def random_script(number):
    """A random script's commands and their answers."""
    draws, model, tick = random.Random(number), new_model(ITEMS), 0
    if number % 4 == 0:
        tick = LAST - draws.randrange(1000)
        yield made(model, "advance", tick)
    for turn in range(TURNS):
        for _ in range(draws.randrange(6)):
            yield change(draws, model)
        wanted = max(0, min(tick + draws.choice(JUMPS), LAST) - (draws.randrange(8) == 0))
        yield made(model, "advance", wanted)
        tick = max(tick, wanted)
        if turn == TURNS - 8:
            yield made(model, "close")
        yield made(model, "run", 64)


def full_script():
    """A table of as many items as a queue may have, which are due at eight ticks and go out in one advance."""
    items = Script1.MOST["items"]
    model = new_model(items)
    for item in range(items):
        yield made(model, "arm", item, 8 - item % 8)
    yield made(model, "advance", 8)
    yield made(model, "run", items)


def fault_of(program, file, items, script):
    """Where the program's answers differ from the list's, or nothing."""
    commands, answers = zip(*script)
    file.write_text("".join(f"{line}\n" for line in ["wq 1", f"items {items}", "senders 1", *commands]))
    ran = subprocess.run([program, "script", file], capture_output=True, text=True, timeout=60)
    said = ran.stdout.splitlines()
    if (ran.returncode, ran.stderr, said) == (0, "", list(answers)):
        return ""
    at = next((at for at, (got, wanted) in enumerate(zip(said, answers)) if got != wanted), min(len(said), len(answers)))
    here = slice(at, at + 1)
    return f"status {ran.returncode} {ran.stderr!r}, command {at} {commands[here]}: {said[here]} and not {answers[here]}"


def main(program):
    scripts = [(f"script {number}", ITEMS, random_script(number)) for number in range(SCRIPTS)]
    scripts.append(("the full table", Script1.MOST["items"], full_script()))
    with tempfile.TemporaryDirectory() as folder:
        found = [(name, fault_of(Path(program).resolve(), Path(folder) / "text", items, script)) for name, items, script in scripts]
    faults = [f"{name}: {fault}" for name, fault in found if fault]
    print("\n".join([*faults, f"random delays: {len(scripts)} scripts run, {len(faults)} not as wanted"]))
    return 1 if faults else 0


if __name__ == "__main__":
    sys.exit(main(sys.argv[1]) if len(sys.argv) == 2 else "usage: checks/random_delays.py PROGRAM")
