#!/usr/bin/env python3
"""Times how long recordings take: the checkers by calls, by bench_queue, and texts by `wqrun check`, in turn with mawk
on the same file, which adds up one field of each line, and counts the lines of each kind.

`recordings.py WQRUN BENCH_QUEUE [ROUNDS [EVENTS]]` takes three rounds of 10,000,000 events. It prints medians of user time an event,
and the resident memory of `wqrun check`, also of 10,000 events.
"""
import os
import shutil
import statistics
import subprocess
import sys
import tempfile
from pathlib import Path

ITEMS = 64
QUEUED = "".join(f"0 hold {item}\n0 push {item}\n" for item in range(ITEMS))
HISTORY = QUEUED + "".join(f"o begin {item}\no end {item}\n" for item in range(ITEMS))
TRACE = "".join(f"queue {item}\n" for item in range(ITEMS)) + "".join(f"start {item}\nend {item}\n" for item in range(ITEMS))
KINDS = {
    "history": (f"history 1\nitems {ITEMS}\nsenders 1\n", HISTORY, 4 * ITEMS, "{ n += $3 } END { print n }", "{ n[$2]++ } END { for (k in n) print k, n[k] }"),
    "trace": (f"trace 1\nitems {ITEMS}\n", TRACE, 3 * ITEMS, "{ n += $2 } END { print n }", "{ n[$1]++ } END { for (k in n) print k, n[k] }"),
}


def user_time(command):
    """The user time of a command in seconds."""
    process = subprocess.Popen(command, stdout=subprocess.DEVNULL)
    _, status, usage = os.wait4(process.pid, 0)
    if status:
        sys.exit(f"{command[0]} ended with {status}")
    return usage.ru_utime


def resident(program, path):
    """The most memory in kilobytes that was resident while the program judged a recording from a pipe."""
    with open(path, "rb") as text, subprocess.Popen([program, "check", "/dev/stdin"], stdin=subprocess.PIPE, stdout=subprocess.DEVNULL) as process:
        shutil.copyfileobj(text, process.stdin)
        process.stdin.flush()
        return next(line.split()[1] for line in Path(f"/proc/{process.pid}/status").read_text().splitlines() if line.startswith("VmHWM"))


def write(path, kind, events):
    """Writes a recording of about so many events, and answers how many."""
    head, block, size = KINDS[kind][:3]
    times = max(1, events // size)
    with open(path, "w") as file:
        file.write(head)
        for _ in range(times):
            file.write(block)
    return times * size


def main(program, checker, rounds=3, events=10_000_000):
    mawk = shutil.which("mawk")
    with tempfile.TemporaryDirectory() as folder:
        for kind, calls in (("history", "events"), ("trace", "marks")):
            few, many = Path(folder, "few"), Path(folder, "many")
            write(few, kind, 10_000)
            count = write(many, kind, events)
            commands = {"by calls": [checker, calls, str(count)], "wqrun check": [program, "check", many]}
            if mawk:
                commands |= {"mawk adds a field": [mawk, KINDS[kind][3], many], "mawk counts kinds": [mawk, KINDS[kind][4], many]}
            times = {name: [] for name in commands}
            for _ in range(rounds):
                for name, command in commands.items():
                    times[name].append(user_time(command) * 1e9 / count)
            print(f"{kind}: {count} lines, {many.stat().st_size} bytes, {rounds} rounds in turn")
            for name, each in times.items():
                print(f"  {name}: {statistics.median(each):.0f} ns an event (user time, {min(each):.0f} to {max(each):.0f})")
            print(f"  resident: {resident(program, few)} kB at 10,000, {resident(program, many)} kB at {count}")
    if not mawk:
        print("mawk is not there: left out")


if __name__ == "__main__":
    if len(sys.argv) < 3:
        sys.exit("usage: bench/recordings.py WQRUN BENCH_QUEUE [ROUNDS [EVENTS]]")
    main(*sys.argv[1:3], *map(int, sys.argv[3:]))
