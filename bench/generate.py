#!/usr/bin/env python3
"""Prints a script of at most 1,048,576 bytes with about 80,000 commands over 4,096 items."""

LIMIT = 1_048_576
ITEMS = 4096
SENDERS = 8

lines = ["wq 1", f"items {ITEMS}", f"senders {SENDERS}"]
size = sum(len(line) + 1 for line in lines)
queued = 0
while True:
    if queued % 512 == 511:
        line = "run 500"
    else:
        line = f"queue {queued % SENDERS} {queued * 7 % ITEMS}"
    if size + len(line) + 1 > LIMIT:
        break
    lines.append(line)
    size += len(line) + 1
    queued += 1
print("\n".join(lines))
