#!/usr/bin/env python3
"""Four threads write log lines through one ordered workqueue, and this one prints them: each thread's lines in its order. A flush waits
for all lines before it, and a drain stops the printing while the output is changed."""
import threading
import time
from wq import Code, Counts, Seat

THREADS, LINES = 4, 8
owner, senders, woken = Seat(), [Seat() for _ in range(THREADS)], threading.Semaphore(0)
owner.build(items=THREADS * LINES, barriers=THREADS, senders=THREADS)
for sender in senders:
    owner.hand_out(sender)
text, prefix = {}, ""


def wake(code):
    if code.wakes:
        woken.release()


def write_line(thread, line):
    item = thread * LINES + line
    text[item] = f"thread {thread} line {line}"
    code = senders[thread].queue(item)
    assert code.is_queued
    wake(code)


def write_lines(thread):
    for line in range(LINES // 2):
        write_line(thread, line)
    wake(senders[thread].flush_begin(thread))
    while not senders[thread].flush_done(thread):
        time.sleep(0.001)
    # its lines are printed


def run_all():
    ran = 0
    while (number := owner.begin()) is not None:
        if number in text:  # else a barrier
            print(prefix + text[number])
        owner.end()
        ran += 1
    return ran


# daemons, since they wait for the owner, who may end by an error
threads = [threading.Thread(target=write_lines, args=(thread,), daemon=True) for thread in range(THREADS)]
for thread in threads:
    thread.start()
left = THREADS * (LINES // 2 + 1)  # a barrier of each thread
while left:
    owner.take()
    left -= run_all()
    if left and owner.rest():
        woken.acquire()
for thread in threads:
    thread.join()

owner.drain()  # takes what waits, and a line that is queued now is answered Code.DRAINING
run_all()
assert senders[0].queue(0) == Code.DRAINING
prefix = "again: "  # nothing is printed now
owner.resume()
for line in range(LINES // 2, LINES):
    write_line(0, line)

owner.close()  # takes what is left
run_all()
assert sum((seat.counts() for seat in [*senders, owner]), Counts()).balances  # what was queued was executed
for seat in [*senders, owner]:
    seat.release()
