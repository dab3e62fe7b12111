"""wq.py: four threads queue, and each one's items run in its order; codes.py has each error by its name."""
import threading
from wq import Code, Counts, Error, Fault, Kind, Seat, WqError, check_history

THREADS, OWN = 4, 64


def refused(call, *numbers):
    try:
        call(*numbers)
    except WqError as error:
        return error.code
    raise AssertionError("not refused")


owner, senders, woken = Seat(), [Seat() for _ in range(THREADS)], threading.Semaphore(0)
assert refused(owner.take) == Error.NOT_OWNER and refused(owner.build, 0, 1, 1) == Error.ITEMS
owner.build(THREADS * OWN, 1, THREADS)
for sender in senders:
    owner.hand_out(sender)
assert refused(owner.hand_out, Seat()) == Error.NO_SENDER and refused(owner.hand_out, owner) == Error.IN_USE
assert refused(owner.release) == Error.NOT_DONE and refused(senders[0].queue, THREADS * OWN) == Error.NO_ITEM


def feed(sender):
    number = sender.number()
    assert sender.set_spins(64 * number) is None
    for item in range(number * OWN, (number + 1) * OWN):
        code = sender.queue(item)
        assert code.is_queued
        if code.wakes:
            woken.release()


threads = [threading.Thread(target=feed, args=(sender,)) for sender in senders]
for thread in threads:
    thread.start()
ran = []
while len(ran) < THREADS * OWN:
    owner.take()
    while (item := owner.begin()) is not None:
        ran.append(item)
        assert refused(owner.begin) == Error.IS_RUNNING
        owner.end()
    if len(ran) < THREADS * OWN and owner.rest():
        woken.acquire()
for thread in threads:
    thread.join()
for number in range(THREADS):
    assert [item for item in ran if item // OWN == number] == list(range(number * OWN, (number + 1) * OWN))
assert owner.drain() == 0 and senders[0].queue(0) == Code.DRAINING
owner.resume()
assert not senders[0].is_pending(0) and owner.close() == 0 and owner.is_done() and senders[0].queue(0) == Code.CLOSED
assert senders[0].queue_tries(0, 1) == Code.CLOSED and refused(senders[0].queue_tries, 0, 0) == Error.NO_TRIES
sums = sum((seat.counts() for seat in [*senders, owner]), Counts())
assert sums.balances and sums.executed == len(ran) and sums.draining == 1 and sums.closed == 2 and Seat().counts() == Counts()
for seat in [*senders, owner]:
    seat.release()
once = [(Kind.HOLD, 0, 2), (Kind.PUSH, 0, 2), (Kind.TAKE, 0, 0), (Kind.BEGIN, 0, 2)]
assert check_history([], 1, 1, 1) is None and check_history(once, 4, 1, 1) is None
assert check_history([*once, (Kind.BEGIN, 0, 2)], 4, 1, 1) == (4, Fault.RUNS) and check_history(once, 2, 1, 1) is None
assert check_history([(Kind.HOLD, 1, 2)], 4, 1, 1) == (0, Fault.NO_SENDER) and refused(check_history, once, 4, 0, 1) == Error.BARRIERS
print(f"python: {len(ran)} items ran, each sender's in its order")
