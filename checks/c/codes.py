"""wq.py in one thread: each method with each answer that it then has, each error by its name, and the names and numbers of the
headers. CONTENDED is not among the answers, which other threads bring about; nor is NONE_WAITS among the errors: None stands for it.
"""
import re
import resource
from pathlib import Path
import wq
from wq import Code, Counts, Error, Fault, Kind, Seat, WqError

# each method, with numbers that it takes
OF_SENDER = {"queue": (0,), "queue_tries": (0, 1), "is_pending": (0,), "flush_begin": (0,), "flush_done": (0,), "request_stop": (),
             "set_spins": (128,), "number": ()}
OF_OWNER = {"take": (), "close": (), "drain": (), "resume": (), "waiting": (), "next": (), "begin": (), "end": (), "rest": (),
            "chain": (0,), "is_done": ()}
OF_EITHER = {"build", "hand_out", "release", "counts"}
owner, one, two = Seat(), Seat(), Seat()
raised = set()


def refused(call, *numbers):
    """The name of the error that a call raises, or None."""
    try:
        call(*numbers)
    except WqError as error:
        raised.add(error.code)
        return str(error)
    return None


def vacant():
    """Each method of a sender and of an owner, of a vacant seat. A new method stands in one of the lists, and below."""
    assert {name for name in vars(Seat) if not name.startswith("_")} == {*OF_SENDER, *OF_OWNER, *OF_EITHER}
    for name, numbers in OF_SENDER.items():
        assert refused(getattr(one, name), *numbers) == "NOT_SENDER", name
    for name, numbers in OF_OWNER.items():
        assert refused(getattr(one, name), *numbers) == "NOT_OWNER", name
    assert refused(one.hand_out, two) == "NOT_OWNER" and one.release() is None and one.counts() == Counts()
    assert refused(owner.build, 0, 0, 0) == "ITEMS" and refused(owner.build, 4, 17, 0) == "BARRIERS"
    assert refused(owner.build, 4, 2, 65) == "SENDERS"


def handing_out():
    assert owner.build(4, 2, 1) is None and refused(owner.build, 4, 2, 1) == "IN_USE"
    assert owner.hand_out(one) is None and refused(owner.hand_out, one) == "IN_USE" and refused(owner.hand_out, two) == "NO_SENDER"
    assert refused(owner.release) == "NOT_DONE" and one.set_spins(1) is None and one.number() == 0
    assert refused(one.take) == "NOT_OWNER" and refused(owner.number) == "NOT_SENDER"
    with Seat() as another, Seat() as first, Seat() as second:
        another.build(1, 1, 2)
        another.hand_out(first)
        another.hand_out(second)
        assert first.number() == 1 and second.number() == 0 and another.close() == 0


def sending():
    """3 are queued, and 3 answered PENDING."""
    for call in one.queue, one.is_pending:
        assert refused(call, 4) == "NO_ITEM"
    for call in one.flush_begin, one.flush_done:
        assert refused(call, 2) == "NO_BARRIER"
    for call, numbers in (one.queue, (0, 0)), (one.queue_tries, (0, 0)), (one.flush_begin, (0, 0)), (one.request_stop, (0,)):
        assert refused(call, *numbers) == "NO_TRIES"
    assert one.is_pending(2) is False and one.flush_done(1) is True
    assert one.queue(2) == Code.QUEUED_FIRST_WAKES and one.queue(2) == one.queue_tries(2, 1) == Code.PENDING
    assert one.is_pending(2) is True and one.is_pending(0) is False and one.queue_tries(0, 1) == Code.QUEUED
    assert one.flush_begin(1) == Code.QUEUED and one.flush_begin(1, 1) == Code.PENDING
    assert one.flush_done(1) is False and one.flush_done(0) is True


def executing():
    """The items 2 and 0 run, and the barrier 1, which is number 5."""
    assert owner.begin() is None and owner.next() is None and owner.waiting() == 0 and refused(owner.end) == "NONE_RUNS"
    assert refused(owner.chain, 4) == "NO_ITEM" and refused(owner.chain, 1) == "IS_OPEN" and refused(owner.resume) == "NOT_DRAINING"
    assert owner.rest() is False and owner.take() == 3 and refused(owner.take) == refused(owner.rest) == "SOME_WAIT"
    assert owner.waiting() == 3 and owner.next() == 2 and owner.begin() == 2 and owner.waiting() == 2 and owner.next() == 0
    assert refused(owner.begin) == "IS_RUNNING" and owner.end() is None and owner.begin() == 0 and owner.end() is None
    assert one.flush_done(1) is False and owner.begin() == 5 and owner.waiting() == 0 and owner.next() is None
    assert refused(owner.rest) == "IS_RUNNING" and one.flush_done(1) is True and owner.end() is None
    assert owner.rest() is True and owner.rest() is False and owner.take() == 0 and owner.is_done() is False


def accepting():
    """Each Code of a barrier and of the stop item, which are the numbers 4 and 6. 10 are queued."""
    for number, call, numbers in (4, one.flush_begin, (0,)), (6, one.request_stop, ()):
        assert call(*numbers) == Code.QUEUED_FIRST and one.queue(3) == Code.QUEUED and owner.take() == 2
        assert [owner.begin(), owner.end(), owner.begin(), owner.end(), owner.rest()] == [number, None, 3, None, True]
        assert one.queue(3) == Code.QUEUED_FIRST_WAKES and call(*numbers) == Code.QUEUED and owner.take() == 2
        assert [owner.begin(), owner.end(), owner.begin(), owner.end(), owner.rest()] == [3, None, number, None, True]
        assert call(*numbers) == Code.QUEUED_FIRST_WAKES and owner.take() == 1 and owner.begin() == number and owner.end() is None


def draining():
    """2 are queued, 5 answered DRAINING, and 1 is chained."""
    assert one.queue(1) == Code.QUEUED_FIRST and one.queue(3) == Code.QUEUED and owner.drain() == 2
    assert refused(owner.drain) == refused(owner.take) == refused(owner.rest) == "IS_DRAINING"
    assert one.queue(2) == one.queue_tries(2, 1) == one.flush_begin(0) == one.request_stop() == one.request_stop(1) == Code.DRAINING
    assert refused(owner.chain, 0) == "NONE_RUNS" and refused(owner.resume) == "SOME_WAIT" and owner.begin() == 1
    assert owner.end() is None and owner.begin() == 3 and refused(owner.resume) == "IS_RUNNING"
    assert owner.chain(0) == Code.QUEUED and owner.chain(0) == Code.PENDING and owner.waiting() == 1 and owner.end() is None
    assert owner.begin() == 0 and owner.end() is None and owner.resume() is None and refused(owner.resume) == "NOT_DRAINING"


def closing():
    """2 are queued, 4 answered CLOSED, and 1 is chained."""
    assert one.request_stop() == Code.QUEUED_FIRST and one.queue(2) == Code.QUEUED and owner.close() == 2
    assert refused(owner.close) == refused(owner.drain) == refused(owner.take) == refused(owner.rest) == "IS_CLOSED"
    assert one.queue(1) == one.queue_tries(1, 1) == one.flush_begin(0) == Code.CLOSED and owner.begin() == 6
    assert one.request_stop() == Code.CLOSED and owner.chain(3) == Code.QUEUED and owner.end() is None
    assert owner.begin() == 2 and owner.end() is None and owner.is_done() is False
    assert owner.begin() == 3 and owner.end() is None and owner.is_done() is True


def counting():
    """No two counts of a seat are the same."""
    sent, ran = one.counts(), owner.counts()
    assert sent == Counts(queued=17, pending=3, closed=4, draining=5) and ran == Counts(chained=2, chain_pending=1, executed=19)
    assert (sent + ran).balances and not sent.balances and not ran.balances and two.counts() == Counts()
    assert owner.release() is None and one.release() is None and owner.counts() == one.counts() == Counts()
    assert refused(owner.take) == "NOT_OWNER" and refused(one.queue, 0) == "NOT_SENDER"


def memory():
    """A program that gets no more memory can build no more queues, once what it has is used up."""
    owners, (soft, hard) = [Seat() for _ in range(64)], resource.getrlimit(resource.RLIMIT_AS)
    pages = int(Path("/proc/self/statm").read_text().split()[0])
    resource.setrlimit(resource.RLIMIT_AS, (pages * resource.getpagesize(), hard))
    said = [refused(it.build, 65536, 16, 64) for it in owners]
    resource.setrlimit(resource.RLIMIT_AS, (soft, hard))
    assert said[-1] == "MEMORY" and {*said} <= {None, "MEMORY"}, said
    for it, name in zip(owners, said):
        assert refused(it.close) == (name and "NOT_OWNER")
        it.release()


def headers():
    """The numbers of the headers have these names, but for those that their own C answers, and the counts stand in this order."""
    text = "".join((Path(wq.__file__).parent / name).read_text() for name in ("wq.h", "wq_pure.h"))
    numbers = {name: int(number) for name, number in re.findall(r"\bWQ_([A-Z_]+) = (\d+)", text)}
    answers = {name: code for name, code in Code.__members__.items() if "_" not in name}
    own = {**answers, **Error.__members__}
    own.update({f"EVENT_{name}": kind for name, kind in Kind.__members__.items()})
    own.update({f"FAULT_{name}": fault for name, fault in Fault.__members__.items()})
    assert {**own, "SEAT_BUSY": 128, "NO_SEAT": 129, "SEAT_SIZE": 130, "NO_THREAD": 131} == numbers
    for name in Code.__members__.keys() - answers:
        assert Code[name] == sum(Code[part] for part in name.split("_"))
    counts = re.search(r"typedef struct wq_counts \{(.*?)\}", text, re.DOTALL)[1]
    assert re.findall(r"\w+(?=[,;])", re.sub(r"/\*.*?\*/", "", counts)) == [*Counts._fields]


for part in vacant, handing_out, sending, executing, accepting, draining, closing, counting, memory, headers:
    part()
assert raised == {*Error} - {Error.NONE_WAITS}
print(f"codes.py: each method as it is said, and {len(raised)} errors by their names")
