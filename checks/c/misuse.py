"""wq.py: what a caller does wrong is found out by an error that says it, and a seat that was dropped is given up."""
import copy
import ctypes
import decimal
import gc
import os
import pickle
import re
import runpy
import signal
import warnings
from pathlib import Path
import wq
from wq import Code, Counts, Error, Fault, Kind, Seat, WqError, check_history

WIDE = 2 ** 32


def raised(error, text, call, *arguments):
    try:
        call(*arguments)
    except error as it:
        assert text in str(it), it
    else:
        raise AssertionError(f"{call} did not raise {error}")


class Changing:
    """A number that is another one each time it is asked: what was found to fit is what is taken."""

    def __init__(self, *numbers):
        self.numbers = iter(numbers)

    def __index__(self):
        return next(self.numbers)


def numbers():
    """A number of more than 32 bits is none, where its low half would be one."""
    owner, sender = Seat(), Seat()
    raised(ValueError, "items is 4294967300", owner.build, WIDE + 4, 1, 1)
    raised(ValueError, "senders is -1", owner.build, 4, 1, -1)
    owner.build(4, 1, 1)
    owner.hand_out(sender)
    for call in (sender.queue, sender.is_pending, owner.chain):
        raised(ValueError, "item is 4294967298", call, WIDE + 2)
        raised(ValueError, "item is -1", call, -1)
        raised(TypeError, "", call, 2.0)
        raised(TypeError, "", call, "2")
    for call in (sender.flush_begin, sender.flush_done):
        raised(ValueError, "barrier is 4294967296", call, WIDE)
    raised(ValueError, "tries is 4294967296", sender.queue, 2, WIDE)
    raised(ValueError, "count is 4294967296", sender.set_spins, WIDE)
    raised(ValueError, "tries is -1", sender.request_stop, -1)
    assert not sender.is_pending(2) and owner.take() == 0
    assert sender.queue(2) == Code.QUEUED | Code.FIRST
    assert not sender.is_pending(Changing(1, WIDE + 2))
    sender.release()
    run_to_end(owner)
    owner.release()


def run_to_end(owner):
    owner.close()
    while owner.begin() is not None:
        owner.end()


def events():
    """An event has three fields, or those behind it would be read as others."""
    end = [(Kind.END, 0, 0)]
    assert check_history(end, 1, 1, 1) == (0, Fault.NOTHING_RUNS) and check_history(iter(end), 1, 1, 1) == (0, Fault.NOTHING_RUNS)
    assert check_history([[Kind.HOLD, 0, 0]], 1, 1, 1) is None
    raised(ValueError, "event 0 is (<Kind.END: 13>, 0)", check_history, [(Kind.END, 0)], 1, 1, 1)
    raised(ValueError, "event 1 is (1, 0, 0, 0)", check_history, [(Kind.TAKE, 0, 0), (1, 0, 0, 0)], 1, 1, 1)
    raised(ValueError, "event 0", check_history, [(Kind.TAKE,), (Kind.HOLD, 0, 1), (Kind.PUSH, 0, 1)], 4, 1, 1)
    raised(ValueError, "event 0", check_history, [(Kind.HOLD, WIDE, WIDE + 1)], 4, 1, 1)
    raised(ValueError, "event 0", check_history, [(Kind.HOLD, 0, -1)], 4, 1, 1)
    raised(TypeError, "event 0", check_history, [(Kind.HOLD, 0, 1.0)], 4, 1, 1)
    raised(TypeError, "event 0", check_history, [(Kind.HOLD, 0, decimal.Decimal("1.9"))], 4, 1, 1)
    raised(TypeError, "event 0", check_history, ["abc"], 4, 1, 1)
    raised(ValueError, "items is 4294967297", check_history, [], WIDE + 1, 1, 1)
    raised(ValueError, "senders is -1", check_history, [], 1, 1, -1)
    for error, size in ("ITEMS", (65537, 0, 0)), ("BARRIERS", (1, 17, 65)), ("SENDERS", (1, 1, 0)):
        raised(WqError, error, check_history, end, *size)


class Wide:
    """In place of the library: a seat of it wants more than a Seat has."""
    _name = "wide"
    wq_c_seat_size = wq_c_seat_align = staticmethod(lambda: 256)


class Without:
    """In place of the library, which it is but for one name."""
    _name = "short"

    def __init__(self, missing):
        self.missing = missing

    def __getattr__(self, name):
        if name == self.missing:
            raise AttributeError(name)
        return getattr(wq._library, name)


def import_is_refused(error, text, library):
    real, ctypes.CDLL = ctypes.CDLL, lambda _: library
    raised(error, text, runpy.run_path, wq.__file__)
    ctypes.CDLL = real


def imports():
    """A library is refused where it is imported that is not there, that lacks an export of the headers, or whose seats want another
    alignment."""
    named = wq._library._name
    for library, error in (f"{named}.none", OSError), ("libc.so.6", ImportError):
        os.environ["YEANGVOS_LIBRARY"] = library
        raised(error, library, runpy.run_path, wq.__file__)
    os.environ["YEANGVOS_LIBRARY"] = named
    text = "".join((Path(wq.__file__).parent / name).read_text() for name in ("wq.h", "wq_pure.h"))
    exports = re.findall(r"^[a-z0-9_]+ (wq_c_[a-z_]+)\(", text, re.MULTILINE)
    assert len(exports) == len(set(exports)) and {"wq_c_seat_size", "wq_c_init", "wq_c_count", "wq_c_check_history"} < {*exports}
    for export in exports:
        import_is_refused(ImportError, f"short is no library for this wq.py: {export}", Without(export))
    import_is_refused(ImportError, "wide is aligned by 256", Wide())


class Told:
    """In place of a lock: tells that it was taken."""

    def __init__(self, taken, name):
        self.taken, self.name = taken, name

    def __enter__(self):
        self.taken.append(self.name)

    def __exit__(self, *_):
        pass


def hand_outs():
    """Two seats that are handed to each other in two threads: their locks are taken in one order, or each would wait for the other."""
    one, two, taken = Seat(), Seat(), []
    for seat in one, two:
        seat.build(1, 1, 1)
        seat._lock = Told(taken, seat)
    raised(WqError, "IN_USE", one.hand_out, two)
    raised(WqError, "IN_USE", two.hand_out, one)
    assert len(taken) == 4 and taken[:2] == taken[2:]
    raised(WqError, "IN_USE", one.hand_out, one)
    raised(TypeError, "None is no seat", one.hand_out, None)
    for seat in one, two:
        seat.close()
        seat.release()


def codes():
    """A code is compared whole. That others share its bits says nothing, so `in` says nothing."""
    queued = [Code.QUEUED, Code.QUEUED_FIRST, Code.QUEUED_WAKES, Code.QUEUED_FIRST_WAKES]
    assert [code for code in Code if code.is_queued] == sorted(queued) and [code for code in Code if code.wakes] == queued[2:]
    assert Code.QUEUED_FIRST_WAKES == Code.QUEUED | Code.FIRST | Code.WAKES and Code.CLOSED & Code.QUEUED
    raised(TypeError, "", lambda: Code.QUEUED in Code.CLOSED)


def sums():
    """Counts are added to counts alone: of a shorter tuple all counts behind it would be gone."""
    one = Counts(*range(1, 9))
    assert one + one == sum([one, one]) == Counts(*range(2, 17, 2))
    for other in (1,), [0] * 8, 1:
        raised(TypeError, "", lambda other=other: one + other)


def errors():
    """An error goes to another process as it is."""
    for error in Error:
        sent = WqError(error)
        for got in pickle.loads(pickle.dumps(sent)), copy.copy(sent):
            assert type(got) is WqError and got.code is error and str(got) == error.name


def ends():
    """A `with` gives its seat up, and passes on the exception that ended it."""
    with Seat() as owner, Seat() as sender:
        owner.build(1, 1, 1)
        owner.hand_out(sender)
        run_to_end(owner)
    raised(WqError, "NOT_OWNER", owner.take)
    raised(WqError, "NOT_SENDER", sender.number)
    raised(WqError, "NOT_SENDER", sender.set_spins, 128)
    owner.build(1, 1, 1)
    raised(WqError, "NOT_DONE", owner.__exit__, None, None, None)
    try:
        with owner:
            raise KeyError("own")
    except KeyError:
        run_to_end(owner)
    for copied in copy.copy, copy.deepcopy, pickle.dumps:
        raised(TypeError, "", copied, owner)
    owner.release()


def dropped_seats(released):
    """Of a queue that ran, of one that did not, and a vacant one: what was given up, and what was warned of."""
    with warnings.catch_warnings(record=True) as warned:
        warnings.simplefilter("always")
        for runs in True, False:
            owner, sender = Seat(), Seat()
            owner.build(1, 1, 1)
            owner.hand_out(sender)
            assert sender.queue(0).is_queued
            at = sender._at.value
            del sender
            gc.collect()
            assert released.pop() == at and not released and not warned
            if runs:
                run_to_end(owner)
            at = owner._at.value
            del owner
            gc.collect()
            assert released.pop() == at and [it.category for it in warned] == ([] if runs else [ResourceWarning])
            if not runs:
                assert "not run to its end" in str(warned[0].message)


def drops():
    """A seat that nobody holds any more is given up, and so is that of a `with`, but not in a child, whose memory of it is a copy."""
    gc.collect()  # what the parts before left
    real, released = wq._library.wq_c_release, []

    def told(at):
        released.append(at.value)
        return real(at)

    wq._library.wq_c_release = told
    dropped_seats(released)
    seat = Seat()
    with Seat() as ended:
        child = os.fork()
    if not child:
        del seat, ended
        gc.collect()
        os._exit(len(released))
    assert os.waitpid(child, 0)[1] == 0 and released == [ended._at.value]
    del seat
    gc.collect()
    assert len(released) == 2
    wq._library.wq_c_release = real


def nested():
    """A signal's handler calls the seat that its own thread is about to call, or has just called."""
    owner, came = Seat(), []
    owner.build(items=4, barriers=1, senders=1)

    def handler(*_):
        came.append(owner.waiting())
        signal.setitimer(signal.ITIMER_REAL, 0.001 if len(came) < 200 else 0)  # one at a time, however slow this is

    before = signal.signal(signal.SIGALRM, handler)
    signal.setitimer(signal.ITIMER_REAL, 0.001)
    while len(came) < 200:
        assert owner.counts() == wq.Counts()
    signal.signal(signal.SIGALRM, before)
    run_to_end(owner)


for part in numbers, events, imports, hand_outs, codes, sums, errors, ends, drops, nested:
    part()
print("misuse.py: each is found out by its error")
