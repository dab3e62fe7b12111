"""Ordered workqueues for Python, by ctypes over libyeangvos.so: the calls of wq.h with the same names but
wq_measured_spins, which is C's alone, as methods of a Seat.

    owner, sender = Seat(), Seat()
    owner.build(items=4, barriers=1, senders=1)
    owner.hand_out(sender)
    sender.queue(2)            # a Code, here Code.QUEUED_FIRST_WAKES: it is_queued, and it wakes
    owner.take()               # how many
    owner.begin()              # the number, or None where nothing waits
    owner.end()

`counts` stands for wq_add_counts: it answers what the seat has counted, and counts are added by `+`. `queue`, `flush_begin` and
`request_stop` take tries here, the most where none are given; in C only wq_queue_tries does.

A call that is refused raises WqError with its code, and has changed nothing. A Seat owns its memory and lets one call at a time into
it. It is given up by `release`, at the end of a `with`, or where nobody holds it any more; an owner's only once its queue has run to its
end, else a dropped one loses the queue's memory, with a ResourceWarning. `check_history` judges a history. The library is the file that
YEANGVOS_LIBRARY names, or libyeangvos.so.1 where the loader finds it. The import raises OSError where it is not found, and ImportError
where it lacks a call that is made here, or a seat of it wants another alignment than a Seat has.

A call lets other threads of Python run while it is in the library. A `queue` with the most tries spins there where many seats push at
once. A queue is of one process: a forked child has a copy of it, in which nothing of its parent's comes to pass.
"""
import array
import ctypes
import enum
import operator
import os
import threading
import typing
import warnings
import weakref

__all__ = ["Seat", "Code", "Error", "WqError", "Kind", "Fault", "Counts", "check_history", "MOST_TRIES"]

MOST_TRIES = 0xFFFFFFFF
ALIGNMENT = 128  # seats of several threads share no cache line


class Code(enum.IntEnum):
    """What a call answered that is no error. It is compared whole, by ==: QUEUED, FIRST and WAKES come together, but other codes share
    their bits. FIRST: the list was empty. WAKES: the queue rested, so wake its owner."""
    OK = 0
    QUEUED, FIRST, WAKES = 1, 2, 4
    QUEUED_FIRST, QUEUED_WAKES, QUEUED_FIRST_WAKES = 3, 5, 7
    PENDING, CLOSED, DRAINING, CONTENDED, NO, YES = 8, 9, 10, 11, 12, 13

    @property
    def is_queued(self):
        """Whether a queueing was accepted."""
        return bool(self & 1) and self < 8

    @property
    def wakes(self):
        """Whether the thread that queued has to wake the owner."""
        return self.is_queued and bool(self & 4)


class Error(enum.IntEnum):
    """Why a call was refused. It is the `code` of the exception, which is WqError."""
    (NOT_SENDER, NOT_OWNER, NO_ITEM, NO_BARRIER, NO_TRIES, IS_CLOSED, IS_DRAINING, NOT_DRAINING, IS_OPEN, SOME_WAIT, NONE_WAITS, IS_RUNNING,
     NONE_RUNS, IN_USE, NO_SENDER, NOT_DONE, MEMORY, ITEMS, BARRIERS, SENDERS) = range(64, 84)


class Kind(enum.IntEnum):
    """The kinds of events."""
    (HOLD, BUSY, PUSH, BACK_CLOSED, BACK_CONTENDED, BACK_CANCELLED, BACK_DRAINING, TAKE, CLOSE, DRAIN, RESUME, BEGIN, END, CHAIN, CHAIN_BUSY,
     REST) = range(1, 17)


class Fault(enum.IntEnum):
    """Why an event may not come."""
    (NO_EVENT, NO_SENDER, NO_NUMBER, PENDING, IDLE, NOT_HELD, CLOSED, DRAINING, NOT_DRAINING, NEVER_DRAINED, OPEN, RUNS, NOTHING_RUNS,
     NOT_WAITING, NEXT, NOT_ENDED) = range(96, 112)


class Counts(typing.NamedTuple):
    """What seats have counted of their own calls; those of several are added by `+`."""
    queued: int = 0
    pending: int = 0
    closed: int = 0
    draining: int = 0
    contended: int = 0
    chained: int = 0
    chain_pending: int = 0
    executed: int = 0

    def __add__(self, other):
        if not isinstance(other, Counts):  # of a shorter tuple, `zip` would drop the counts that it has not
            return NotImplemented
        return Counts(*map(sum, zip(self, other)))

    def __radd__(self, other):
        return self if other == 0 else NotImplemented  # for `sum`, which begins with 0

    @property
    def balances(self):
        """Whether all that was accepted was executed, of the sums over all seats of a queue that has run to its end. So it is where no
        count has reached 2 ** 64 - 1, at which each stops."""
        return self.queued + self.chained == self.executed


class WqError(Exception):
    def __init__(self, code):
        self.code = Error(code)
        super().__init__(self.code)  # what it is made of anew where it is pickled

    def __str__(self):
        return self.code.name


_library = ctypes.CDLL(os.environ.get("YEANGVOS_LIBRARY") or "libyeangvos.so.1")  # which WQ_MAJOR of wq.h names, too
try:
    _library.wq_c_seat_size.restype = _library.wq_c_seat_align.restype = ctypes.c_size_t
    if ALIGNMENT % _library.wq_c_seat_align():  # wq_init answers WQ_SEAT_SIZE; a seat's size is asked for each one
        raise ImportError(f"a seat of {_library._name} is aligned by {_library.wq_c_seat_align()}, and not by {ALIGNMENT}")
    _library.wq_c_init.restype = None
    for _name in ("build hand_out release queue is_pending flush_begin flush_done request_stop set_spins number take close drain resume "
                  "next waiting begin end rest chain is_done count").split():
        getattr(_library, "wq_c_" + _name).restype = ctypes.c_uint64
    _library.wq_c_check_history.restype = ctypes.c_uint32
except AttributeError as _error:  # else the first call of what is missing would say it
    raise ImportError(f"{_library._name} is no library for this wq.py: {_error}") from _error


def _words(**numbers):
    """The numbers as the library takes them. One that does not fit is refused here: ctypes would cut it off without a word."""
    words = {name: operator.index(number) for name, number in numbers.items()}
    for name, number in words.items():
        if not 0 <= number <= 0xFFFFFFFF:
            raise ValueError(f"{name} is {number}, and not of 0 to {0xFFFFFFFF}")
    return [ctypes.c_uint32(number) for number in words.values()]


def _rows(events):
    """The events one behind the other. A field too many or too few would move all that come behind it."""
    rows = array.array("I")
    for place, event in enumerate(events):
        fields = tuple(event) if hasattr(event, "__iter__") else ()
        if len(fields) != 3:
            raise ValueError(f"event {place} is {event!r}, and not a kind, a sender and a number")
        try:
            rows.extend(map(operator.index, fields))  # before Python 3.10 an array would cut off the fraction of a Decimal
        except OverflowError:
            raise ValueError(f"event {place} is {event!r}, with a number that is not of 0 to {0xFFFFFFFF}") from None
        except TypeError:
            raise TypeError(f"event {place} is {event!r}, and not three whole numbers") from None
    return rows


def check_history(events, items, barriers, senders):
    """None where the events, each a Kind, a sender and a number, are a legal history of a queue of this size; else the place of the first
    that may not come, and its Fault. A field that an event of its kind does not have is not read, but is given, 0 say. Raises ITEMS,
    BARRIERS, SENDERS or MEMORY; and ValueError or TypeError for an event that is not three whole numbers of 32 bits, or for such a
    size."""
    place, rows = ctypes.c_size_t(0), _rows(events)
    count = ctypes.c_size_t(len(rows) // 3)
    rows.append(0)  # so that it has an address also where there is no event
    at = ctypes.c_void_p(rows.buffer_info()[0])
    size = _words(items=items, barriers=barriers, senders=senders)
    code = _library.wq_c_check_history(at, count, *size, ctypes.byref(place))
    if 0 < code < Fault.NO_EVENT:
        raise WqError(code)
    return (place.value, Fault(code)) if code else None


def _drop(at, _room, process):
    """Gives up the seat that stands here, which nobody can call any more. In a child that was forked it is not this process's."""
    if os.getpid() == process and _library.wq_c_release(at) & 0xFFFFFFFF:
        warnings.warn("an owner was dropped whose queue has not run to its end, so the queue's memory is lost", ResourceWarning)


class Seat:
    """A vacant seat, a sender's or an owner's. A call of a sender raises NOT_SENDER of another seat, and one of an owner NOT_OWNER."""

    def __init__(self):
        self._room = ctypes.create_string_buffer(_library.wq_c_seat_size() + ALIGNMENT)
        self._at = ctypes.c_void_p(-(-ctypes.addressof(self._room) // ALIGNMENT) * ALIGNMENT)
        self._lock = threading.RLock()  # a signal's handler or a finalizer may call the seat that its own thread is about to call
        _library.wq_c_init(self._at)
        self._process = os.getpid()
        # not at the program's end, when another thread may still be in it
        weakref.finalize(self, _drop, self._at, self._room, self._process).atexit = False

    def __enter__(self):
        return self

    def __exit__(self, kind, *_):
        if os.getpid() != self._process:
            return  # a child that was forked: the seat is its parent's
        try:
            self.release()
        except WqError:
            if kind is None:  # else the exception that ends the block is the one to tell of
                raise

    def __reduce__(self):
        raise TypeError("a seat is not copied")

    def _call(self, name, **numbers):
        words = _words(**numbers)
        with self._lock:
            word = getattr(_library, "wq_c_" + name)(self._at, *words)
        code, number = word & 0xFFFFFFFF, word >> 32
        if code >= Error.NOT_SENDER:
            raise WqError(code)
        return Code(code), number

    def build(self, items, barriers, senders):
        """Builds a queue of 1 to 65,536 items, 1 to 16 barriers and 1 to 64 senders, whose owner takes this vacant seat. Raises IN_USE, the
        first of ITEMS, BARRIERS and SENDERS that is out of its limits, or MEMORY."""
        self._call("build", items=items, barriers=barriers, senders=senders)

    def hand_out(self, to):
        """An owner's: gives a vacant seat to the sender with the highest number that is left. Raises IN_USE, NO_SENDER, and TypeError for
        what is no Seat."""
        if not isinstance(to, Seat):
            raise TypeError(f"{to!r} is no seat")
        if to is self:
            raise WqError(Error.IN_USE)
        first, second = sorted((self, to), key=id)  # one order for both ways, so that two threads never wait for each other
        with first._lock, second._lock:
            word = _library.wq_c_hand_out(self._at, to._at) & 0xFFFFFFFF
        if word:
            raise WqError(word)

    def release(self):
        """Gives the seat up, which is vacant then. Raises NOT_DONE of an owner whose queue has not run to its end."""
        self._call("release")

    def queue(self, item, tries=MOST_TRIES):
        """A sender's: queues an item, with so many tries at most. A Code that is_queued, or PENDING, CLOSED, DRAINING or CONTENDED. Raises
        NO_ITEM, NO_TRIES."""
        return self._call("queue", item=item, tries=tries)[0]

    def queue_tries(self, item, tries):
        """The same, by its name in C."""
        return self.queue(item, tries)

    def is_pending(self, item):
        """A sender's: whether the item is pending. That it is not does not say that its execution has ended. Raises NO_ITEM."""
        return self._call("is_pending", item=item)[0] == Code.YES

    def flush_begin(self, barrier, tries=MOST_TRIES):
        """A sender's: queues a barrier, by its own number from 0. A Code, as of `queue`. Raises NO_BARRIER, NO_TRIES."""
        return self._call("flush_begin", barrier=barrier, tries=tries)[0]

    def flush_done(self, barrier):
        """A sender's: whether the barrier is not pending: all that was accepted before it was queued has ended. Of a flush of
        one's own it says something only where the last `flush_begin` of that barrier was queued. Raises NO_BARRIER."""
        return self._call("flush_done", barrier=barrier)[0] == Code.YES

    def request_stop(self, tries=MOST_TRIES):
        """A sender's: queues the stop item, number items + barriers. A Code, as of `queue`. Raises NO_TRIES."""
        return self._call("request_stop", tries=tries)[0]

    def set_spins(self, count):
        """A sender's: how long it gives way after a lost exchange, twice as many pauses as the count, then four times, then eight
        times as many, but never more than 2 ** 32 - 1, which take half a minute or more."""
        self._call("set_spins", count=count)

    def number(self):
        """A sender's: its number, from 0."""
        return self._call("number")[1]

    def take(self):
        """An owner's: takes all that was queued, and answers how much, barriers and the stop item too. Raises IS_CLOSED, IS_DRAINING,
        SOME_WAIT."""
        return self._call("take")[1]

    def close(self):
        """An owner's: closes the queue, also one that drains, takes all that was queued, and answers how much. Raises IS_CLOSED."""
        return self._call("close")[1]

    def drain(self):
        """An owner's: begins a drain, takes all that was queued, and answers how much. Raises IS_CLOSED, IS_DRAINING."""
        return self._call("drain")[1]

    def resume(self):
        """An owner's: ends a drain, once all that was taken or chained has ended. Raises NOT_DRAINING, SOME_WAIT, IS_RUNNING."""
        self._call("resume")

    def waiting(self):
        """An owner's: how many numbers were taken or chained and have not begun."""
        return self._call("waiting")[1]

    def next(self):
        """An owner's: the oldest number that was taken or chained and has not begun, or None where nothing waits."""
        return self._number_or_none("next")

    def begin(self):
        """An owner's: begins the number of `next` and answers it, a barrier (items + its own number) and the stop item too, or None where
        nothing waits. Raises IS_RUNNING."""
        return self._number_or_none("begin")

    def _number_or_none(self, name):
        try:
            return self._call(name)[1]
        except WqError as error:
            if error.code != Error.NONE_WAITS:
                raise
            return None

    def end(self):
        """An owner's: ends what runs. Raises NONE_RUNS."""
        self._call("end")

    def rest(self):
        """An owner's, before it sleeps: True, and the next queueing `wakes`, if no take, drain or close comes before it; or False
        where something was queued, or the queue rests already: take before you sleep. Raises IS_CLOSED, IS_DRAINING, SOME_WAIT,
        IS_RUNNING."""
        return self._call("rest")[0] == Code.YES

    def chain(self, item):
        """An owner's: queues an item behind all that waits, from the execution that runs while the queue is closed or drains. Code.QUEUED
        or Code.PENDING. Raises NO_ITEM, IS_OPEN, NONE_RUNS."""
        return self._call("chain", item=item)[0]

    def is_done(self):
        """An owner's: whether the queue is closed and all that was accepted has ended."""
        return self._call("is_done")[0] == Code.YES

    def counts(self):
        """What it has counted since it was taken: a sender's counts, or an owner's. All else is 0."""
        with self._lock:
            return Counts(*(_library.wq_c_count(self._at, ctypes.c_uint32(which)) for which in range(len(Counts._fields))))
