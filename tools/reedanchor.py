"""Reedanchor from Python: a judge of booking plans whose every answer is proved.

A net has places that hold tokens, and transitions that take tokens from places and give some to places. A plan has events, each labelled with a
transition, and pairs that say which event is before which. The judge settles all orders at once: whether the plan runs at every place, where it
doesn't, how many tokens are missing and after which events, and where it does, how many a place has to spare.

A net and a plan are given as one sheet of bytes: a table that says where places, transitions, events and pairs start and how many there are, then
these items, all as little-endian numbers (README.md, "The sheet"; tools/sheet writes sheets from text). Items are numbered from 0. The calls are
those of include/reedanchor.h, in a shared library that one command makes, in the project's folder:

    tools/library

This module loads it from there, or from the file in the variable REEDANCHOR_LIBRARY, at the first call. Here one seat is put on sale, and then
the window and the telephone both sell it:

>>> import struct
>>> import reedanchor
>>> sheet = struct.pack(
...     "<8I 2I 8H 3H 4H",
...     32, 2, 40, 2, 56, 3, 62, 2,  # 2 places start at byte 32, 2 transitions at 40, 3 events at 56, 2 pairs at 62
...     0, 0,                        # the opening counts of the places: no seat and no ticket
...     0, 0, 1, 0,                  # transition 0 puts a seat on sale: takes nothing, gives a seat
...     1, 0, 0, 1,                  # transition 1 sells it: takes a seat, gives a ticket
...     0, 1, 1,                     # the transitions of the events
...     0, 1, 0, 2)                  # event 0 is before event 1, and before event 2
>>> print(reedanchor.fault(sheet))
None
>>> reedanchor.plan(sheet)
Plan(total=1, short_places=1, first=0, missing=(1, 0))
>>> reedanchor.place(sheet, 0)
Place(spare=-1, flow=None, done=(0,))
>>> reedanchor.place(sheet, 1)
Place(spare=0, flow=(0, 0, 0, 0, 0), done=None)

With one more seat the plan runs. A flow shows it: the first sale gets the seat that event 0 puts on sale, the second the other one.

>>> enough = sheet[:32] + struct.pack("<2I", 1, 0) + sheet[40:]
>>> reedanchor.plan(enough).runs
True
>>> reedanchor.check_flow(enough, 0, (1, 0, 0, 0, 1)), reedanchor.check_flow(enough, 0, (0, 0, 0, 1, 1))
(True, False)
>>> print(reedanchor.listing(enough), end="")
plan events 3 pairs 2 free 1
place 0 open 1 end 0 spare 0
place 1 open 0 end 2 spare 0
short 0 total 0
runs

A sheet with a fault is refused:

>>> reedanchor.plan(sheet[:62] + struct.pack("<4H", 0, 1, 0, 1))
Traceback (most recent call last):
    ..
reedanchor.Fault: fault 10: a pair given twice (pair 1)

Mending drops pairs of an old export that name no event, that are of an event with itself, or that repeat an earlier one:

>>> pairs = struct.pack("<10H", 0, 1, 0, 7, 0, 1, 2, 2, 0, 2)
>>> old = sheet[:28] + struct.pack("<I", 5) + sheet[32:62] + pairs
>>> mended = reedanchor.mend(old)
>>> mended.sheet == sheet, mended.reasons, mended.dropped
(True, (0, 1, 3, 2, 0), (1, 2, 3))

fault(sheet)                    The sheet's Fault, returned, or None. The other calls raise it.
plan(sheet)                     Plan: how many tokens are missing at each place.
place(sheet, place)             Place: how many tokens one place has to spare, and what shows it.
check_flow(sheet, place, flow)  Whether a flow drawn up elsewhere is valid at a place. The flow has a number for each pair and then a share of the
                                opening count for each event, from 0 to 4,294,967,295; further ones aren't looked at.
listing(sheet)                  What is found of a sheet as text, of a faulty one too (`refused` and its fault's number), so it raises no Fault.
mend(sheet)                     Mended: the clean sheet, and why each pair of the given one was dropped, by a number of REASONS, 0 for one that is kept.
                                Raises faults 1, 2, 14, 15 and 4 to 7, and 11 where the pairs that are kept have a cycle.

A sheet is any bytes-like object, of any length and content. It is neither changed nor kept. Besides Fault, a call raises TypeError or ValueError for
arguments of a wrong type or range, and NotBuilt where the library can't be loaded. Calls may be made in several threads at once, and run beside each
other; a thread needs 384 KiB of stack for them.
"""
import ctypes
import functools
import operator
import os
import struct
from typing import NamedTuple, Optional, Tuple

# The lengths of rows that do for every sheet.
ROW_LENGTH, FLOW_LENGTH, MARKS_LENGTH, TEXT_LENGTH, CLEAN_LENGTH, REASONS_LENGTH = 64, 1024 + 256, 256, 7216, 21280, 1024

# By their numbers, the words of the faults and what their items are, in the order in which they are looked for.
FAULTS = {
    1: ("fewer than 32 bytes", None),
    2: ("an item count above its limit", None),
    14: ("a body starts late, leaving a gap", None),
    15: ("a body starts early, running into the one before", None),
    4: ("the sheet doesn't end with its last body", None),
    5: ("an opening count above 1,000,000", "place"),
    6: ("a weight above 1,000", "transition"),
    7: ("an event names no transition", "event"),
    8: ("a pair names no event", "pair"),
    9: ("a pair of an event with itself", "pair"),
    10: ("a pair given twice", "pair"),
    11: ("the order has a cycle", None),
    12: ("the place number isn't in the net", None),
    13: ("a lent row is too short", None),
}

# By their numbers, why mending drops a pair: the first of these that applies.
REASONS = {
    1: "it names no event",
    2: "it is of an event with itself",
    3: "it repeats an earlier pair",
}

_SHEET, _NUMBER, _WORDS, _BYTES, _SIZE = (
    (ctypes.c_char_p, ctypes.c_size_t), ctypes.POINTER(ctypes.c_uint32), (ctypes.POINTER(ctypes.c_uint32), ctypes.c_size_t),
    (ctypes.POINTER(ctypes.c_uint8), ctypes.c_size_t), ctypes.c_size_t)
_CALLS = {
    "reedanchor_judge": _SHEET,
    "reedanchor_fault": (*_SHEET, _NUMBER),
    "reedanchor_plan": (*_SHEET, *_WORDS, _NUMBER, _NUMBER, _NUMBER, _NUMBER),
    "reedanchor_place": (*_SHEET, _SIZE, *_WORDS, *_BYTES, _NUMBER, ctypes.POINTER(ctypes.c_int32)),
    "reedanchor_check_flow": (*_SHEET, _SIZE, *_WORDS, _NUMBER, _NUMBER),
    "reedanchor_listing": (*_SHEET, *_BYTES, ctypes.POINTER(_SIZE)),
    "reedanchor_mend": (*_SHEET, *_BYTES, *_BYTES, _NUMBER, ctypes.POINTER(_SIZE)),
}


class NotBuilt(Exception):
    """The shared library isn't there, or isn't one that can be loaded and has all the calls."""


class Fault(Exception):
    """Why a call is refused: the number of the fault, its words, and the item at fault for 5 to 10, else 0."""

    def __init__(self, number, item=0):
        super().__init__(number, item)
        self.number, self.item, self.words = number, item, FAULTS[number][0]

    def __str__(self):
        kind = FAULTS[self.number][1]
        return "fault %d: %s" % (self.number, self.words) + (" (%s %d)" % (kind, self.item) if kind else "")


class Plan(NamedTuple):
    """The tokens missing at all places together, how many places are short, the first short place, None if the plan runs, and the missing count
    of each place: the least number of tokens more with which the plan runs there."""
    total: int
    short_places: int
    first: Optional[int]
    missing: Tuple[int, ...]

    @property
    def runs(self):
        return self.short_places == 0


class Place(NamedTuple):
    """The opening count less the least one with which the plan runs at the place; below 0 as many tokens are missing. And what shows it: where the plan
    runs there, a valid flow, with a number for each pair and then a share of the opening count for each event; else the events of the smallest
    done set at which most tokens lack. The other of the two is None."""
    spare: int
    flow: Optional[Tuple[int, ...]]
    done: Optional[Tuple[int, ...]]

    @property
    def runs(self):
        return self.spare >= 0


class Mended(NamedTuple):
    """A clean sheet, and for each pair of the given one a number of REASONS, or 0 for a pair that is kept."""
    sheet: bytes
    reasons: Tuple[int, ...]

    @property
    def dropped(self):
        """The numbers of the pairs that were dropped."""
        return tuple(pair for pair, reason in enumerate(self.reasons) if reason)


@functools.lru_cache(maxsize=None)
def library():
    """The shared library with the calls of include/reedanchor.h and their types, for those who lend rows of their own."""
    project = os.path.dirname(os.path.dirname(os.path.realpath(__file__)))
    path = os.path.abspath(os.environ.get("REEDANCHOR_LIBRARY") or os.path.join(project, "target", "shared", "libreedanchor.so"))
    if not os.path.exists(path):
        raise NotBuilt("there is no shared library %s; tools/library makes it" % path)
    try:
        loaded = ctypes.CDLL(path)
        for name, types in _CALLS.items():
            call = getattr(loaded, name)
            call.argtypes, call.restype = types, ctypes.c_uint32
    except (OSError, AttributeError) as error:
        raise NotBuilt("the shared library can't be used: %s; tools/library makes it anew" % error) from None
    return loaded


def _copied(sheet):
    """The bytes of a sheet, which no other thread can change during the call."""
    return bytes(memoryview(sheet))


def _counts(sheet):
    """How many places, transitions, events and pairs a faultless sheet has."""
    return struct.unpack_from("<8I", sheet)[1::2]


def _integer(given, most, what):
    number = operator.index(given)
    if not 0 <= number <= most:
        raise ValueError("%s is from 0 to %d, not %d" % (what, most, number))
    return number


def _place_number(given):
    return _integer(given, ctypes.c_size_t(-1).value, "a place number")


def _refusal(call, sheet, lent, *results):
    """Makes a call that tells the item at fault, with what is lent between the sheet and the item. Returns its fault or None."""
    item = ctypes.c_uint32()
    number = call(sheet, len(sheet), *lent, item, *results)
    return Fault(number, item.value) if number else None


def _ask(*words):
    """Makes such a call, and raises its fault."""
    refusal = _refusal(*words)
    if refusal is not None:
        raise refusal


def fault(sheet):
    """The Fault of a sheet, which is returned and not raised, or None."""
    return _refusal(library().reedanchor_fault, _copied(sheet), ())


def plan(sheet):
    """How many tokens are missing at each place: a Plan. Raises the sheet's Fault."""
    sheet, row = _copied(sheet), (ctypes.c_uint32 * ROW_LENGTH)()
    total, short_places, first = ctypes.c_uint32(), ctypes.c_uint32(), ctypes.c_uint32()
    _ask(library().reedanchor_plan, sheet, (row, len(row)), total, short_places, first)
    return Plan(total.value, short_places.value, first.value if short_places.value else None, tuple(row[:_counts(sheet)[0]]))


def place(sheet, place):
    """How many tokens a place has to spare, and what shows it: a Place. Raises the sheet's Fault, or 12 for a place that isn't in the net."""
    sheet, flow, marks, spare = _copied(sheet), (ctypes.c_uint32 * FLOW_LENGTH)(), (ctypes.c_uint8 * MARKS_LENGTH)(), ctypes.c_int32()
    _ask(library().reedanchor_place, sheet, (_place_number(place), flow, len(flow), marks, len(marks)), spare)
    _, _, events, pairs = _counts(sheet)
    if spare.value < 0:
        return Place(spare.value, None, tuple(event for event in range(events) if marks[event]))
    return Place(spare.value, tuple(flow[:pairs + events]), None)


def check_flow(sheet, place, flow):
    """Whether a flow, an iterable of integers, is valid at a place. Raises the sheet's Fault, 12 for a place that isn't in the net, or 13 for too few
    numbers."""
    numbers = [_integer(number, 2 ** 32 - 1, "a number of a flow") for number in flow]
    row, valid = (ctypes.c_uint32 * len(numbers))(*numbers), ctypes.c_uint32()
    _ask(library().reedanchor_check_flow, _copied(sheet), (_place_number(place), row, len(row)), valid)
    return valid.value == 1


def listing(sheet):
    """The listing of a sheet, lines of text. A faulty sheet has one too."""
    sheet, text, written = _copied(sheet), (ctypes.c_uint8 * TEXT_LENGTH)(), ctypes.c_size_t()
    number = library().reedanchor_listing(sheet, len(sheet), text, len(text), written)
    if number:
        raise Fault(number)
    return bytes(text[:written.value]).decode("ascii")


def mend(sheet):
    """The sheet without pairs that name no event, pairs of an event with itself and repeats: a Mended. Raises the sheet's Fault if it stands before 8, or
    11 for a cycle among the pairs that are kept."""
    sheet, clean, reasons, written = _copied(sheet), (ctypes.c_uint8 * CLEAN_LENGTH)(), (ctypes.c_uint8 * REASONS_LENGTH)(), ctypes.c_size_t()
    _ask(library().reedanchor_mend, sheet, (clean, len(clean), reasons, len(reasons)), written)
    return Mended(bytes(clean[:written.value]), tuple(reasons[:_counts(sheet)[3]]))
