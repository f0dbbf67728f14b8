"""The calls of include/reedanchor.h as a C program makes them, for tests: with rows of any length and content, and what stands in them at return.

The sheet, each row and each single number stand between guards, in memory that is made for the call. Single numbers hold junk at first. A call that
changes a guard or the sheet has failed, whatever it returns.
"""
import ctypes
import os
import sys
from typing import NamedTuple

from separate import Fault

sys.path.insert(0, os.path.join(os.path.dirname(os.path.abspath(__file__)), "..", "tools"))
import reedanchor

UNTOUCHED, UNTOUCHED_MARK = 2 ** 32 - 1, 255  # what rows are filled with, so that what is left alone can be seen
JUNK = 0xa5b6c7d8  # no number that any call returns
GUARD = bytes(range(160, 224))

try:
    LIBRARY = reedanchor.library()
except reedanchor.NotBuilt as error:
    sys.exit("%s: %s" % (os.path.basename(sys.argv[0]), error))


class Returned(NamedTuple):
    """Of a call: its fault, the single numbers other than the item, and the rows, at return."""
    fault: Fault
    results: tuple
    rows: tuple


def refused(fault, results, *rows):
    """What a refused call returns: its fault, so many single numbers, which are 0, and the rows as they were lent."""
    return Returned(Fault(*fault), (0,) * results, rows)


def lent(needed, length, untouched=UNTOUCHED):
    """A row of some length at return: what is needed, and the rest as it was lent."""
    return list(needed) + [untouched] * (length - len(needed))


class Guarded:
    """Bytes between guards, as numbers of some C type. None is a null pointer, as a sheet or a row of no length may be."""

    def __init__(self, kind, given):
        self.given, self.memory, self.numbers = given, None, None
        if given is not None:
            self.memory = bytearray(GUARD + given + GUARD)
            self.numbers = (kind * (len(given) // ctypes.sizeof(kind))).from_buffer(self.memory, len(GUARD))

    @classmethod
    def row(cls, kind, numbers):
        return cls(kind, None if numbers is None else bytes((kind * len(numbers))(*numbers)))

    def words(self):
        """As a call is given them: a pointer and a length."""
        return self.numbers, 0 if self.numbers is None else len(self.numbers)

    def returned(self):
        """The numbers at return."""
        if self.memory is None:
            return None
        if self.memory[:len(GUARD)] != GUARD or self.memory[-len(GUARD):] != GUARD:
            raise AssertionError("something beside what was lent is changed: %s" % self.memory.hex())
        return list(self.numbers)

    def is_as_given(self):
        return self.memory is None or self.memory == GUARD + self.given + GUARD


def make(name, sheet, rows, results, place=()):
    """Makes a call by its name, with rows as (type, numbers) and single numbers of some types. Returns its number, the single numbers and the rows."""
    given, rows = Guarded(ctypes.c_char, sheet), [Guarded.row(*row) for row in rows]
    singles = [Guarded.row(kind, [JUNK]) for kind in results]
    words = [word for row in rows for word in row.words()]
    number = getattr(LIBRARY, name)(*given.words(), *place, *words, *[single.numbers for single in singles])
    if not given.is_as_given():
        raise AssertionError("%s changed the sheet" % name)
    return number, [single.returned()[0] for single in singles], tuple(row.returned() for row in rows)


def make_with_item(name, sheet, rows, results, place=()):
    """A call whose first single number is the item at fault."""
    number, (item, *singles), rows = make(name, sheet, rows, (ctypes.c_uint32, *results), place)
    return Returned(Fault(number, item), tuple(singles), rows)


def judge(sheet):
    """The number that the till server's call returns."""
    return make("reedanchor_judge", sheet, (), ())[0]


def fault(sheet):
    return make_with_item("reedanchor_fault", sheet, (), ())


def plan(sheet, row):
    """The single numbers: total, short places, first."""
    return make_with_item("reedanchor_plan", sheet, [(ctypes.c_uint32, row)], [ctypes.c_uint32] * 3)


def place(sheet, number, flow, marks):
    """The single number: spare."""
    return make_with_item("reedanchor_place", sheet, [(ctypes.c_uint32, flow), (ctypes.c_uint8, marks)], [ctypes.c_int32], [number])


def check_flow(sheet, number, flow):
    """The single number: valid. The flow row, which is only read, is told too."""
    return make_with_item("reedanchor_check_flow", sheet, [(ctypes.c_uint32, flow)], [ctypes.c_uint32], [number])


def listing(sheet, text):
    """The single number: written. This call tells no item."""
    number, singles, rows = make("reedanchor_listing", sheet, [(ctypes.c_uint8, text)], [ctypes.c_size_t])
    return Returned(Fault(number), tuple(singles), rows)


def mend(sheet, clean, reasons):
    """The single number: written."""
    return make_with_item("reedanchor_mend", sheet, [(ctypes.c_uint8, clean), (ctypes.c_uint8, reasons)], [ctypes.c_size_t])


def expect(what, found, due):
    """Ends the test where something else is found than is due."""
    if found != due:
        sys.exit("%s: %s: %s is due, not %s" % (os.path.basename(sys.argv[0]), what, due, found))
