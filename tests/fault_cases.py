"""Sheets for tests/faults: each with the number and item of the fault that its builder means to show, None for drawn ones, and a name."""
import struct
from itertools import combinations

import separate

ENTRIES = ("places", "transitions", "events", "pairs")
LATE, EARLY = 14, 15


class Plan:
    """A sheet in parts. Left alone it is the sheet of 78 bytes of document 01's listing."""

    def __init__(self, opening=(1, 0, 0), weights=((1, 0, 0, 0, 1, 0), (0, 1, 0, 0, 0, 1)), events=(0, 0, 1), pairs=((0, 2),)):
        self.opening, self.weights = list(opening), [list(row) for row in weights]
        self.events, self.pairs = list(events), list(pairs)
        self.later, self.tail, self.cut = [0, 0, 0, 0], b"", None  # how much later than due each body is said to start

    def sheet(self):
        places = len(self.opening)
        transitions = [(row[:places], row[places:]) for row in self.weights]
        sheet = bytearray(separate.Plan(self.opening, transitions, self.events, self.pairs).sheet())
        for entry, later in enumerate(self.later):
            struct.pack_into("<I", sheet, 8 * entry, struct.unpack_from("<I", sheet, 8 * entry)[0] + later)
        return (bytes(sheet) + self.tail)[:self.cut]


# A way to bring each fault into a plan, so that any two can be brought in together. It returns the item that it puts at fault.


def short(plan):
    plan.cut = 31
    return 0


def places_65(plan):
    more = 65 - len(plan.opening)
    plan.opening += [0] * more
    plan.weights = [row[:3] + [0] * more + row[3:] + [0] * more for row in plan.weights]
    return 0


def start_33(plan):
    plan.later[0] = 1
    return 0


def start_31(plan):
    plan.later[0] = -1
    return 0


def byte_extra(plan):
    plan.tail = b"\0"
    return 0


def opening_over(plan):
    plan.opening[1] = 1000001
    return 1


def weight_over(plan):
    plan.weights[1][-1] = 1001
    return 1


def no_transition(plan):
    plan.events[2] = 2
    return 2


def add_pair(plan, pair):
    plan.pairs.append(pair)
    return len(plan.pairs) - 1


def no_event(plan):
    return add_pair(plan, (0, 3))


def self_pair(plan):
    return add_pair(plan, (1, 1))


def repeat(plan):
    return add_pair(plan, (0, 2))


def cycle(plan):
    plan.pairs += [(0, 1), (1, 0)]
    return 0


# in the order of the faults
WAYS = {1: short, 2: places_65, LATE: start_33, EARLY: start_31, 4: byte_extra, 5: opening_over, 6: weight_over, 7: no_transition,
        8: no_event, 9: self_pair, 10: repeat, 11: cycle}
OF_PAIRS = (8, 9, 10, 11)


def with_faults(name, *numbers):
    """A case into which these faults are brought one after the other. It shows the first of them in the order of the faults."""
    plan = Plan()
    items = {number: WAYS[number](plan) for number in numbers}
    shown = next(number for number in WAYS if number in items)
    return (shown, items[shown]), name, plan.sheet()


def misplaced(**later):
    """The listing's sheet with some bodies said to start later than due, or earlier by a number below 0."""
    plan = Plan()
    for entry, amount in later.items():
        plan.later[ENTRIES.index(entry)] = amount
    return plan.sheet()


def table(*words):
    """A table of contents alone, as it is given."""
    return struct.pack("<8I", *words)


def patched(at, *values):
    sheet = bytearray(Plan().sheet())
    sheet[at:at + len(values)] = bytes(values)
    return bytes(sheet)


def ordered(events, pairs):
    """A plan of events that take nothing, in an order."""
    return Plan((), ((),), [0] * events, pairs).sheet()


def chain(events):
    return [(v, v + 1) for v in range(events - 1)]


def many_pairs(count):
    """Different pairs (a, b) with a before b, the closest first."""
    pairs = [(a, a + gap) for gap in range(1, 256) for a in range(256 - gap)]
    return pairs[:count]


def small_examples():
    yield (0, 0), "the listing's sheet", Plan().sheet()
    yield (1, 0), "the empty sheet", b""
    yield (2, 0), "65 places", patched(4, 65)
    yield (14, 0), "places start at 33", patched(0, 33)
    yield (15, 0), "places start at 31", patched(0, 31)
    yield (4, 0), "one byte extra", Plan().sheet() + b"\0"
    yield (5, 0), "opening count 1,000,001", patched(32, *struct.pack("<I", 1000001))
    yield (6, 0), "weight 1,001", patched(44, *struct.pack("<H", 1001))
    yield (7, 0), "an event names 2 with two transitions", patched(68, 2)
    yield (8, 0), "(0, 3) with three events", patched(74, 0, 0, 3, 0)
    yield (9, 0), "(1, 1)", patched(74, 1, 0, 1, 0)
    yield (10, 1), "(0, 1), (0, 1)", Plan(pairs=((0, 1), (0, 1))).sheet()
    yield (11, 0), "(0, 1), (1, 0)", Plan(pairs=((0, 1), (1, 0))).sheet()


# plans with a given count of one kind of item
COUNTED = (
    ("places", 64, lambda count: Plan([0] * count, [[0] * 2 * count], [0], ())),
    ("transitions", 64, lambda count: Plan((0,), [[0, 0]] * count, [0], ())),
    ("events", 256, lambda count: Plan((), ((),), [0] * count, ())),
    ("pairs", 1024, lambda count: Plan((), ((),), [0] * 256, many_pairs(count))),
)


def every_limit():
    return Plan([1000000] * 64, [[1000] * 128] * 64, [63] * 256, many_pairs(1024))


def limits():
    yield (0, 0), "every limit at once, 21,280 bytes", every_limit().sheet()
    for item, most, build in COUNTED:
        yield (0, 0), "%d %s" % (most, item), build(most).sheet()
        yield (2, 0), "%d %s in full" % (most + 1, item), build(most + 1).sheet()
    yield (0, 0), "opening count 1,000,000", Plan((1000000, 0, 1000000)).sheet()
    yield (5, 2), "opening count 1,000,001, last place", Plan((1000000, 0, 1000001)).sheet()
    yield (5, 1), "opening count 4,294,967,295", Plan((0, 4294967295, 0)).sheet()
    yield (0, 0), "weights 1,000", Plan(weights=[[1000] * 6] * 2).sheet()
    yield (6, 0), "weight 1,001, first taken", Plan(weights=[[1001, 0, 0, 0, 0, 0], [0] * 6]).sheet()
    yield (6, 0), "weight 1,001, first given", Plan(weights=[[0, 0, 0, 1001, 0, 0], [0] * 6]).sheet()
    yield (6, 1), "weight 1,001, last given", Plan(weights=[[0] * 6, [0, 0, 0, 0, 0, 1001]]).sheet()
    yield (6, 1), "weight 65,535", Plan(weights=[[0] * 6, [0, 0, 65535, 0, 0, 0]]).sheet()


def last_items():
    """The last item alone at fault, every limit at once."""
    plan = every_limit()
    plan.opening[63] += 1
    yield (5, 63), "every limit at once, the last opening count over", plan.sheet()
    plan = every_limit()
    plan.weights[63][127] += 1
    yield (6, 63), "every limit at once, the last weight over", plan.sheet()
    plan = every_limit()
    plan.events[255] = 64
    yield (7, 255), "every limit at once, the last event names no transition", plan.sheet()
    for number, item, pair, what in (
        (8, 1023, (0, 256), "names no event"),
        (9, 1023, (255, 255), "is of an event with itself"),
        (10, 1023, many_pairs(1)[0], "repeats the first"),
        (11, 0, (255, 0), "closes a cycle"),
    ):
        plan = every_limit()
        plan.pairs[1023] = pair
        yield (number, item), "every limit at once, the last pair " + what, plan.sheet()


def first_items():
    """Several items at fault, none of them item 0: the first of them is told."""
    yield (5, 1), "opening counts of places 1, 2 and 4 over", Plan((0, 1000001, 2000000, 0, 1000001), (), (), ()).sheet()
    for columns in ((3, 0, 1), (0, 3, 2), (2, 2, 2), (1, 2, 0)):  # a later weight of an earlier transition, too
        weights = [[0] * 4 for _ in range(5)]
        for t, column in zip((1, 2, 4), columns):
            weights[t][column] = 1001
        yield (6, 1), "weights %d, %d and %d of transitions 1, 2 and 4 over" % columns, Plan((0, 0), weights, (), ()).sheet()
    yield (7, 1), "events 1, 2 and 4 name no transition", Plan(events=(0, 2, 3, 1, 2)).sheet()
    yield (8, 1), "pairs 1, 2 and 4 name no event", ordered(3, ((0, 1), (2, 3), (3, 0), (1, 2), (4, 4)))
    yield (9, 1), "pairs 1, 2 and 4 are of an event with itself", ordered(3, ((0, 1), (2, 2), (0, 0), (1, 2), (1, 1)))
    yield (10, 2), "x, y, y, x", ordered(3, ((0, 1), (1, 2), (1, 2), (0, 1)))
    yield (10, 2), "x, y, x, y", ordered(3, ((0, 1), (1, 2), (0, 1), (1, 2)))
    yield (10, 1), "x, x, x", ordered(2, ((0, 1), (0, 1), (0, 1)))
    yield (10, 2), "x, y, x, y, x", ordered(3, ((1, 2), (0, 1), (1, 2), (0, 1), (1, 2)))
    yield (10, 3), "x, y, z, z, y, x", ordered(3, ((0, 1), (1, 2), (0, 2), (0, 2), (1, 2), (0, 1)))


def two_faults():
    """Any two that can stand together; two faults of pairs also with the one that is told after the other in the sheet."""
    for low, high in combinations(WAYS, 2):
        # below 32 bytes nothing of 5 to 11 is left; one start can't be both late and early, and two_starts has two
        if low == 1 and high not in (2, LATE, EARLY, 4) or (low, high) == (LATE, EARLY):
            continue
        yield with_faults("%d and %d" % (low, high), low, high)
        if low in OF_PAIRS:
            yield with_faults("%d and %d, the pair of %d first" % (low, high, high), high, low)


def truncations():
    sheet = Plan().sheet()
    for length in range(len(sheet) + 1):
        meant = 1 if length < 32 else 4 if length < len(sheet) else 0
        yield (meant, 0), "the first %d bytes of the listing's sheet" % length, sheet[:length]


def starts():
    """Each entry late and early: by a little, with the bodies really apart or one in the other, and as far as numbers go."""
    sheet = Plan().sheet()
    for entry, name in enumerate(ENTRIES):
        due = struct.unpack_from("<I", sheet, 8 * entry)[0]
        yield (14, 0), "%s start one byte late" % name, misplaced(**{name: 1})
        yield (15, 0), "%s start one byte early" % name, misplaced(**{name: -1})
        moved = misplaced(**{later: 1 for later in ENTRIES[entry:]})
        yield (14, 0), "a gap of one byte before the %s" % name, moved[:due] + b"\0" + moved[due:]
        if entry > 0:
            moved = misplaced(**{later: -1 for later in ENTRIES[entry:]})
            yield (15, 0), "the %s run one byte into what precedes them" % name, moved[:due - 1] + moved[due:]
        for number, start in ((15, 0), (15, due - 4), (14, due + 4), (14, due + 65536), (14, due + 2 ** 31), (14, 4294967295)):
            words = list(struct.unpack_from("<8I", sheet))
            words[2 * entry] = start
            yield (number, 0), "%s start at %d" % (name, start), table(*words) + sheet[32:]


def two_starts():
    """The first wrong entry decides, whatever the later one is."""
    for first, second in combinations(ENTRIES, 2):
        yield (14, 0), "%s late and %s early" % (first, second), misplaced(**{first: 1, second: -1})
        yield (15, 0), "%s early and %s late" % (first, second), misplaced(**{first: -1, second: 1})


def layouts():
    yield (0, 0), "no items at all", table(32, 0, 32, 0, 32, 0, 32, 0)
    yield (1, 0), "a table of 31 bytes", table(32, 0, 32, 0, 32, 0, 32, 0)[:31]
    yield (0, 0), "64 transitions of no places", table(32, 0, 32, 64, 32, 0, 32, 0)
    yield (2, 0), "65 transitions of no places", table(32, 0, 32, 65, 32, 0, 32, 0)
    yield (7, 0), "an event with no transition to name", Plan((), (), (0,), ()).sheet()
    yield (8, 0), "a pair with no event to name", Plan((), (), (), ((0, 0),)).sheet()
    for entry in range(4):
        words = [32, 0, 32, 0, 32, 0, 32, 0]
        words[2 * entry + 1] = separate.LIMITS[entry] + 1
        yield (2, 0), "entry %d: one item too many, no body" % entry, table(*words)
        words[2 * entry + 1] = 4294967295
        yield (2, 0), "entry %d: 4,294,967,295 items" % entry, table(*words)
        words[2 * entry + 1] = 0
        for number, start in ((15, 0), (15, 31), (14, 33), (14, 32 + 65536), (14, 4294967295)):
            words[2 * entry] = start
            yield (number, 0), "entry %d: starts at %d" % (entry, start), table(*words)
    yield (15, 0), "places and transitions overlap", table(32, 1, 32, 0, 36, 0, 36, 0) + b"\0" * 4
    yield (14, 0), "a gap before the pairs", table(32, 0, 32, 1, 32, 1, 36, 0) + b"\0" * 4
    yield (15, 0), "one place more than the starts leave room for", table(32, 2, 36, 0, 36, 0, 36, 0) + b"\0" * 4
    yield (14, 0), "one place fewer than the starts leave room for", table(32, 0, 36, 0, 36, 0, 36, 0) + b"\0" * 4
    yield (4, 0), "one byte of the last pair is missing", ordered(2, ((0, 1),))[:-1]
    yield (4, 0), "no body where one opening count is due", table(32, 1, 36, 0, 36, 0, 36, 0)


def names():
    yield (7, 1), "an event names 65,535", Plan(events=(0, 65535, 0)).sheet()
    yield (7, 0), "an event names 256 with one transition", Plan((), ((),), (256,), ()).sheet()
    yield (8, 0), "the earlier end names no event", Plan(pairs=((3, 0),)).sheet()
    yield (8, 0), "(0, 65,535)", Plan(pairs=((0, 65535),)).sheet()
    yield (8, 0), "(0, 256) with 256 events", ordered(256, ((0, 256),))
    yield (8, 0), "(3, 3) with three events", Plan(pairs=((3, 3),)).sheet()
    yield (8, 0), "(0, 3) twice with three events", Plan(pairs=((0, 3), (0, 3))).sheet()
    yield (9, 0), "(1, 1) twice", Plan(pairs=((1, 1), (1, 1))).sheet()
    yield (9, 255), "the last pair is (255, 255)", ordered(256, chain(256) + [(255, 255)])


def repeats():
    yield (10, 3), "a repeat not next to its twin", ordered(4, ((0, 1), (2, 3), (1, 2), (0, 1)))
    yield (10, 3), "a repeat of the last of three", ordered(4, ((0, 1), (0, 2), (0, 3), (0, 3)))
    yield (10, 255), "(255, 254) twice, 255 pairs apart", ordered(256, [(255, 254)] + chain(255) + [(255, 254)])
    yield (10, 1), "a repeat before a cycle", ordered(3, ((0, 1), (0, 1), (1, 2), (2, 0)))
    yield (10, 3), "a repeat after a cycle", ordered(3, ((0, 1), (1, 2), (2, 0), (1, 2)))
    yield (0, 0), "the same first ends", ordered(4, ((0, 1), (0, 2), (0, 3)))
    yield (0, 0), "the same second ends", ordered(4, ((0, 3), (1, 3), (2, 3)))
    yield (0, 0), "ends that share all but one bit", ordered(256, ((0, 1), (0, 33), (0, 129), (32, 1), (128, 1)))


def cycles():
    for length in (2, 3, 4, 32, 33, 255, 256):
        yield (11, 0), "a cycle of %d events" % length, ordered(256, chain(length) + [(length - 1, 0)])
    yield (11, 0), "a cycle of the last three events", ordered(256, ((253, 254), (254, 255), (255, 253)))
    yield (11, 0), "a cycle of 3 away from the first events", ordered(9, ((0, 1), (7, 4), (4, 8), (8, 7)))
    yield (11, 0), "two cycles", ordered(6, ((0, 1), (1, 2), (2, 0), (3, 4), (4, 5), (5, 3)))
    yield (0, 0), "a chain of 256 events", ordered(256, chain(256))
    yield (0, 0), "a chain of 256 events, backward", ordered(256, [(b, a) for a, b in chain(256)])
    yield (0, 0), "a diamond", ordered(4, ((0, 1), (0, 2), (1, 3), (2, 3), (0, 3)))


def spread(seed):
    """Numbers that are the same on every run and every machine."""
    while True:
        seed = (seed * 6364136223846793005 + 1442695040888963407) % 2 ** 64
        yield seed >> 33


def scattered():
    """Plans of a few events with pairs drawn at random, and sheets with two bytes changed at random."""
    draw = spread(1)
    for number in range(60):
        events = 2 + next(draw) % 6
        pairs = [(next(draw) % events, next(draw) % events) for _ in range(next(draw) % (events + 2))]
        yield None, "drawn plan %d" % number, ordered(events, pairs)
    for number in range(60):
        sheet = bytearray(Plan(pairs=((0, 1), (0, 2), (1, 2))).sheet())
        for _ in range(2):
            sheet[next(draw) % len(sheet)] = next(draw) % 5
        yield None, "changed sheet %d" % number, bytes(sheet)


GROUPS = (small_examples, limits, last_items, first_items, two_faults, truncations, starts, two_starts, layouts, names, repeats, cycles, scattered)


def cases():
    for group in GROUPS:
        yield from group()
