"""Sheets as an old export writes them, for the tests of mending: with pairs that name no event, pairs of an event with itself and repeats. Some have
typed in what is due, the others a name alone.
"""
import itertools
import random

import plans
from separate import Plan

# why a pair is dropped, by the words of document 02's A1
REASONS = {1: "it names no event", 2: "it is of an event with itself", 3: "it repeats an earlier pair"}

# The pairs of examples/old_export.sheet, which is else examples/hold_release_sell.sheet. No text can name an event that isn't there, so it has none.
OLD_EXPORT = (
    (0, 1),
    (1, 2),
    (5, 2),  # there are five events, from 0 to 4
    (0, 1),
    (2, 3),
    (3, 3),
    (3, 4),
)

# Pairs of three events, the reasons of each, and the pairs that are left, all by hand.
BY_HAND = (
    ((), (), ()),
    (((0, 2),), (0,), ((0, 2),)),
    (((2, 0), (0, 1)), (0, 0), ((2, 0), (0, 1))),
    (((0, 3),), (1,), ()),
    (((3, 0),), (1,), ()),
    (((0, 65535), (65535, 0), (256, 1), (1, 256)), (1, 1, 1, 1), ()),
    (((1, 1),), (2,), ()),
    (((0, 0), (1, 1), (2, 2)), (2, 2, 2), ()),
    (((3, 3),), (1,), ()),  # which names no event before it is of one with itself
    (((9, 9), (9, 9)), (1, 1), ()),
    (((1, 1), (1, 1)), (2, 2), ()),
    (((0, 1), (0, 1)), (0, 3), ((0, 1),)),
    (((0, 1), (0, 1), (0, 1)), (0, 3, 3), ((0, 1),)),
    (((0, 1), (1, 2), (0, 1)), (0, 0, 3), ((0, 1), (1, 2))),  # the first of the two is kept, and they aren't neighbours
    (((0, 1), (1, 2), (0, 2), (0, 1), (0, 2), (1, 2)), (0, 0, 0, 3, 3, 3), ((0, 1), (1, 2), (0, 2))),
    (((0, 1), (1, 9), (1, 2)), (0, 1, 0), ((0, 1), (1, 2))),  # what follows a dropped pair is kept
    (((0, 1), (1, 1), (1, 2)), (0, 2, 0), ((0, 1), (1, 2))),
    (((0, 1), (0, 1), (1, 2)), (0, 3, 0), ((0, 1), (1, 2))),
    (((9, 1), (2, 2), (0, 1), (0, 1), (0, 2)), (1, 2, 0, 3, 0), ((0, 1), (0, 2))),
    (((0, 1), (1, 9), (9, 0)), (0, 1, 1), ((0, 1),)),  # a cycle by an event that isn't there
    (((0, 1), (1, 1), (0, 2), (0, 9), (0, 1), (1, 2)), (0, 2, 0, 1, 3, 0), ((0, 1), (0, 2), (1, 2))),
)

# Pairs of three events with a cycle among those that are kept.
CYCLES = (
    ((0, 1), (1, 0)),
    ((0, 1), (1, 2), (2, 0)),
    ((9, 9), (0, 1), (1, 1), (0, 1), (1, 0)),
    ((0, 1), (0, 1), (1, 0), (1, 0)),
    ((0, 1), (1, 0), (1, 0), (0, 1), (2, 2), (2, 3)),
    ((1, 2), (2, 0), (1, 2), (0, 1), (1, 2)),
)


def export(pairs):
    """Document 01's sheet with other pairs of its three events."""
    return Plan(plans.LISTED.opening, plans.LISTED.transitions, plans.LISTED.labels, pairs)


# pairs of three events of every kind: no event as the earlier one, as the later one and as both, an event with itself, and three that make an order in
# any two of them but the first and the last
KINDS = ((9, 1), (0, 3), (9, 9), (1, 1), (0, 1), (1, 2), (1, 0))


def mixes():
    """All sequences of up to four pairs of these kinds."""
    for count in range(5):
        for pairs in itertools.product(KINDS, repeat=count):
            yield "pairs %s" % (pairs,), export(pairs).sheet()


def many(pairs):
    """256 events that take a token and give it back, and these pairs."""
    return Plan((1,), [((1,), (1,))], [0] * 256, pairs).sheet()


def each_twice(pairs):
    return [pair for pair in pairs for _ in range(2)]


def limits():
    """1,024 pairs of 256 events, with the number of pairs kept, by hand; None where these have a cycle."""
    close = plans.close_pairs(1024)
    chain = close[:255]
    for name, kept, pairs in (
        ("different ones", 1024, close),
        ("repeats of one", 1, [(3, 7)] * 1024),
        ("repeats of the last events' one", 1, [(255, 254)] * 1024),
        ("one event with itself", 0, [(255, 255)] * 1024),
        ("every event with itself", 0, [(v % 256, v % 256) for v in range(1024)]),
        ("no event as the later one", 0, [(v % 256, 256) for v in range(1024)]),
        ("no event as the earlier one", 0, [(256 + v, v % 256) for v in range(1024)]),
        ("no event with itself", 0, [(256, 256)] * 1024),
        ("512 and the same again", 512, close[:512] * 2),
        ("512 and the same backward", 512, close[:512] + close[511::-1]),
        ("512, each twice", 512, each_twice(close[:512])),
        ("the last one kept alone", 1, [(0, 0)] * 500 + [(0, 300)] * 523 + [(0, 1)]),
        ("the first one kept alone", 1, [(0, 1)] + [(300, 0)] * 500 + [(1, 1)] * 523),
        ("the last one dropped alone", 1023, close[:1023] + [(0, 1)]),
        ("every other one dropped", 512, [pair for good in close[:512] for pair in (good, (good[0], 256))]),
        ("a chain and repeats of its last pair", 255, chain + [chain[-1]] * 769),
        ("a cycle closed by the last one", None, close[:1023] + [(255, 0)]),
        ("a cycle, each pair twice", None, each_twice(chain + [(255, 0)]) + [(0, 1)] * 512),
        ("a cycle by one pair and its repeats", None, chain + [(255, 0)] * 769),
        ("a cycle of the last two events, after a chain", None, chain[:254] + [(255, 254)] + [(254, 255)] * 769),
        ("a cycle of the first two events, before a chain", None, [(1, 0)] + chain + [(9, 9)] * 768),
        ("a cycle through all events, backwards", None, [(v, (v + 255) % 256) for v in range(256)] * 4),
        ("a chain, backwards, each pair four times", 255, [(v + 1, v) for v in range(255)] * 4 + [(0, 0)] * 4),
        ("a chain, its pairs from the last to the first", 255, chain[::-1] + [(256, 0)] * 769),
        ("254 events before the last one", 254, [(v, 255) for v in range(254)] + [(255, 255)] * 770),
        ("all events before the last one, and that before the first", None, [(v, 255) for v in range(255)] + [(255, 0)] * 769),
        ("the last event before 254 others", 254, [(255, v) for v in range(254)] + [(3, 256)] * 770),
        ("the last event before all others, and one of them before it", None, [(255, v) for v in range(255)] + [(254, 255)] * 769),
        ("128 cycles of two", None, [(v, v ^ 1) for v in range(256)] * 4),
    ):
        yield "1,024 pairs, " + name, kept, many(pairs)


def few():
    """Few items, with the reasons, by hand."""
    yield "no items", (), Plan((), (), (), ()).sheet()
    yield "no events", (1, 1, 1), Plan((5, 0), [((1, 0), (0, 1))], (), ((0, 0), (0, 1), (0, 0))).sheet()
    yield "one event", (2, 1, 1, 2), Plan((), [((), ())], (0,), ((0, 0), (0, 1), (1, 0), (0, 0))).sheet()
    yield "two events", (0, 1, 3), Plan((), [((), ())], (0, 0), ((1, 0), (1, 2), (1, 0))).sheet()


def every_limit():
    """The longest sheet, with pairs dropped of each kind."""
    plan = dict(plans.at_the_limits())["every limit"]
    plan.pairs[100:400] = [(1, 1), (1, 256), plan.pairs[7]] * 100
    return plan.sheet()


def random_export(draw):
    """A random plan, some of whose pairs repeat others, name no event or are of an event with itself; some with one turned round, which makes a cycle."""
    plan = plans.random_plan(draw)
    for _ in range(draw.randrange(8)):
        draw.choice((plans.no_event, plans.self_pair, plans.repeat))(draw, plan)
    if plan.pairs and draw.random() < 0.2:
        plans.add_pair(draw, plan, draw.choice(plan.pairs)[::-1])
    if draw.random() < 0.1:
        draw.choice((plans.over_opening, plans.over_weight, plans.no_transition))(draw, plan)
    return plan.sheet()


def random_exports(count):
    draw = random.Random(10)
    for number in range(count):
        yield "random export %d" % number, random_export(draw)
