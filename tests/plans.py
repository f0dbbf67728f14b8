"""Plans for the tests: document 01's examples with their expected answers, plans at the limits, and random ones."""
import os

from separate import Plan

ROOT = os.path.dirname(os.path.dirname(os.path.abspath(__file__)))


def example(name):
    """A sheet of examples/."""
    with open(os.path.join(ROOT, "examples", name + ".sheet"), "rb") as file:
        return file.read()


def one_place(opening, events, pairs):
    """A plan at one place, whose events are given as (takes, gives)."""
    kinds = sorted(set(events))
    return Plan((opening,), [((takes,), (gives,)) for takes, gives in kinds], [kinds.index(event) for event in events], pairs)


# Document 01's table of one desk's examples: opening count, events as takes and gives, order, missing count, done set. The spare count between
# these two is worked out by hand, from what the done sets need.
TABLE = (
    (0, (), (), 0, 0, None),
    (1, ((1, 0), (1, 0)), (), 1, -1, []),
    (2, ((1, 0), (1, 0)), (), 0, 0, None),
    (1, ((1, 1), (1, 1)), (), 1, -1, []),
    (1, ((1, 1), (1, 1)), ((0, 1),), 0, 0, None),
    (0, ((0, 1), (0, 0), (1, 0)), ((0, 1), (1, 2)), 0, 0, None),
    (1, ((0, 1), (1, 0), (1, 0)), ((0, 1),), 0, 0, None),
    (0, ((0, 0), (1, 0), (0, 0)), ((0, 1),), 1, -1, [0]),
    (3, ((2, 2), (2, 2)), (), 1, -1, []),
    (3, ((2, 2), (2, 2)), ((0, 1),), 0, 1, None),
    (0, ((1, 1),), (), 1, -1, []),
    (0, ((0, 1), (1, 0)), (), 1, -1, []),
    (0, ((1000, 0),) * 256, (), 256000, -256000, []),
)

# More of the kind, by hand: both ends of what a spare count may be, both sides of 0, and needs that aren't the empty set's.
MORE = (
    (1000000, (), (), 0, 1000000, None),
    (1000000, ((0, 1000),) * 256, (), 0, 1000000, None),  # nothing is taken, and what is given doesn't count
    (1000000, ((1000, 0),) * 256, (), 0, 744000, None),
    (256001, ((1000, 0),) * 256, (), 0, 1, None),
    (256000, ((1000, 0),) * 256, (), 0, 0, None),
    (255999, ((1000, 0),) * 256, (), 1, -1, []),
    (5, ((1, 1), (1, 1)), ((0, 1),), 0, 4, None),  # one token serves the chain
    (5, ((1, 1), (1, 1)), (), 0, 3, None),
    (9, ((2, 0), (0, 0), (3, 1)), ((0, 1), (1, 2)), 0, 4, None),  # {0, 1} needs 5, the empty set 2
    (4, ((2, 0), (0, 0), (3, 1)), ((0, 1), (1, 2)), 1, -1, [0, 1]),
    (7, ((2, 0), (0, 3), (3, 0)), ((0, 1), (1, 2)), 0, 5, None),  # event 2 takes what event 1 gives
)

# The sheet of 78 bytes that document 01 lists, and its listing.
LISTED = Plan((1, 0, 0), (((1, 0, 0), (0, 1, 0)), ((0, 1, 0), (0, 0, 1))), (0, 0, 1), ((0, 2),))
LISTING = """\
plan events 3 pairs 1 free 2
place 0 open 1 end -1 spare -1
place 1 open 0 end 1 spare 0
place 2 open 0 end 1 spare 0
short 1 total 1
first 0 done none
"""

# the listings of the sheets in examples/, by hand
EXAMPLES = {
    "hold_sell": LISTING,
    "double_sale": """\
plan events 3 pairs 2 free 1
place 0 open 0 end -1 spare -1
place 1 open 0 end 2 spare 0
short 1 total 1
first 0 done 0
""",
    "hold_release_sell": """\
plan events 5 pairs 4 free 0
place 0 open 1 end 0 spare 0
place 1 open 0 end 0 spare 0
place 2 open 0 end 1 spare 0
short 0 total 0
runs
""",
    "seventh": """\
plan events 3 pairs 1 free 2
place 0 open 1 end 0 spare 0
short 0 total 0
runs
""",
    "cycle": "refused 11\n",
    "old_export": "refused 8\n",
}


def close_pairs(count):
    """Different pairs (a, b) of 256 events with a below b, the closest first."""
    pairs = [(a, a + gap) for gap in range(1, 256) for a in range(256 - gap)]
    return pairs[:count]


def with_places(count):
    return Plan([1] * count, [([1] * count, [0] * count)], [0], ())


def with_transitions(count):
    return Plan((0,), [((0,), (t % 1000,)) for t in range(count)], [count - 1], ())


def with_events(count):
    return Plan((0,), [((1,), (0,))], [0] * count, ())


def with_pairs(count):
    return Plan((0,), [((1,), (1,))], [0] * 256, close_pairs(count))


# how a count of items is reached and passed
COUNTED = ((64, with_places), (64, with_transitions), (256, with_events), (1024, with_pairs))


def at_the_limits():
    """Plans that reach one limit, and all of them at once."""
    for most, make in COUNTED:
        yield "%s %d" % (make.__name__, most), make(most)
    yield "an opening count of 1,000,000", one_place(1000000, ((1000, 0),) * 256, ())
    yield "weights of 1,000", one_place(999, ((1000, 1000), (1000, 1000)), ((0, 1),))
    full = [([1000] * 64, [1000] * 64)] * 64
    yield "every limit", Plan([1000000] * 64, full, [v % 64 for v in range(256)], close_pairs(1024))


def past_the_limits():
    """One more of each, with the fault that it draws."""
    for most, make in COUNTED:
        yield 2, "%s %d" % (make.__name__, most + 1), make(most + 1)
    yield 5, "an opening count of 1,000,001", one_place(1000001, ((1, 0),), ())
    yield 6, "a weight of 1,001 taken", one_place(0, ((1001, 0),), ())
    yield 6, "a weight of 1,001 given", one_place(0, ((0, 1001),), ())


# orders of n events whose pairs go from lower to higher numbers


def chain(draw, n):
    return [(v, v + 1) for v in range(n - 1)]


def antichain(draw, n):
    return []


def n_shape(draw, n):
    """Copies of the order of four events that is no series or parallel composition: 0 before 2, 0 before 3, 1 before 3."""
    return [(v + a, v + b) for v in range(0, n - 3, 4) for a, b in ((0, 2), (0, 3), (1, 3))]


def layers(draw, n):
    layer = sorted(draw.randrange(3) for _ in range(n))
    return [(a, b) for b in range(n) for a in range(b) if layer[a] + 1 == layer[b]]


def chains(draw, n):
    width = draw.randrange(1, 4)
    return [(v, v + width) for v in range(n - width)]


def tree(draw, n):
    return [(draw.randrange(v), v) for v in range(1, n)]


def scattered(draw, n):
    part = draw.random()
    return [(a, b) for b in range(n) for a in range(b) if draw.random() < part]


SHAPES = (chain, antichain, n_shape, layers, chains, tree, scattered)


def without_tokens(n, pairs):
    """A plan of n events without a place, for its order alone."""
    return Plan((), [((), ())], [0] * n, pairs)


def implied(n, pairs):
    """Pairs that the others imply."""
    before, given = without_tokens(n, pairs).is_before, set(pairs)
    return [(a, b) for a in range(n) for b in range(n) if before(a, b) and (a, b) not in given]


def renamed(draw, n, pairs):
    """The same order with the events numbered and the pairs given at random."""
    names = draw.sample(range(n), n)
    pairs = [(names[a], names[b]) for a, b in pairs]
    draw.shuffle(pairs)
    return pairs


def random_pairs(draw, n):
    pairs = draw.choice(SHAPES)(draw, n)
    more = implied(n, pairs)
    pairs += draw.sample(more, draw.randrange(len(more) + 1) if draw.random() < 0.5 else 0)
    return renamed(draw, n, pairs)


def random_plan(draw, most_events=8, most_places=4):
    """A plan of a few events. The opening counts lie around the least ones with which it runs, to either side, some of them far away."""
    n, places, kinds = draw.randrange(most_events + 1), draw.randrange(1, most_places + 1), draw.randrange(1, 6)
    weight = draw.choice((lambda: draw.randrange(2), lambda: draw.randrange(4), lambda: draw.choice((0, 0, 1, 3, 999, 1000))))
    transitions = [([weight() for _ in range(places)], [weight() for _ in range(places)]) for _ in range(kinds)]
    plan = Plan([0] * places, transitions, [draw.randrange(kinds) for _ in range(n)], random_pairs(draw, n))
    for p in range(places):
        far = draw.randrange(3, draw.choice((10, 1000, 1000000)))
        plan.opening[p] = min(1000000, max(0, plan.by_least_cut(p)[0] + draw.choice((-3, -2, -1, -1, 0, 0, 0, 1, 2, far, -far))))
    return plan


# ways to put an item at fault; a plan without such an item is left alone


def over_opening(draw, plan):
    plan.opening[draw.randrange(plan.places)] = 1000001


def over_weight(draw, plan):
    draw.choice(draw.choice(plan.transitions))[draw.randrange(plan.places)] = 1001


def no_transition(draw, plan):
    if plan.labels:
        plan.labels[draw.randrange(plan.events)] = len(plan.transitions)


def add_pair(draw, plan, pair):
    plan.pairs.insert(draw.randrange(len(plan.pairs) + 1), pair)


def no_event(draw, plan):
    other = draw.randrange(plan.events + 1)
    add_pair(draw, plan, draw.choice(((plan.events, other), (other, plan.events))))


def self_pair(draw, plan):
    if plan.events:
        add_pair(draw, plan, 2 * (draw.randrange(plan.events),))


def repeat(draw, plan):
    if plan.pairs:
        add_pair(draw, plan, draw.choice(plan.pairs))
