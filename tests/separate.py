"""A judge and a mender of sheets that share nothing with the code under test: the definitions of document 01, the mending of document 02's A1, the
faults with its A2, the spare count of its A3 and the free count of its A6, read off literally.

It walks all done sets of a plan, so it is for plans of a few events. `by_greatest_flow` is a second way to a place's spare and missing
counts and smallest done set, for plans of any size; tests/random_plans holds the two against each other. What it finds of a larger plan
counts only where `objection` has none: a done set and rows of flow, each held to the definitions, show the answer.
"""
import struct
from collections import deque
from functools import cached_property
from typing import NamedTuple, Optional

LIMITS = (64, 64, 256, 1024)  # places, transitions, events, pairs
MOST_BYTES = 21280
WALKED_EVENTS = 12  # up to so many events all done sets are walked


class Fault(NamedTuple):
    """The number of a fault and the item at fault: the number of a place, transition, event or pair, 0 where the fault has none."""
    number: int
    item: int = 0


NO_FAULT = Fault(0)


class Answer(NamedTuple):
    """Of a place: the opening count less the least one with which the plan runs there, the missing count, and where that is above 0 the done
    set contained in all others of the greatest lack, else None."""
    spare: int
    missing: int
    done: Optional[list]


def item_lengths(places):
    return (4, 4 * places, 2, 4)


def has_cycle(events, pairs):
    """Whether some event comes back to itself along pairs. From each event on, what is after it is looked up, step by step."""
    after = {v: {b for a, b in pairs if a == v} for v in range(events)}
    for start in range(events):
        met, edge = set(), after[start]
        while edge:
            met |= edge
            edge = set().union(*(after[v] for v in edge)) - met
        if start in met:
            return True
    return False


def first_at_fault(kinds):
    """The first fault of which something is true, as its number and the number of that item; `kinds` has a row of truth values for each."""
    for number, at_fault in kinds:
        if True in at_fault:
            return Fault(number, at_fault.index(True))
    return NO_FAULT


def fault_before_pairs(sheet):
    """The first that applies of 1, 2, 14 or 15, and 4 to 7, in this order. The item of 5 to 7 is the first one at fault."""
    if len(sheet) < 32:
        return Fault(1)
    words = struct.unpack_from("<8I", sheet)
    starts, counts = words[0::2], words[1::2]
    if any(count > limit for count, limit in zip(counts, LIMITS)):
        return Fault(2)
    places, transitions, events, pairs = counts
    due = 32
    for start, count, size in zip(starts, counts, item_lengths(places)):
        if start != due:
            return Fault(14 if start > due else 15)
        due = start + count * size
    if len(sheet) != due:
        return Fault(4)
    opening = struct.unpack_from("<%dI" % places, sheet, starts[0])
    weights = struct.unpack_from("<%dH" % (2 * places * transitions), sheet, starts[1])
    labels = struct.unpack_from("<%dH" % events, sheet, starts[2])
    return first_at_fault((
        (5, [count > 1000000 for count in opening]),
        (6, [any(weight > 1000 for weight in weights[2 * places * t:2 * places * (t + 1)]) for t in range(transitions)]),
        (7, [label >= transitions for label in labels]),
    ))


def fault(sheet):
    """That, then the first of 8 to 11. The item of 8 to 10 is the first pair at fault."""
    found = fault_before_pairs(sheet)
    if found != NO_FAULT:
        return found
    plan = read(sheet)
    found = first_at_fault((
        (8, [a >= plan.events or b >= plan.events for a, b in plan.pairs]),
        (9, [a == b for a, b in plan.pairs]),
        (10, [pair in plan.pairs[:i] for i, pair in enumerate(plan.pairs)]),
    ))
    return Fault(11) if found == NO_FAULT and has_cycle(plan.events, plan.pairs) else found


class Mended(NamedTuple):
    """Of a sheet that can be mended: why each given pair is dropped, 0 for one that is kept, and the clean sheet. None of a refused one."""
    fault: Fault
    reasons: Optional[list] = None
    clean: Optional[bytes] = None


def reason(events, pairs, i):
    """Why pair i is dropped: 1 it names no event, 2 it is of an event with itself, 3 it repeats an earlier one; 0 if it is kept."""
    a, b = pairs[i]
    if a >= events or b >= events:
        return 1
    if a == b:
        return 2
    return 3 if (a, b) in pairs[:i] else 0


def mend(sheet):
    """The rules of document 02's A1, but for the rows that are lent."""
    found = fault_before_pairs(sheet)
    if found != NO_FAULT:
        return Mended(found)
    plan = read(sheet)
    reasons = [reason(plan.events, plan.pairs, i) for i in range(len(plan.pairs))]
    kept = [pair for pair, why in zip(plan.pairs, reasons) if why == 0]
    if has_cycle(plan.events, kept):
        return Mended(Fault(11))
    return Mended(NO_FAULT, reasons, Plan(plan.opening, plan.transitions, plan.labels, kept).sheet())


def read(sheet):
    """The plan of a sheet that has none of the faults before those of pairs."""
    places, transitions, events, pairs = struct.unpack_from("<8I", sheet)[1::2]
    numbers = struct.unpack_from("<%dI%dH" % (places, 2 * places * transitions + events + 2 * pairs), sheet, 32)
    opening, rest = numbers[:places], numbers[places:]
    rows = [rest[2 * places * t:2 * places * (t + 1)] for t in range(transitions)]
    rest = rest[2 * places * transitions:]
    ends = rest[events:]
    return Plan(opening, [(row[:places], row[places:]) for row in rows], rest[:events], list(zip(ends[0::2], ends[1::2])))


class Plan:
    """A net and a plan. Transitions are (takes, gives), each a number for every place. Sets of events are bits of a number."""

    def __init__(self, opening, transitions, labels, pairs):
        self.opening, self.transitions = list(opening), [(list(takes), list(gives)) for takes, gives in transitions]
        self.labels, self.pairs = list(labels), list(pairs)
        self.places, self.events = len(self.opening), len(self.labels)

    def sheet(self):
        counts = (self.places, len(self.transitions), self.events, len(self.pairs))
        start, table = 32, []
        for count, size in zip(counts, item_lengths(self.places)):
            table += [start, count]
            start += count * size
        weights = [weight for takes, gives in self.transitions for weight in takes + gives]
        ends = [event for pair in self.pairs for event in pair]
        halves = weights + self.labels + ends
        return struct.pack("<8I%dI%dH" % (self.places, len(halves)), *table, *self.opening, *halves)

    def takes(self, event, place):
        return self.transitions[self.labels[event]][0][place]

    def gives(self, event, place):
        return self.transitions[self.labels[event]][1][place]

    @cached_property
    def predecessors(self):
        """For each event, the set of all events before it: from each one, whatever can be reached by pairs."""
        after = {}
        for a, b in self.pairs:
            after.setdefault(a, []).append(b)
        sets = [0] * self.events
        for start in range(self.events):
            reached, found = set(), [start]
            while found:
                for b in after.get(found.pop(), ()):
                    if b not in reached:
                        reached.add(b)
                        found.append(b)
            for b in reached:
                sets[b] |= 1 << start
        return sets

    def is_before(self, a, b):
        return self.predecessors[b] >> a & 1 == 1

    @cached_property
    def skeleton(self):
        """The pairs between whose ends no event lies."""
        return {(a, b) for a, b in self.pairs if not any(self.is_before(a, v) and self.is_before(v, b) for v in range(self.events))}

    @property
    def free(self):
        """How many unordered pairs of two events are free of each other: neither is before the other."""
        unordered = ((a, b) for b in range(self.events) for a in range(b))
        return sum(not self.is_before(a, b) and not self.is_before(b, a) for a, b in unordered)

    # all done sets

    @cached_property
    def done_sets(self):
        """Each done set with its members and its front, as lists."""
        found = []
        for done in range(1 << self.events):
            inside = [v for v in range(self.events) if done >> v & 1]
            if all(self.predecessors[v] & ~done == 0 for v in inside):
                front = [v for v in range(self.events) if not done >> v & 1 and self.predecessors[v] & ~done == 0]
                found.append((done, inside, front))
        return found

    def tokens(self, place, inside):
        return self.opening[place] + sum(self.gives(v, place) - self.takes(v, place) for v in inside)

    def lack(self, place, inside, front):
        return sum(self.takes(v, place) for v in front) - self.tokens(place, inside)

    def need(self, place, inside, front):
        """Takes of a done set's members and of its front, less gives of its members: the least opening count with which it lacks nothing."""
        return sum(self.takes(v, place) for v in inside + front) - sum(self.gives(v, place) for v in inside)

    def by_done_sets(self, place):
        """The spare count by what done sets need. By what they lack, whatever the spare count: the missing count and the smallest done set."""
        spare = self.opening[place] - max(self.need(place, inside, front) for _, inside, front in self.done_sets)
        lacks = {done: self.lack(place, inside, front) for done, inside, front in self.done_sets}
        most = max(lacks.values())
        if most <= 0:
            return Answer(spare, 0, None)
        greatest = [done for done, lack in lacks.items() if lack == most]
        smallest = greatest[0]
        for done in greatest:
            smallest &= done
        if smallest not in greatest:
            raise AssertionError("no done set of the greatest lack is contained in all the others")
        return Answer(spare, most, [v for v in range(self.events) if smallest >> v & 1])

    def end(self, place):
        return self.tokens(place, range(self.events))

    # plans of any size

    def network(self, place, pairs):
        """To choose sets D within U such that what is before U is in D, with the greatest takes of U less gives of D, is to find a least
        cut: source to top(v) with what v takes, top(v) to bottom(u) for u before v and bottom(v) to top(v) without limit, bottom(v) to
        sink with what v gives. Returns the network, the arcs from its source by events, and those of the pairs."""
        network, source, sink = Network(2 * self.events + 2), 2 * self.events, 2 * self.events + 1
        taken = [network.add(source, v, self.takes(v, place)) for v in range(self.events)]
        for v in range(self.events):
            network.add(self.events + v, sink, self.gives(v, place))
            network.add(self.events + v, v, None)
        drawn = {(a, b): network.add(b, self.events + a, None) for a, b in pairs}
        return network, taken, drawn

    def by_least_cut(self, place):
        """The least opening count with which the plan runs at a place, and the smallest done set that needs it, by the least cut that has the
        least on the source's side."""
        network, _, _ = self.network(place, self.pairs)
        total = sum(self.takes(v, place) for v in range(self.events))
        least = total - network.greatest_flow(2 * self.events, 2 * self.events + 1)
        reached = network.levels(2 * self.events)
        return least, [v for v in range(self.events) if reached[self.events + v] is not None]

    def by_greatest_flow(self, place):
        """What `by_done_sets` finds, by a least cut."""
        least, done = self.by_least_cut(place)
        spare = self.opening[place] - least
        return Answer(spare, -spare, done) if spare < 0 else Answer(spare, 0, None)

    def judge(self, place):
        if self.events <= WALKED_EVENTS:
            return self.by_done_sets(place)
        answer = self.by_greatest_flow(place)
        against = self.objection(place, answer)
        if against:
            raise AssertionError("place %d: the greatest flow says %s: %s" % (place, answer, against))
        return answer

    # what shows an answer, whoever found it

    def flow_row(self, place):
        """A row on the skeleton pairs, with shares for whatever is taken and not drawn. Nothing is assumed of it."""
        network, taken, drawn = self.network(place, self.skeleton)
        network.greatest_flow(2 * self.events, 2 * self.events + 1)
        flow = [network.through(drawn[pair]) if pair in drawn else 0 for pair in self.pairs]
        return flow + [self.takes(v, place) - network.through(taken[v]) for v in range(self.events)]

    def giving_more(self, event, place, amount):
        """The plan with an event that gives more to a place."""
        takes, gives = self.transitions[self.labels[event]]
        more = [given + (amount if p == place else 0) for p, given in enumerate(gives)]
        labels = [len(self.transitions) if v == event else label for v, label in enumerate(self.labels)]
        plan = Plan(self.opening, self.transitions + [(takes, more)], labels, self.pairs)
        plan.predecessors, plan.skeleton = self.predecessors, self.skeleton
        return plan

    def flow_found(self, place):
        """A flow otherwise valid. No done set needs more than its shares' sum, so none lacks more than it overruns."""
        row = self.flow_row(place)
        if not self.is_otherwise_valid(place, row):
            raise AssertionError("place %d: the row %s isn't a flow otherwise valid" % (place, row))
        return row

    def objection(self, place, answer):
        """What speaks against an answer; None where it is shown to be right. An upper bound: no done set needs more than the shares of a flow
        otherwise valid sum to. A lower one: need and lack of the done set handed over, or where nothing is missing, of one that a least cut
        finds. And a done set handed over is within all others of that lack if each of its last events is in all of them: if that event gave so
        much that no done set with it lacks, no other would lack as many either."""
        spare, missing, done = answer
        least = self.opening[place] - spare
        if self.shares_sum(self.flow_found(place)) > least:
            return "no flow has shares of so small a sum"
        if (done is None) != (missing == 0):
            return "a done set belongs to what is missing, and to nothing else"
        shown = self.by_least_cut(place)[1] if done is None else done
        inside = sum(1 << v for v in shown)
        if any(self.predecessors[v] & ~inside for v in shown):
            return "that is no done set"
        front = [v for v in range(self.events) if not inside >> v & 1 and self.predecessors[v] & ~inside == 0]
        if self.need(place, shown, front) != least:
            return "that isn't what the done set needs"
        if max(0, self.lack(place, shown, front)) != missing:
            return "that isn't the lack of the done set"
        enough = 1 + sum(self.takes(v, place) for v in range(self.events))
        for last in done or ():
            if not any(self.is_before(last, v) for v in done):
                more = self.giving_more(last, place, enough)
                if more.overrun(place, more.flow_found(place)) >= missing:
                    return "as many may lack without event %d" % last
        return None

    # compact tokenflow

    def flow_length(self):
        return len(self.pairs) + self.events

    def is_otherwise_valid(self, place, row):
        """Rules 1, 2 and 4."""
        flow, shares = row[:len(self.pairs)], row[len(self.pairs):self.flow_length()]
        arrives = list(shares)
        leaves = [0] * self.events
        for (a, b), amount in zip(self.pairs, flow):
            leaves[a] += amount
            arrives[b] += amount
        rule1 = all(arrives[v] >= self.takes(v, place) for v in range(self.events))
        rule2 = all(leaves[v] <= arrives[v] - self.takes(v, place) + self.gives(v, place) for v in range(self.events))
        rule4 = all(amount == 0 or pair in self.skeleton for pair, amount in zip(self.pairs, flow))
        return rule1 and rule2 and rule4 and min(row[:self.flow_length()], default=0) >= 0

    def shares_sum(self, row):
        return sum(row[len(self.pairs):self.flow_length()])

    def overrun(self, place, row):
        return max(0, self.shares_sum(row) - self.opening[place])

    def is_valid(self, place, row):
        """Rules 1 to 4."""
        return self.is_otherwise_valid(place, row) and self.overrun(place, row) == 0


class Network:
    """Dinic's greatest flow. Arc i and arc i ^ 1 are each other's reverse; None is no limit."""

    def __init__(self, nodes):
        self.arcs, self.head, self.left = [[] for _ in range(nodes)], [], []

    def add(self, a, b, capacity):
        """Returns the arc."""
        for tail, head, left in ((a, b, float("inf") if capacity is None else capacity), (b, a, 0)):
            self.arcs[tail].append(len(self.head))
            self.head.append(head)
            self.left.append(left)
        return len(self.head) - 2

    def through(self, arc):
        """What flows through an arc."""
        return self.left[arc ^ 1]

    def levels(self, source):
        level, queue = [None] * len(self.arcs), deque([source])
        level[source] = 0
        while queue:
            v = queue.popleft()
            for i in self.arcs[v]:
                if self.left[i] > 0 and level[self.head[i]] is None:
                    level[self.head[i]] = level[v] + 1
                    queue.append(self.head[i])
        return level

    def path(self, source, sink, level, untried):
        """The arcs of one way from level to level; dead ends are never tried again."""
        arcs, v = [], source
        while v != sink:
            while untried[v] and not (self.left[untried[v][-1]] > 0 and level[self.head[untried[v][-1]]] == level[v] + 1):
                untried[v].pop()
            if untried[v]:
                arcs.append(untried[v][-1])
                v = self.head[arcs[-1]]
            elif arcs:
                v = self.head[arcs.pop() ^ 1]
                untried[v].pop()
            else:
                return None
        return arcs

    def greatest_flow(self, source, sink):
        total, level = 0, self.levels(source)
        while level[sink] is not None:
            untried = [list(arcs) for arcs in self.arcs]
            arcs = self.path(source, sink, level, untried)
            while arcs is not None:
                amount = min(self.left[i] for i in arcs)
                for i in arcs:
                    self.left[i] -= amount
                    self.left[i ^ 1] += amount
                total += amount
                arcs = self.path(source, sink, level, untried)
            level = self.levels(source)
        return total


def listing(sheet):
    """What the listing program has to print for these bytes."""
    found = fault(sheet)
    if found != NO_FAULT:
        return "refused %d\n" % found.number
    plan = read(sheet)
    return listing_of(plan, [plan.judge(p) for p in range(plan.places)])


def listing_of(plan, answers):
    """The listing of a plan whose places are judged."""
    lines = ["plan events %d pairs %d free %d" % (plan.events, len(plan.pairs), plan.free)]
    for p, answer in enumerate(answers):
        lines.append("place %d open %d end %d spare %d" % (p, plan.opening[p], plan.end(p), answer.spare))
    short = [p for p, answer in enumerate(answers) if answer.missing > 0]
    lines.append("short %d total %d" % (len(short), sum(answer.missing for answer in answers)))
    if short:
        lines.append("first %d done %s" % (short[0], " ".join(map(str, answers[short[0]].done)) or "none"))
    else:
        lines.append("runs")
    return "".join(line + "\n" for line in lines)
