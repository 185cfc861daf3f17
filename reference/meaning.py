"""What policies do from one record to the next, the sets of positions that their runs come to, and the least history.

Packets that no policy tells apart are taken as one: a packet has for each field a range (low, high) of values, and what
is said of it holds of all values in the range alike. Where it doesn't, `Cut` says where the range has to be cut in two.
"""

from itertools import count, product
from math import prod

from policies import DUP, ID, Policy, leaves, mapped, parted, put, seq


class TooLarge(Exception):
    """There are more packets, copies or elements than this reference goes through."""


class Cut(Exception):
    """The answer isn't the same for all values of a field: those below this one have another."""

    def __init__(self, f, value):
        super().__init__(f, value)
        self.f, self.value = f, value


MOST = 4_000

# ----------------------------------------------------------------------------------------------------- packet spaces


def small(policy):
    """A policy of a size that is gone through."""
    if policy.size > MOST:
        raise TooLarge
    return policy


class Space:
    """The packets over the fields of a program, as far as these policies and, if asked for, ports tell them apart."""

    def __init__(self, program, *policies, with_ports=False):
        self.program = program
        cuts = [{0, largest + 1} for _, largest in program.fields]
        spoken = [leaf[1:] for policy in policies for leaf in leaves(parted(small(policy))) if leaf != DUP]
        spoken += [(f, n) for place in places(program) for f, n in enumerate(place)] if with_ports else []
        for f, *values in spoken:
            cuts[f] |= {cut for cut in (values[0], values[-1] + 1) if cut < max(cuts[f])}
        self.intervals = [[(low, high - 1) for low, high in zip(sorted(it), sorted(it)[1:])] for it in cuts]
        if prod(map(len, self.intervals)) > MOST:
            raise TooLarge

    def packets(self, fixed=None):
        """All packets, or those with the ranges of some fields fixed, in the order of packets: by fields in order."""
        fixed = fixed or {}
        return list(product(*[[fixed[f]] if f in fixed else its for f, its in enumerate(self.intervals)]))

    def located(self):
        """GLOSSARY, start packet: "a located untagged packet in range"; located: "at a declared port"."""
        found = [self.packets({0: (a, a), 1: (m, m), self.program.tag: (0, 0)}) for a, m in places(self.program)]
        return sorted(x for its in found for x in its)


def places(program):
    return [(switch, port) for switch, ports in program.switches.items() for port in ports]


def inside(x, f, low, high):
    """Whether the field of a packet is from low to high."""
    first, last = x[f]
    if low <= first and last <= high:
        return True
    if low > high or first > high or last < low:
        return False
    raise Cut(f, low if first < low else high + 1)


# ------------------------------------------------------------------------------------------------------------- walks


def keeps(predicate, x):
    """Whether a predicate keeps a packet. GUIDE 2: `~p` "keeps the packet if p doesn't keep it"; `+` "is "or"."""
    kind, *rest = predicate
    if kind == "sum":
        return any(keeps(part, x) for part in predicate.parts)
    if kind == "seq":
        return all(keeps(part, x) for part in predicate.parts)
    return not keeps(rest[0], x) if kind == "not" else inside(x, rest[0], rest[1], rest[-1])


def walk(policy, x):
    """Where the policy ends from x without a record, by the forms of GUIDE 2, "What it does with a packet"; and the
    packets that it can record first, each with its dup's number. GLOSSARY, RecordsAt: "a run so far"."""
    if policy.predicate:
        return {x} if keeps(policy, x) else set(), set()
    match policy:
        case ("dup", number):
            return set(), {(x, number)}
        case ("set", f, n):
            return {put(x, f, (n, n))}, set()
        case ("sum", parts):
            return walks(parts, [x])
        case ("seq", parts):
            ends, records = {x}, set()
            for part in parts:
                ends, more = walks([part], ends)
                records |= more
                if not ends:
                    break
            return ends, records
    ends, records, new = {x}, set(), {x}  # a star
    while new:
        new, more = walks(policy.parts, new)
        new, records = new - ends, records | more
        ends |= new
    return ends, records


def walks(policies, packets):
    """What all of some policies do from all of some packets."""
    ends, records = set(), set()
    for policy in policies:
        for x in packets:
            more_ends, more_records = walk(policy, x)
            ends |= more_ends
            records |= more_records
    return ends, records


def rests(policy):
    """GLOSSARY, after: "what is left of the policy after its dup l", by l."""
    if policy[0] == "dup":
        return {policy[1]: ID}
    found = {}
    for place, part in enumerate(policy.parts):
        following = {"seq": policy.parts[place + 1 :], "star": (policy,)}.get(policy[0], ())
        found |= {number: seq(rest, *following) for number, rest in rests(part).items()}
    return found


START = frozenset({0})


class Runs:
    """The runs of one policy, or of two that are compared, from packet to recorded packet.

    GLOSSARY, position: "0 at the start, l after the `dup` with the number l"; either_of: "the right policy's
    dups numbered on from the left policy's".
    """

    def __init__(self, *policies):
        dups = (Policy("dup", number) for number in count(1))
        self.sides = [mapped(parted(it), lambda leaf: next(dups) if leaf == DUP else leaf) for it in policies]
        self.split = len(rests(self.sides[0]))  # the last position of the left side
        self.rests = {number: rest for side in self.sides for number, rest in rests(side).items()}
        self.known = {}

    def step(self, at, x, side):
        """What a side does from a packet at a set of positions, as far as these are its own: as `walk` says."""
        ends, records = set(), set()
        for number in at:
            if number and side != (number > self.split):
                continue
            key = number, x, side
            if key not in self.known:
                self.known[key] = walk(self.rests[number] if number else self.sides[side], x)
            ends |= self.known[key][0]
            records |= self.known[key][1]
        return ends, records

    def ends(self, at, x, side=0):
        """The packets at which the side can end from the packet without a record."""
        return self.step(at, x, side)[0]

    def nexts(self, at, x):
        """Each packet that can be recorded next, with the set of the numbers of all dups that do so."""
        found = {}
        for side in range(len(self.sides)):
            for y, number in self.step(at, x, side)[1]:
                found[y] = found.get(y, frozenset()) | {number}
        return found

    def levels(self, starts, first=START):
        """Level by level, the pairs of a set of positions and a packet that no shorter list of records comes to, each
        with the least start and records that come to it."""
        level = {(first, x): (x,) for x in starts}
        seen = set(level)
        while level:
            yield level
            further = {}
            for at, way in sorted(level.items(), key=lambda it: it[1]):
                for y, numbers in self.nexts(*at).items():
                    if (numbers, y) not in seen:
                        further.setdefault((numbers, y), (*way, y))
            level = further
            seen |= set(level)

    def least(self, starts, bad, first=START):
        """The least history that ends at a bad packet: fewer records, then the lesser start, then packets in turn."""
        for level in self.levels(starts, first):
            found = [(way, min(bad(*at))) for at, way in level.items() if bad(*at)]
            if found:
                way, last = min(found)
                return way[0], way[1:], last
        return None

    def first_difference(self, starts, first=START):
        """PROMISES, nk_cert: "the least history that one of them alone has, with its start and its side": 0 or 1."""

        def alone(at, x):
            left, right = self.ends(at, x, 0), self.ends(at, x, 1)
            return {(y, int(y in right)) for y in left ^ right}

        return self.least(starts, alone, first)

    def position_sets(self, starts, every=1):
        """The sets of positions after the start, of each or every second level: by level, then as ascending lists."""
        found = []
        for level in list(self.levels(starts))[1::every]:
            found += sorted({tuple(sorted(at)) for at, _ in level} - set(found))
        return found
