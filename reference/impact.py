"""What `nk_impact` answers: the packets from which either of two policies has a history that the other one hasn't; and
whether an answer is so by the histories of both, and by what `equal` says."""

import re
from functools import lru_cache

from histories import histories
from meaning import Cut, Runs, Space, TooLarge, keeps
from printed import predicate_text, set_policy, tree_of
from refusals import packet_text, policies
from texts import parse_program
from words import MOST_BYTES, replied

MOST_PACKETS = 600
MOST_RECORDS = 2  # of the histories that are listed
NAMES = "left_alone", "right_alone"


class Impact:
    """The packets that two policies of a text differ on."""

    def __init__(self, text, *names):
        self.program = parse_program(text)
        self.sides = policies(self.program, *names)
        self.space, runs = Space(self.program, *self.sides), Runs(*self.sides)
        self.packets = self.space.packets()
        if len(self.packets) > MOST_PACKETS:
            raise TooLarge
        found = [{x: fewest(runs, x, side) for x in self.packets} for side in (0, 1)]
        # For each side its packets, with the fewest records of a history from there.
        self.alone = [{x: count for x, count in its.items() if count is not None} for its in found]

    def lines(self):
        """REFERENCE, nk_impact: "Each predicate is printed as in a row of a certificate"."""
        for name, its in zip(NAMES, self.alone):
            tree = tree_of(self.space, range(len(self.space.intervals)), its.__contains__, {})
            yield f"let {name} = {predicate_text(self.program.fields, set_policy(tree))}"


def fewest(runs, x, side):
    """The fewest records of a history from a packet that a side alone has, or None: by all pairs of a set of positions
    and a packet that lists of records from there come to."""
    for count, level in enumerate(runs.levels([x])):
        if any(runs.ends(at, y, side) - runs.ends(at, y, 1 - side) for at, y in level):
            return count
    return None


@lru_cache(maxsize=2)
def impact_of(text, *names):
    return Impact(text, *names)


def answer_impact(text, *names):
    """`same` where neither policy has a history of its own, else a predicate for each."""
    impact = impact_of(text, *names)
    return (1, list(impact.lines())) if any(impact.alone) else (0, ["same"])


def answer_words(words, text):
    """The status, and the bytes on standard output and on standard error."""
    if len(words) != 2 or re.search("[\ud800-\udfff]", "".join(words)):
        return 2, b"", b"usage: nk_impact LEFT RIGHT\n"
    return replied(answer_impact, text, *words) if len(text) <= MOST_BYTES else (8, b"", b"too long\n")


# ----------------------------------------------------------------------------------------------- judging an answer


def wrong_in(names, text, told, ask):
    """What is wrong with an answer of status 0 or 1, else None; nk is asked by `ask`."""
    impact, (status, out, _) = impact_of(text, *names), told
    out = out if status else b"let left_alone = drop let right_alone = drop"
    wrong = wrong_predicates(impact, text + b"\n" + out) or wrong_histories(impact)
    return wrong or wrong_equal(impact, names, text, out, ask)


def wrong_predicates(impact, text):
    """Whether the printed predicates, read again, keep other packets than those that the policies differ on."""
    printed = parse_program(text).lets
    try:
        kept = [{x for x in impact.packets if keeps(printed[name], x)} for name in NAMES]
    except Cut:
        kept = None
    return None if kept == [set(its) for its in impact.alone] else "a predicate of other packets"


def wrong_histories(impact):
    """Whether histories up to some records are a policy's own from other packets than these, or others are shortest."""
    for x in impact.packets:
        start = tuple(low for low, _ in x)
        both = [histories(policy, start, MOST_RECORDS) for policy in impact.sides]
        for side, its in enumerate(impact.alone):
            shortest = min((len(records) for records, _ in both[side] - both[1 - side]), default=None)
            if shortest != (its[x] if its.get(x, 9) <= MOST_RECORDS else None):
                return "packets that aren't so by the histories"
    return None


def wrong_equal(impact, names, text, out, ask):
    """Whether `equal` says something else: of both policies outside of the predicates, or of the packet with the
    shortest history, the least of those."""
    lets = [f"let {name}_outside = ~(left_alone + right_alone);{name}".encode() for name in sorted(set(names))]
    if ask(["equal", *(f"{name}_outside" for name in names)], b"\n".join([text, out, *lets]))[0] != 0:
        return "policies that differ outside of the predicates"
    said = ask(["equal", *names], text)[1].decode().splitlines()
    starts = sorted((count, x) for its in impact.alone for x, count in its.items())
    first = [packet_text(impact.program, [low for low, _ in x]) for _, x in starts[:1]]
    return None if [it[6:] for it in said if it.startswith("start ")] == first else "another start than that of equal"
