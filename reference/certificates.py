"""The judge: whether a certificate is one, row by row, over packets of any number.

A row is judged for all packets at once, which are cut in two wherever a test or an assignment tells some of them apart.
"""

from itertools import permutations

from meaning import START, Cut, Runs, inside, keeps
from policies import put

PARTS = ["start", "finals", "hop", "valid"]


class Judge:
    """Judges the rows of a certificate for two policies."""

    def __init__(self, program, left, right, rows):
        self.runs, self.rows = Runs(left, right), {frozenset(positions): it for positions, it in rows.items()}
        self.everything = tuple((0, largest) for _, largest in program.fields)

    def answer(self):
        """REFERENCE, Certificates: "the first row that fails, the start row being row 1, and the first part in which it
        fails"."""
        for number, (positions, predicate) in enumerate(self.rows.items(), 1):
            part = self.failing_part(positions, predicate)
            if part != "valid":
                return f"invalid row {number}: {part}"
        return "valid"

    def failing_part(self, positions, predicate):
        """The first part that fails. REFERENCE, Certificates: "Four things are asked of each row, in this order"."""
        if not self.runs.rests.keys() >= positions:
            return "position"  # REFERENCE, Certificates: "its numbers are dups of the policies"
        found, packets = {"valid"}, [self.everything]
        while packets and "start" not in found:
            x = packets.pop()
            self.runs.known.clear()
            try:
                found.add(self.part_at(positions, predicate, x))
            except Cut as cut:
                low, high = x[cut.f]
                packets += [put(x, cut.f, (low, cut.value - 1)), put(x, cut.f, (cut.value, high))]
        return min(found, key=PARTS.index)

    def part_at(self, positions, predicate, x):
        """The first part that the row fails at a packet."""
        if not keeps(predicate, x):
            return "valid" if positions else "start"  # REFERENCE, Certificates: "the start row has all packets"
        at = positions or START
        left, right, nexts = self.runs.ends(at, x, 0), self.runs.ends(at, x, 1), self.runs.nexts(at, x)
        tell_apart(left | right)
        tell_apart(nexts)
        if left != right:
            return "finals"  # REFERENCE, Certificates: "both policies end, without a further record, at the same packets"
        # REFERENCE, Certificates: "Some row has exactly the numbers of the dups that record it, and the predicate
        # of this row keeps the recorded packet".
        met = [numbers in self.rows and keeps(self.rows[numbers], y) for y, numbers in nexts.items()]
        return "valid" if all(met) else "hop"


def tell_apart(packets):
    """Cuts where packets are the same for some values alone."""
    for y, z in permutations(packets, 2):
        if all(y[f][0] <= high and low <= y[f][1] for f, (low, high) in enumerate(z)):
            for f, values in enumerate(y):
                inside(z, f, *values)
