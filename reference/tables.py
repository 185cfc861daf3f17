"""Table texts, and what tables do with a packet at one switch."""

from typing import NamedTuple

from policies import put
from texts import Fault, Program, Reader, declared, demand, in_range, tokens_of


class Bucket(NamedTuple):
    """What is done to a copy: the assignments by field, then the port that it is sent out of, None for `out in`."""

    sets: dict
    port: int


class TableRow(NamedTuple):
    """A match is (field, value, length of the prefix); the buckets are the row's or its group's, none for `drop`."""

    priority: int
    matches: list
    buckets: list


def digits_of(largest):
    """REFERENCE, Table texts: "A field has as many binary digits as its largest value, at least one"."""
    return max(1, largest.bit_length())


# -------------------------------------------------------------------------------------------------------------- texts


def parse_tables(text):
    """REFERENCE, Refusals and faults: "A table text breaks a rule of tables"; "of the first number or name at fault ..
    Where no tag is declared: of the last token"."""
    tokens = tokens_of(text)
    _, version, *declarations = Reader(tokens).whole("table-text")
    tables = Tables(version)
    try:
        require(version in ("1", "2"), version)
        declared(tables, declarations)
        require(tables.tag is not None, tokens[-1])
    except Fault as fault:
        raise Fault(fault.line, "table fault") from None
    return tables


def require(holds, token):
    demand(holds, token, "table fault")


class Tables(Program):
    """The declarations of a table text, and the rows of each switch that has some."""

    def __init__(self, version):
        super().__init__()
        self.version, self.rows = version, {}

    def declare(self, declaration):
        """A table: a number that isn't declared or is twice, a second section of a switch; or another declaration."""
        if declaration[0] != "table":
            return super().declare(declaration)
        _, number, *lines = declaration
        require(int(number) in self.switches and int(number) not in self.rows, number)
        groups, rows = {}, self.rows.setdefault(int(number), [])
        for line in lines:
            if line[0] == "group":
                _, name, _, *buckets = line
                require(int(name) > 0 and int(name) not in groups, name)
                groups[int(name)] = list(map(self.bucket, buckets))
            else:
                rows.append(self.row(groups, *line[1:]))
        return None

    def row(self, groups, priority, *matches_and_target):
        """A priority is at most 65,535; a group is one of the same section."""
        *matches, target = matches_and_target
        in_range(priority)
        if matches and matches[-1] == "group":
            matches.pop()
        matched = []
        for match in matches:
            matched.append(self.match([f for f, _, _ in matched], *match))
        if isinstance(target, list):
            return TableRow(int(priority), matched, [self.bucket(target)])
        require(target == "drop" or int(target) in groups, target)
        return TableRow(int(priority), matched, [] if target == "drop" else groups[int(target)])

    def match(self, matched, name, _, value, *prefix):
        """A value out of range, a `/` in a text of version 1, a length that is none of its field, ones after it."""
        f = self.field(name, matched, {0})
        digits = digits_of(self.fields[f][1])
        in_range(value, self.fields[f][1])
        if not prefix:
            return (f, int(value), digits)
        length = int(prefix[1])
        require(self.version == "2" and 1 <= length <= digits, prefix[1])
        require(int(value) % 2 ** (digits - length) == 0, value)
        return (f, int(value), length)

    def bucket(self, found):
        """A bucket names each field at most once and never `sw` or `pt`; a port is at most 65,535."""
        *words, _, port = found
        sets = {}
        for name, value in zip(words[::3], words[2::3]):
            f = self.field(name, sets, {0, 1})
            sets[f] = in_range(value, self.fields[f][1])
        return Bucket(sets, None if port == "in" else in_range(port))

    def field(self, name, used, never):
        """A field that is declared, isn't one of those that are never named here, and isn't named twice."""
        f = self.find(name)
        require(f is not None and f not in used and f not in never, name)
        return f


# -------------------------------------------------------------------------------------------------------------- a step


def emitted(tables, rows, packet):
    """GUIDE 4: "Of all rows that match a packet, the row with the highest priority acts. If no row matches, the packet
    is dropped". PROMISES, nk_table: "a tie drops"."""
    matching = [row for row in rows if all(agrees(tables, it, packet) for it in row.matches)]
    highest = max((row.priority for row in matching), default=None)
    acting = [row for row in matching if row.priority == highest]
    return [copy for it in acting[0].buckets for copy in sent(it, packet)] if len(acting) == 1 else []


def agrees(tables, match, packet):
    """GUIDE 4: A match "`f=v/len`, a *prefix*, matches all values that have the same first len binary digits as v"."""
    f, value, length = match
    rest = digits_of(tables.fields[f][1]) - length
    return packet[f] >> rest == value >> rest


def sent(bucket, packet):
    """PROMISES, nk_table: "a copy goes back by `out in` alone", by the number of its own port nothing is sent."""
    if bucket.port == packet[1]:
        return []
    copy = packet if bucket.port is None else put(packet, 1, bucket.port)
    for f, n in bucket.sets.items():
        copy = put(copy, f, n)
    return [copy]
