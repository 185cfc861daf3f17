"""What is printed of policies to the byte: certificates and tables, by the reduced tree over all packets."""

from meaning import START, Runs
from policies import DROP, ID, Policy, seq
from tables import digits_of

# ------------------------------------------------------------------------------------------------------------- trees


def tree_of(space, tested, leaf, fixed):
    """The reduced tree of a function of packets, over some fields in order: ("leaf", value) or ("node", f, parts)."""
    if not tested:
        return ("leaf", leaf(space.packets(fixed)[0]))
    parts, f = [], tested[0]
    for low, high in space.intervals[f]:
        child = tree_of(space, tested[1:], leaf, fixed | {f: (low, high)})
        if parts and parts[-1][2] == child:
            low = parts.pop()[0]
        parts.append((low, high, child))
    return parts[0][2] if len(parts) == 1 else ("node", f, tuple(parts))


def else_child(parts):
    """GLOSSARY, else-child: "the child with the most values of a field; on a tie the child of the least value"."""
    sizes = {}
    for low, high, child in parts:
        sizes[child] = sizes.get(child, 0) + high - low + 1
    return max(sizes, key=sizes.get)


# ------------------------------------------------------------------------------------------------------ certificates


def set_policy(tree):
    """The predicate that is printed for a set of packets: a term for each interval that the else-child doesn't have."""
    if tree[0] == "leaf":
        return ID if tree[1] else DROP
    _, f, parts = tree
    other = else_child(parts)
    named = [(Policy("range", f, low, high), child) for low, high, child in parts if child != other]
    tests = tuple(it for it, _ in named)
    named.append((Policy("not", tests[0] if len(tests) == 1 else Policy("sum", tests)), other))
    kept = [(it, set_policy(child)) for it, child in named if child != ("leaf", False)]
    terms = tuple(it if child == ID else seq(it, child) for it, child in kept)
    return terms[0] if len(terms) == 1 else Policy("sum", terms)


def predicate_text(fields, policy, outer=()):
    """The text of a predicate: sums are joined by ` + `, sequences by `;`, in parentheses inside some others."""
    match policy:
        case ("range", f, low, high):
            return f"{fields[f][0]}={low}" if low == high else f"{fields[f][0]} in {low}..{high}"
        case ("not", inner):
            return "~" + predicate_text(fields, inner, ("sum", "seq"))
    kind, parts = policy
    if not parts:
        return "drop" if kind == "sum" else "id"
    sign, inside = (" + ", ("sum",)) if kind == "sum" else (";", ("sum", "seq"))
    text = sign.join(predicate_text(fields, part, inside) for part in parts)
    return f"({text})" if kind in outer else text


def certificate(space, runs):
    """REFERENCE, Certificates: "a row for each set of numbers that runs come to. The predicate of the row keeps exactly
    the packets at which runs come to the set"."""
    met = {}
    for level in list(runs.levels(space.packets()))[1:]:
        for at, x in level:
            met.setdefault(at, set()).add(x)
    lines = ["certificate", "row start : id"]
    for numbers in runs.position_sets(space.packets()):
        tree = tree_of(space, range(len(space.intervals)), met[frozenset(numbers)].__contains__, {})
        lines.append(f"row {' '.join(map(str, numbers))} : {predicate_text(space.program.fields, set_policy(tree))}")
    return lines


# ------------------------------------------------------------------------------------------------------------ tables


def tag_sets(space, runs):
    """GLOSSARY, IsTagSet: the last numbers "after an odd number of records from a start packet; the tag sets in
    order"."""
    return [frozenset(it) for it in runs.position_sets(space.located(), every=2)]


def classes(space, policy, sets):
    """README, The commands: "one tag for all tag sets after which the policy gives the same histories"; what
    distinguishes two tags."""
    runs = Runs(policy, policy)
    firsts, numbers, aparts = [], [], {}
    for at in sets:
        told = {}
        for number, first in enumerate(firsts, 1):
            both = after_link(first) | {runs.split + position for position in after_link(at)}
            told[number] = runs.first_difference(space.packets(), both)
        same = [number for number, it in told.items() if it is None]
        if not same:
            firsts.append(at)
            aparts |= {(number, len(firsts)): it for number, it in told.items()}
        numbers.append(same[0] if same else len(firsts))
    return numbers, aparts


def after_link(at):
    """The positions after a link, of those before its second dup."""
    return at if at == START else frozenset(number + 1 for number in at)


class Compiled:
    """The tables of an accepted policy, whose tag sets have these numbers as tags."""

    def __init__(self, space, runs, tags):
        self.space, self.runs, self.tags = space, runs, tags
        self.program, self.fields, self.tag = space.program, space.program.fields, space.program.tag
        self.matched = [f for f in range(1, len(self.fields)) if f != self.tag]
        self.met = {at: set() for at in tags}  # the packets after the link of each tag set
        for at, x in [it for level in runs.levels(space.located()) for it in level if it[0] in tags]:
            self.met[at] |= set(runs.nexts(at, x))
        self.sections = {switch: self.section(switch) for switch in sorted(self.program.switches)}

    def section(self, switch):
        """The rows of a switch as (tag, matches, buckets): tag 0 for packets that enter, then those of each tag."""
        rows = self.tag_rows(switch, 0, [START])
        for tag in sorted(set(self.tags.values())):
            members = [at for at in self.tags if self.tags[at] == tag]
            if any(y[0] == (switch, switch) for at in members for y in self.met[at]):
                rows += self.tag_rows(switch, tag, members)
        return rows

    def tag_rows(self, switch, tag, members):
        """PROMISES, Statuses 0 and 1, by command: "the first tag set of the class under which the packet is met there.
        If the packet is met under none, the first tag set of the class acts"."""

        def leaf(x):
            member = next((at for at in members if x in self.met.get(at, ())), members[0])
            return self.buckets(after_link(member), x)

        tree = tree_of(self.space, self.matched, leaf, {0: (switch, switch), self.tag: (0, 0)})
        return [(tag, *row) for row in self.rows(tree, (), False)]

    def buckets(self, at, x):
        """A bucket for each result. DECISIONS, Tables and their texts: "Bucket lists are ordered by act and then
        target"."""
        results = [(y, 0) for y in self.runs.ends(at, x)]
        results += [(y, self.tags[to]) for y, to in self.runs.nexts(at, x).items() if to in self.tags]
        return tuple(sorted((tuple((f, y[f][0]) for f in self.matched if y[f] != x[f]), tag) for y, tag in results))

    def rows(self, tree, matches, shown):
        """A row for each way through the tree, by blocks ascending, the else-child last; drop rows where needed."""
        if tree[0] == "leaf":
            return [(matches, tree[1])] if tree[1] or shown else []
        _, f, parts = tree
        other, rows = else_child(parts), []
        for low, high, child in parts:
            for block in blocks(low, high, self.fields[f][1]) if child != other else ():
                rows += self.rows(child, (*matches, (f, *block)), shown or other != ("leaf", ()))
        return rows + self.rows(other, matches, shown)

    # The text.

    def lines(self):
        matches = [match for rows in self.sections.values() for _, row, _ in rows for match in row]
        lines = [f"tables {2 if any('/' in self.match_text(*match) for match in matches) else 1}"]
        lines += declaration_lines(self.program)
        for switch, rows in self.sections.items():
            groups = list(dict.fromkeys(buckets for _, _, buckets in rows if len(buckets) > 1))
            lines.append(f"table {switch}")
            lines += [f"group {it} = {' '.join(map(self.bucket_text, group))}" for it, group in enumerate(groups, 1)]
            lines += [self.row_text(groups, *row) for row in rows]
        return lines

    def row_text(self, groups, tag, matches, buckets):
        """The priority has one bit for each field that could be matched, the last field's being 1."""
        priority = sum(2 ** (len(self.matched) - 1 - self.matched.index(f)) for f, _, _ in matches)
        words = [f"{self.fields[self.tag][0]}={tag}", *[self.match_text(*match) for match in matches]]
        target = self.bucket_text(buckets[0]) if buckets else "drop"
        if buckets in groups:
            target = f"group {groups.index(buckets) + 1}"
        return f"row {priority} : {' '.join(words)} -> {target}"

    def match_text(self, f, value, length):
        name, largest = self.fields[f]
        return f"{name}={value}" if length == digits_of(largest) else f"{name}={value}/{length}"

    def bucket_text(self, bucket):
        """The fields in order, the tag last, then `out in` where the port is the same."""
        sets, tag = dict(bucket[0]), bucket[1]
        words = [f"{self.fields[f][0]}:={n}" for f, n in sets.items() if f > 1] + [f"{self.fields[self.tag][0]}:={tag}"]
        return f"[{' '.join(words)} out {sets.get(1, 'in')}]"


def blocks(low, high, largest):
    """PROMISES, nk_prefix: "from the first value on, it takes the largest block of a power of two that begins there and
    fits"."""
    digits, found = digits_of(largest), []
    top = 2**digits - 1 if low < high == largest else high
    while low <= high:
        size = 2**digits
        while low % size or low + size - 1 > top:
            size //= 2
        found.append((low, digits - size.bit_length() + 1))
        low += size
    return found


def declaration_lines(program):
    lines = [f"field {name} {largest}" for name, largest in program.fields[2:]]
    lines.append(f"tag {program.fields[program.tag][0]}")
    for switch, ports in sorted(program.switches.items()):
        lines.append(f"switch {switch} ports {','.join(map(str, sorted(ports)))}")
    return lines + [f"link {a}:{m} -> {b}:{n}" for (a, m), (b, n) in sorted(program.links.items())]
