"""Policies as trees.

A policy is a tuple of its kind and its parts. A field is a number: 0 is `sw`, 1 is `pt`, then the declared ones.
    ("test", f, n)  ("range", f, low, high)  ("set", f, n)  ("dup",)  ("link", a, m, b, n)
    ("sum", parts)  ("seq", parts)  ("not", p)  ("star", p)          `id` is the empty seq, `drop` the empty sum
Behind ("not", p) stands the line of its `~`, if it has one.
"""


class Policy(tuple):
    """A policy with its measures. The depth of a leaf is 1, else 1 more than that of the deepest part; the size is how
    many elements there are; a predicate is made of tests, ranges, and sums, sequences and complements of predicates.
    The fault is the line of the first `~` that stands over what is no predicate."""

    def __new__(cls, kind, *rest):
        made = super().__new__(cls, (kind, *rest))
        made.parts = rest[0] if kind in ("sum", "seq") else rest[:1] if kind in ("not", "star") else ()
        made.depth = 1 + max((it.depth for it in made.parts), default=0)
        made.size = 1 + sum(it.size for it in made.parts)
        inner = all(it.predicate for it in made.parts)
        made.predicate = inner and kind in ("test", "range", "sum", "seq", "not")
        faults = [it.fault for it in made.parts if it.fault]
        made.fault = rest[-1] if kind == "not" and not inner else next(iter(faults), None)
        return made


def seq(*parts):
    return Policy("seq", parts)


ID, DROP, DUP = seq(), Policy("sum", ()), Policy("dup")


def leaves(policy):
    """The leaves of a policy in text order."""
    if policy[0] in ("sum", "seq", "not", "star"):
        return [leaf for part in policy.parts for leaf in leaves(part)]
    return [policy]


def mapped(policy, change):
    """The policy with each leaf changed, in text order."""
    match policy:
        case ("sum" | "seq" as kind, parts):
            return Policy(kind, tuple([mapped(part, change) for part in parts]))
        case ("not" | "star" as kind, part, *line):
            return Policy(kind, mapped(part, change), *line)
    return change(policy)


def parted(policy):
    """The policy with each link as its six parts. GUIDE 2: `1:2=>2:2` "sends a packet that is at port 2 of switch 1
    over the link to port 2 of switch 2"; "each link records by itself"."""
    return mapped(policy, lambda leaf: link_parts(*leaf[1:]) if leaf[0] == "link" else leaf)


def link_parts(a, m, b, n):
    return seq(Policy("test", 0, a), Policy("test", 1, m), DUP, Policy("set", 0, b), Policy("set", 1, n), DUP)


def put(packet, f, n):
    """The packet with the field f set to n."""
    return packet[:f] + (n,) + packet[f + 1 :]
