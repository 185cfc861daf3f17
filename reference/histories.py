"""What a policy gives: its histories up to a number of records, from one packet of numbers, by the forms of GUIDE 2."""

from policies import link_parts, put


def histories(policy, x, most):
    """All (records, last) with at most so many records that the policy gives from the packet x."""
    match policy:
        case ("test" | "range", f, *numbers):
            return {((), x)} if numbers[0] <= x[f] <= numbers[-1] else set()
        case ("not", predicate, *_):
            return {((), x)} - histories(predicate, x, 0)
        case ("set", f, n):
            return {((), put(x, f, n))}
        case ("dup",):
            return {((x,), x)} if most else set()
        case ("link", *ends):
            return histories(link_parts(*ends), x, most)
        case ("sum", parts):
            return {it for part in parts for it in histories(part, x, most)}
        case ("seq", parts):
            found = {((), x)}
            for part in parts:
                found = further(part, found, most)
            return found
        case ("star", inner):
            found = new = {((), x)}
            while new:
                new = further(inner, new, most) - found
                found = found | new
            return found
    raise ValueError(policy)


def further(policy, found, most):
    """The histories that go on by the policy from the last packet of each of these."""
    return {(u + v, z) for u, y in found for v, z in histories(policy, y, most - len(u))}
