"""Why policies, packets and queries are refused: C1 to C14, each with its lines."""

import re

from meaning import Runs, Space, places, small
from policies import Policy, leaves, mapped, seq
from texts import MOST_ELEMENTS


class Refused(Exception):
    """REFERENCE, Answers and statuses: status 4, "the policy, the packet or the query is refused": "`refused CN: ..`",
    and further lines."""


def packet_text(program, packet, with_tag=True):
    """A packet is written `sw=1,pt=2` and so on: each field in order."""
    return ",".join(f"{name}={packet[f]}" for f, (name, _) in enumerate(program.fields) if with_tag or f != program.tag)


def history_text(program, records, last, with_tag=True):
    return " ".join(packet_text(program, it, with_tag) for it in (*records, last))


def found_lines(program, start, records=(), last=None):
    """`start PACKET`, and of a history `history PACKET PACKET ..`, with every field: the least value of its range."""
    packets = [start, *records, *([last] if last else [])]
    first, *others = [packet_text(program, [low for low, _ in x]) for x in packets]
    return [f"start {first}", f"history {' '.join(others)}"][: len(packets)]


def policies(program, *names):
    """C1: no policy has the name."""
    if any(name not in program.lets for name in names):
        raise Refused("C1: no policy")
    return [program.lets[name] for name in names]


def tagged(program):
    """C2: no tag is declared."""
    if program.tag is None:
        raise Refused("C2: no tag")


def check_static(program, policy, links):
    """REFERENCE, Which refusal comes first: "C2 to C6 are decided by the text alone, also for parts of a policy that
    no packet can reach"."""
    found = leaves(small(policy))
    if any(it[0] in ("test", "range", "set") and it[1] == program.tag for it in found):
        raise Refused("C3: tag used")
    if any(it[0] == "dup" for it in found):
        raise Refused("C4: loose dup")
    if any(it[:2] == ("set", 0) for it in found):
        raise Refused("C5: switch set")
    if any(it[0] == "link" and links.get(it[1:3], ())[:2] != it[3:] for it in found):
        raise Refused("C6: no such link")


def check_edges(space, runs):
    """REFERENCE, Refusals and faults, C7: "A packet without tag on a declared port has a history that ends at no edge
    port".

    GUIDE 1: "Edge ports are the declared ports at which no link begins".
    """
    edges = [((a, a), (m, m)) for a, m in places(space.program) if (a, m) not in space.program.links]
    found = runs.least(space.located(), lambda at, x: {y for y in runs.ends(at, x) if y[:2] not in edges})
    if found:
        raise Refused("C7: off edge", *found_lines(space.program, *found))


def few(program, count):
    """REFERENCE, Refusals and faults, C8: "The policy needs more tags than the tag has values above 0 .. N is one more
    than the number of the tag's values above 0"."""
    most = program.fields[program.tag][1]
    if count > most:
        raise Refused(f"C8: too many tags, found {most + 1}")


def packet_of(program, text):
    """REFERENCE, Refusals and faults, C9: "An item of the packet is wrong or missing, or there is one too many"; C10:
    "The packet stands at no declared port"."""
    wanted = [f for f in range(len(program.fields)) if f != program.tag]
    items, packet = text.split(","), [0] * len(program.fields)
    for place in range(max(len(wanted), len(items))):
        name, largest = program.fields[wanted[place]] if place < len(wanted) else ("", -1)
        found = re.fullmatch(name + "=([0-9]+)", items[place] if place < len(items) else "", re.ASCII)
        if not found or int(found[1]) > largest:
            raise Refused(f"C9: bad packet, item {place + 1}")
        packet[wanted[place]] = int(found[1])
    if not program.is_port(*packet[:2]):
        raise Refused("C10: off port")
    return tuple(packet)


def check_carried(program, source):
    """REFERENCE, Refusals and faults, C11: "A virtual link begins at port M of switch A. From a packet without
    tag there, the link's fabric has a history that doesn't end at the packet moved to the port where the link ends, with
    all else as it was"; C12: "the link's fabric has no history"."""
    (a, m), (b, n, name) = source, program.virtuals[source]
    fabric, where = program.fabrics[name], f"{a}:{m}"
    space, runs = Space(program, fabric, with_ports=True), Runs(fabric)
    starts = space.packets({0: (a, a), 1: (m, m), program.tag: (0, 0)})
    for x in starts:
        found = runs.least([x], lambda at, y, target=((b, b), (n, n), *x[2:]): runs.ends(at, y) - {target})
        if found:
            raise Refused(f"C11: off target, link {where}", *found_lines(program, *found))
    for x in starts:
        if not any(runs.ends(*at) for level in runs.levels([x]) for at in level):
            raise Refused(f"C12: not carried, link {where}", *found_lines(program, x))


def few_elements(policy):
    """REFERENCE, Refusals and faults, C13: "more than 1,048,576 elements"."""
    if policy.size > MOST_ELEMENTS:
        raise Refused("C13: expanded too large")
    return policy


def physical(program, policy):
    """REFERENCE, Refusals and faults, C13: "the policy with a test of switch and port and the fabric in the place of
    each literal"."""

    def fabric(leaf):
        if leaf[0] != "link":
            return leaf
        _, a, m, _, _ = leaf
        return seq(Policy("test", 0, a), Policy("test", 1, m), program.fabrics[program.virtuals[a, m][2]])

    return few_elements(mapped(policy, fabric))
