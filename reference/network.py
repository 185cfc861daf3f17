"""What tables do together: a hop, traces, flights in drawn turns, and updates from some tables to others."""

from dataclasses import dataclass, field as member

from meaning import MOST, TooLarge
from policies import put
from tables import Tables, emitted


def erased(tables, packet):
    return put(packet, tables.tag, 0)


def hop(tables, rows, records, packet):
    """What comes of a copy: the copies that cross a link, recorded before and after, and the histories that leave."""
    crossing, left = [], []
    for copy in emitted(tables, rows, packet):
        if copy[:2] in tables.links:
            moved = tables.links[copy[:2]] + copy[2:]
            crossing.append((records + (erased(tables, copy), erased(tables, moved)), moved))
        elif tables.is_port(*copy[:2]):
            left.append((records, copy))
    return crossing, left


def trace(tables, hops, packet):
    """README, The commands: "each history with which the packet leaves after at most HOPS link crossings"; PROMISES,
    Statuses 0 and 1, by command: "the number of copies that would make one crossing more"."""
    waiting, found, count = [((), packet)], [], 0
    for _ in range(hops + 1):
        went = [hop(tables, tables.rows.get(copy[0], []), records, copy) for records, copy in waiting]
        waiting = [it for crossed, _ in went for it in crossed]
        found += sorted(it for _, left in went for it in left)
        count += len(waiting)
        if count > MOST or sum(len(records) for records, _ in waiting) > 10 * MOST:
            raise TooLarge
        if not waiting:
            break
    return found, len(waiting)


def draws(seed):
    """REFERENCE, Commands: "The draw after x is 48271 * x modulo 2147483647"."""
    while True:
        seed = 48271 * seed % 2147483647
        yield seed


def fly(tables, seed, steps, packet):
    """REFERENCE, Commands: "The copies are numbered from 0; the number of the chosen copy is the next draw modulo the
    number of copies". PROMISES, nk_flight: "Each packet that the switch sends for this copy puts one thing after the
    others: a copy, a history or, where the packet vanishes, nothing"."""
    flying, left = [((), packet)], []
    for _, drawn in zip(range(steps), draws(seed)):
        if not flying:
            break
        if len(flying) > MOST or len(left) > MOST or len(flying[-1][0]) > MOST:
            raise TooLarge
        records, copy = flying.pop(drawn % len(flying))
        crossed, out = hop(tables, tables.rows.get(copy[0], []), records, copy)
        flying, left = flying + crossed, left + out
    return left, len(flying)


@dataclass
class Update:
    """A flight while the switches go from old tables to new ones, each in three plan steps (GUIDE 5)."""

    old: Tables
    new: Tables
    old_tags: int
    flying: list = member(default_factory=list)  # (number of the injection, records, packet)
    left: list = member(default_factory=list)
    versions: dict = member(default_factory=dict)
    injected: int = 0

    def __post_init__(self):
        self.done = {switch: 0 for switch in sorted(self.old.switches)}

    def rows(self, switch):
        """GUIDE 5: "The new rows for tagged packets are added .. The rows for packets without a tag are replaced .. The
        old rows for tagged packets are removed". A printed row matches the tag first."""
        old, new = self.old.rows.get(switch, []), self.new.rows.get(switch, [])
        old_tagged, new_tagged = ([row for row in rows if row.matches[0][1]] for rows in (old, new))
        return [old, old + new_tagged, old_tagged + new, new][self.done[switch]]

    def may(self, switch):
        """GUIDE 5: "A switch may do this step once all switches have done the first"; "once all switches have done the
        second and no copy with an old tag is in flight"."""
        if self.done[switch] == 3 or min(self.done.values()) < self.done[switch]:
            return False
        return self.done[switch] < 2 or all(not 0 < copy[self.old.tag] <= self.old_tags for _, _, copy in self.flying)

    def turn(self, drawn, packet):
        """REFERENCE, Commands: "the number of the chosen action is the next draw modulo n .. First, PACKET comes in. Then, for each copy in flight .. Last, for each switch that may do its next plan step, switches
        ascending"."""
        steps = [switch for switch in self.done if self.may(switch)]
        action = drawn % (1 + len(self.flying) + len(steps))
        if action == 0:
            self.injected += 1
            self.flying.append((self.injected, (), packet))
        elif action <= len(self.flying):
            self.handle(*self.flying.pop(action - 1))
        else:
            self.done[steps[action - 1 - len(self.flying)]] += 1

    def handle(self, number, records, copy):
        """A packet goes by the new policy if its first switch had done its second step, else by the old one."""
        self.versions.setdefault(number, "new" if self.done[copy[0]] >= 2 else "old")
        crossed, out = hop(self.old, self.rows(copy[0]), records, copy)
        self.flying += [(number, *it) for it in crossed]
        self.left += [(number, *it) for it in out]
        if len(self.flying) > MOST or len(self.left) > MOST:
            raise TooLarge
