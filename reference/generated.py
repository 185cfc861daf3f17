"""The generated program: a ring, chords and a tree of links, a destination at each switch, by draws from a seed."""

from network import draws


def generated(size, seed):
    """README, The commands: "the text of a generated network of SIZE switches with its policies"."""
    drawn = draws(seed)
    homes = {i: 281474000000000 + 1000 * i + next(drawn) % 1000 for i in range(1, size + 1)}
    chords = {}
    for i in range(1, size + 1):
        j = 1 + next(drawn) % size
        if j != i and j not in chords.values():
            chords[i] = j
    key = next(drawn)
    ring = [(i, 1, i % size + 1, 2) for i in range(1, size + 1)]
    chord = [(i, 3, j, 4) for i, j in chords.items()]
    tree = [(i, 5 + more, 2 * i + more, 7) for i in range(1, size + 1) for more in (0, 1) if 2 * i + more <= size]
    lines = ["field dst 281474976710655", "field key 281474976710655", "field vlan 65535", "tag vlan"]
    lines += [f"switch {i} ports 1,2,3,4,5,6,7,9" for i in homes]
    lines += [f"link {a}:{m} -> {b}:{n}" for a, m, b, n in ring + chord + tree]
    lines.append("let home = " + " + ".join(f"sw={i};dst={it}" for i, it in homes.items()))
    for name, links in (("ring", ring), ("chord", chord), ("tree", tree)):
        lines.append(f"let {name} = " + (" + ".join(f"{a}:{m}=>{b}:{n}" for a, m, b, n in links) or "drop"))
    lines.append("let hop = pt:=1;ring + pt:=3;chord")
    lines.append(f"let go = pt=9;key:={key};(~home;hop)*;home;pt:=9")
    lines.append(f"let same = pt=9;key:={key};(id + ~home;hop;(~home;hop)*);home;pt:=9")
    return [*lines, "let cast = sw=1;pt=9;(pt:=5;tree + pt:=6;tree)*;pt:=9"]
