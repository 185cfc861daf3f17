"""Drawn cases: words and a text of every kind, accepted and refused, printed, damaged and foreign."""

import re

from meaning import TooLarge
from texts import KEYWORDS
from words import COMMANDS, answer

# The ways to write each form, some with a weight; <x> is of the form x, or what the method `x` of `Draw` draws.
FORMS = {
    "predicate": "20× <test> | 2× id | 2× drop | 4× ~<predicate> | 5× ~(<predicate>) | 3× (<predicate> + <predicate>) "
    "| 3× <predicate>;<predicate> | 3× (<predicate>;<predicate> + <predicate>)",
    "policy": "8× <test> | 8× <set> | 4× dup | 4× <link> | id | drop | 4× <let> | 5× (<predicate>) | 8× (<policy>)* "
    "| 2× <chain> | 5× (<policy> + <policy>) | 3× <policy> + <policy> | 6× (<policy>;<policy>) "
    "| 6× <policy>;<policy>;<policy>",
    "step": "<chain> | 5× <predicate> | 4× <set>",
    "hop": "6× <crossing> | 2× <step>;<crossing> | 2× <crossing>;<step>",
    "hops": "2× <hop> | 3× <hop> + <hop> | 2× <hop> + <hop> + <hop> | <hop> + <hop> + <hop> + <hop>",
    "ways": "3× (<hops>)* | 3× (<hops>) | 2× <hop>;<hop> | 2× <hop>;<hop>;<hop> | 3× (<hop>;(<hops>))* "
    "| 3× (id + <hop>;(<hop>)*)",
    "begin": "13×  | 7× <predicate>;",
    "end": "14× ;<leaving> | ",
    "route": "7× (<begin><ways>)<end> | 3× <step> + (<begin><ways>)<end>",
    "compiled": "8× <route> | <policy> | <let>;<route>",
    "compared": "9× <route> | 8× <policy> | 2× <walk> | 5× <branch>",
    "branch": "(<set>;dup + dup) | (<set>;dup + <set>;dup);<set> | <set>;dup + dup;<test> + <set>;dup",
    # What does the same as @, or nearly, % being the same predicate wherever it stands.
    "rewritten": "(@) + (@) | id;(@) | (@);id | (@) + drop | ~~id;(@) | (@) + drop;dup | (id + drop*)*;(@) | @ "
    "| ~(%)*;(@) | (@);(%)* + (@) | (@) + (@);% | %;(@) + ~(%);(@) | (@) + %;(@) | %;(@)",
    # What does the same as @ on some packets, % being the same predicate wherever it stands.
    "altered": "2× %;(@) | 2× (@) + %;(<compared>) | 3× ~(%);(@) + %;(<compared>) | (@);~(%) | (@);(% + <set>) "
    "| %;(@);(% + dup)",
    "name": "30× p | x",
    "row": "row <positions> : id | 2× row <positions> : <predicate>",
    "positions": "6× 1 | 3× 2 | 3× 1 3 | 3× 2 4 | 0 1 | 2× 1 2 3 | 3 1 | 2× 5",
    "match": " | <matched>",
    "tablerow": "row <digit> : <match> <match> -> <bucket> | row <digit> : <matched> -> drop "
    "| row <digit> : -> <bucket> | 2× row <digit> : <match> -> group 1 | row <digit> : <match> -> group 2",
    "group": "<bucket> | 3× <bucket> <bucket> | 2× <bucket> <bucket> <bucket>",
    "nested": "{255 ~}id | {256 ~}id | {128 ~(}id{128 )} | {128 ~(}~id{128 )} | {255 (}id{256 )} | {256 (}id{256 )} "
    "| {257 (}id{257 )}",
    "named": "3× @* | 3× ~@ | 3× @;id | 3× @ + id | 4× @;@ | 4× @ + @ | 4× @;@ + id",
    "digit": "0 | 1 | 1 | 2 | 3 | 4",
    "number": "0 | 1 | 2 | 8 | 65536 | 007 | 281474976710655 | 281474976710656 | {25 9}",
    "piece": "6× <number> | 3× <keyword> | + | ; | * | ~ | ( | ) | = | := | => | -> | : | , | [ | ] | .. | / | - "
    "| x | p | sw | pt | vlan | dst | é | \x00 | # | \n | ~~ | ((",
    "keyword": " | ".join(KEYWORDS),
    "line": "field dst 1 | field vlan 3 | field sw 1 | tag vlan | tag dst | tag pt | switch 1 ports 1 "
    "| switch 4 ports 1,2,1 | switch 6 ports 2,2,65536 | switch 7 ports 3,3,70000 | switch 1 ports 65536 "
    "| switch 65536 ports 1 | switch 5 ports 65536 | link 1:1 -> 1:1 | link 1:1 -> 2:1 | link 7:1 -> 1:1 "
    "| link 1:2 -> 1:9 | let p = id | let z = zz | 3× let z = p;~p | 3× let z = ~(dup + ~dup) | let z = nofield=1 "
    "| let z = 1:1=>1:65536 | fabric f = p | fabric f = f | virtual 1:1 -> 1:2 by f | virtual 1:1 -> 1:1 by p "
    "| virtual 1:9 -> 9:9 by f | field f<digit> 3 | 4× let d<digit> = <nested> | tables 1 | table 1 "
    "| row 0 : -> drop | certificate | row 1 : id | row 1 1 : id",
    "item": "x |  | sw=1 | vlan=0 | pt=3 | pt=65536 | sw=1,pt=1",
    "word": "6× p | 3× q | x | sw=1,pt=1 | -p | -- | - |  | --p | \udcff",
    "count": "1 | 0 | 7 | 00 | 65535 | 65536 | 2147483646 | 2147483647 | 1000000 | 1000001 | -1 | +1 | 1. |  | 1 ",
    "command": " | ".join(f"2× {it}" for it in COMMANDS) + " | help |  | Compile | gen  | --help | --",
    "few": "2 | 3 | 1 | 1001 | x",
}


class Draw:
    """A network with names for its parts, and texts over it."""

    def __init__(self, random):
        self.random = random
        one = random.choice
        fields = random.sample(["dst", "src", "b"], one([0, 1, 1, 1, 2]))
        largest = {name: one([0, 1, 2, 3, 3, 5, 9, 9, 200, 2**48 - 1]) for name in fields}
        largest["vlan"] = one([0, 1, 2, 3, 7, 7, 7])
        self.fields = dict(random.sample(list(largest.items()), len(largest)))
        switches = sorted(random.sample([1, 2, 3], one([1, 2, 2, 3]))) if self.chance(0.95) else [0, 65535]
        self.switches = {it: random.sample([1, 2, 3, 9], one([2, 3, 3, 4])) for it in switches}
        ports = [(switch, port) for switch, its in self.switches.items() for port in its]
        count = min(len(ports) - 1, one([0, 1, 2, 2, 3, 3, 4, 5]))
        sources = random.sample(ports, count)
        self.links = [(*source, *target) for source, target in zip(sources, random.sample(ports, count))]
        self.edges = [it for it in ports if it not in sources]
        self.lets = []

    def chance(self, share):
        return self.random.random() < share

    def one(self, *choices):
        return self.random.choice(choices)

    def text(self, form, deep=6):
        """A text of a form; of one that is too deep in others the first way. {9 x} is nine times x."""
        if form not in FORMS:
            return getattr(self, form)()
        ways = [it.rpartition("× ") for it in FORMS[form].split(" | ")]
        way = self.random.choices(ways, [int(weight or 1) for weight, _, _ in ways])[0][2] if deep else ways[0][2]
        way = re.sub(r"\{(\d+) (.+?)\}", lambda it: int(it[1]) * it[2], way)
        return re.sub("<([a-z]+)>", lambda it: self.text(it[1], deep - 1), way)

    # Parts.

    def value(self, name):
        """A value of a field, now and then one beyond its range."""
        largest = self.fields.get(name, 65535)
        few = {"sw": [*self.switches], "pt": [1, 2, 3, 9]}.get(name)
        few = few or [0, 1, 2, 3, 4, largest // 2, largest - largest // 3, max(0, largest - 1), largest]
        return self.random.choice([it for it in few if it <= largest or self.chance(0.03)] or [largest])

    def field(self):
        names = [name for name in self.fields if name != "vlan"]
        return "vlan" if self.chance(0.02) else self.one("sw", "pt", "pt", *names)

    def test(self):
        name = self.field()
        low, high = self.value(name), self.fields.get(name, 65535) if self.chance(0.3) else self.value(name)
        if self.chance(0.9):
            low, high = sorted([low, high])
        return f"{name} in {low}..{high}" if self.chance(0.3) else f"{name}={low}"

    def set(self):
        name = self.field()
        name = "pt" if name == "sw" and self.chance(0.8) else name
        return f"{name}:={self.value(name)}"

    def link(self):
        if self.links and self.chance(0.95):
            return "{}:{}=>{}:{}".format(*self.one(*self.links))
        return f"{self.value('sw')}:{self.value('pt')}=>{self.value('sw')}:{self.value('pt')}"

    def crossing(self):
        return "pt:={1};{0}:{1}=>{2}:{3}".format(*self.one(*self.links)) if self.links else self.test()

    def let(self):
        return self.one(*self.lets) if self.lets else self.test()

    def chain(self, form="({})*"):
        """A star of which several rounds are wanted: a field goes from value to value."""
        name = self.field()
        values = [self.value(name) for _ in range(self.one(3, 4))]
        ways = [f"{name}={low};{name}:={high}" for low, high in zip(values, values[1:])]
        return form.format(" + ".join(self.random.sample(ways, len(ways))))

    def walk(self):
        """Records twice at each value that a field goes through: the same dups are met again at later packets."""
        return self.chain("(({});dup;dup)*")

    def leaving(self):
        """To edge ports of the switches."""
        edges = [it for it in self.random.sample(self.edges, len(self.edges)) if self.chance(0.6)]
        return f"({' + '.join(f'sw={switch};pt:={port}' for switch, port in edges)})" if edges else "drop"

    def matched(self):
        name = self.one("pt", *self.fields)
        value, digits = self.value(name), self.fields.get(name, 65535).bit_length() or 1
        if not self.chance(0.4):
            return f"{name}={value}"
        length = self.random.randrange(1, digits + 1) if self.chance(0.95) else self.one(0, digits + 1)
        kept = value if self.chance(0.05) else value >> max(0, digits - length) << max(0, digits - length)
        return f"{name}={kept}/{length}"

    def bucket(self, share=0.4, ports=("in", 1, 2, 3, 9)):
        sets = [f"{name}:={self.value(name)} " for name in self.fields if self.chance(share)]
        return f"[{''.join(sets)}out {self.one(*ports)}]"

    # Texts.

    def declarations(self, tagged=0.97):
        lines = [f"field {name} {largest}" for name, largest in self.fields.items()]
        lines += ["tag vlan"] if self.chance(tagged) else []
        lines += [f"switch {it} ports {','.join(map(str, ports))}" for it, ports in self.switches.items()]
        return lines + ["link {}:{} -> {}:{}".format(*it) for it in self.links]

    def program(self, *texts, tagged=0.97):
        """Declarations, and a let for each of these texts or forms, which may use those above."""
        lines = self.declarations(tagged)
        for name, text in zip("pqabw", texts):
            lines.append(f"let {name} = {self.text(text) if text in FORMS else text}")
            self.lets.append(name)
        return lines

    def packet(self):
        """A packet in words, mostly at a port, now and then a bad one."""
        switch = self.one(*self.switches)
        items = [f"sw={switch}", f"pt={self.one(*self.switches[switch]) if self.chance(0.95) else 7}"]
        items += [f"{name}={self.value(name)}" for name in self.fields if name != "vlan"]
        return ",".join(self.damaged(items, "item") if self.chance(0.08) else items)

    def changed(self, text):
        """A text with a number, an operator or a word changed."""
        found = list(re.finditer(r"\d+| \+ |;|id|drop|dup|\*", text))
        place = self.one(*found) if found else re.match("", text)
        others = {" + ": ";", ";": " + ", "id": "drop", "drop": "id", "dup": "id", "*": "", "": ""}
        return text[: place.start()] + others.get(place[0], self.one(*"011239")) + text[place.end() :]

    def damaged(self, pieces, form, count=1):
        """The pieces with some taken out, doubled or replaced, by others or ones of a form, or the end cut off."""
        for _ in range(count if pieces else 0):
            place = self.random.randrange(len(pieces))
            other = self.one(*pieces) if self.chance(0.4) else self.text(form)
            following = [] if self.chance(0.05) else pieces[place + 1 :]
            pieces = pieces[:place] + self.one([], [other], [other], [other, pieces[place]]) + following
        return pieces

    def shaped(self, lines):
        """The lines with white space and comments of all kinds between them, and now and then between all lexemes."""
        if self.chance(0.3):
            lines = [re.sub(" |(?<=[,:;=])(?![>=])", lambda it: self.one("\n", it[0], it[0]), line) for line in lines]
        return "".join(line + (self.one(" ", "\t", "\r\n", " # a;b\n") if self.chance(0.2) else "\n") for line in lines)


# ---------------------------------------------------------------------------------------------------- kinds of cases


def compiling(draw):
    return [draw.one("compile", "compile", "compact"), draw.text("name")], draw.program("compiled")


def equating(draw):
    left = draw.text("compared")
    right = draw.text("rewritten").replace("@", left).replace("%", draw.text("predicate"))
    right = draw.one(right, right, right, draw.changed(left), draw.changed(left), draw.text("policy"))
    return ["equal", "p", draw.text("name").replace("p", "q")], draw.program(left, right, tagged=0.7)


def asking(draw):
    texts = [draw.text(form) for form in ("compared", "predicate", "predicate", "predicate")]
    if draw.chance(0.2):  # what is avoided holds at the start alone
        name = draw.field()
        texts = [f"{name}:={draw.value(name)};({texts[0]})", "id", texts[2], f"{name}={draw.value(name)}"]
    words = draw.one("apart p q a", "waypoint p q b a", "waypoint p q b a", f"apart p q {draw.one(*'pxb')}")
    return words.split(), draw.program(*texts, tagged=0.8)


def updating(draw):
    seed, steps = draw.random.randrange(1, 99), draw.one(0, 5, 14, 25, 40, 60)
    return ["update", "p", draw.one(*"qqqp"), str(seed), str(steps), draw.packet()], draw.program("route", "route")


def faring(draw):
    """A fabric along a link, or along two, for a virtual link between ports; and a policy over virtual links."""
    fabrics, literals = [], []
    for name in "fgh"[: draw.one(1, 1, 2) if draw.links else 0]:
        first = a, _, b, _ = draw.one(*draw.links)
        further = [it for it in draw.links if it[0] == b][: draw.one(0, 1)]
        b = further[0][2] if further else b
        source, target = draw.one(*draw.switches[a]), draw.one(*draw.switches[b])
        way = ";".join("pt:={1};{0}:{1}=>{2}:{3}".format(*it) for it in (first, *further))
        way += f";pt:={target}" if draw.chance(0.9) else ""
        way = draw.one(way, way, way, f"{draw.text('step')};{way}", f"{way} + {draw.text('step')};{way}")
        fabrics += [f"fabric {name} = {way}", f"virtual {a}:{source} -> {b}:{target} by {name}"]
        literals.append((a, source, b, target))
    lines = draw.declarations() + fabrics
    draw.links = literals or draw.links
    return ["virtual", "p"], [*lines, f"let p = {draw.text('route')}"]


def worded(draw):
    """Words that may be no command."""
    words = [draw.text("command")]
    words += [draw.text("count" if limits else "word") for limits in COMMANDS.get(words[0], "ab")[1:]]
    if words[0] in ("gen", "job"):
        words[1:] = [draw.text("few"), draw.text("count") if words[0] == "gen" else draw.one("1", "1", "0", "x")]
    words += ["p"] * draw.one(0, 0, 0, 0, 1)
    words.insert(draw.random.randrange(len(words) + 1), "--")
    words.remove("--") if draw.chance(0.85) else None
    return words[: -1 if draw.chance(0.1) else None], draw.program("route", "route")


def generating(draw):
    words = ["job", "2"] if draw.chance(0.03) else ["gen", draw.one("2", "3", "5", "12", "40")]
    return [*words, str(draw.random.randrange(1, 2147483647))], []


def checking(draw):
    """A program and a certificate: the printed one, a damaged one, one of other policies, or rows that are drawn."""
    words, lines = draw.one(asking, equating, equating, equating)(draw)
    status, out, _ = answer(words, "\n".join(lines).encode())
    rows = ["certificate", f"row start : {draw.one('id', 'id', draw.text('predicate'))}"]
    rows += [draw.text("row") for _ in range(draw.one(0, 0, 1, 2, 3))]
    if status == 0 and draw.chance(0.85):
        rows = out.decode().splitlines()
        place, more = draw.random.randrange(1, len(rows)), draw.text("predicate")
        heads = [row.partition(" : ")[0] for row in rows]
        row = rows[place]
        rows[place] = draw.one(row, row, draw.changed(row), f"{row} + {more}", f"{heads[place]} : {more}")
        rows[2:] = [f"{it} : id" for it in heads[2:]] if draw.chance(0.2) else rows[2:]
        rows[2:] = draw.one(rows[2:], draw.damaged(rows[2:], "row"))
    return ["check" if words[0] == "equal" else "check_" + words[0], *words[1:]], lines + rows


def following(draw):
    """The tables of a policy, drawn rows, or tables by which copies with tags of their own spread over links."""
    kind, lines = draw.random.random(), draw.program("compiled", tagged=1)
    status, out, _ = answer(["compile", "p"], "\n".join(lines).encode()) if kind < 0.25 else (1, b"", b"")
    lines = [f"tables {draw.one(1, 2, 2, 2, 2, 2, draw.one(1, 2, 3))}", *draw.declarations()]
    for switch in draw.switches:
        lines += [f"table {switch}", *(spread_rows if kind > 0.6 else drawn_rows)(draw, switch)]
    lines = lines if status else out.decode().splitlines()
    if draw.chance(0.55):
        return ["trace", draw.one(*"0112346"), draw.packet()], lines
    return ["fly", str(draw.random.randrange(1, 99)), draw.one("0", "1", "3", "5", "9", "15"), draw.packet()], lines


def drawn_rows(draw, _):
    numbers = range(0 if draw.chance(0.02) else 1, draw.one(2, 3, 3, 3, 4))
    groups = [f"group {number} = {draw.text('group')}" for number in numbers]
    return groups + [draw.text("tablerow") for _ in range(draw.one(0, 1, 2, 3, 4, 5))]


def spread_rows(draw, switch):
    ports = [m for a, m, _, _ in draw.links if a == switch] or draw.switches[switch]
    ports = draw.one(ports, ports[:1])
    out = draw.one([port for it, port in draw.edges if it == switch], draw.switches[switch]) or [9]
    group = " ".join(draw.bucket(0.9, ports) for _ in range(3))
    return [f"group 1 = {group}", "row 1 : vlan=0 -> group 1", f"row 0 : -> {draw.bucket(0.1, out)}"]


def damaged(draw):
    """A case of another kind, with some bytes or lexemes taken out, doubled, changed or put in."""
    words, lines = draw.one(compiling, equating, checking, following, following, faring, asking)(draw)
    return words, broken(draw, lines)


def broken(draw, lines):
    pieces = re.findall(r"#[^\n]*|[A-Za-z_0-9]+|[ \t\r\n]+|:=|=>|->|\.\.|.", draw.shaped(lines))
    return "".join(draw.damaged(pieces, "piece", draw.one(1, 1, 1, 2)))


def declared(draw):
    """A program or a table text with lines put in or doubled that may be at fault."""
    words, lines = draw.one(compiling, equating, checking, following, faring)(draw)
    for _ in range(draw.one(1, 1, 2, 3)):
        more = draw.one(draw.text("line"), draw.text("line"), draw.one(*lines))
        lines.insert(draw.random.randrange(len(lines) + 1), more)
    if draw.chance(0.05):
        lines[1:1] = [f"field f{number} 1" for number in range(17)]
    return words, lines


def deep(draw):
    """Names of names: the limits on depth and size."""
    form = draw.text("named")
    count = draw.one(18, 19, 20, 20, 21) if form.count("@") > 1 else draw.one(254, 255, 256, 257)
    lines = ["let a0 = id", *(f"let a{it} = " + form.replace("@", f"a{it - 1}") for it in range(1, count + 1))]
    words = draw.one("compile x", "compile @", "apart @ a0 a0", "waypoint a0 a0 @ a0").replace("@", f"a{count}")
    return words.split(), lines


KINDS = {compiling: 26, equating: 18, checking: 14, following: 14, damaged: 14, declared: 9, asking: 6, updating: 6}
KINDS |= {faring: 7, worded: 6, generating: 1, deep: 0.9}


def case(random):
    """The kind of a case, its words and its text."""
    while True:
        kind = random.choices(list(KINDS), KINDS.values())[0]
        draw = Draw(random)
        try:
            words, text = kind(draw)
        except TooLarge:
            continue
        return kind.__name__, words, (text if isinstance(text, str) else draw.shaped(text)).encode()


def pair(random):
    """The words of `nk_impact`, after its name, and a text. Mostly two policies of which one is made from the other."""
    draw = Draw(random)
    left = draw.text("compared")
    right = draw.text(draw.one("rewritten", "altered", "altered")).replace("@", left)
    right = right.replace("%", draw.text("predicate"))
    right = draw.one(right, right, right, right, draw.changed(left), draw.text("compared"))
    lines, names = draw.program(left, right, tagged=0.7), draw.one("pq", "pq", "qp")
    words = ["nk_impact", *names] if draw.chance(0.97) else ["nk_impact", *draw.one("p", "px", "xq", "pp", "pqp", "")]
    return words, (broken(draw, lines) if draw.chance(0.03) else draw.shaped(lines)).encode()
