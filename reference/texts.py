"""Program texts: from bytes to tokens, to lists by a grammar, to values; or the first fault with its line.

Each phase goes over the whole text before the next one begins: its bytes, its tokens, then its declarations and rows.
"""

import re
import sys
from dataclasses import dataclass, field as member
from functools import cache

from policies import DROP, DUP, ID, Policy, mapped

sys.setrecursionlimit(20000)

LARGEST = 281_474_976_710_655  # REFERENCE, Refusals and faults: "A number is above 281,474,976,710,655"
LARGEST_PORT = 65_535  # REFERENCE, Refusals and faults: "A number is .. above 65,535 for switches and ports"
MOST_FIELDS = 16  # REFERENCE, Refusals and faults: "Sixteen fields are declared above"
MOST_DEEP = 256  # REFERENCE, Limits: "`(` and `~` that are open at once, depth of a policy with its names written out"
MOST_ELEMENTS = 1_048_576  # REFERENCE, Refusals and faults: "A policy .. has more than 1,048,576 elements"


class Fault(Exception):
    """REFERENCE, Answers and statuses: status 3, "the text has a fault": "`line N: ..`"."""

    def __init__(self, line, words):
        super().__init__(line, words)
        self.line, self.words = line, words


def demand(holds, token, words):
    """A fault at the token's line where something doesn't hold."""
    if not holds:
        raise Fault(token.line, words)


# ------------------------------------------------------------------------------------------------- bytes to tokens

# REFERENCE, Program texts: "These words can't be names".
KEYWORDS = "field tag switch ports link let certificate row start id drop dup".split()
KEYWORDS += "tables table group out in virtual fabric by".split()
# REFERENCE, Program texts: "Spaces, tabs, carriage returns, line feeds and comments stand between tokens; a comment
# goes from `#` to the end of the line"; "each token is as long as it can be".
LEXEME = re.compile(
    rb"(?P<space>[ \t\r\n]+|\#[^\n]*)|(?P<NAME>[A-Za-z_][A-Za-z0-9_]*)|(?P<NUMBER>[0-9]+)"
    rb"|(?P<symbol>:=|=>|->|\.\.|[+;*~()=:,\[\]/])"
)


class Token(str):
    """A word, or a number without leading zeros; its kind, `NAME`, `NUMBER` or the word itself; and its line."""

    def __new__(cls, word, kind, line):
        token = super().__new__(cls, word)
        token.kind, token.line = kind, line
        return token


def tokens_of(text):
    """The tokens of a text. Its first fault is a `bad byte`, or a `number too large`."""
    tokens, place, line = [], 0, 1
    while place < len(text):
        found = LEXEME.match(text, place)
        if not found:
            raise Fault(line, "bad byte")
        word, kind = found.group().decode("latin1"), found.lastgroup
        if kind == "NUMBER":
            word = word.lstrip("0") or "0"
            if len(word) > 15 or int(word) > LARGEST:
                raise Fault(line, "number too large")
        if kind != "space":
            tokens.append(Token(word, word if kind == "symbol" or word in KEYWORDS else kind, line))
        line += word.count("\n")
        place = found.end()
    return tokens


# -------------------------------------------------------------------------------------------------- tokens to lists

# Each rule's alternatives. { } stands any number of times, < > once; all else is a rule, or a kind of token.
GRAMMAR = {
    "program": "{ declaration | binding }",
    "certified": "program certificate start-row { further-row }",
    "declaration": "field NAME NUMBER | tag NAME | switch NUMBER ports NUMBER { , NUMBER } | link ends",
    "binding": "let NAME = policy | fabric NAME = policy | virtual ends by NAME",
    "ends": "NUMBER : NUMBER -> NUMBER : NUMBER",
    "start-row": "row start : policy",
    "further-row": "row NUMBER { NUMBER } : policy",
    "policy": "term { + term }",
    "term": "factor { ; factor }",
    "factor": "atom { * }",
    "atom": "~ atom | ( policy ) | id | drop | dup | NUMBER : NUMBER => NUMBER : NUMBER | NAME < = NUMBER | := NUMBER "
    "| in NUMBER .. NUMBER | >",
    "table-text": "tables NUMBER { declaration } { section }",
    "section": "table NUMBER { table-group } { table-row }",
    "table-group": "group NUMBER = bucket { bucket }",
    "table-row": "row NUMBER : { match } -> < bucket | group NUMBER | drop >",
    "match": "NAME = NUMBER < / NUMBER | >",
    "bucket": "[ { NAME := NUMBER } out < NUMBER | in > ]",
}
DROPPED = "+ ; ( ) : , [ ] => -> ..".split()  # symbols that only part what they stand between


def alternatives_of(text):
    """The alternatives of a rule: tuples of words, and of (`{` or `<`, alternatives)."""
    opened = [("", [[]])]
    for word in text.split():
        if word in "{<":
            opened.append((word, [[]]))
        elif word in "}>":
            sign, inner = opened.pop()
            opened[-1][1][-1].append((sign, tuple(map(tuple, inner))))
        elif word == "|":
            opened[-1][1].append([])
        else:
            opened[-1][1][-1].append(word)
    return tuple(map(tuple, opened[0][1]))


RULES = {name: alternatives_of(text) for name, text in GRAMMAR.items()}


@cache
def firsts(items):
    """The kinds of tokens with which items in a row can begin."""
    found = set()
    for item in items:
        inner = item[1] if isinstance(item, tuple) else RULES.get(item)
        found |= {kind for it in inner for kind in firsts(it)} if inner else {item}
        if item[0] != "{":
            break
    return found


class Reader:
    """Takes the tokens of a text by the grammar."""

    def __init__(self, tokens):
        self.tokens, self.place, self.opened = tokens, 0, 0

    def whole(self, rule):
        """What the rule makes of all tokens."""
        found = self.read(rule)
        return found if self.place == len(self.tokens) else self.unexpected()

    def unexpected(self):
        """REFERENCE, Refusals and faults: "No valid text can continue with this token"; "Where the text ends too early:
        of the last token, or 1"."""
        raise Fault(([1] + [it.line for it in self.tokens[: self.place + 1]])[-1], "unexpected")

    def can_be(self, items):
        return self.place < len(self.tokens) and self.tokens[self.place].kind in firsts(items)

    def read(self, rule):
        """What a rule makes of its tokens and of what its rules make. `(` and `~` are open as long as their rule."""
        found, opened = [], self.opened
        self.choose(RULES[rule], found)
        self.opened = opened
        return MADE[rule](found) if rule in MADE else found

    def choose(self, alternatives, found):
        """Goes by the alternative that the next token can begin, else the last one, which may be empty."""
        for item in next(filter(self.can_be, alternatives), alternatives[-1]):
            if item in RULES:
                found.append(self.read(item))
            elif isinstance(item, str):
                self.take(item, found)
            elif item[0] == "<":
                self.choose(item[1], found)
            else:
                while any(map(self.can_be, item[1])):
                    self.choose(item[1], found)

    def take(self, kind, found):
        """Adds the next token, which has to be of this kind, unless it only parts others."""
        if not self.can_be((kind,)):
            self.unexpected()
        token = self.tokens[self.place]
        self.place += 1
        if kind in "~(":
            demand(self.opened < MOST_DEEP, token, "too deep")
            self.opened += 1
        if kind not in DROPPED:
            found.append(token)


def joined(kind):
    """One part alone is that part, several are one sum or sequence."""
    return lambda parts: parts[0] if len(parts) == 1 else Policy(kind, tuple(parts))


def atom(found):
    """A policy with tokens for its names and numbers."""
    match found:
        case ["~", inner]:
            return Policy("not", inner, found[0].line)
        case ["id" | "drop" | "dup" as word]:
            return {"id": ID, "drop": DROP, "dup": DUP}[word]
        case [Policy()]:
            return found[0]
        case [name, "=" | ":=" as sign, number]:
            return Policy("test" if sign == "=" else "set", name, number)
        case [name, "in", low, high]:
            return Policy("range", name, low, high)
    return Policy("name" if len(found) == 1 else "link", *found)


# A run of `*` right after one atom is one star.
MADE = {"policy": joined("sum"), "term": joined("seq"), "atom": atom}
MADE["factor"] = lambda found: Policy("star", found[0]) if found[1:] else found[0]


# --------------------------------------------------------------------------------------------------- lists to values


def in_range(number, largest=LARGEST_PORT):
    """`value out of range`: a number is above the field's largest value, or above 65,535 for switches and ports."""
    demand(int(number) <= largest, number, "value out of range")
    return int(number)


@dataclass
class Program:
    """What declarations say. Fields are (name, largest value); a policy is a tree with its names written out."""

    fields: list = member(default_factory=lambda: [("sw", LARGEST_PORT), ("pt", LARGEST_PORT)])
    tag: int = None
    switches: dict = member(default_factory=dict)  # the ports of each switch, in the order of the text
    links: dict = member(default_factory=dict)  # (switch, port) to (switch, port)
    lets: dict = member(default_factory=dict)
    fabrics: dict = member(default_factory=dict)
    virtuals: dict = member(default_factory=dict)  # (switch, port) to (switch, port, name of the fabric)

    def find(self, name):
        """The number of the field of this name, or None."""
        return next((f for f, (it, _) in enumerate(self.fields) if it == name), None)

    def is_port(self, switch, port):
        return port in self.switches.get(switch, ())

    def declare(self, declaration):
        """One more declaration, or its first fault. DECISIONS, Readings: "A link's faults come in the order of its
        checks"; "The faults of a virtual link come in the order of a link's"."""
        match declaration:
            case ["field", name, largest]:
                demand(self.find(name) is None, name, "field twice")
                demand(len(self.fields) < 2 + MOST_FIELDS, name, "too many fields")
                self.fields.append((name, int(largest)))
            case ["tag", name]:
                demand(self.tag is None, name, "tag twice")
                self.tag = self.find(name)
                demand((self.tag or 0) > 1, name, "tag unknown")
            case ["switch", number, "ports", *ports]:
                demand(in_range(number) not in self.switches, number, "switch twice")
                declared = self.switches[int(number)] = []
                for port in ports:
                    demand(in_range(port) not in declared, port, "port twice")
                    declared.append(int(port))
            case ["link", ends]:
                self.add_link(self.links, *ends)
            case ["virtual", ends, "by", name]:
                self.add_link(self.virtuals, *ends, name)
                demand(name in self.fabrics, name, "unknown name")
            case [word, name, "=", tree]:  # GUIDE 3: "Only a `virtual` line may use the name of a fabric"
                policies = self.lets if word == "let" else self.fabrics
                demand(name not in policies, name, "let twice")
                policies[name] = policy = mapped(tree, lambda leaf: self.written(leaf, self.lets))
                if policy.fault:
                    raise Fault(policy.fault, "not a predicate")
                demand(policy.depth <= MOST_DEEP, word, "too deep")
                demand(policy.size <= MOST_ELEMENTS, word, "too large")

    def add_link(self, links, switch, port, to_switch, to_port, *fabric):
        """The ranges in turn, `no such port` of the source and of the target, `source twice`, `target twice`."""
        a, m, b, n = map(in_range, (switch, port, to_switch, to_port))
        demand(self.is_port(a, m), port, "no such port")
        demand(self.is_port(b, n), to_port, "no such port")
        demand((a, m) not in links, port, "source twice")
        demand((b, n) not in [it[:2] for it in links.values()], to_port, "target twice")
        links[a, m] = (b, n, *fabric)

    def written(self, leaf, lets):
        """What a name means, which stands above it; the leaf with fields for their names and numbers in range."""
        match leaf:
            case ("name", name):
                demand(name in lets, name, "unknown name")
                return lets[name]
            case ("test" | "set" | "range" as kind, name, *numbers):
                f = self.find(name)
                demand(f is not None, name, "unknown field")
                return Policy(kind, f, *[in_range(it, self.fields[f][1]) for it in numbers])
        return Policy(leaf[0], *map(in_range, leaf[1:]))


def parse_program(text):
    """The program of a text."""
    return declared(Program(), Reader(tokens_of(text)).whole("program"))


def declared(program, declarations):
    """The program with these declarations, one after the other."""
    for declaration in declarations:
        program.declare(declaration)
    return program


def parse_certified(text):
    """The program of a text, and the rows of the certificate after it: predicates by positions, none of the start."""
    declarations, _, (start, _, first), *further = Reader(tokens_of(text)).whole("certified")
    program, rows = declared(Program(), declarations), {}
    for word, *numbers, tree in [(start, first), *further]:
        positions = tuple(map(int, numbers))
        ascends = all(low < high for low, high in zip(positions, positions[1:]))
        demand(ascends and positions not in rows, word, "certificate fault")
        predicate = rows[positions] = mapped(tree, lambda leaf: program.written(leaf, {}))  # no names can be used
        demand(predicate.predicate, word, "not a predicate")
        demand(predicate.depth <= MOST_DEEP, word, "too deep")
    return program, rows
