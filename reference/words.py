"""What words and bytes are answered: a status, and what goes to standard output and standard error.

`answer` raises TooLarge where this reference would have to go through too much.
"""

import re
from functools import partial

import refusals
from certificates import Judge
from generated import generated
from meaning import Runs, Space
from network import Update, draws, fly, trace
from policies import DROP, DUP, Policy, mapped, parted, seq
from printed import Compiled, certificate, classes, tag_sets
from refusals import Refused, found_lines, history_text
from tables import parse_tables
from texts import LARGEST_PORT, Fault, parse_certified, parse_program

MOST_BYTES = 16_777_216  # REFERENCE, Answers and statuses: status 8, "the text has more than 16,777,216 bytes"
# REFERENCE, Commands: "a number of link crossings, 0 to 65,535", and so on; Refusals and faults, usage: "a number is
# out of its range".
HOPS, STEPS, SIZE, SEED = (0, LARGEST_PORT), (0, 1_000_000), (2, 1_000), (1, 2_147_483_646)


class Usage(Exception):
    """REFERENCE, Answers and statuses: status 2, "the words are no command"."""


def command_of(words):
    """The command and its arguments. `--` is dropped once, and what follows is a value; so are `-` and empty words."""
    if not words or words[0] not in COMMANDS or re.search("[\ud800-\udfff]", "".join(words)):
        raise Usage  # DECISIONS, Words: words are UTF-8 texts; the letters named here are those of bytes that are none
    free = words.index("--") if "--" in words else len(words)
    values = words[1:free] + words[free + 1 :]
    how, *ranges = COMMANDS[words[0]]
    if len(values) != len(ranges) or any(it.startswith("-") and it != "-" for it in words[1:free]):
        raise Usage
    return how, [number_in(it, word) if it else word for it, word in zip(ranges, values)]


def number_in(limits, word):
    """A number among the words is digits alone, with leading zeros if need be, in its range."""
    if not re.fullmatch("[0-9]+", word) or not limits[0] <= int(word[-4000:]) <= limits[1]:
        raise Usage
    return int(word)


def answer(words, text):
    """The status, and the bytes on standard output and on standard error."""
    try:
        how, arguments = command_of(words)
    except Usage:
        return 2, b"", b"usage: nk COMMAND ARGUMENTS\n"
    if len(text) > MOST_BYTES and words[0] not in ("gen", "job"):
        return 8, b"", b"too long\n"
    return replied(how, text, *arguments)


def replied(how, text, *arguments):
    """The same of a text of no more bytes."""
    try:
        status, lines = how(text, *arguments)
        return status, "".join(line + "\n" for line in lines).encode(), b""
    except Fault as fault:
        return 3, b"", f"line {fault.line}: {fault.words}\n".encode()
    except Refused as refused:
        return 4, b"", ("refused " + "".join(line + "\n" for line in refused.args)).encode()


# ------------------------------------------------------------------------------------------------- policies to tables


def chosen(text, *names):
    """A program and policies of these names, of which C1 and C2 don't hold."""
    program = parse_program(text)
    policies = refusals.policies(program, *names)
    refusals.tagged(program)
    return program, *policies


def sets_of(program, policy):
    """The packets, runs and tag sets of a policy of which C7 doesn't hold."""
    space, runs = Space(program, policy, with_ports=True), Runs(policy)
    refusals.check_edges(space, runs)
    return space, runs, tag_sets(space, runs)


def tables_of(program, policy):
    """The tables of a policy of which C7 and C8 don't hold, one tag for each tag set."""
    space, runs, sets = sets_of(program, policy)
    refusals.few(program, len(sets))
    return Compiled(space, runs, dict(zip(sets, range(1, len(sets) + 1))))


def answer_compile(text, name):
    program, policy = chosen(text, name)
    refusals.check_static(program, policy, program.links)
    return 0, tables_of(program, policy).lines()


def answer_compact(text, name):
    """One tag for all tag sets after which the policy still gives the same histories, and a comment line for each two tags."""
    program, policy = chosen(text, name)
    refusals.check_static(program, policy, program.links)
    space, runs, sets = sets_of(program, policy)
    numbers, aparts = classes(space, policy, sets)
    refusals.few(program, max(numbers, default=0))
    lines = Compiled(space, runs, dict(zip(sets, numbers))).lines()
    for tags, (start, records, (last, side)) in sorted(aparts.items()):
        found = " : ".join(found_lines(program, start, records, last))
        lines.append(f"# apart {tags[0]} {tags[1]} : {tags[side]} alone : {found}")
    return 0, lines


def answer_virtual(text, name):
    """For each virtual link C3 to C6 of its fabric, C11 and C12; then those of the policy, C13, C7 and C8."""
    program, policy = chosen(text, name)
    for source, (_, _, fabric) in sorted(program.virtuals.items()):
        refusals.check_static(program, program.fabrics[fabric], program.links)
        refusals.check_carried(program, source)
    refusals.check_static(program, policy, program.virtuals)
    return 0, tables_of(program, refusals.physical(program, policy)).lines()


def answer_update(text, old, new, seed, steps, packet):
    """C1, C2, C3 to C7 of OLD, then of NEW, C8 of both together, C9 and C10. New tags stand after the old ones."""
    program, *both = chosen(text, old, new)
    sides, tags = [], [0]
    for policy in both:
        refusals.check_static(program, policy, program.links)
        sides.append(sets_of(program, policy))
        tags.append(tags[-1] + len(sides[-1][2]))
    refusals.few(program, tags[-1])
    packet = refusals.packet_of(program, packet)
    printed = [Compiled(*its, {at: tag + n for n, at in enumerate(sets, 1)}) for (*its, sets), tag in zip(sides, tags)]
    update = Update(*(parse_tables("\n".join(it.lines()).encode()) for it in printed), tags[1])
    for _, drawn in zip(range(steps), draws(seed)):
        update.turn(drawn, packet)
    lines = [f"{it} {update.versions[it]} {history_text(program, *rest, with_tag=False)}" for it, *rest in update.left]
    lines.append(f"left {len(update.left)} flying {len(update.flying)}")
    return 0, [*lines, f"done {sum(update.done.values())} of {3 * len(update.done)}"]


# ------------------------------------------------------------------------------------------- comparisons and questions


def sides_of(program, *names):
    """Two policies, or the question of a query and `drop`: C1 of any name, then C14 of the predicates, then C13.

    REFERENCE, Queries: "The question of `apart` is A, the policy and B in sequence"; "The question of `waypoint` is A,
    then the complement of W, then the policy with the complement of W before each dup, then the complement of W again,
    then B".
    """
    policy, *others = refusals.policies(program, *names)
    if not others[1:]:
        return policy, others[0]
    if not all(it.predicate for it in others):
        raise Refused("C14: not a predicate")
    before, *avoided, after = others
    avoid = [Policy("not", it) for it in avoided]
    if avoid:
        policy = mapped(parted(policy), lambda leaf: seq(*avoid, leaf) if leaf == DUP else leaf)
    return refusals.few_elements(seq(before, *avoid, policy, *avoid, after)), DROP


def answer_equal(text, *names):
    """The certificate of two policies that do the same, else the least history of one alone."""
    program = parse_program(text)
    sides = sides_of(program, *names)
    space, runs = Space(program, *sides), Runs(*sides)
    found = runs.first_difference(space.packets())
    if not found:
        return 0, certificate(space, runs)
    start, records, (last, side) = found
    said = ["broken"] if names[2:] else ["different", ("left alone", "right alone")[side]]
    return 1, said + found_lines(program, start, records, last)


def answer_check(text, *names):
    """`valid`, or the first row that fails and where."""
    program, rows = parse_certified(text)
    said = Judge(program, *sides_of(program, *names), rows).answer()
    return (0 if said == "valid" else 1), [said]


# -------------------------------------------------------------------- packets through tables, generated networks


def answer_followed(follow, text, *arguments):
    """The histories without the tag, then `left L flying F`."""
    tables = parse_tables(text)
    left, flying = follow(tables, *arguments[:-1], refusals.packet_of(tables, arguments[-1]))
    lines = [history_text(tables, *history, with_tag=False) for history in left]
    return 0, [*lines, f"left {len(left)} flying {flying}"]


def answer_gen(_, size, seed):
    return 0, generated(size, seed)


def answer_job(_, size, seed):
    """`compile go`, `compile cast` and `equal go same`: the numbers of tag sets, rows, groups and certificate rows."""
    text = "\n".join(generated(size, seed)).encode()
    program, lines = parse_program(text), []
    for name in ("go", "cast"):
        tables = tables_of(program, program.lets[name])
        rows, groups = (sum(line.startswith(word) for line in tables.lines()) for word in ("row ", "group "))
        lines.append(f"{name} tags {len(tables.tags)} rows {rows} groups {groups}")
    status, found = answer_equal(text, "go", "same")
    return (status, found) if status else (0, [*lines, f"equal rows {len(found) - 1}"])


# What answers each command, and for each argument the range of a number, or None.
COMMANDS = {
    "compile": (answer_compile, None),
    "compact": (answer_compact, None),
    "virtual": (answer_virtual, None),
    "equal": (answer_equal, None, None),
    "apart": (answer_equal, None, None, None),
    "waypoint": (answer_equal, None, None, None, None),
    "check": (answer_check, None, None),
    "check_apart": (answer_check, None, None, None),
    "check_waypoint": (answer_check, None, None, None, None),
    "trace": (partial(answer_followed, trace), HOPS, None),
    "fly": (partial(answer_followed, fly), SEED, STEPS, None),
    "update": (answer_update, None, None, SEED, STEPS, None),
    "gen": (answer_gen, SIZE, SEED),
    "job": (answer_job, SIZE, SEED),
}
