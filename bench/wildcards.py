#!/usr/bin/env python3
"""Measures what a wildcard may cost: instructions for each match, and a full datagram of the costliest in time and memory.

    python3 bench/wildcards.py [PROGRAM]

Run it at the top of the repository, after `rt run` in crates/h248gw has built the program; it needs valgrind. Each line is one
transaction, or a burst of acknowledgements, with one worker. Work is instructions by callgrind, less those of the same replay
without it. A match is a termination or a context that the wildcard meets, a link that goes with its terminations, or a kept reply,
whose number an acknowledgement compares. Memory is the most that the process ever had, less the
most that it had before. Records are equal where one Modify has set them all; else each has values or names of its own, one in
each list.

Of the commands under `-` the one is taken that costs most where it fills a datagram: with 4,000 terminations and with 65,535, the
fewest seconds of three runs.

It fails where a match takes more than a tenth above 2,000 instructions and 1,000 more for each property that is sent, where a burst
takes more than 64 MB beyond the state, where 65,535 terminations take more than 20 times what 4,000 take, or where an answer is another.
"""
import functools
import sys
import tempfile
from typing import Callable, NamedTuple, Optional

import replays
import strangers
import usage

HEAD = b"!/1 a "
MANY, ALL, KEPT = 4_000, 65_535, 4_096
FOR_A_MATCH, FOR_A_PROPERTY, MEBIBYTES, TIMES = 2_000, 1_000, 64, 20


def listed(before, texts, behind=b"}"):
    return before + b",".join(texts) + behind


def packed(texts, most=1_000):
    """Datagrams of at most so many texts, each as long as it may be."""
    out = []
    for text in texts:
        if not out or count == most or len(out[-1]) + len(text) > strangers.LONGEST:
            out, count = out + [HEAD], 0
        out[-1], count = out[-1] + text, count + 1
    return out


def made(bodies, first=1_000_000):
    """Transactions that make a state, each under a number of its own."""
    return packed([b"T=%d{%s}" % (number, body) for number, body in enumerate(bodies, first)])


def media(properties, five=False):
    """These properties in a LocalControl, or a fifth of them in each of the five lists of a termination."""
    if not five:
        return listed(b"{M{O{", properties, b"}}}")
    fifth = [b",".join(properties[first::5]) for first in range(5)]
    return listed(b"{M{TS{%s}," % fifth[0], [b"ST=%d{O{%s}}" % (n, fifth[n]) for n in range(1, 5)], b"}}")


def sent(count):
    """A Modify of all, each time with other values."""
    return lambda turn: b"MF=*" + media([b"a%d=%d" % (n, turn) for n in range(count)], count > 32)


def equal(count):
    return lambda terms: made([b"C=-{MF=*%s}" % media([b"a%d=x" % n for n in range(count)], count > 32)])


def own_values(count):
    """All have what is sent, each with a value of its own in each list."""
    return lambda terms: equal(count)(terms) + each(terms, count, b"a%d=%d")


def own_names(count):
    """Each has a property with a name of its own in each list."""
    return lambda terms: each(terms, count, b"o%d.%d=x")


def each(terms, count, text):
    lists = 5 if count > 32 else 1
    return made([b"C=-{MF=T/%d%s}" % (n, media([text % (k, n) for k in range(lists)], count > 32)) for n in range(1, terms + 1)], 2_000_000)


def contexts(count, size=64):
    return lambda terms: made([listed(b"C=${", [b"A=T/%d" % (size * n + k) for k in range(1, size + 1)]) for n in range(count)])


def links():
    return [b"T/%d,T/%d,OW" % (one, other) for other in range(2, 65) for one in range(1, other)]


def linked(terms):
    return contexts(1)(terms) + made([listed(b"C=1{TP{", links(), b"}}")], 2_000_000)


def kept(terms):
    return packed([b"T=%d{C=-{AV=T/1{AT{}}}}" % number for number in range(1, KEPT + 1)], 256)


class Kind(NamedTuple):
    """What is sent, over which state; how many it matches, and with how many properties; the error that answers it, if any."""
    name: str
    before: Callable
    command: Callable
    matches: int = MANY
    properties: int = 0
    error: Optional[bytes] = b"533"
    terms: int = MANY
    context: Optional[bytes] = b"-"
    keep: int = 4

    def datagram(self, count=1):
        """The command so many times in one action; what has no context is no command."""
        commands = [self.command(turn) for turn in range(count)]
        return HEAD + (listed(b"T=1{C=%s{" % self.context, commands, b"}}") if self.context else commands[0])

    def most(self):
        """How many of them fit a datagram."""
        count = strangers.LONGEST // (len(self.command(0)) + 1)
        while len(self.datagram(count)) > strangers.LONGEST:
            count -= 1
        return count


def nothing(terms):
    return []


def always(command):
    return lambda turn: command


LONG, FORCED, MEDIA = b"v" * 8_000, b"SC=*{SV{MT=FO,RE=1}}", b"AV=*{AT{M}}"
ONE = functools.partial(Kind, matches=64, terms=64, context=b"1", error=None)
EACH = functools.partial(Kind, matches=62 * 65, context=b"*")
ACKS = functools.partial(Kind, matches=KEPT, error=None, context=None, keep=KEPT)

KINDS = [
    Kind("AuditValue of nothing", nothing, always(b"AV=*{AT{}}")),
    Kind("AuditValue of Media, 160 properties, own values", own_values(160), always(MEDIA)),
    Kind("ServiceChange", nothing, always(FORCED)),
    *[Kind(f"Modify of {n}, bare", nothing, sent(n), properties=n) for n in (1, 32, 160)],
    *[Kind(f"Modify of {n}, equal records", equal(n), sent(n), properties=n) for n in (1, 32, 160)],
    *[Kind(f"Modify of {n}, own values", own_values(n), sent(n), properties=n) for n in (1, 32, 160)],
    *[Kind(f"Modify of {n}, own names", own_names(n), sent(n), properties=n) for n in (1, 31, 155)],
    Kind("Modify of a value of 8,000 bytes, own values", own_values(1), lambda turn: b"MF=*{M{O{a0=%d%s}}}" % (turn, LONG), properties=1),
    Kind("Modify of a Local of 8,000 bytes to fill", nothing, always(b"MF=*{M{L{c=$ %s}}}" % LONG), properties=1),
    ONE("AuditValue of Media, context of 64", contexts(1), always(MEDIA)),
    ONE("Modify of 32, context of 64", contexts(1), sent(32), properties=32),
    ONE("ServiceChange, context of 64", contexts(1), always(FORCED)),
    ONE("Subtract, context of 64", contexts(1), always(b"S=*")),
    ONE("Subtract, context of 64 with 2,016 links", linked, always(b"S=*"), matches=64 + 2_016),
    ONE("Add, 64 into a new context", nothing, always(b"A=*"), context=b"$"),
    EACH("AuditValue of Media, 62 contexts of 64", contexts(62), always(MEDIA)),
    EACH("Modify of 32, 62 contexts of 64", contexts(62), sent(32), properties=32),
    EACH("ServiceChange, 62 contexts of 64", contexts(62), always(FORCED)),
    EACH("Subtract, 62 contexts of 64", contexts(62), always(b"S=*")),
    EACH("Move, 62 contexts of 64, not implemented", contexts(62), always(b"O-MV=*"), matches=62, error=b"501"),
    EACH("Add, 62 contexts of 64, illegal", contexts(62), always(b"O-A=*"), matches=62, error=b"421"),
    ACKS("one acknowledgement of one of 4,096 replies", kept, always(b"K{2}")),
    ACKS("one acknowledgement of 4,096 replies", kept, always(b"K{0-4294967295}")),
    ACKS("1,024 acknowledgements of four each", kept, always(b"".join(b"K{%d-%d}" % (n, n + 3) for n in range(1, KEPT, 4)))),
]


@functools.cache
def counted(conf, replay):
    return replays.instructions(conf, replay)


def replay_of(bursts):
    return b"".join(map(strangers.burst, bursts))


def is_answered(kind, answers):
    """By the error, or by none."""
    return all(b"Error=" + kind.error in answer if kind.error else b"Error=" not in answer for answer in answers)


def is_above(line, what, value, most):
    if value > most:
        print(f"{line}: more than {most:,} {what}", file=sys.stderr)
    return value > most


def match(folder, kind):
    """Prints the line of a kind: instructions for a match, and whether it fails."""
    conf, before, burst = replays.config(folder, kind.terms, kind.keep), kind.before(kind.terms), [kind.datagram()]
    setting = [[it] for it in before] + [[strangers.AUDIT]]
    work = (counted(conf, replay_of(setting + [burst])) - counted(conf, replay_of(setting))) / kind.matches
    _, memory, answers = strangers.measured(conf, before, burst)
    most = FOR_A_MATCH + FOR_A_PROPERTY * kind.properties
    print(f"| {kind.name} | {kind.matches:,} | {work:,.0f} | {most:,} | {memory / strangers.MEBIBYTE:.1f} |", flush=True)
    if not is_answered(kind, answers):
        print(f"{kind.name}: not answered so: {answers[-1][:200]!r}", file=sys.stderr)
    over = is_above(kind.name, "instructions for a match", work, round(usage.TENTH * most)) | is_above(kind.name, "MB", memory / strangers.MEBIBYTE, MEBIBYTES)
    return work, over or not is_answered(kind, answers)


def full(folder, kind, terms):
    """Prints the line of a full datagram of a kind: the fewest seconds of three runs, and whether it fails."""
    runs = [strangers.measured(replays.config(folder, terms), kind.before(terms), [kind.datagram(kind.most())]) for _ in range(3)]
    took, memory = min(run[0] for run in runs), max(run[1] for run in runs)
    print(f"| {kind.name}, {kind.most():,} times | {terms:,} | {took:.2f} | {memory / strangers.MEBIBYTE:.1f} |", flush=True)
    return took, is_above(kind.name, "MB", memory / strangers.MEBIBYTE, MEBIBYTES)


def main():
    replays.PROGRAM = strangers.PROGRAM = (usage.words(__doc__, usage.is_program, 1) or [strangers.PROGRAM])[0]
    over, costs = False, {}
    with tempfile.TemporaryDirectory() as folder:
        print("| Wildcard | matches | instructions for a match | at most | MB beyond the state |\n|---|---|---|---|---|")
        for kind in KINDS:
            work, fails = match(folder, kind)
            over |= fails
            if kind.context == b"-":
                costs[kind] = work * kind.most()
        costliest = max(costs, key=costs.get)
        print("\n| The costliest, a full datagram | terminations | s | MB beyond the state |\n|---|---|---|---|", flush=True)
        (few, much), (many, more) = full(folder, costliest, MANY), full(folder, costliest, ALL)
        over |= much | more | is_above(costliest.name, "times as long with 65,535 terminations", many / few, TIMES)
    return 1 if over else 0


if __name__ == "__main__":
    sys.exit(main())
