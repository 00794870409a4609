#!/usr/bin/env python3
"""Measures h248gw on datagrams of each kind: time of the largest, and how the work grows from 8 KB to 64 KB.

Run it at the top of the repository, after `rt run` in crates/h248gw has built the program. Time is that of the whole
process, the best of several runs; work is instructions by valgrind's callgrind, less those for the empty datagram. It fails
where a datagram takes more than 0.1 s, or more instructions a byte than its kind may.
`--reading` measures the transactions of every day alone, which are most of what a gateway reads: `typical` is that of
typical.datagram (two Adds with Media, a Local of seven lines, Events and Signals), `short` a Subtract, `audits` the AuditValue of
the short transactions. Each fills a datagram.
`--carrying` measures what some transactions cost to carry out and to answer, beside what they cost to read.
"""
import pathlib
import re
import subprocess
import sys
import time

import usage

PROGRAM = "crates/h248gw/out/h248gw"
LARGE, SMALL = 65_507, 8_192
HEAD = b"MEGACO/1 [10.0.0.9]:2944 "
# Behind a message: the whole is read, and found to be none, so that nothing of it is carried out.
UNENDED = b" ;"


def repeated(before, unit, after, size):
    """As many units as fit, between the two."""
    return before + unit * ((size - len(before) - len(after)) // len(unit)) + after


def first_padded(size):
    words = [b"MEGACO/1", b"[10.0.0.9]:2944", b"Transaction", b"=", b"1", b"{", b"Context", b"=", b"$", b"{", b"Add", b"=",
             b"T/1", b",", b"Add", b"=", b"T/2", b"}", b"}"]
    gap = (size - sum(map(len, words))) // (len(words) - 1)
    return (b" ;" + b"c" * (gap - 3) + b"\n").join(words)


def in_local(body):
    return HEAD + b"Transaction=1{Context=-{Modify=T/1{Media{Local{" + body + b"}}}}}"


def in_events(body):
    return HEAD + b"Transaction=1{Context=-{Modify=T/1{Events=1{" + body + b"}}}}"


# Each kind, and how many instructions a byte of it may take: what it took before the parts of a message
# were spans of the datagram.
KINDS = {
    "white space alone": (lambda n: b" " * n, 18.0),
    "one comment": (lambda n: b";" + b"c" * (n - 2) + b"\n", 17.0),
    "commas": (lambda n: b"," * n, 1.0),
    "opening braces": (lambda n: b"{" * n, 1.0),
    "comments between all words": (first_padded, 18.9),
    "one action of many commands": (lambda n: repeated(HEAD + b"Transaction=1{Context=${Add=T/1", b",Add=T/1", b"}}", n), 93.2),
    "short transactions": (lambda n: repeated(HEAD, b"Transaction=1{Context=-{AuditValue=T/1{Audit{}}}} ", b"", n), 81.6),
    "one Local full of escaped braces": (lambda n: in_local(b"\\}" * ((n - 90) // 2)), 20.0),
    "groups 8 deep side by side": (lambda n: in_events(b"{{{{{{{}}}}}}}" * ((n - 90) // 14)), 23.0),
    "a brace too deep at the end": (lambda n: in_events(b"{{{{{{{}}}}}}}" * ((n - 110) // 14) + b"{{{{{{{{"), 22.0),
    "one quoted text": (lambda n: in_events(b'"' + b"q" * (n - 100) + b'"'), 17.0),
    "words of one letter in a group": (lambda n: in_events(b"w " * ((n - 90) // 2)), 81.5),
    "words of six letters in a group": (lambda n: in_events(b"signal " * ((n - 90) // 7)), 57.6),
    "descriptors without a meaning": (lambda n: repeated(HEAD + b"Transaction=1{Context=-{Modify=T/1{X", b",X", b"}}}", n), 368.8),
    "a Reply with a long group": (lambda n: HEAD + b"Reply=1{" + b"x" * (n - len(HEAD) - 9) + b"}", 13.0),
    "a word of many letters": (lambda n: HEAD + b"w" * (n - len(HEAD)), 13.0),
}


def typical():
    head, transaction = (pathlib.Path(__file__).parent / "typical.datagram").read_bytes().split(b"\n", 1)
    return [head + b"\n", *[transaction] * ((LARGE - len(head) - 3) // len(transaction))]


def short():
    parts = [HEAD]
    while sum(map(len, parts)) + 43 <= LARGE:
        parts.append(b"Transaction=%d{Context=-{Subtract=T/1}}" % len(parts))
    return parts


def audits():
    transaction = b"Transaction=1{Context=-{AuditValue=T/1{Audit{}}}} "
    return [HEAD, *[transaction] * ((LARGE - len(HEAD) - 3) // len(transaction))]


EVERY_DAY = {"typical": (typical, 45), "short": (short, 62), "audits": (audits, 81)}


def burst(datagram):
    """The replay of a burst of one datagram, which the program reads without words."""
    return b"D 0 %d\n%s\n.\n" % (len(datagram), datagram)


def seconds(datagram):
    best = float("inf")
    for _ in range(7):
        start = time.perf_counter()
        subprocess.run([PROGRAM], input=burst(datagram), capture_output=True, check=False)
        best = min(best, time.perf_counter() - start)
    return best


def instructions(datagram):
    run = subprocess.run(["valgrind", "--tool=callgrind", "--callgrind-out-file=/dev/null", PROGRAM], input=burst(datagram),
                         capture_output=True, check=False)
    return int(re.search(rb"Collected : (\d+)", run.stderr).group(1))


def reading(nothing):
    """Instructions for a transaction and for a byte, less those for the empty datagram; fails where a byte takes more than the limit."""
    late = False
    print("| Transaction | in a datagram | instructions for one | for a byte | at most |")
    print("|---|---|---|---|---|")
    for name, (make, limit) in EVERY_DAY.items():
        parts = make()
        datagram = b"".join(parts) + UNENDED
        work = instructions(datagram) - nothing
        late = late or work / len(datagram) > limit
        print(f"| {name} | {len(parts) - 1} | {work / (len(parts) - 1):.0f} | {work / len(datagram):.1f} | {limit} |")
    return 1 if late else 0


LOCAL = (b"v=0\nc=IN IP4 $\nm=audio $ RTP/AVP 0 8 18 101\na=rtpmap:101 telephone-event/8000\na=fmtp:101 0-15\na=ptime:20\n")
ADDS = (b"Add=T/1{Media{Stream=1{LocalControl{Mode=SendReceive,tdmc/gain=2,tdmc/ec=on}}},Events=2223{al/on}},"
        b"Add=${Media{Stream=1{LocalControl{Mode=ReceiveOnly,nt/jit=40},Local{" + LOCAL + b"}}}}")
FIRST = b"Transaction=1{Context=${" + ADDS + b"}"
CARRIED = {
    "two Adds by name": b"Transaction=1{Context=${Add=T/1,Add=T/2}",
    "two Adds with Media, a Local to fill": FIRST,
    "the same, and a Modify of Media": FIRST + b",Context=-{Modify=T/2{Media{LocalControl{Mode=SendReceive},Remote{" + LOCAL + b"}}}}",
    "the same Adds, and a Subtract with an audit": FIRST + b",Context=1{Subtract=RTP/0{Audit{Media}}}",
    "the same Adds, and an AuditValue of all under -": FIRST + b",Context=-{AuditValue=*{Audit{Media,Events}}}",
}


def carrying(nothing):
    """Instructions for reading a transaction alone in its datagram, and for carrying it out and writing the reply."""
    print("| Transaction | reading it | carrying it out, and the reply |")
    print("|---|---|---|")
    for name, transaction in CARRIED.items():
        whole = instructions(HEAD + transaction + b"}") - nothing
        read = instructions(HEAD + transaction + b"}" + UNENDED) - nothing
        print(f"| {name} | {read} | {whole - read} |")
    return 0


def main():
    given = usage.words(__doc__, lambda word: word in ("--reading", "--carrying"), 1)
    nothing = instructions(b"")
    if given == ["--reading"]:
        return reading(nothing)
    if given == ["--carrying"]:
        return carrying(nothing)
    late = False
    print("| Datagram | ms at 65,507 bytes | instructions a byte | at most | work at 64 KB / work at 8 KB |")
    print("|---|---|---|---|---|")
    for name, (make, limit) in KINDS.items():
        large, small = make(LARGE), make(SMALL)
        assert len(large) <= LARGE and len(small) <= SMALL, name
        took = seconds(large)
        work = instructions(large) - nothing
        late = late or took > 0.1 or round(work / len(large), 1) > limit
        ratio = work / (instructions(small) - nothing)
        growth = f"{ratio:.2f} (bytes: {len(large) / len(small):.2f})"
        print(f"| {name} | {took * 1000:.1f} | {work / len(large):.1f} | {limit} | {growth} |")
    print()
    return 1 if reading(nothing) or late else 0


if __name__ == "__main__":
    sys.exit(main())
