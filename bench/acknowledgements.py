#!/usr/bin/env python3
"""Measures what acknowledgements may cost: instructions a byte of datagrams that are nothing else, with 4,096 kept replies.

    python3 bench/acknowledgements.py [PROGRAM]

Run it at the top of the repository, after `rt run` in crates/h248gw has built the program; it needs valgrind. A line is the
instructions of a replay less those of the same replay without the datagrams that it speaks of, for each byte of these. It fails where
one takes more than 20 times what a typical transaction takes a byte.
"""
import pathlib
import subprocess
import sys
import tempfile

import usage

PROGRAM = "crates/h248gw/out/h248gw"
HEAD = b"MEGACO/1 [10.0.0.9]:2944 "
KEPT = 4_096
LONGEST = 65_507
ADDS = (b"Transaction=%d{Context=${Add=T/%d{Media{Stream=1{LocalControl{Mode=SendReceive}}},Events=2223{al/on}},"
        b"Add=${Media{Stream=1{LocalControl{Mode=ReceiveOnly},Local{\nv=0\nc=IN IP4 $\nm=audio $ RTP/AVP 0\na=ptime:20\n}}}}}}")
SUBTRACT = b"Transaction=%d{Context=%d{Subtract=*}}"
AUDIT = b"Transaction=%d{Context=-{AuditValue=T/1{Audit{}}}}"


def burst(bodies):
    return b"".join(b"D 7 %d\n%s\n" % (len(HEAD + body), HEAD + body) for body in bodies) + b".\n"


def filled(parts, before, between, behind):
    """As many of the parts as fit a datagram."""
    room = LONGEST - len(HEAD) - len(before) - len(behind)
    taken = []
    for part in parts:
        room -= len(part) + (len(between) if taken else 0)
        if room < 0:
            break
        taken.append(part)
    return before + between.join(taken) + behind


def numbers(texts):
    return filled(texts, b"K{", b",", b"}")


def kinds():
    absent = [b"%d" % n for n in range(1_000_000, 1_020_000)]
    each = [b"K{%d}" % n for n in range(1, KEPT + 1)]
    none = [b"K{%d}" % n for n in range(1_000_000, 1_020_000)]
    request = AUDIT % 900_000
    yield "ranges that name nothing", [[numbers(absent)]]
    yield "each second reply, by a range of its own", [[numbers([b"%d-%d" % (n, n) for n in range(1, KEPT, 2)])]]
    yield "every number, over and over", [[numbers([b"0-4294967295"] * 9_000)]]
    yield "every number, over and over, in 256 datagrams", [[numbers([b"0-4294967295"] * 9_000)] * 256]
    yield "an acknowledgement for each reply", [[filled(each, b"", b"", b"")]]
    yield "the same, and a request behind them", [[filled(each, b"", b"", request)]]
    yield "an acknowledgement for each of 16 replies, in 256 datagrams", [[b"".join(each[n:n + 16]) for n in range(0, KEPT, 16)]]
    yield "acknowledgements that name nothing, and a request", [[filled(none, b"", b"", request)]]
    turns = [b"K{%d}" % (n + 1) + AUDIT % (900_000 + n) for n in range(1_024)]
    yield "acknowledgements and requests in turn", [[b"".join(turns[n:n + 256]) for n in range(0, 1_024, 256)]]
    yield "requests in turn, to lay beside", [[b"".join(AUDIT % (900_000 + m) for m in range(n, n + 256)) for n in range(0, 1_024, 256)]]


def instructions(program, conf, given):
    with tempfile.NamedTemporaryFile() as out, tempfile.NamedTemporaryFile() as file:
        file.write(given)
        file.flush()
        with open(file.name, "rb") as stdin:
            done = subprocess.run(["valgrind", "--tool=callgrind", "--callgrind-out-file=" + out.name, program, "replay", conf],
                                  stdin=stdin, stdout=subprocess.DEVNULL, stderr=subprocess.PIPE)
    if done.returncode != 0:
        sys.exit(done.stderr.decode())
    return int(done.stderr.decode().split("Collected :")[1].split()[0])


def main():
    program = (usage.words(__doc__, usage.is_program, 1) or [PROGRAM])[0]
    failed = False
    with tempfile.TemporaryDirectory() as folder:
        conf = str(pathlib.Path(folder) / "kept.conf")
        pathlib.Path(conf).write_text("mid [10.0.0.1]:2944\nmedia 10.0.0.1\ncontexts 4096\nslots 4096\nmembers 3\nkeep %d\n" % KEPT
                                      + "".join("term T/%d\n" % n for n in range(1, 5)))
        kept = b"".join(burst([AUDIT % n for n in range(first, first + 256)]) for first in range(1, KEPT + 1, 256))
        base = instructions(program, conf, kept)
        pairs = []
        for n in range(256):
            pairs += [ADDS % (800_000 + 2 * n, 1 + n % 4), SUBTRACT % (800_001 + 2 * n, n + 1)]
        typical = b"".join(burst(pairs[n:n + 16]) for n in range(0, 512, 16))
        size = sum(len(HEAD + body) for body in pairs)
        most = 20 * (instructions(program, conf, kept + typical) - base) / size
        print("| Datagrams of | instructions a byte | at most |\n|---|---|---|\n| a typical transaction | %.0f | |" % (most / 20))
        for what, bursts in kinds():
            size = sum(len(HEAD + body) for bodies in bursts for body in bodies)
            taken = (instructions(program, conf, kept + b"".join(burst(bodies) for bodies in bursts)) - base) / size
            print("| %s | %.0f | %.0f |" % (what, taken, most), flush=True)
            failed |= taken > most
    sys.exit(1 if failed else 0)


main()
