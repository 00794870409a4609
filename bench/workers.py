#!/usr/bin/env python3
"""Measures what workers bring: transactions a second with one worker, and how many times as many with 2 and with 4.

    python3 bench/workers.py [--quick] [PROGRAM]

Run it at the top of the repository, after `rt run` in crates/h248gw has built the program. Bursts are of 16, 256 and
1,024 transactions, these four to a datagram. Typical calls are set up in 256 contexts and ended; so are calls of one
Add, whose Local of 8,000 bytes is filled, in 128. Audits are of all items of a context of 64 members, sixteen in turn;
a chain is audits of one termination. In a mix one transaction in 64 is an audit of all contexts. Times are those of
whole processes, less that of what is made before; the best of five turns, each of 1, 2 and 4 workers.

It fails where answers are not those of one worker, and with 4 idle cores where a ratio is too low: in bursts of 1,024
typical calls below 1.2 with 2 workers and 1.5 with 4, audits below 2.2 with 4, a chain below 0.8; in bursts of 256
Locals below 1.5 with 4. --quick: these sizes alone.
"""
import itertools
import pathlib
import subprocess
import sys
import tempfile
import time
from typing import Callable, NamedTuple

import replays
import usage

SIZES, WORKERS, TURNS = (16, 256, 1_024), (1, 2, 4), 5
ADD = b"Transaction=%d{Context=${Add=${Media{Stream=1{Local{%s}}}}}}"
LOCAL = b"v=0\nc=IN IP4 $\nm=audio $ RTP/AVP 96\n" + b"a=fmtp:96 profile-level-id=42e01f\n" * 234
MEMBER = b"Add=T/%d{Media{Stream=1{LocalControl{Mode=SendReceive},Local{v=0},Remote{v=0}}}}"
MADE = [b"Transaction=%d{Context=${%s}}" % (1_000_000 + first, b",".join(MEMBER % n for n in range(first, first + 64)))
        for first in range(1, 1_025, 64)]
AUDIT = b"Transaction=%d{Context=%d{AuditValue=*{Audit{Media,Events,Signals,DigitMap}}}}"
LINK = b"Transaction=%d{Context=1{AuditValue=T/1{Audit{}}}}"
FOR_ALL = b"Transaction=%d{Context=*{AuditValue=*{Audit{}}}}"


class Kind(NamedTuple):
    """Transactions, each by its number and by how many of its kind are before it; in bursts of a size, the ratios."""
    name: str
    count: int
    body: Callable
    made: list
    size: int
    wanted: tuple


def calls(contexts, add):
    """Calls that are set up, one in each context, and then ended. Contexts are numbered on and on."""
    def body(number, before):
        rounds, place = divmod(before, 2 * contexts)
        made = (rounds - 1) * contexts + place + 1
        return add(number, place + 1) if place < contexts else replays.SUBTRACT % (number, made)
    return body


KINDS = [
    Kind("typical calls", 20_480, calls(256, lambda n, term: replays.ADDS % (n, term)), [], 1_024, (1.2, 1.5)),
    Kind("audits of 64 members", 2_048, lambda n, before: AUDIT % (n, before % 16 + 1), MADE, 1_024, (0, 2.2)),
    Kind("Locals of 8,000 bytes", 4_096, calls(128, lambda n, term: ADD % (n, LOCAL)), [], 256, (0, 1.5)),
    Kind("a chain", 20_480, lambda n, before: LINK % n, MADE, 1_024, (0.8, 0.8)),
]


def run(conf, given, workers, out):
    """The seconds that a replay takes, and its answers."""
    given.seek(0)
    begin, words = time.perf_counter(), [replays.PROGRAM, "replay", conf, "--workers", str(workers)]
    done = subprocess.run(words, stdin=given, stdout=out, check=True)
    return time.perf_counter() - begin, done.stdout


def measured(conf, replay):
    """The fewest seconds that a replay takes with 1, 2 and 4 workers, and the answers of each."""
    with tempfile.TemporaryFile(buffering=0) as given:
        given.write(replay)
        turns = [[run(conf, given, workers, subprocess.DEVNULL)[0] for workers in WORKERS] for _ in range(TURNS)]
        return list(map(min, zip(*turns))), [run(conf, given, workers, subprocess.PIPE)[1] for workers in WORKERS]


def faults(conf, kind, mixed, size, looks):
    """Prints the row of a kind in bursts of a size; what is wrong with it, with the ratios only where it looks."""
    made, name, before = replays.bursts(kind.made, 16), kind.name + ", mixed" * mixed, itertools.count()
    bodies = [FOR_ALL % n if mixed and n % 64 == 0 else kind.body(n, next(before)) for n in range(1, kind.count + 1)]
    nothing, (took, answers) = measured(conf, made)[0], measured(conf, made + replays.bursts(bodies, size))
    one, two, four = (max(whole - part, 1e-9) for whole, part in zip(took, nothing))
    print(f"| {name} | {size:,} | {kind.count / one / 1_000:,.1f} | {one / two:.2f} | {one / four:.2f} |", flush=True)
    out = ["other answers with more workers"] * any(each != answers[0] for each in answers)
    ratios = zip((one / two, one / four), kind.wanted * looks)
    out += [f"a ratio of {ratio:.2f}, not {wanted}" for ratio, wanted in ratios if ratio < wanted]
    return [f"{name}, bursts of {size}: {what}" for what in out]


def idle_cores():
    """How many cores have nothing to do, over a second."""
    def uptime():
        return map(float, pathlib.Path("/proc/uptime").read_text().split())

    (begin, before), _, (end, after) = uptime(), time.sleep(1), uptime()
    return (after - before) / (end - begin)


def main():
    words = usage.words(__doc__, lambda word: word == "--quick" or usage.is_program(word), 2)
    replays.PROGRAM = next((word for word in words if word != "--quick"), replays.PROGRAM)
    idle, found = idle_cores(), []
    print("| Transactions | in a burst | thousands a second, 1 worker | times as many, 2 | 4 |\n|---|---|---|---|---|")
    with tempfile.TemporaryDirectory() as folder:
        conf = replays.config(folder, 1_024)
        for kind in KINDS:
            for mixed in (False, True):
                for size in (kind.size,) if "--quick" in words else SIZES:
                    found += faults(conf, kind, mixed, size, idle > 3.8 and size == kind.size and not mixed)
    print("".join(f"{line}\n" for line in found) + f"{idle:.1f} cores were idle", file=sys.stderr)
    return 1 if found else 0


if __name__ == "__main__":
    sys.exit(main())
