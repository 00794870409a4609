#!/usr/bin/env python3
"""Measures what one datagram of a stranger may cost a new gateway: time, work and memory beyond its state.

Run it at the top of the repository, after `rt run` in crates/h248gw has built the program. Each line is a datagram, or a burst of
them, that asks for as much as it can and is answered with an error. Time is that of its burst alone, from its last byte
to its answer, the best of three. Memory is the most that the process ever had, less the most that it had before: then it has
answered an audit, so the state and the copy of the tables that a burst makes are left out. Work is instructions by valgrind's
callgrind, of a burst of one eighth of the bytes or of the commands, less those of the same run without it; `--quick` leaves it out.

It fails where a line takes more time or more memory than its limits. Words choose the lines that have one of them in their name.
"""
import pathlib
import re
import subprocess
import sys
import tempfile
import time
from typing import Callable, NamedTuple

import usage

PROGRAM = "crates/h248gw/out/h248gw"
HEAD = b"MEGACO/1 [10.0.0.9]:2944 "
LONGEST = 65_507
MEBIBYTE = 1 << 20


def transaction(number, actions):
    return HEAD + b"Transaction=%d{" % number + actions + b"}"


def listed(texts):
    return b",".join(texts)


def in_context(name, commands):
    return b"Context=" + name + b"{" + listed(commands) + b"}"


def filled(number, name, command, share):
    """A transaction of one action: a command as often as there is room in that share of the longest datagram."""
    room = LONGEST // share - len(transaction(number, in_context(name, [])))
    return transaction(number, in_context(name, [command] * ((room + 1) // (len(command) + 1))))


def shortest(number, before, text, behind):
    """The longest datagram of one transaction, with the shortest header: the text as often as there is room, between the two."""
    first, last = b"!/1 a T=%d{" % number + before, behind + b"}"
    return first + listed([text] * ((LONGEST - len(first) - len(last) + 1) // (len(text) + 1))) + last


def repeated(name, command, count):
    return transaction(2, in_context(name, [command] * count))


def burst(datagrams):
    return b"".join(b"D 7 %d\n%s\n" % (len(it), it) for it in datagrams) + b".\n"


def config(folder, terms, slots):
    path = pathlib.Path(folder) / f"{terms}-{slots}.conf"
    names = "".join(f"term T/{number}\n" for number in range(1, terms + 1))
    path.write_text(f"mid [10.0.0.1]:2944\nmedia 10.0.0.1\ncontexts 65535\nslots {slots}\nmembers 64\nkeep 4\n{names}")
    return str(path)


def contexts_and(commands, share):
    """Contexts in the first half of a datagram; then an action for all of them for each of the commands, as often as there is room."""
    made = listed([b"Context=${Add=$}"] * (LONGEST // share // 2 // 17))
    each = listed(in_context(b"*", [command]) for command in commands)
    room = LONGEST // share - len(transaction(2, made))
    return transaction(2, listed([made] + [each] * (room // (len(each) + 1))))


def each_for_all(share):
    """A datagram of as many transactions as fit it, each for every context, of which there is none."""
    datagram, number = HEAD[:-1], 2
    while len(datagram) + len(one := b" Transaction=%d{Context=*{Subtract=*}}" % number) <= LONGEST // share:
        datagram, number = datagram + one, number + 1
    return [datagram]


def members():
    """A context of 64 members, each with 98 KB: Local and Remote in four streams, and four tails."""
    text = b"{\n" + b"a" * 7_900 + b"\n}"
    streams = listed(b"Stream=%d{Local%s,Remote%s}" % (stream, text, text) for stream in range(1, 5))
    tails = listed(word + b"=1{" + b"b" * 8_000 + b"}" for word in (b"Events", b"Signals", b"DigitMap", b"EventBuffer"))
    out = []
    for number in range(1, 65):
        name = b"T/%d" % number
        out.append(transaction(2_000 + number, b"Context=-{Modify=" + name + b"{Media{" + streams + b"}}}"))
        out.append(transaction(3_000 + number, b"Context=-{Modify=" + name + b"{" + tails + b"}}"))
    out.append(transaction(4_000, b"Context=${" + listed(b"Add=T/%d" % number for number in range(1, 65)) + b"}"))
    return out


ALL_ITEMS = b"Audit{Media,Events,Signals,DigitMap,EventBuffer,Statistics,ObservedEvents,Packages}"
RESTART = b"ServiceChange=*{Services{Method=Restart,Reason=1}}"


class Line(NamedTuple):
    """A burst, by what share of it is wanted, with what is configured and answered before it, and the limits of the whole."""
    name: str
    terms: int
    slots: int
    before: Callable
    burst: Callable
    seconds: float
    mebibytes: int
    answer: bytes = b"Error=533{"


def nothing():
    return []


LINES = [
    Line("contexts of one, `Context=*{AuditValue=*{Audit{}}}`", 0, 4_096, nothing,
         lambda share: [contexts_and([b"AuditValue=*{Audit{}}"], share)], 6.5, 16),
    Line("contexts of one, `Context=*{Modify=*}`", 0, 4_096, nothing, lambda share: [contexts_and([b"Modify=*"], share)], 8.7, 16),
    Line("contexts of one, `Context=*` with another Priority each time", 0, 4_096, nothing,
         lambda share: [contexts_and([b"Priority=1", b"Priority=2"], share)], 1.0, 16),
    Line("400 terminations, `Modify=*` under `-`", 400, 0, nothing, lambda share: [filled(2, b"-", b"Modify=*", share)], 3.5, 16),
    Line("400 terminations, `O-Add=*` in a `$` context", 400, 0, nothing, lambda share: [filled(2, b"$", b"O-Add=*", share)], 3.5, 16),
    Line("4 terminations, `Modify=*` under `-`, 256 datagrams", 4, 0, nothing,
         lambda share: [filled(number, b"-", b"Modify=*", 1) for number in range(2, 2 + 256 // share)], 7.0, 64),
    Line("4 terminations, `A=T/1,S=T/1` under `-`, 256 datagrams", 4, 0, nothing,
         lambda share: [shortest(number, b"C=-{", b"A=T/1,S=T/1", b"}") for number in range(2, 2 + 256 // share)], 10.0, 64, b"Error="),
    Line("no context, `C=1{AV=*}`, 256 datagrams", 4, 0, nothing,
         lambda share: [shortest(number, b"", b"C=1{AV=*}", b"") for number in range(2, 2 + 256 // share)], 15.0, 64, b"Error="),
    Line("4 terminations, empty Events of a Modify, 256 datagrams", 4, 0, nothing,
         lambda share: [shortest(number, b"C=-{MF=T/1{", b"E", b"}}") for number in range(2, 2 + 256 // share)], 15.0, 64, b"Error="),
    Line("65,535 terminations, `ServiceChange=*` 100 times", 65_535, 0, nothing,
         lambda share: [repeated(b"-", RESTART, 100 // share)], 13.0, 64),
    Line("65,535 terminations, `AuditValue=*{Audit{}}` 1,000 times", 65_535, 0, nothing,
         lambda share: [repeated(b"-", b"AuditValue=*{Audit{}}", 1_000 // share)], 100.0, 64),
    Line("64 members of 98 KB, `AuditValue=*` of all items 100 times", 64, 0, members,
         lambda share: [repeated(b"1", b"AuditValue=*{" + ALL_ITEMS + b"}", 100 // share)], 0.2, 16),
    Line("65,535 terminations, `Context=*{Subtract=*}` in 1,700 transactions", 65_535, 0, nothing, each_for_all, 1.0, 64, b"Error="),
]

AUDIT = transaction(1, b"Context=-{O-AuditValue=T/1{Audit{}}}")


class Gateway:
    """A running program that answers bursts."""

    def __init__(self, conf):
        self.run = subprocess.Popen([PROGRAM, "replay", conf], stdin=subprocess.PIPE, stdout=subprocess.PIPE)

    def answer(self, datagrams):
        self.run.stdin.write(burst(datagrams)[:-2])
        self.run.stdin.flush()
        start = time.perf_counter()
        self.run.stdin.write(b".\n")
        self.run.stdin.flush()
        answers = []
        while (line := self.run.stdout.readline()) != b".\n":
            if not line:
                raise RuntimeError(f"the program ended with status {self.run.wait()}")
            answers.append(self.run.stdout.read(int(line.split()[2]) + 1))
        return time.perf_counter() - start, answers

    def most(self):
        status = pathlib.Path(f"/proc/{self.run.pid}/status").read_text()
        return int(re.search(r"VmHWM:\s+(\d+) kB", status).group(1)) * 1_024

    def end(self):
        self.run.stdin.close()
        self.run.wait()


def measured(conf, before, datagrams):
    """Seconds, bytes beyond what there was before, and the answers."""
    gateway = Gateway(conf)
    for datagram in before:
        gateway.answer([datagram])
    gateway.answer([AUDIT])
    held = gateway.most()
    took, answers = gateway.answer(datagrams)
    most = gateway.most()
    gateway.end()
    return took, most - held, answers


def counted(conf, bursts):
    run = subprocess.run(["valgrind", "--tool=callgrind", "--callgrind-out-file=/dev/null", PROGRAM, "replay", conf],
                         input=b"".join(burst(it) for it in bursts), stdout=subprocess.DEVNULL, stderr=subprocess.PIPE, check=True)
    return int(re.search(rb"Collected : (\d+)", run.stderr).group(1))


def instructions(conf, before, datagrams):
    setting = [[it] for it in before] + [[AUDIT]]
    return counted(conf, setting + [datagrams]) - counted(conf, setting)


def main():
    given = usage.words(__doc__, lambda word: word == "--quick" or any(word in line.name for line in LINES))
    quick = "--quick" in given
    words = [word for word in given if word != "--quick"]
    over = False
    print("| Burst | s | at most | MB beyond the state | at most | instructions for an eighth |")
    print("|---|---|---|---|---|---|")
    with tempfile.TemporaryDirectory() as folder:
        for line in LINES:
            if words and not any(word in line.name for word in words):
                continue
            conf, before = config(folder, line.terms, line.slots), line.before()
            runs = [measured(conf, before, line.burst(1)) for _ in range(3)]
            took, most = min(run[0] for run in runs), max(run[1] for run in runs)
            over |= took > line.seconds or most > line.mebibytes * MEBIBYTE
            if not all(line.answer in answer for answer in runs[0][2]):
                print(f"{line.name}: not answered with the error", file=sys.stderr)
                over = True
            work = "" if quick else f"{instructions(conf, before, line.burst(8)):,}"
            print(f"| {line.name} | {took:.2f} | {line.seconds} | {most / MEBIBYTE:.1f} | {line.mebibytes} | {work} |", flush=True)
    return 1 if over else 0


if __name__ == "__main__":
    sys.exit(main())
