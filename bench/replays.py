#!/usr/bin/env python3
"""Measures h248gw on replays: transactions a second, the work of one transaction and its parts, and how both grow.

Run it at the top of the repository, after `rt run` in crates/h248gw has built the program. Work is instructions by
valgrind's callgrind, as the difference of two runs, so that what is done once is left out; time is that of the whole process,
the best of three. The typical transactions are those of every day, in pairs: two Adds with Media, one of them with a Local to
fill, and a Subtract of both.

`--rates` measures 20,000 of them in bursts of 1, 16 and 256 datagrams, with 4 and with 400 terminations, and 200,000.
`--tables` measures one transaction as the tables grow.
`--bursts` measures new transactions and repeats in bursts of 64 and of 1,024, with 4,096 kept replies.
`--samples` measures transactions of every kind of a call (two Adds, a Modify and a Subtract, each with what it is sent with) among 1,000
terminations and 4,096 kept replies, in bursts of 1, 4, 16 and 256, and with 4 kept replies in bursts of 16; it fails where one costs more
than a tenth above 15,500 in bursts of 16, more than half as much again in bursts of its own, or more than a twentieth more in one of the
others than in another, or with 4,096 kept replies than with 4.
`--waves` measures bursts of 1,024 transactions that stand in one another's way, or do not, with one worker and with three, whose
processors are counted together; it fails where three take more than 4,000 more than one on 1,024 contexts, or 1.3 times as many on one.
`--records` measures what executing costs beside the burst, and the memory of bare terminations; it fails where one is more
than a tenth above its limit.
Without words all is measured but waves, which speak of several workers.
"""
import pathlib
import re
import subprocess
import sys
import tempfile
import time

import usage

PROGRAM = "crates/h248gw/out/h248gw"
HEAD = b"MEGACO/1 [10.0.0.9]:2944 "
ADDS = (b"Transaction=%d{Context=${Add=T/%d{Media{Stream=1{LocalControl{Mode=SendReceive}}},Events=2223{al/on}},"
        b"Add=${Media{Stream=1{LocalControl{Mode=ReceiveOnly},Local{\nv=0\nc=IN IP4 $\nm=audio $ RTP/AVP 0\na=ptime:20\n}}}}}}")
SUBTRACT = b"Transaction=%d{Context=%d{Subtract=*}}"
AUDIT = b"Transaction=%d{Context=-{AuditValue=T/1{Audit{}}}}"


def record(body):
    datagram = HEAD + body
    return b"D 7 %d\n%s\n" % (len(datagram), datagram)


def bursts(bodies, size):
    """Bursts of so many of the bodies, in at most 256 datagrams each."""
    out, each = [], max(1, size // 256)
    for place in range(0, len(bodies), size):
        burst = bodies[place:place + size]
        out += [record(b" ".join(burst[first:first + each])) for first in range(0, len(burst), each)] + [b".\n"]
    return b"".join(out)


def typical(count, terms):
    """Pairs of transactions: a call is made and ended."""
    bodies = []
    for pair in range(count // 2):
        bodies.append(ADDS % (2 * pair + 1, pair % terms + 1))
        bodies.append(SUBTRACT % (2 * pair + 2, pair % 65535 + 1))
    return bodies


def config(folder, terms, keep=4, slots=4096):
    path = pathlib.Path(folder) / f"{terms}-{keep}.conf"
    names = "".join(f"term T/{number}\n" for number in range(1, terms + 1))
    path.write_text(f"mid [10.0.0.1]:2944\nmedia 10.0.0.1\ncontexts 65535\nslots {slots}\nmembers 64\nkeep {keep}\n{names}")
    return str(path)


def seconds(conf, replay):
    best = None
    for _ in range(3):
        start = time.perf_counter()
        subprocess.run([PROGRAM, "replay", conf], input=replay, stdout=subprocess.DEVNULL, check=True)
        took = time.perf_counter() - start
        best = took if best is None else min(best, took)
    return best


def instructions(conf, replay, out="/dev/null", workers=1):
    run = subprocess.run(["valgrind", "--tool=callgrind", f"--callgrind-out-file={out}", PROGRAM, "replay", conf, "--workers", str(workers)],
                         input=replay, stdout=subprocess.DEVNULL, stderr=subprocess.PIPE, check=True)
    return int(re.search(rb"Collected : (\d+)", run.stderr).group(1))


def inclusive(out, word):
    """Instructions in functions whose name has the word, with what they call."""
    text = subprocess.run(["callgrind_annotate", "--inclusive=yes", "--threshold=100", out], capture_output=True, check=True).stdout.decode()
    found = [int(line.split()[0].replace(",", "")) for line in text.splitlines() if word in line and re.match(r"\s*[\d,]+ ", line)]
    return max(found, default=0)


# Functions that stay whole in the built program. The rest of `run` is reading, telling repeats, keeping replies and copying answers.
PARTS = {"executing requests, and writing their replies": "gw_board::reply::carry_on", "all of `run`": "gw_engine::gateway::Gateway::run"}


def rates(folder):
    print("| Terminations | datagrams in a burst | transactions a second | instructions for one |")
    print("|---|---|---|---|")
    for terms in (4, 400):
        conf = config(folder, terms)
        for size in (1, 16, 256):
            took = seconds(conf, bursts(typical(20_000, terms), size))
            work = instructions(conf, bursts(typical(2_048, terms), size)) - instructions(conf, bursts(typical(1_024, terms), size))
            print(f"| {terms} | {size} | {20_000 / took:,.0f} | {work / 1_024:,.0f} |")
    conf = config(folder, 4)
    small, large = (seconds(conf, bursts(typical(count, 4), 16)) for count in (20_000, 200_000))
    print(f"\n200,000 in bursts of 16 take {large / small:.2f} times as long as 20,000.")
    out = pathlib.Path(folder) / "callgrind"
    whole = instructions(conf, bursts(typical(4_096, 4), 16), out)
    print("\n| Part | of all instructions |\n|---|---|")
    for name, word in PARTS.items():
        print(f"| {name} | {100 * inclusive(out, word) / whole:.0f}% |")


def tables(folder):
    print("| Terminations | instructions for a transaction |")
    print("|---|---|")
    for terms in (4, 400, 20_000, 40_000):
        conf = config(folder, terms, slots=0)
        moves = [b"Transaction=%d{Context=${Add=T/1,Subtract=T/1}}" % number for number in range(1, 4_097)]
        few, many = instructions(conf, bursts(moves[:1_024], 256)), instructions(conf, bursts(moves, 256))
        print(f"| {terms:,} | {(many - few) / 3_072:,.0f} |")


def repeats(folder):
    conf = config(folder, 4, keep=4_096)
    full = [AUDIT % number for number in range(1, 4_097)]
    before = bursts(full, 256)
    base = instructions(conf, before)
    print("| Burst, 4,096 replies kept | instructions for each |")
    print("|---|---|")
    for count in (64, 1_024):
        for name, first in (("new transactions", 10_000), ("repeats", 1)):
            work = instructions(conf, before + bursts([AUDIT % number for number in range(first, first + count)], count)) - base
            print(f"| {count:,} {name} | {work / count:,.0f} |")


MODIFY = b"Transaction=%d{Context=%d{Modify=T/%d{Media{Stream=1{LocalControl{Mode=SendReceive},Remote{\nv=0\nc=IN IP4 192.0.2.7\nm=audio 4000 RTP/AVP 0\n}}},Signals{cg/rt}}}}"


def calls(count):
    """Calls that are made, changed and ended, one after another: so many transactions."""
    bodies = []
    for call in range(count // 3):
        context, term = call % 65_535 + 1, call % 1_000 + 1
        bodies.append(ADDS % (3 * call + 1, term))
        bodies.append(MODIFY % (3 * call + 2, context, term))
        bodies.append(SUBTRACT % (3 * call + 3, context))
    return bodies


def samples(folder):
    first, more = 4_200, 1_536
    bodies = calls(first + more)
    before = bursts(bodies[:first], 256)

    def each(keep, sizes):
        conf = config(folder, 1_000, keep=keep)
        base = instructions(conf, before)
        return {size: (instructions(conf, before + bursts(bodies[first:], size)) - base) / more for size in sizes}

    length = sum(len(HEAD) + len(body) for body in bodies[first:]) / more
    print(f"| 1,000 terminations, 4,096 replies kept: bursts of | instructions for one of {length:.0f} bytes |\n|---|---|")
    work, few = each(4_096, (1, 4, 16, 256)), each(4, (16,))[16]
    for size, found in work.items():
        print(f"| {size} | {found:,.0f} |")
    print(f"| 16, 4 replies kept | {few:,.0f} |")
    alone = work.pop(1)
    return work[16] > usage.TENTH * 15_500 or alone > 1.5 * work[16] or max(work.values()) > 1.05 * min(work.values()) or work[16] > 1.05 * few


# Bursts of 1,024 transactions: what each asks, by its number from 0, over contexts of two that were made before.
WAVES = {
    "on one context": (1, lambda n: b"Context=1{AuditValue=T/1{Audit{}}}"),
    "on 1,024 contexts": (1_024, lambda n: b"Context=%d{AuditValue=T/%d{Audit{}}}" % (n + 1, 2 * n + 1)),
    "Moves between two contexts in turn": (2, lambda n: b"Context=%d{Move=T/1}" % (2 - n % 2)),
    "each second one for every context, of sixteen": (16, lambda n: b"Context=*{AuditValue=*{Audit{}}}" if n % 2 else b"Context=1{AuditValue=T/1{Audit{}}}"),
}


def waves(folder):
    conf = config(folder, 2_048)
    found = {}
    for name, (contexts, asked) in WAVES.items():
        made = bursts([b"Transaction=%d{Context=${Add=T/%d,Add=T/%d}}" % (5_000 + n, 2 * n + 1, 2 * n + 2) for n in range(contexts)], 256)
        burst = bursts([b"Transaction=%d{%s}" % (n + 1, asked(n)) for n in range(1_024)], 1_024)
        found[name] = [(instructions(conf, made + burst, workers=workers) - instructions(conf, made, workers=workers)) / 1_024 for workers in (1, 3)]
    print("| A burst of 1,024 transactions | instructions for each, one worker | three |\n|---|---|---|")
    for name, (one, three) in found.items():
        print(f"| {name} | {one:,.0f} | {three:,.0f} |")
    (chain, in_turn), (apart, in_waves) = found["on one context"], found["on 1,024 contexts"]
    return in_turn > 1.3 * chain or in_waves > apart + 4_000


def of_all(folder, terms, fill, body):
    """What a transaction for all terminations costs for each: a second one in the same burst, where each has media or none."""
    conf = config(folder, terms, slots=0)
    before = [fill % (number, number) for number in range(1, terms + 1)] if fill else []
    first, second = body % 5_001, body % 5_002
    head = bursts(before, 256)
    once = instructions(conf, head + bursts([first], 256))
    twice = instructions(conf, head + bursts([first, second], 256))
    return (twice - once) / terms


def memory(folder, terms, replay=b""):
    """The bytes that the process has at most until it has answered this, and sleeps at its input."""
    run = subprocess.Popen([PROGRAM, "replay", config(folder, terms, slots=0)], stdin=subprocess.PIPE, stdout=subprocess.DEVNULL)
    run.stdin.write(replay)
    run.stdin.flush()
    asleep = 0
    while asleep < 5:
        time.sleep(0.05)
        status = pathlib.Path(f"/proc/{run.pid}/status").read_text()
        asleep = asleep + 1 if re.search(r"State:\s+S", status) else 0
    run.communicate(b"")
    return int(re.search(r"VmHWM:\s+(\d+) kB", status).group(1)) * 1_024


MEDIA = b"Transaction=%d{Context=-{Modify=T/%d{Media{Stream=1{LocalControl{Mode=SendReceive}}}}}}"
AUDIT_ALL = b"Transaction=%d{Context=-{AuditValue=*{Audit{Media}}}}"
RESTART = b'Transaction=%d{Context=-{ServiceChange=ROOT{Services{Method=Restart,Reason="901"}}}}'
TWO_ADDS = (b"Transaction=%d{Context=${Add=T/1{Media{Stream=1{LocalControl{Mode=SendReceive}}}},"
            b"Add=${Media{Stream=1{LocalControl{Mode=ReceiveOnly},Local{\nv=0\nc=IN IP4 $\nm=audio $ RTP/AVP 0\na=ptime:20\n}}}}}}")


MEMBER = (b"Add=T/%d{Media{Stream=1{LocalControl{Mode=SendReceive},Local{\nv=0\nc=IN IP4 10.0.0.1\nm=audio 4000 RTP/AVP 0\n},"
          b"Remote{\nv=0\nc=IN IP4 192.0.2.7\nm=audio 4000 RTP/AVP 0\n}}}}")


def pairs(count):
    """So many contexts of two members each, with Media, Local and Remote."""
    return [b"Transaction=%d{Context=${%s}}" % (number, b",".join(MEMBER % term for term in (2 * number - 1, 2 * number))) for number in range(1, count + 1)]


def two_adds(folder):
    """Two Adds beyond reading: a datagram of them, less the same that is read and ends in a comment without an end."""
    conf = config(folder, 4)
    told = TWO_ADDS % 1
    datagram = HEAD + told + b" ;"
    unended = b"D 7 %d\n%s\n.\n" % (len(datagram), datagram)
    return instructions(conf, bursts([told], 16)) - instructions(conf, unended)


SHORT = b"Transaction=%d{Context=-{Subtract=T/1}}"


def short(folder):
    """A short transaction, each of a number of its own and so executed, of many in a datagram."""
    conf = config(folder, 4)
    few, many = (instructions(conf, record(b" ".join(SHORT % number for number in range(1, count + 1))) + b".\n") for count in (512, 1_024))
    return (many - few) / 512


def records(folder):
    conf = config(folder, 4)
    typical_work = (instructions(conf, bursts(typical(2_048, 4), 16)) - instructions(conf, bursts(typical(1_024, 4), 16))) / 1_024
    lines = [
        ("a typical transaction, 4 terminations, bursts of 16", typical_work, 15_500),
        ("a short transaction that is executed, 1,024 in a datagram", short(folder), 4_200),
        ("two Adds with Media and a Local to fill, beyond reading", two_adds(folder), 16_500),
        ("AuditValue=* under - with Media, 100 whose replies are written, a termination", of_all(folder, 100, MEDIA, AUDIT_ALL), 3_500),
        ("ServiceChange of ROOT, a termination", of_all(folder, 200, None, RESTART), 1_000),
        ("bytes for 65,535 bare terminations", memory(folder, 65_535) - memory(folder, 1), 20_000_000),
        ("bytes for these, 8,000 contexts of two with Media, Local and Remote among them",
         memory(folder, 65_535, bursts(pairs(8_000), 256)) - memory(folder, 1), 45_000_000),
    ]
    print("| What | instructions, or bytes | at most |\n|---|---|---|")
    for name, found, limit in lines:
        print(f"| {name} | {found:,.0f} | {limit:,} |")
    return any(found > usage.TENTH * limit for _, found, limit in lines)


CHOICES = ["--rates", "--tables", "--bursts", "--samples", "--waves", "--records"]


def main():
    with tempfile.TemporaryDirectory() as folder:
        chosen = usage.words(__doc__, lambda word: word in CHOICES) or [word for word in CHOICES if word != "--waves"]
        for word, measure in (("--rates", rates), ("--tables", tables), ("--bursts", repeats)):
            if word in chosen:
                measure(folder)
                print()
        over = "--samples" in chosen and samples(folder)
        over |= "--waves" in chosen and waves(folder)
        over |= "--records" in chosen and records(folder)
        return 1 if over else 0


if __name__ == "__main__":
    sys.exit(main())
