#!/usr/bin/env python3
"""Loads `h248gw serve` over the loopback, and says whether it kept its promises.

    bench/serving.py [--program PATH] [--workers N] [--senders N] [--window N] [--requests N] [PART..]

Run it at the top of the repository, after `rt run` in crates/h248gw has built the program; `--program` names another
one. Each part starts the program anew on a free port, with so many workers (1 by default), and ends it by SIGTERM. It
fails at the first promise that is not kept.

  rate    three senders, each a process (bench/load.c) with 64 requests of AuditValue on the way, 200,000 in all: how
          many are answered a second, how many are lost, and how long each waits for its answer, median and 99th
          percentile; then the same for an echo of the same datagrams through the same kind of socket, and the two
          rates as a ratio. What the gateway reports of itself is what the senders saw.
  calls   four senders, each with at most 64 datagrams on the way, 20,000 in all: calls are set up and ended. Every
          request is answered once, and at the end the tables hold the calls that were left standing and no other.
  flood   100,000 datagrams of random bytes, as fast as they can be sent; then a good one, which is answered.
  memory  VmRSS after 20,000 and after 200,000 transactions, which set up a call and end it: within 5 percent; within 20
          with more workers than one, since the C library keeps some memory for each thread that there was at a time.
  longest a datagram of 65,507 bytes, which is answered; over IPv6, where there is, one of 65,508, which is not.
"""
import argparse
import collections
import os
import pathlib
import random
import re
import selectors
import signal
import socket
import struct
import subprocess
import sys
import tempfile
import time

LINES, KEPT = 400, 4096
CONFIG = "mid [10.0.0.1]:2944\nmedia 10.0.0.1\ncontexts 1000\nslots 1000\nmembers 3\nkeep %d\n" % KEPT
CONFIG += "".join("term L/%d\n" % line for line in range(LINES))
HEAD = b"MEGACO/1 [10.0.0.1]:2944\n"
REPLY = re.compile(rb"Reply=(\d+)\{Context=(\d+)\{")
SENDERS, ON_THE_WAY, TRANSACTIONS = 4, 64, 20_000
LONGEST = 65_507
# After so many seconds without an answer one is lost.
SILENCE = 2


class Gateway:
    """The program, serving on a port of the loopback."""

    def __init__(self, program, config, family=socket.AF_INET, workers=1, more=()):
        self.family, self.workers = family, workers
        host, form = ("127.0.0.1", "%s:%d") if family == socket.AF_INET else ("::1", "[%s]:%d")
        with socket.socket(family, socket.SOCK_DGRAM) as probe:
            probe.bind((host, 0))
            self.address = probe.getsockname()
        listen = form % self.address[:2]
        words = [program, "serve", config, "--listen", listen, "--workers", str(workers), *more]
        self.process = subprocess.Popen(words, stdout=subprocess.PIPE)
        wanted(self.process.stdout.readline() == b"listening\n", "it listens")

    def socket(self):
        client = socket.socket(self.family, socket.SOCK_DGRAM)
        client.connect(self.address)
        return client

    def ask(self, client, datagram, seconds=10):
        """The answer to a datagram, which is sent again each half second."""
        client.settimeout(0.5)
        end = time.monotonic() + seconds
        while time.monotonic() < end:
            client.send(datagram)
            try:
                return client.recv(65_536)
            except TimeoutError:
                pass
        return None

    def resident(self):
        """VmRSS in KB."""
        status = pathlib.Path("/proc/%d/status" % self.process.pid).read_text()
        return int(re.search(r"VmRSS:\s+(\d+)", status).group(1))

    def end(self):
        self.process.send_signal(signal.SIGTERM)
        wanted(self.process.wait(10) == -signal.SIGTERM, "SIGTERM ends it")


class Sender:
    """A controller: sets up calls on lines of its own and ends them, so that the last `left` calls stand at the end."""

    def __init__(self, gateway, number, count, left):
        self.client = gateway.socket()
        self.client.setblocking(False)
        self.head = b"MEGACO/1 [10.0.1.%d]:2944 " % (number + 1)
        share = LINES // SENDERS
        self.free = collections.deque(range(number * share, (number + 1) * share))
        self.count, self.left = count, left
        self.calls = (count + left) // 2
        self.sent = 0
        self.waiting = {}
        self.standing = collections.deque()
        self.answered = collections.Counter()

    def request(self, verb, line, context):
        self.sent += 1
        if verb == "Add":
            body = b"Context=${Add=L/%d,Add=$}" % line
        else:
            body = b"Context=%d{W-Subtract=*}" % context
        self.waiting[self.sent] = (verb, line, context)
        self.client.send(self.head + b"Transaction=%d{%s}" % (self.sent, body))

    def send(self):
        """Sends what may be on the way: ends a call where one stands that need not stay."""
        while self.sent < self.count and len(self.waiting) < ON_THE_WAY:
            adds = self.calls - (self.count - self.sent)
            if self.standing and (adds >= 0 or not self.free or len(self.standing) > self.left):
                self.request("Subtract", *self.standing.popleft())
            elif self.free and self.calls:
                self.calls -= 1
                self.request("Add", self.free.popleft(), None)
            else:
                return

    def take(self):
        """Takes the answers that are there."""
        while True:
            try:
                answer = self.client.recv(65_536)
            except BlockingIOError:
                return
            found = REPLY.match(answer, len(HEAD))
            wanted(found and b"Error" not in answer, "an answer without an error: %r" % answer)
            number, context = map(int, found.groups())
            self.answered[number] += 1
            verb, line, _ = self.waiting.pop(number, (None, None, None))
            if verb == "Add":
                self.standing.append((line, context))
            elif verb == "Subtract":
                self.free.append(line)


def wanted(is_so, what):
    if not is_so:
        sys.exit("not so: " + what)


def driven(senders, seconds=60):
    """Lets the senders send until each has all its answers; how long it took."""
    start = time.monotonic()
    with selectors.DefaultSelector() as selector:
        for sender in senders:
            selector.register(sender.client, selectors.EVENT_READ, sender)
            sender.send()
        while any(sender.sent < sender.count or sender.waiting for sender in senders):
            ready = selector.select(SILENCE)
            wanted(ready and time.monotonic() - start < seconds, "an answer to each request")
            for key, _ in ready:
                key.data.take()
                key.data.send()
    return time.monotonic() - start


def audited(gateway, number, context):
    """What an audit of a context, of all or of none names, for each context: a transaction of a number of its own."""
    client = gateway.socket()
    audit = b"MEGACO/1 [10.0.2.1]:2944 Transaction=%d{Context=%s{AuditValue=*{Audit{}}}}"
    answer = gateway.ask(client, audit % (number, context))
    tables = collections.defaultdict(list)
    for number, names in re.findall(rb"Context=(\d+|-)\{([^}]*)\}", answer or b""):
        tables[number] = re.findall(rb"AuditValue=([^,]*)", names)
    return tables


class Rate:
    """What several senders saw of a server on a port: answers a second, how many are lost, delays in microseconds."""

    def __init__(self, given, port):
        share = given.requests // given.senders
        senders = []
        for number in range(1, given.senders + 1):
            words = [given.load, "send", str(port), str(number), str(share), str(given.window), str(LINES)]
            senders.append(subprocess.Popen(words, stdout=subprocess.PIPE))
        seen = [struct.unpack("=%dQ" % (len(out) // 8), out) for out in (sender.communicate()[0] for sender in senders)]
        wanted(all(sender.returncode == 0 for sender in senders), "each sender ends well")
        delays = sorted(delay for each in seen for delay in each[3:])
        self.requests, self.answers = share * given.senders, len(delays)
        self.lost = sum(each[0] for each in seen)
        self.rate = self.answers / (max(each[2] for each in seen) - min(each[1] for each in seen)) * 1e9
        self.median, self.late = (delays[self.answers * part // 100] / 1000 for part in (50, 99))

    def __str__(self):
        seen = (self.rate, self.lost, self.requests, self.median, self.late)
        return "{:,.0f} | {:,} of {:,} | {:,.0f} | {:,.0f} |".format(*seen)


def rate(gateway, given):
    seen = Rate(given, gateway.address[1])
    # A second behind the last report one more request draws another.
    time.sleep(1.1)
    audit = b"MEGACO/1 [10.0.2.1]:2944 Transaction=1{Context=-{AuditValue=L/1{Audit{}}}}"
    wanted(gateway.ask(gateway.socket(), audit), "an answer at the end")
    time.sleep(0.1)
    os.set_blocking(gateway.process.stdout.fileno(), False)
    last = [line for line in (gateway.process.stdout.read() or b"").splitlines() if line.startswith(b"report ")][-1]
    told = {name.decode(): int(number) for name, number in re.findall(rb"(\w+)=(\d+)", last)}
    answered = told["executed"] + told["repeats"]
    wanted(answered == told["answers"] == told["datagrams"], "each datagram is answered: %r" % told)
    wanted(seen.answers <= answered - 1 <= seen.requests, "what the gateway reports is what the senders saw: %r" % told)
    echo = subprocess.Popen([given.load, "echo"], stdout=subprocess.PIPE)
    try:
        beside = Rate(given, int(echo.stdout.readline()))
    finally:
        echo.kill()
    print("| %d senders with %d requests on the way each | answers a second | lost | delay, us | 99th percentile, us |"
          % (given.senders, given.window))
    print("|---|---|---|---|---|")
    print("| the gateway, %d of `--workers`, %.1f datagrams in a burst | %s"
          % (gateway.workers, told["datagrams"] / told["bursts"], seen))
    print("| an echo | %s" % beside)
    print("| the gateway's by the echo's | %.2f | | %.2f | %.2f |"
          % (seen.rate / beside.rate, seen.median / beside.median, seen.late / beside.late))


def calls(gateway, given):
    count, left = TRANSACTIONS // SENDERS, 10
    senders = [Sender(gateway, number, count, left) for number in range(SENDERS)]
    seconds = driven(senders)
    time.sleep(0.3)
    for sender in senders:
        sender.take()
        wanted(sorted(sender.answered) == list(range(1, count + 1)), "an answer to each request")
        wanted(set(sender.answered.values()) == {1}, "one answer to each request")
    standing = {b"%d" % context: b"L/%d" % line for sender in senders for line, context in sender.standing}
    wanted(len(standing) == SENDERS * left, "as many calls as were left standing")
    tables = audited(gateway, 1, b"*")
    wanted({number: names[0] for number, names in tables.items()} == standing, "the calls that were left standing")
    wanted(all(len(names) == 2 and names[1].startswith(b"RTP/") for names in tables.values()), "two ends of each call")
    wanted(len(audited(gateway, 2, b"-")[b"-"]) == LINES - len(standing), "every other line in the null context")
    print("calls: %d datagrams answered once each, %.0f a second, %d calls left"
          % (TRANSACTIONS, TRANSACTIONS / seconds, len(standing)))


def flood(gateway, given):
    chance = random.Random(1)
    client = gateway.socket()
    client.setblocking(False)
    starts = [b"", b"MEGACO/1 ", b"MEGACO/1 [10.0.0.9]:2944 Transaction=1{Context=${", b"!/1 a T=1{C=-{MF=L/1{M{"]
    for _ in range(100_000):
        try:
            client.send(chance.choice(starts) + chance.randbytes(chance.randrange(400)))
        except BlockingIOError:
            time.sleep(0.001)
    good = b"MEGACO/1 [10.0.0.9]:2944 Transaction=1{Context=-{AuditValue=L/1{Audit{}}}}"
    answer = gateway.ask(gateway.socket(), good)
    wanted(answer == HEAD + b"Reply=1{Context=-{AuditValue=L/1}}", "an answer behind the flood: %r" % answer)
    print("flood: 100,000 random datagrams, and then an answer")


def memory(gateway, given):
    sender = Sender(gateway, 0, 0, 0)
    resident = []
    for count in (TRANSACTIONS, 10 * TRANSACTIONS):
        sender.calls += (count - sender.count) // 2
        sender.count = count
        seconds = driven([sender], 300)
        resident.append(gateway.resident())
    before, after = resident
    most = 0.05 if gateway.workers == 1 else 0.2
    is_within = abs(after - before) <= before * most
    wanted(is_within, "memory within %d percent: %d KB, then %d KB" % (100 * most, before, after))
    print("memory: %d KB after %d transactions, %d KB after ten times as many (%.0f a second)"
          % (before, TRANSACTIONS, after, 9 * TRANSACTIONS / seconds))


def of_length(length):
    """A good datagram of that length."""
    body = b"Transaction=1{Context=-{AuditValue=L/1{Audit{}}}}"
    head = b"MEGACO/1 [10.0.0.9]:2944 ;"
    return head + b"c" * (length - len(head) - len(body) - 1) + b"\n" + body


def longest(gateway, given):
    answer = gateway.ask(gateway.socket(), of_length(LONGEST))
    wanted(answer == HEAD + b"Reply=1{Context=-{AuditValue=L/1}}", "an answer to 65,507 bytes: %r" % answer)
    print("longest: 65,507 bytes answered over IPv%d" % (4 if gateway.family == socket.AF_INET else 6))
    if gateway.family == socket.AF_INET6:
        wanted(gateway.ask(gateway.socket(), of_length(LONGEST + 1), 2) is None, "no answer to 65,508 bytes")
        print("longest: 65,508 bytes dropped")


def families():
    """Those of the loopback."""
    yield socket.AF_INET
    try:
        with socket.socket(socket.AF_INET6, socket.SOCK_DGRAM) as probe:
            probe.bind(("::1", 0))
            yield socket.AF_INET6
    except OSError:
        pass


PARTS = {part.__name__: part for part in (rate, calls, flood, memory, longest)}


def words():
    words = argparse.ArgumentParser(description=__doc__, formatter_class=argparse.RawDescriptionHelpFormatter)
    words.add_argument("--program", default="crates/h248gw/out/h248gw")
    words.add_argument("--workers", type=int, default=1)
    words.add_argument("--senders", type=int, default=3)
    words.add_argument("--window", type=int, default=64)
    words.add_argument("--requests", type=int, default=200_000)
    words.add_argument("parts", metavar="PART", nargs="*", choices=[[], *PARTS], default=[])
    return words.parse_args()


def main():
    given = words()
    program = os.path.abspath(given.program)
    with tempfile.TemporaryDirectory() as folder:
        config = os.path.join(folder, "bench.conf")
        pathlib.Path(config).write_text(CONFIG)
        given.load = os.path.join(folder, "load")
        subprocess.run(["cc", "-O2", "-o", given.load, pathlib.Path(__file__).with_name("load.c")], check=True)
        for name in given.parts or PARTS:
            for family in families() if name == "longest" else [socket.AF_INET]:
                gateway = Gateway(program, config, family, given.workers, ("--report", "1") if name == "rate" else ())
                try:
                    PARTS[name](gateway, given)
                    gateway.end()
                finally:
                    gateway.process.kill()
    print("SIGTERM ended it each time")


if __name__ == "__main__":
    main()
