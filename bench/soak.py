#!/usr/bin/env python3
"""Whether a gateway that runs for long stays as it is: memory, tables and answers.

    bench/soak.py [PROGRAM [TRANSACTIONS OF THE REPLAY [TRANSACTIONS OF SERVING]]]

PROGRAM is crates/h248gw/out/h248gw by default, which `rt run` builds in crates/h248gw. Calls are set up and ended, on 400 lines with
4,096 kept replies, and some are left standing at the end. It fails at the first thing that is not so.

  replay  10,000,000 transactions by default, one in nine of them a repeat of one before, and one in twenty on a context and a
          termination that there never was, another one each time: each is answered once, a repeat as before; the tables at the end
          are as counted; VmRSS at the end is within 5 percent of that after the first hundredth
  serve   2,000,000 new transactions by default over the loopback, from four senders, each with at most 32 on the way: one in 16 is
          lost on its way there, one in 16 of the answers on its way back, and both are asked again; one in 8 is sent twice; what is
          sent at once goes out in any order. The same holds, and a repeat has the bytes of the answer before
"""
import collections
import os
import pathlib
import random
import re
import selectors
import subprocess
import sys
import tempfile
import time

import serving
import usage
from serving import CONFIG, HEAD, KEPT, LINES, SENDERS, wanted

ROUND, LEFT = 200, 10
# So many transactions of a round are on what there never was; contexts are numbered up to 1,000.
UNKNOWN = 24
ANSWER = re.compile(rb"Reply=(\d+)\{Context=(\d+)\{([^\n]*)\n")
# How many of the last answers are remembered, by number.
REMEMBERED = 8192
# How many requests of a sender are on the way: so few that all fit the buffer of a socket.
ON_THE_WAY = 32
# A request is sent again after so many seconds: in a time in which far fewer are answered than replies are kept.
PATIENCE = 0.05


def resident(process):
    """VmRSS in KB."""
    return int(re.search(r"VmRSS:\s+(\d+)", pathlib.Path("/proc/%d/status" % process.pid).read_text()).group(1))


def stays(what, before, after):
    wanted(abs(after - before) <= before * 0.05, "%s: memory within 5 percent: %d KB, then %d KB" % (what, before, after))


# ---- a replay

class Replay:
    """A replay that is written to and read from by turns."""

    def __init__(self, program, config):
        self.process = subprocess.Popen([program, "replay", config, "--audit"], stdin=subprocess.PIPE, stdout=subprocess.PIPE)
        self.number, self.transactions = 0, 0

    def asked(self, bodies):
        """The numbers and datagrams of new transactions."""
        first, self.number = self.number + 1, self.number + len(bodies)
        return [(number, b"MEGACO/1 [10.0.0.9]:2944 Transaction=%d{%s}" % (number, body)) for number, body in enumerate(bodies, first)]

    def answered(self, asked, is_refused=False):
        """The answers to transactions, which go out in bursts of 20: all are carried out, or refused."""
        out, bursts = [], 0
        for at in range(0, len(asked), 20):
            out += [b"D 7 %d\n%s\n" % (len(text), text) for _, text in asked[at:at + 20]] + [b".\n"]
            bursts += 1
        self.process.stdin.write(b"".join(out))
        self.process.stdin.flush()
        told = b""
        while told.count(b"\n.\n") < bursts:
            more = os.read(self.process.stdout.fileno(), 1 << 16)
            wanted(more, "answers to all that was asked")
            told += more
        found = ANSWER.findall(told)
        wanted([int(number) for number, _, _ in found] == [number for number, _ in asked], "one answer each")
        wanted(told.count(b"Error") == (len(asked) if is_refused else 0), "all carried out, or refused")
        self.transactions += len(asked)
        return found

    def round(self, standing, lines):
        """Ends the calls that stand, sets up one on each of the lines, and repeats some of it; the calls that stand then."""
        ended = self.asked([b"Context=%s{W-Subtract=*}" % context for _, context in standing])
        began = self.asked([b"Context=${Add=L/%d,Add=$}" % line for line in lines])
        first = self.answered(ended + began)
        some = range(0, len(first), 8)
        again = self.answered([(ended + began)[place] for place in some])
        wanted(again == [first[place] for place in some], "a repeat is answered as before")
        names = range(self.number, self.number + UNKNOWN)
        self.answered(self.asked([b"Context=%d{Modify=X/%d}" % (name + 1001, name) for name in names]), True)
        return [(line, context) for line, (_, context, _) in zip(lines, first[len(ended):])]


def replayed(program, config, count):
    run, standing, number, start = Replay(program, config), [], 0, time.monotonic()
    early = None
    while run.transactions < count:
        number += 1
        standing = run.round(standing, [(number * ROUND + place) % LINES for place in range(ROUND)])
        if early is None and run.transactions >= count // 100:
            early = resident(run.process)
    standing = run.round(standing, range(LEFT))
    late, seconds = resident(run.process), time.monotonic() - start
    run.process.stdin.close()
    tables = run.process.stdout.read()
    wanted(run.process.wait() == 0, "status 0")
    wanted(sorted(re.findall(rb"^context (\d+) L/(\d+) RTP/\d+$", tables, re.M)) == sorted((c, b"%d" % l) for l, c in standing),
           "the calls that were left standing: %r" % tables[:300])
    wanted(tables.count(b"\nterm L/") == LINES and tables.count(b"\nterm RTP/") == LEFT and tables.endswith(b"kept %d\n" % KEPT), "the tables")
    stays("replay", early, late)
    print("replay: %d transactions, each answered once, %.0f a second; %d KB after the first hundredth, %d KB at the end"
          % (run.transactions, run.transactions / seconds, early, late), flush=True)


# ---- serving

class Sender(serving.Sender):
    """A controller over a bad network."""

    def __init__(self, gateway, number, count, left):
        super().__init__(gateway, number, count, left)
        self.chance, self.texts, self.out, self.answers = random.Random(number), {}, [], collections.OrderedDict()
        self.repeats, self.sent_at = 0, {}

    def request(self, verb, line, context):
        self.sent += 1
        body = b"Context=${Add=L/%d,Add=$}" % line if verb == "Add" else b"Context=%d{W-Subtract=*}" % context
        self.waiting[self.sent] = (verb, line, context)
        self.texts[self.sent] = self.head + b"Transaction=%d{%s}" % (self.sent, body)
        self.out += [self.sent] * (2 if self.chance.random() < 1 / 8 else 1)

    def send(self):
        super().send()
        going, self.out = self.out, []
        self.chance.shuffle(going)
        for number in going:
            if self.chance.random() < 1 / 16:
                self.out.append(number)
            elif number in self.texts:
                self.sent_at[number] = time.monotonic()
                self.client.send(self.texts[number])

    def again(self):
        """Asks again for what was sent long ago."""
        then = time.monotonic() - PATIENCE
        self.out += [number for number, at in self.sent_at.items() if at < then]

    def take(self):
        while True:
            try:
                answer = self.client.recv(65_536)
            except BlockingIOError:
                return
            found = serving.REPLY.match(answer, len(HEAD))
            wanted(found and b"Error" not in answer, "an answer without an error: %r" % answer)
            number, context = map(int, found.groups())
            self.repeats += number in self.answers
            wanted(self.answers.setdefault(number, answer) == answer, "a repeat is answered as before: %r" % answer)
            if len(self.answers) > REMEMBERED:
                self.answers.popitem(last=False)
            if number not in self.waiting:
                continue
            if self.chance.random() < 1 / 16:
                self.out.append(number)
                continue
            verb, line, _ = self.waiting.pop(number)
            del self.texts[number], self.sent_at[number]
            if verb == "Add":
                self.standing.append((line, context))
            else:
                self.free.append(line)


def driven(senders, until):
    """Lets the senders send until so many transactions of each are answered."""
    with selectors.DefaultSelector() as selector:
        for sender in senders:
            selector.register(sender.client, selectors.EVENT_READ, sender)
            sender.send()
        quiet, next_look = 0, 0
        while any(sender.sent - len(sender.waiting) < until for sender in senders):
            ready = selector.select(PATIENCE)
            quiet = 0 if ready else quiet + 1
            wanted(quiet < 100, "an answer to each request")
            for key, _ in ready:
                key.data.take()
            is_time = time.monotonic() >= next_look
            next_look = time.monotonic() + PATIENCE / 2 if is_time else next_look
            for sender in senders:
                if is_time:
                    sender.again()
                sender.send()


def served(gateway, count):
    count, start = count // SENDERS, time.monotonic()
    senders = [Sender(gateway, number, count, LEFT) for number in range(SENDERS)]
    driven(senders, count // 100)
    early = resident(gateway.process)
    driven(senders, count)
    late, seconds = resident(gateway.process), time.monotonic() - start
    standing = {b"%d" % context: b"L/%d" % line for sender in senders for line, context in sender.standing}
    wanted(len(standing) == SENDERS * LEFT, "as many calls as were left standing")
    tables = serving.audited(gateway, 1, b"*")
    wanted({number: names[0] for number, names in tables.items()} == standing, "the calls that were left standing")
    wanted(len(serving.audited(gateway, 2, b"-")[b"-"]) == LINES - len(standing), "every other line in the null context")
    stays("serve", early, late)
    print("serve: %d transactions, %d repeats answered as before, %.0f a second; %d KB after the first hundredth, %d KB at the end"
          % (count * SENDERS, sum(sender.repeats for sender in senders), count * SENDERS / seconds, early, late))


def main():
    serving.ON_THE_WAY = ON_THE_WAY
    given = usage.words(__doc__, lambda word: usage.is_program(word) or usage.is_number(word), 3)
    given += ["crates/h248gw/out/h248gw", "10000000", "2000000"][len(given):]
    program = os.path.abspath(given[0])
    with tempfile.TemporaryDirectory() as folder:
        config = os.path.join(folder, "soak.conf")
        pathlib.Path(config).write_text(CONFIG)
        replayed(program, config, int(given[1]))
        gateway = serving.Gateway(program, config)
        try:
            served(gateway, int(given[2]))
            gateway.end()
        finally:
            gateway.process.kill()


if __name__ == "__main__":
    main()
