#!/usr/bin/env python3
"""Whether two programs answer alike: 20,000 datagrams, each a recorded one with one to three changes of bytes or words.

    bench/alike.py OLD NEW [START]
    bench/alike.py --properties BATCHES OLD NEW [START]

Both replay the same bursts over examples/four.conf. It fails at the first byte of the answers that differs. Run it where the
code of reading or of the commands is made plainer or faster, with a program that was built before.

With --properties they replay so many batches of one to six requests over 4 to 60 terminations, by one worker and by three: properties in
any list, with names in any case and values of any length, Locals, Remotes and tails, by name and by wildcard, in a context, in the null context
and in each context; audits tell what they left.
"""
import pathlib
import random
import subprocess
import sys
import tempfile

import usage

TOP = pathlib.Path(__file__).resolve().parent.parent
WORDS = [b"Transaction", b"Context", b"Add", b"Move", b"Modify", b"Subtract", b"AuditValue", b"ServiceChange", b"Notify", b"Media",
         b"Stream", b"LocalControl", b"Local", b"Remote", b"Mode", b"Events", b"Signals", b"Audit", b"Services", b"Method", b"W-", b"O-",
         b"T/1", b"T/2", b"RTP/0", b"RTP/*", b"*", b"$", b"-", b"ROOT", b"=", b"{", b"}", b",", b"\"", b"[", b"]", b";", b"\n", b"\\}", b" ",
         b"\t", b"\r\n", b";note\n", b"\0", b"\xff", b"MG/1", b"MEGACO/1", b"1", b"0", b"4294967295", b"99999999999", b"Kf", b"Reply", b"P"]


def recorded():
    """The datagrams of the recorded call, the typical one, and some with other commands."""
    text = (TOP / "examples/call.replay").read_bytes()
    found = []
    while text:
        line, text = text.split(b"\n", 1)
        if line.startswith(b"D "):
            size = int(line.split()[2])
            found.append(text[:size])
            text = text[size + 1:]
    head = b"MEGACO/1 [10.0.0.9]:2944 "
    found.append((TOP / "bench/typical.datagram").read_bytes() + b"\n")
    for body in [b"Context=-{Subtract=T/1}", b"Context=*{AuditValue=*{Audit{Media,Events}}}", b"Context=${Move=T/2},Context=1{W-Modify=*{Media{O}}}",
                 b"Context=-{ServiceChange=ROOT{Services{Method=Restart,Reason=\"901\"}}}", b"Context=1{Subtract=*{Audit{Media,DigitMap}}}"]:
        found.append(head + b"Transaction=7{" + body + b"}")
    return found


def changed(rng, text):
    """The text with one to three changes."""
    for _ in range(rng.choice([1, 1, 1, 2, 3])):
        at = rng.randrange(len(text) + 1)
        to = min(len(text), at + rng.choice([0, 1, 1, 2, 5, 20]))
        put = rng.choice([b"", rng.choice(WORDS), rng.choice(WORDS), bytes([rng.randrange(256)]), text[at:to] * 2])
        text = text[:at] + put + text[to:]
    return text


def renumbered(rng, text):
    """Another transaction number, mostly, so that it is no repeat."""
    return text.replace(b"Transaction=1", b"Transaction=%d" % rng.randrange(1, 1_000_000), 1) if rng.random() < 0.8 else text


def bursts(start):
    rng, texts, out, left = random.Random(start), recorded(), [], 20_000
    while left:
        for _ in range(min(left, rng.randint(1, 16))):
            text = renumbered(rng, rng.choice(texts))
            text = changed(rng, text) if rng.random() < 0.9 else text
            out.append(b"D %d %d\n%s\n" % (rng.randrange(4), len(text), text))
            left -= 1
        out.append(b".\n")
    return b"".join(out)


PROPERTIES = [b"a", b"bb", b"ptime", b"tdmc/ec", b"tdmc/gain", b"nt/jit", b"a-name/that-is-longer", b"another/name-that-is-longer-still"]
VALUES = [b"1", b"on", b"off", b"10.0.0.1", b"[a,b]", b"\"a text\"", b"v" * 13, b"v" * 21, b"v" * 22, b"v" * 40, b"\"" + b"t" * 509 + b"\"", b"w" * 511, b"w" * 512,
          b"w" * 600, b"\"" + b"x y" * 300 + b"\""]
MODES = [b"SO", b"RC", b"SR", b"IN", b"LB"]
HEAD = b"MEGACO/1 [10.0.0.9]:2944 "


def in_any_case(rng, name):
    return bytes(rng.choice([byte, byte ^ 32]) if chr(byte).isalpha() else byte for byte in name) if rng.random() < 0.2 else name


def some_properties(rng):
    """Some properties with a comma between each two: mostly of few names, at times more than a list holds."""
    count = rng.choice([1, 1, 2, 3, 5, 8, 31, 32, 33]) if rng.random() < 0.9 else rng.randint(1, 40)
    names = PROPERTIES + [b"p/%d" % number for number in range(count)]
    chosen = rng.sample(names, min(count, len(names))) if rng.random() < 0.9 else [rng.choice(names) for _ in range(count)]
    return [in_any_case(rng, name) + rng.choice([b"=", b"=", b"=", b"#", b"<", b">"]) + rng.choice(VALUES) for name in chosen]


def control(rng):
    parts = ([b"MO=" + rng.choice(MODES)] if rng.random() < 0.5 else []) + (some_properties(rng) if rng.random() < 0.8 else [])
    return b"O{" + b",".join(parts) + b"}" if parts else b"O{MO=SR}"


def stream_part(rng):
    octets = rng.choice([b"", b"v=0", b"\nv=0\nc=IN IP4 $\nm=audio $ RTP/AVP 0\n", b"v=0\nc=IN IP4 10.0.0.1\n", b"s" * 510, b"s" * 700])
    return rng.choice([control(rng), control(rng), b"L{" + octets + b"}", b"R{" + octets + b"}"])


def descriptor(rng):
    kind = rng.random()
    if kind < 0.45:
        return b"M{" + stream_part(rng) + b"}"
    if kind < 0.65:
        return b"M{ST=%d{%s}}" % (rng.randint(1, 4), b",".join(stream_part(rng) for _ in range(rng.randint(1, 2))))
    if kind < 0.8:
        states = ([b"SI=" + rng.choice([b"TE", b"OS", b"IV"])] if rng.random() < 0.5 else []) + some_properties(rng)
        return b"M{TS{" + b",".join(states) + b"}}"
    if kind < 0.9:
        return rng.choice([b"E=%d{al/on}" % rng.randint(1, 9), b"E", b"SG{cg/rt}", b"SG{}", b"DM=d{0|" + b"x" * rng.choice([1, 600]) + b"}"])
    return b"AT{" + rng.choice([b"M", b"E", b"SG", b"M,E,SG,DM", b""]) + b"}"


def command(rng, count):
    verb = rng.choice([b"MF", b"MF", b"MF", b"MF", b"AV", b"A", b"S", b"MV", b"SC"])
    name = rng.choice([b"T/%d" % rng.randint(1, count + 1), b"T/%d" % rng.randint(1, count), b"*", b"*", b"T/*", b"RTP/*", b"$", b"ROOT"])
    if verb == b"SC":
        said = [b"SV{MT=%s,RE=\"900\"}" % rng.choice([b"RS", b"FO", b"GR", b"HO"])]
    elif verb in (b"AV", b"S") and rng.random() < 0.9:
        said = [b"AT{" + rng.choice([b"M", b"M", b"M,E,SG", b""]) + b"}"] if rng.random() < 0.9 else []
    else:
        said = [descriptor(rng) for _ in range(rng.choice([0, 1, 1, 1, 2, 3]))]
    front = rng.choice([b"", b"", b"O-"]) + (rng.choice([b"", b"", b"W-"]) if verb in (b"AV", b"S") else b"")
    return front + verb + b"=" + name + (b"{" + b",".join(said) + b"}" if said else b"")


def context_properties(rng, count):
    link = b"%s,%s,%s" % (b"T/%d" % rng.randint(1, count), b"T/%d" % rng.randint(1, count), rng.choice([b"OW", b"BW", b"IS"]))
    return rng.choice([b"PR=%d" % rng.randint(0, 16), b"EG", b"TP{" + link + b"}", b"CA{TP,PR,EG}", b"CA{PR}"])


def batch(rng, number, count):
    """One to six requests, in a burst of their own; two of three end with an audit of all. Some batches begin with a call of three."""
    out = []
    if rng.random() < 0.3:
        text = HEAD + b"T=%d{C=${O-A=T/%d,O-A=T/%d,O-A=$}}" % (1_000_000 + number, rng.randint(1, count), rng.randint(1, count))
        out.append(b"D 1 %d\n%s\n" % (len(text), text))
    for place in range(rng.randint(1, 6)):
        context = rng.choice([b"-", b"-", b"-", b"$", b"$", b"*", b"*", b"%d" % rng.randint(1, 6)])
        asked = [context_properties(rng, count)] if context != b"-" and rng.random() < 0.2 else []
        body = b",".join(asked + [command(rng, count) for _ in range(rng.choice([1, 1, 2, 4]))])
        text = HEAD + b"T=%d{C=%s{%s}}" % (8 * number + place + 1, context, body)
        out.append(b"D 1 %d\n%s\n" % (len(text), text))
    for place, context in ((6, b"-"), (7, b"*")):
        if rng.random() < 0.7:
            text = HEAD + b"T=%d{C=%s{O-AV=%s{AT{M,E,SG}}}}" % (8 * number + place + 1, context, rng.choice([b"*", b"T/%d" % rng.randint(1, count)]))
            out.append(b"D 1 %d\n%s\n" % (len(text), text))
    return b"".join(out) + b".\n"


def properties_alike(batches, old, new, start):
    rng, each = random.Random(start), 50
    with tempfile.TemporaryDirectory() as folder:
        conf = pathlib.Path(folder) / "conf"
        for first in range(0, batches, each):
            count = rng.randint(4, 60)
            terms = "".join(f"term T/{number}\n" for number in range(1, count + 1))
            conf.write_text(f"mid [10.0.0.1]:2944\nmedia 10.0.0.1\ncontexts 12\nslots 8\nmembers {rng.choice([3, 64])}\nkeep 8\n{terms}")
            given = b"".join(batch(rng, number, count) for number in range(min(each, batches - first)))
            for workers in ("1", "3"):
                left, right = (subprocess.run([program, "replay", conf, "--workers", workers, "--audit"], input=given, capture_output=True, check=False)
                               for program in (old, new))
                if (left.returncode, left.stdout, left.stderr) != (right.returncode, right.stdout, right.stderr):
                    pathlib.Path("/tmp/alike.replay").write_bytes(given)
                    pathlib.Path("/tmp/alike.conf").write_text(conf.read_text())
                    print(f"they differ in batches {first} to {first + each}, {workers} workers: /tmp/alike.replay, /tmp/alike.conf")
                    return 1
    print(f"alike: {batches:,} batches of properties from {start}, 1 and 3 workers; status {left.returncode}")
    return 0


def answers(program, given):
    run = subprocess.run([program, "replay", TOP / "examples/four.conf"], input=given, capture_output=True, check=False)
    return run.returncode, run.stdout, run.stderr


def main():
    given = usage.words(__doc__, lambda word: word == "--properties" or usage.is_program(word) or usage.is_number(word), 5)
    if given[:1] == ["--properties"] and len(given) > 3:
        batches, old, new = given[1:4]
        return properties_alike(int(batches), old, new, int(given[4]) if given[4:] else 1)
    if not 2 <= len(given) <= 3:
        sys.exit(__doc__)
    old, new = given[:2]
    start = int(given[2]) if given[2:] else 1
    given = bursts(start)
    left, right = answers(old, given), answers(new, given)
    if left != right:
        at = next((i for i, (a, b) in enumerate(zip(left[1], right[1])) if a != b), min(len(left[1]), len(right[1])))
        print(f"they differ: status {left[0]} and {right[0]}, first at byte {at} of the answers: {left[1][at - 60:at + 60]!r} {right[1][at - 60:at + 60]!r}")
        return 1
    kinds = {kind: left[1].count(kind) for kind in (b"Reply=", b"Error=400", b"Error=406", b"Error=")}
    print(f"alike: 20,000 datagrams, {len(left[1]):,} bytes of answers, status {left[0]}; " + ", ".join(f"{k.decode()} {n}" for k, n in kinds.items()))
    return 0


if __name__ == "__main__":
    sys.exit(main())
