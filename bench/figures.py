#!/usr/bin/env python3
"""Writes the tables of docs/BENCHMARKS.md anew: each is what a bench prints.

    python3 bench/figures.py [WORD]

Above tables stands `<!-- bench/NAME.py WORDS -->`. That command is run, and the lines of its output that begin with `|` take the tables' place. The
page's second line says on which machine and day. With a word, only the commands that have it are run. Run it at the top of the repository on the program
that `rt run` in crates/h248gw has built, with nothing beside it. It fails where a bench fails or prints no table, and goes on with the others.
"""
import datetime
import os
import pathlib
import re
import subprocess
import sys

import usage

PAGE = pathlib.Path("docs/BENCHMARKS.md")
MARK = re.compile(r"<!-- (bench/\S+\.py.*?) -->")


def machine():
    model = re.search(r"model name\s*: (.*)", pathlib.Path("/proc/cpuinfo").read_text())[1]
    kit = subprocess.run(["rt", "version"], capture_output=True, text=True, check=False).stdout.strip() or "no kit"
    return f"Measured on {datetime.date.today():%Y-%m-%d} on {os.cpu_count()} cores of an {model}, with `{kit}`."


def tables_of(words):
    """The lines of the tables that a bench prints, with an empty line between two, and whether it passed."""
    run = subprocess.run([sys.executable, *words], stdout=subprocess.PIPE, text=True, check=False)
    tables = re.findall(r"(?:^\|.*\n)+", run.stdout, re.M)
    return "\n".join(tables).splitlines(), run.returncode == 0 and tables != []


def main():
    lines, out, failed = PAGE.read_text().splitlines(), [], []
    commands = [mark[1] for mark in map(MARK.fullmatch, lines) if mark]
    given = usage.words(__doc__, lambda word: any(word in command for command in commands), 1)
    chosen = given[0] if given else ""
    place = 0
    while place < len(lines):
        line = lines[place]
        place += 1
        out.append(machine() if line.startswith("Measured on ") else line)
        mark = MARK.fullmatch(line)
        if not mark or chosen not in mark[1]:
            continue
        tables, passed = tables_of(mark[1].split())
        if not passed:
            failed.append(mark[1])
        while place < len(lines) and (lines[place].startswith("|") or not lines[place]):
            place += 1
        out += ["", *tables, ""]
    PAGE.write_text("\n".join(out) + "\n")
    for words in failed:
        print(f"failed: {words}", file=sys.stderr)
    return 1 if failed else 0


if __name__ == "__main__":
    sys.exit(main())
