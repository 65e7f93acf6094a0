#!/usr/bin/env python3
"""Plays drawn scripts with lanes and workers, and has `check` judge their transcripts, as they are and damaged.

    bench/judge.py [--program FILE] [--scripts N] [--lanes N] [--commands N] [--workers N] [--damaged N] [--seed S]

Each transcript has to be good. Then so many damaged ones of each are judged, drawn from: a number greater or smaller by one, a zero
before a number, a line left out, doubled, or swapped with the next, the last byte off. A damaged one may be a transcript of the same
script all the same, of another order of steps; the relation allows that for two numbers alone, and the run ends with 1 where any other
damaged transcript is good:

- the prefix of a record that adds nothing (a question, a refusal, a settle that finds nothing to do): it may hold at the prefix
  beside it as well;
- the seat of a worker's entry: the other worker may have made it.

The table says how many of each kind were judged, and how many of these were good. Run `./ide < examples/first.ide` once before, so
that the program is built.
"""
import argparse
import collections
import pathlib
import random
import re
import subprocess
import sys
import tempfile

from real import PROGRAM

PATHS = [f"F{number}.java" for number in range(6)] + ["notes.txt", "app.properties"]
TYPES = ["Ant", "Bee", "Cat", "Dog"]
ENTRY = re.compile(rb"\d+ \d+ (\d+) ")
WORKERS = re.compile(rb"\d+ (\d+) 0 intake ")
TOLD = re.compile(rb"(\d+) at (\d+) ")


def text(draw):
    """A small text of Java, or of properties."""
    name, base = draw.choice(TYPES), draw.choice(TYPES)
    return draw.choice([f"class {name} {{}}", f"class {name} extends {base} {{ void go() {{}} }}", f"interface {name} {{}} // {base}", f"key={name}"])


def change(draw):
    """A line of a change, often of a file that is there."""
    path = draw.choice(PATHS)
    return draw.choice(
        [
            lambda: f'create {path} "{text(draw)}"',
            lambda: f'write {path} "{text(draw)}"',
            lambda: f'write {path} "{text(draw)}"',
            lambda: f"delete {path}",
            lambda: f"open {path}",
            lambda: f'insert {path} 0 "{text(draw)} "',
            lambda: f"erase {path} 0 {draw.randrange(9)}",
            lambda: f"commit {path}",
            lambda: f"save {path}",
            lambda: f"close {path}",
            lambda: f"move {path} {draw.choice(PATHS)}",
        ]
    )()


def question(draw):
    """A line of a question, at times a soft one."""
    name = draw.choice(TYPES)
    asked = draw.choice([f"class {name}", f"supers {name}", "method go", f"word {name}", f"usages {name}", f"inheritors {name}", 'key "key"', "status"])
    asked = draw.choice([asked, f"outline {draw.choice(PATHS)}"])
    return draw.choice([asked, f"soft {draw.randrange(1, 4)} {asked}"])


def command(draw):
    """The lines of a command of a lane."""
    kind = draw.random()
    if kind < 0.45:
        return [change(draw)]
    if kind < 0.55:
        return ["group", *(change(draw) for _ in range(draw.randrange(1, 4))), "end"]
    return ["settle"] if kind < 0.65 else [question(draw)]


def script(draw, lanes, commands):
    """A script of so many lanes with so many commands each, over a few files that all of them know."""
    lines = [f'create {path} "{text(draw)}"' for path in PATHS[::2]] + ["settle"]
    for _ in range(lanes):
        lines += ["lane", *(line for _ in range(commands) for line in command(draw))]
    return "\n".join(lines + ["finally", "settle", "status", *(question(draw) for _ in range(6))]) + "\n"


def numbers(line):
    """Where the numbers of a line stand, but for those within words and texts."""
    return [it.span() for it in re.finditer(rb"(?<![\w.])\d+(?![\w.])", line)]


def what_it_is(lines, line, span):
    """What a number of a line is. A record adds nothing where no entry names its line of the script."""
    told, worker = TOLD.match(line), WORKERS.match(line)
    if told and span == told.span(2) and all(it[1] != told[1] for it in map(ENTRY.match, lines) if it):
        return "prefix of a record that adds nothing"
    if worker and span == worker.span(1):
        return "seat of a worker's entry"
    return "another number"


def damaged(draw, lines):
    """A kind of damage, and the lines with it."""
    at = draw.randrange(len(lines))
    kind = draw.choice(["number", "number", "number", "zero", "left out", "doubled", "swapped", "last byte off"])
    if kind in ("number", "zero"):
        spans = numbers(lines[at])
        if not spans:
            return None
        first, end = draw.choice(spans)
        number = int(lines[at][first:end])
        written = b"0%d" % number if kind == "zero" else b"%d" % draw.choice([number + 1, max(0, number - 1)])
        name = kind if kind == "zero" else what_it_is(lines, lines[at], (first, end))
        return name, lines[:at] + [lines[at][:first] + written + lines[at][end:]] + lines[at + 1 :]
    if kind == "left out":
        return kind, lines[:at] + lines[at + 1 :]
    if kind == "doubled":
        return kind, lines[: at + 1] + lines[at:]
    if kind == "swapped":
        return kind, lines[:at] + lines[at : at + 2][::-1] + lines[at + 2 :]
    return kind, lines[:-1] + [lines[-1][:-1]]


def main():
    words = argparse.ArgumentParser(description=__doc__, formatter_class=argparse.RawDescriptionHelpFormatter)
    words.add_argument("--program", default=PROGRAM, type=pathlib.Path)
    for name, value in (("scripts", 50), ("lanes", 4), ("commands", 50), ("workers", 2), ("damaged", 200), ("seed", 1)):
        words.add_argument(f"--{name}", type=int, default=value)
    given = words.parse_args()
    draw, judged, good, wrong = random.Random(given.seed), collections.Counter(), collections.Counter(), []
    with tempfile.TemporaryDirectory() as folder:
        source, told = pathlib.Path(folder, "script.ide"), pathlib.Path(folder, "told")
        options = ["--workers", str(given.workers)]

        def run(*command):
            with source.open("rb") as lines:
                return subprocess.run([given.program, *command, *options], stdin=lines, capture_output=True, cwd=folder)

        for number in range(given.scripts):
            source.write_text(script(draw, given.lanes, given.commands))
            whole = run("play").stdout
            lines = whole.splitlines(keepends=True)
            for at in range(given.damaged + 1):
                kind, bytes = "whole", whole
                if at:
                    made = damaged(draw, lines)
                    if made is None or b"".join(made[1]) == whole:
                        continue
                    kind, bytes = made[0], b"".join(made[1])
                told.write_bytes(bytes)
                is_good = run("check", str(told)).stdout == b"good\n"
                judged[kind] += 1
                good[kind] += is_good
                may = kind in ("whole", "prefix of a record that adds nothing", "seat of a worker's entry")
                if is_good != (kind == "whole") and not (is_good and may):
                    wrong.append((number, at, kind))
    for kind in sorted(judged):
        print(f"  {judged[kind]:7} judged  {good[kind]:7} good  {kind}")
    for found in wrong[:10]:
        print("  script {}, damaged {}: {}".format(*found))
    return bool(wrong)


if __name__ == "__main__":
    sys.exit(main())
