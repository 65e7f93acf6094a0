#!/usr/bin/env python3
"""Runs the built program `ide` as a process of its own, and looks at how it ends: at each status of each way of asking once.

    bench/ends.py              the program of this repository
    bench/ends.py PROGRAM      another built program

The cases are examples of docs/FORMATS.md: of `play`, `check`, `index` and `demo` the first one that ends with each status. What stands
on standard output and on standard error has to be what is written there, byte by byte, and so has the status. The gate plays the same
examples by a call within one process, so what the program's real streams get shows here alone. Run `./ide < examples/first.ide` once
before, so that the program is built. The run ends with 1 where a case is wrong.
"""
import pathlib
import subprocess
import sys

from real import PROGRAM, TOP

sys.path.insert(0, str(TOP / "docs"))
import formats

SECONDS = 120


def cases():
    """The first example of each status and way of asking, in order, with the way."""
    firsts = {}
    for example in formats.examples():
        way = "play" if len(example.words) == 1 else example.words[1]
        if not example.is_cut():
            firsts.setdefault((example.status, way), example)
    return [(way, firsts[status, way]) for status, way in sorted(firsts)]


def wanted(example):
    """Status, standard error and standard output, as they are written."""
    lines = ["".join(line + "\n" for line in part).encode() for part in (example.error, example.answer)]
    return example.status, lines[0], lines[1] if example.hexed is None else example.hexed


def seen(program, example):
    """Status, standard error and standard output of a process."""
    source, sink, narrow = formats.streams(example)
    given = {"input": formats.script_bytes(example)} if source is None else {"stdin": source}
    done = subprocess.run(
        [program, *example.words[1:]], stdout=sink, stderr=subprocess.PIPE, preexec_fn=narrow, cwd=formats.CASES / "data",
        timeout=SECONDS, **given,
    )
    return done.returncode, done.stderr, done.stdout or b""


def is_as_written(program, way, example):
    """Runs a case and prints its line, with what differs."""
    told = zip(("status", "standard error", "standard output"), wanted(example), seen(program, example))
    faults = [f"{part}: wanted {want!r:.200}, not {got!r:.200}" for part, want, got in told if want != got]
    print(f"{example.status} {way:5}  {'wrong' if faults else 'good'}   {example.title}", *faults, sep="\n  ")
    return not faults


def main(words):
    program = str(pathlib.Path(words[0] if words else PROGRAM).resolve())
    right = [is_as_written(program, way, example) for way, example in cases()]
    print(f"ends: {len(right)} cases, {right.count(False)} wrong")
    return 0 if all(right) else 1


if __name__ == "__main__":
    sys.exit(main(sys.argv[1:]))
