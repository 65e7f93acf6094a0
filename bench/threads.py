#!/usr/bin/env python3
"""Times the built program `ide` with lanes and workers on threads.

    bench/threads.py                  lanes that edit and ask, lanes that ask, alone and beside one that edits, and
                                      demos with 0 and 4 workers
    bench/threads.py FOLDER           also the Java files of a folder loaded and indexed, by 0, 1 and 3 workers, and by a lane that
                                      settles with 0 and 1 worker beside it (`taskset -c 0,1` before the command: on two processors)
    bench/threads.py --waits OLD ..   for the program of this repository, or for several built ones in turn: what waiting costs, as
                                      the processor seconds of lanes that write between long questions to those of lanes that only
                                      ask, and how many of 60 soft questions give way for good, beside 60 writes and long questions;
                                      the middle of seven runs, and each of them (`taskset -c 0,1` here too)

For FOLDER see bench/real.py. The least time of three runs counts, and the processor seconds of that run: where they are
more than the seconds, threads ran beside each other; a thread that waits and keeps a processor busy would show there.
Run `./ide < examples/first.ide` once before, so that the program is built. Times on shared machines say little by
themselves: read the ratios.
"""
import os
import pathlib
import re
import statistics
import sys
import tempfile

from real import PROGRAM, used

COMMANDS = 40_000
ASKS = 5_000
ROUNDS = 7
LONG_ASKS = 60


def measure(words, script, folder=None):
    """Seconds, processor seconds and megabytes of the quickest of three runs."""
    with tempfile.NamedTemporaryFile("w", suffix=".ide") as file:
        file.write(script)
        file.flush()
        return min(used([PROGRAM, *words], file.name, folder) for _ in range(3))


def row(name, found, rest=""):
    seconds, processor, memory = found
    print(f"  {name:34} {seconds:7.3f} s {processor:7.3f} s of processors {memory:7.1f} MB{rest}")


def loaded(folder):
    """The files of a folder, loaded by the prelude and indexed by the workers or by the settle of the last section."""
    paths = sorted(str(path.relative_to(folder)) for path in folder.rglob("*.java"))
    loads = "".join(f"load {path}\n" for path in paths if " " not in path)
    print(f"{len(paths)} files of {folder} loaded and indexed")
    for workers in (0, 1, 3):
        row(f"{workers} workers", measure(["play", "--workers", str(workers)], loads + "finally\nsettle\nstatus\n", folder))
    for workers in (0, 1):
        row(f"a lane settles, {workers} workers", measure(["play", "--workers", str(workers)], loads + "lane\nsettle\nstatus\n", folder))


def lane(number, commands):
    """A lane that writes a file of its own and asks, so many commands in all."""
    path = f"L{number}.java"
    lines = [f'create {path} "class L{number} {{}}"']
    turn = [f'write {path} "class L{number} {{ void m() {{}} }}"', "settle", f"class L{number}", f"soft 3 word L{number}"]
    while len(lines) < commands:
        lines += turn
    return "lane\n" + "\n".join(lines[:commands]) + "\n"


def lanes():
    print(f"lanes that write, settle, ask and ask softly, {COMMANDS} commands in all")
    for count in (1, 2, 4):
        script = "".join(lane(number, COMMANDS // count) for number in range(count))
        found = measure(["play"], script)
        row(f"{count} lanes", found, f" {COMMANDS / found[0]:9.0f} commands a second")


def askers():
    """Lanes that ask for the outline of a text of 22,000 characters, alone and beside a lane that writes another file."""
    body = "int x = 1; " * 2_000
    prelude = f'create A.java "class A {{}}"\ncreate B.java "class B {{ void n() {{ {body}}} }}"\n'
    ask = "lane\n" + "outline B.java\n" * ASKS
    edit = "lane\n" + 'write A.java "class A { void m() {} }"\n' * 4 * ASKS
    for edits, beside in (("", "alone"), (edit, f"beside one that writes {4 * ASKS} times")):
        print(f"1, 2 and 4 lanes that ask for an outline, {ASKS} times each, {beside}")
        first = None
        for count in (1, 2, 4):
            found = measure(["play"], prelude + edits + ask * count)
            rate = ASKS * count / found[0]
            first = first or rate
            row(f"{count} asking lanes", found, f" {rate:9.0f} questions a second, {rate / first:4.2f}")


def large(name, methods):
    """The line that creates a file whose outline takes some milliseconds: 7 with 1,500 methods, which are 350,000 characters."""
    body = "int x = 1; " * 20
    return f'create {name} "class B {{ ' + "".join(f"void m{at}() {{ {body}}} " for at in range(methods)) + '}"\n'


def played(program, script):
    """Seconds and processor seconds of one run, and how many of its questions were cancelled."""
    with tempfile.NamedTemporaryFile("w", suffix=".ide") as file, tempfile.NamedTemporaryFile("r") as out:
        file.write(script)
        file.flush()
        seconds, processor, _ = used([program, "play"], file.name, written=out.name)
        return seconds, processor, len(re.findall(r"(?m)^\d+ cancelled \d+$", out.read()))


def rounds(programs, scripts):
    """For each program and script, its runs: each round goes through all of them."""
    runs = {(program, name): [] for program in programs for name in scripts}
    for _ in range(ROUNDS):
        for (program, name), found in runs.items():
            found.append(played(program, scripts[name]))
    return runs


def cell(numbers, form):
    """The middle of some numbers, and all of them."""
    return f"{statistics.median(numbers):{form}} ({' '.join(f'{number:{form}}' for number in numbers)})"


def waits(programs):
    """Three lanes that write a file of their own before each long question and one that only asks, to four that only ask."""
    print(f"four lanes with {LONG_ASKS} long questions each: processor seconds where three write, where none does, the ratio, and seconds")
    ask = "outline B.java\n"
    write = "".join("lane\n" + (f'write L{at}.java "class L{at} {{}}"\n' + ask) * LONG_ASKS for at in range(3))
    prelude = large("B.java", 1_500) + "".join(f'create L{at}.java ""\n' for at in range(3))
    scripts = {"write": prelude + write + "lane\n" + ask * LONG_ASKS, "ask": prelude + ("lane\n" + ask * LONG_ASKS) * 4}
    runs = rounds(programs, scripts)
    for program in programs:
        writing, asking = ([run[1] for run in runs[program, name]] for name in scripts)
        ratio = statistics.median(writing) / statistics.median(asking)
        seconds = " and ".join(f"{statistics.median(run[0] for run in runs[program, name]):.2f}" for name in scripts)
        print(f"  {cell(writing, '.2f')} s, {cell(asking, '.2f')} s, {ratio:.2f}, {seconds} s  {program}")


def gives_way(programs):
    """Soft questions beside writes that wait for long questions. A question of 3 ms behind each write and each soft question spreads them:
    60 of them in a row go through, or give way, within a single long question."""
    print("60 soft questions beside 60 writes and two lanes of long questions: how many are cancelled, and seconds")
    middling, write = "outline M.java\n", 'write A.java "class A {}"\n'
    prelude = large("B.java", 1_500) + large("M.java", 600) + 'create A.java "class A {}"\ncreate C.java "class C {}"\n'
    prelude += ("lane\n" + "outline B.java\n" * 2 * LONG_ASKS) * 2 + "lane\n" + (write + middling) * 60 + "lane\n"
    scripts = {attempts: prelude + (f"soft {attempts} outline C.java\n" + middling) * 60 for attempts in (2, 3, 10)}
    runs = rounds(programs, scripts)
    for attempts in scripts:
        for program in programs:
            seconds, _, cancelled = zip(*runs[program, attempts])
            print(f"  {attempts:2} attempts {cell(cancelled, '.0f')}, {statistics.median(seconds):.2f} s  {program}")


def load_now():
    """How busy the machine is, and how many of its processors this process may use."""
    return "load " + ", ".join(f"{x:.1f}" for x in os.getloadavg()) + f" on {len(os.sched_getaffinity(0))} of {os.cpu_count()} processors"


def demos():
    print("a demo of 10,000 files and 50,000 edits")
    for workers in (0, 4):
        words = ["demo", "--files", "10000", "--edits", "50000", "--workers", str(workers)]
        row(f"{workers} workers", measure(words, ""))


def main():
    if sys.argv[1:2] == ["--waits"]:
        programs = sys.argv[2:] or [PROGRAM]
        for measured in (waits, gives_way):
            print(load_now())
            measured(programs)
        return
    if len(sys.argv) > 1:
        loaded(pathlib.Path(sys.argv[1]))
    lanes()
    askers()
    demos()


if __name__ == "__main__":
    main()
