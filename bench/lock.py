#!/usr/bin/env python3
"""Times the built program `lock_bench`: turns on the lock, beside the same turns on std's `RwLock`.

    bench/lock.py                     all modes
    bench/lock.py 1000000             with so many turns more in the longer run, and a sixteenth of them for writes
    bench/lock.py 1000000 PROGRAM     and the lock of another build of `lock_bench` too, say of an earlier commit

Run `rt run` in crates/lock_bench once before, so that the program is built. Each mode runs at two numbers of turns;
what the turns cost is the difference, so that starting the program and its threads isn't counted. Rounds go through all
modes in turn, and a mode's row is its middle round. Times on shared machines say little by themselves: read the ratios
between the columns of one run. Where readers use hardly more processor seconds than seconds, their threads ran one after
another, and the row says little of readers at once.
"""
import os
import pathlib
import resource
import subprocess
import sys
import time

TOP = pathlib.Path(__file__).resolve().parent.parent
PROGRAM = TOP / "crates/lock_bench/out/lock_bench"
# for each mode, how many threads count their turns
MODES = {"read": 1, "read-two": 2, "read-four": 4, "write": 1, "write-beside": 1}
FEW = 1000
ROUNDS = 7


def processor():
    used = resource.getrusage(resource.RUSAGE_CHILDREN)
    return used.ru_utime + used.ru_stime


def run(program, mode, turns):
    """Seconds, processor seconds, and operations that a run tells."""
    before, start = processor(), time.perf_counter()
    done = subprocess.run([program, mode, str(turns)], stdout=subprocess.PIPE, check=True)
    took, used = time.perf_counter() - start, processor() - before
    name, count, _ = done.stdout.decode().split()
    if name != mode or int(count) != MODES[mode.removeprefix("plain-")] * turns:
        sys.exit(f"{mode} at {turns} turns told {name} {count}")
    return took, used, int(count)


def difference(program, mode, more):
    """Seconds, processor seconds and operations of so many turns more."""
    more = more // 16 if "write" in mode else more
    few, many = run(program, mode, FEW), run(program, mode, FEW + more)
    return tuple(b - a for a, b in zip(few, many))


def measure(columns, more):
    """For each column and mode, the round that is in the middle by its seconds."""
    rounds = {(column, mode): [] for mode in MODES for column in columns}
    for _ in range(ROUNDS):
        for (column, mode), found in rounds.items():
            program, prefix = column
            found.append(difference(program, prefix + mode, more))
    return {key: sorted(found)[ROUNDS // 2] for key, found in rounds.items()}


def cells(seconds, used, count):
    return f"{count / seconds / 1e6:8.2f} {seconds:8.3f} {used:8.3f}"


def main():
    more = int(sys.argv[1]) if sys.argv[1:] else 4_000_000
    columns = [(PROGRAM, ""), (PROGRAM, "plain-")] + [(program, "") for program in sys.argv[2:]]
    load = ", ".join(f"{x:.1f}" for x in os.getloadavg())
    print(f"{more} turns more in each thread, for writes {more // 16}; load {load} on {os.cpu_count()} processors")
    names = ["the lock", "std's RwLock"] + sys.argv[2:]
    print("  M/s, seconds, processor s: " + " | ".join(names) + " | seconds, to those of the lock")
    found = measure(columns, more)
    for mode in MODES:
        rows = [found[(column, mode)] for column in columns]
        ratios = " ".join(f"{row[0] / rows[0][0]:6.2f}" for row in rows[1:])
        print(f"  {mode:14} " + " | ".join(cells(*row) for row in rows) + f" | {ratios}")


if __name__ == "__main__":
    main()
