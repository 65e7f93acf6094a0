#!/usr/bin/env python3
"""What the gate costs: runs `rt ci` at the top of this repository, and counts processor seconds by crate and kind.

    bench/gate.py [--cpus LIST] [--log FILE] [WORD ..]   rt ci with these words (as --anew), its output to FILE.out, then the table;
                                                         --cpus 0,1 binds it to these processors
    bench/gate.py --table FILE                           prints the table of an earlier run

A kit that keeps what passed proves only what changed: `--anew` counts all. While it runs, the prover's processes below it are
looked at twice a second, and the most that was seen of each check is written to FILE, so each may have used a little more. What
`rt ci` used with all that it started is exact. Run it on a quiet machine: what runs beside it isn't counted, but makes it slower.
How fast the machine was is told by a loop in Python, timed before the run and behind it: on machines that take twice as long for
the loop a gate costs twice as much.
"""
import argparse
import collections
import os
import pathlib
import resource
import subprocess
import sys
import time

TOP = pathlib.Path(__file__).resolve().parent.parent
KINDS = ("proof", "tests", "compiled", "edits")
TICKS = os.sysconf("SC_CLK_TCK")
LOOP = "import time; began = time.process_time(); sum(i * i for i in range(3_000_000)); print(time.process_time() - began)"


def kind_of(words, folder):
    """What a call of the prover is for, by its words and the folder that it runs in."""
    if "/rt-edit" in folder:
        return "edits"
    return "tests" if "--test" in words else "compiled" if "--crate-checked" in words else "proof"


def process(pid):
    """A process's parent, when it began, and its processor seconds with those of children that it waited for; and its words."""
    try:
        words = pathlib.Path(f"/proc/{pid}/cmdline").read_bytes().decode(errors="replace").split("\0")
        fields = pathlib.Path(f"/proc/{pid}/stat").read_text().rpartition(")")[2].split()
        return int(fields[1]), fields[19], sum(map(int, fields[11:15])) / TICKS, words
    except (OSError, IndexError):
        return None


def is_below(pid, top, every):
    """Whether a process is another one, or was started by it or below it."""
    while pid != top and every.get(pid):
        pid = every[pid][0]
    return pid == top


def checks_now(run):
    """The checks of a run that go on now: crate, kind, and processor seconds so far with all processes below each."""
    every = {int(it): process(it) for it in os.listdir("/proc") if it.isdigit()}
    prover = {
        pid: it
        for pid, it in every.items()
        if it and it[3][0].endswith("/rattle") and "--crate-name" in it[3] and is_below(pid, run.pid, every)
    }
    used = collections.Counter()
    for pid, (parent, _, seconds, _) in prover.items():
        while parent in prover:
            pid, parent = parent, prover[parent][0]
        used[pid] += seconds
    for pid, seconds in used.items():
        _, began, _, words = prover[pid]
        try:
            yield (pid, began), words[words.index("--crate-name") + 1], kind_of(words, os.readlink(f"/proc/{pid}/cwd")), seconds
        except OSError:
            pass


def watch(run, log):
    """Looks at the checks until the run has ended, and writes the most that was seen of each."""
    seen = {}
    while run.poll() is None:
        for key, name, kind, used in checks_now(run):
            seen[key] = max(seen.get(key, (name, kind, 0.0)), (name, kind, used))
        time.sleep(0.5)
    log.write_text("".join(f"{name} {kind} {used:.2f}\n" for name, kind, used in seen.values()))


def print_table(log):
    """Seconds of each crate by kind, and how many edits were tried; dearest first."""
    seconds, calls = collections.defaultdict(collections.Counter), collections.Counter()
    for line in log.read_text().splitlines():
        name, kind, used = line.split()[:3]
        seconds[name][kind] += float(used)
        calls[name] += kind == "edits"
    print("| crate | " + " | ".join(KINDS) + " | tries |\n|" + "---|" * (len(KINDS) + 2))
    total = collections.Counter()
    for name in sorted(seconds, key=lambda it: -sum(seconds[it].values())):
        total.update(seconds[name])
        print(f"| `{name}` | " + " | ".join(f"{seconds[name][kind]:.0f}" for kind in KINDS) + f" | {calls[name]} |")
    print("| all, minutes | " + " | ".join(f"{total[kind] / 60:.1f}" for kind in KINDS) + f" | {sum(calls.values())} |")
    print(f"\nsum of the checks: {sum(total.values()) / 60:.1f} processor minutes")


def used_below():
    """Processor seconds of all processes that this one started and waited for, with those below them."""
    used = resource.getrusage(resource.RUSAGE_CHILDREN)
    return used.ru_utime + used.ru_stime


def loop_seconds(bound):
    """Processor seconds of a fixed loop in Python, the least of five runs on the same processors."""
    return min(float(subprocess.check_output([*bound, sys.executable, "-c", LOOP])) for _ in range(5))


def main():
    parser = argparse.ArgumentParser()
    parser.add_argument("--cpus", help="processors to run on, as 0,1")
    parser.add_argument("--log", default="/tmp/gate.log", type=pathlib.Path)
    parser.add_argument("--table", type=pathlib.Path)
    given, words = parser.parse_known_args()
    if given.table:
        return print_table(given.table)
    bound = ["taskset", "-c", given.cpus] if given.cpus else []
    loop = loop_seconds(bound)
    began, before = time.time(), used_below()
    with open(f"{given.log}.out", "w") as out:
        run = subprocess.Popen([*bound, "rt", "ci", *words], cwd=TOP, stdin=subprocess.DEVNULL, stdout=out, stderr=subprocess.STDOUT)
        watch(run, given.log)
    ended, used = time.time(), used_below() - before
    print_table(given.log)
    print(f"rt ci: status {run.returncode}, {(ended - began) / 60:.1f} minutes by the clock, "
          f"{used / 60:.1f} processor minutes with all that it started")
    print(f"the loop in Python: {loop:.3f} s before, {loop_seconds(bound):.3f} s behind")
    last = pathlib.Path(f"{given.log}.out").read_text().rstrip().splitlines()
    print(last[-1] if last else "it printed nothing")
    sys.exit(run.returncode)


if __name__ == "__main__":
    main()
