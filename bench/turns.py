#!/usr/bin/env python3
"""Counts what a turn costs: the instructions of a script, less those of the script that it goes on from, by function.

    bench/turns.py PROGRAM BASE SCRIPT COUNT              each function's own, a turn; SCRIPT has COUNT turns behind BASE
    bench/turns.py PROGRAM BASE SCRIPT COUNT --calls WORD who calls the functions whose names have WORD, what they call, how often
    bench/turns.py PROGRAM BASE SCRIPT COUNT --code WORD  their machine instructions, with how often a turn runs each
    bench/turns.py PROGRAM SCRIPT                         the whole script's, in a hundred of all

It wants `valgrind` (apt-get install -y valgrind), and takes some fifty times what the program takes. Counts are the same to a part
in a thousand whatever else the machine does; what caches, branches that go wrong, page faults and atomic instructions cost is left
out. A list's rare moves to more room weigh too much behind a short script. PROGRAM may be one of bench/unproved.py.
"""
import argparse
import collections
import pathlib
import re
import signal
import subprocess
import sys
import tempfile

NAME = re.compile(r"\((\d+)\)\s*(.*)")
MOST = 60


class Counts:
    """What callgrind counted of one run: each function's own instructions, calls between functions, and instructions by address."""

    def __init__(self, lines):
        self.own, self.calls, self.below, self.code = (collections.Counter() for _ in range(4))
        names, function, callee, called, place, address = {}, None, None, False, "", 0
        for line in lines:
            key, _, rest = line.rstrip("\n").partition("=")
            if key in ("fn", "cfn", "ob", "cob"):
                number, text = NAME.match(rest).groups()
                # (objects and functions are numbered apart; a number's first line has its name)
                text = names.setdefault((key[-2:], number), text)
                if key == "fn":
                    function = text
                elif key == "cfn":
                    callee = text
                elif key == "ob":
                    place = text
            elif key == "calls":
                self.calls[function, callee] += int(rest.split()[0])
                called = True
            elif re.match(r"0x|[+*-]|\d", line) and len(words := line.split()) > 2:
                at = words[0]
                address = address if at == "*" else int(at, 16) if at.startswith("0x") else address + int(at, 0)
                if called:
                    self.below[function, callee] += int(words[2])
                else:
                    self.own[function] += int(words[2])
                    self.code[place, function, address] += int(words[2])
                called = False

    def less(self, other, turns):
        """What each turn has more than another run, in place of the counts."""
        for name in ("own", "calls", "below", "code"):
            mine, theirs = getattr(self, name), getattr(other, name)
            setattr(self, name, {key: (count - theirs.get(key, 0)) / turns for key, count in mine.items() if count != theirs.get(key, 0)})
        return self


def counted(program, script):
    """What callgrind counts of a program that reads a script."""
    with tempfile.NamedTemporaryFile("r") as file, open(script, "rb") as source:
        words = ["valgrind", "--tool=callgrind", "--dump-instr=yes", f"--callgrind-out-file={file.name}", program]
        run = subprocess.run(words, stdin=source, stdout=subprocess.DEVNULL, stderr=subprocess.PIPE, check=False)
        if run.returncode:
            sys.exit(run.stderr.decode(errors="replace"))
        return Counts(file)


def tell_own(counts):
    whole = sum(counts.own.values())
    print(f"{whole:12.1f} in all")
    for name, count in sorted(counts.own.items(), key=lambda it: -it[1])[:MOST]:
        print(f"{count:12.1f} {100 * count / whole:5.1f} %  {name}")


def tell_calls(counts, word):
    for title, side in (("called by", 1), ("calls", 0)):
        print(title)
        rows = [(pair, count) for pair, count in counts.below.items() if word in pair[side]]
        for pair, count in sorted(rows, key=lambda it: -it[1])[:MOST]:
            print(f"{count:12.1f} in {counts.calls.get(pair, 0):9.2f}   {pair[0]} -> {pair[1]}")


def tell_code(counts, word, program):
    for name in sorted({key[1] for key in counts.code if word in key[1]}):
        runs = {address: count for (_, function, address), count in counts.code.items() if function == name}
        print(f"{name}: {sum(runs.values()):.1f}")
        span = [f"--start-address={min(runs)}", f"--stop-address={max(runs) + 16}"]
        text = subprocess.run(["objdump", "-d", "--no-show-raw-insn", *span, program], stdout=subprocess.PIPE, text=True, check=True).stdout
        for line in text.splitlines():
            found = re.match(r"\s*([0-9a-f]+):\s+(.*)", line)
            if found and int(found[1], 16) in runs:
                print(f"{runs[int(found[1], 16)]:10.2f}  {found[1]}  {found[2]}")


def main():
    words = argparse.ArgumentParser(description=__doc__, formatter_class=argparse.RawDescriptionHelpFormatter)
    words.add_argument("program", type=lambda path: str(pathlib.Path(path).resolve()))
    words.add_argument("scripts", nargs="+", help="BASE SCRIPT COUNT, or SCRIPT alone")
    words.add_argument("--calls", metavar="WORD")
    words.add_argument("--code", metavar="WORD")
    given = words.parse_args()
    signal.signal(signal.SIGPIPE, signal.SIG_DFL)  # so that `| head` ends it quietly
    base, script, turns = given.scripts if len(given.scripts) == 3 else (None, given.scripts[0], 1)
    counts = counted(given.program, script)
    if base:
        counts.less(counted(given.program, base), int(turns))
    if given.calls:
        tell_calls(counts, given.calls)
    elif given.code:
        tell_code(counts, given.code, given.program)
    else:
        tell_own(counts)


if __name__ == "__main__":
    main()
