#!/usr/bin/env python3
"""Refuses the program's requests for memory, one after another, and looks at how each run ends.

    bench/memory.py                 all scripts, and the calls
    bench/memory.py overlay demo    these alone
    bench/memory.py --program FILE  another built program
    bench/memory.py --caller FILE   another built program of calls

Run `./ide < examples/first.ide` once before, and `rt run` in `crates/refused_calls`, so that both programs are built. `cc` makes a few lines of C that stand between the
program and `malloc`: they count requests and refuse the one with a given number. A run without a refusal tells how many requests a
script makes; then one run for each number. A run passes that ends with status 6, its line on standard error and nothing on standard
output, or just as the run without a refusal. Where threads run beside each other the output and the number of requests differ from
run to run: then the output is whole where it has a record for each command.

`calls` is the program `refused_calls`, which makes the calls of the library one after another: where one is refused memory it asks
what stands, and makes the call once more. There a run passes that ends with status 0 and its stored output, in which each line on a
refusal tells what the line before told: the refused call has made nothing. A settle and a worker keep what they made before they
were refused; then the line tells what the line behind it tells.
"""
import argparse
import collections
import os
import pathlib
import subprocess
import sys
import tempfile

from real import PROGRAM, TOP

# The program that makes the calls, what it writes without a refusal, and what it would tell before its first step.
CALLER = TOP / "crates/refused_calls/out/refused_calls"
CALLS = TOP / "crates/refused_calls/stdout"
AT_FIRST = "after 0"
# The lines on a refused settle and a refused worker, and the endings that pass.
KEEPING = ("refused 3:", "refused 10:")
PASSING = {"as before", "with its part kept", "whole"}

REFUSER = r"""
#define _GNU_SOURCE
#include <errno.h>
#include <fcntl.h>
#include <stdatomic.h>
#include <stdlib.h>
#include <sys/mman.h>
extern void *__libc_malloc(size_t), *__libc_calloc(size_t, size_t), *__libc_realloc(void *, size_t), *__libc_memalign(size_t, size_t);
static atomic_long none, *made = &none;
static long refused = -1;
__attribute__((constructor)) static void begin(void) {
    const char *number = getenv("REFUSE"), *name = getenv("REQUESTS");
    int file = name ? open(name, O_RDWR) : -1;
    void *shared = file < 0 ? MAP_FAILED : mmap(NULL, sizeof *made, PROT_READ | PROT_WRITE, MAP_SHARED, file, 0);
    if (shared != MAP_FAILED) made = shared;
    refused = number ? atol(number) : 0;
}
static int refuses(void) {
    if (refused < 0 || atomic_fetch_add(made, 1) + 1 != refused) return 0;
    errno = ENOMEM;
    return 1;
}
void *malloc(size_t size) { return refuses() ? NULL : __libc_malloc(size); }
void *calloc(size_t many, size_t size) { return refuses() ? NULL : __libc_calloc(many, size); }
void *realloc(void *old, size_t size) { return refuses() ? NULL : __libc_realloc(old, size); }
void *aligned_alloc(size_t align, size_t size) { return refuses() ? NULL : __libc_memalign(align, size); }
void *memalign(size_t align, size_t size) { return refuses() ? NULL : __libc_memalign(align, size); }
int posix_memalign(void **out, size_t align, size_t size) {
    if (refuses()) return ENOMEM;
    return (*out = __libc_memalign(align, size)) ? 0 : ENOMEM;
}
"""

OVERLAY = """create A.java "class A {}"
open A.java
insert A.java 6 "B"
class A
commit A.java
class A
class BA
save A.java
close A.java
class BA
status
"""

CONFLICT = """create A.java "class A {}"
open A.java
insert A.java 0 " "
write A.java "class B {}"
save A.java
write A.java "class B {}"
class A
close A.java
commit A.java
close A.java
class B
"""

LANES = """create A.java "class A { void m() { m(); } }"
create B.java "class B extends A {}"
lane
write A.java "class A2 {}"
soft 2 class A2
lane
create C.java "class C extends B {}"
word m
group
create D.java "class D {}"
open D.java
end
finally
settle
supers B
inheritors A
usages m
outline C.java
status
"""

KEPT = """load L.java
create A.java "class A { void m() {} }"
create B.properties "a=b"
settle
class A
key "a"
"""

# The transcript of KEPT over FILES.
TRANSCRIPT = b"""history 6
1 0 1 create L.java 11
2 0 2 create A.java 23
3 0 3 create B.properties 3
4 0 4 intake 1 1
5 0 4 intake 2 2
6 0 4 intake 3 3
1 at 1 accepted
2 at 2 accepted
3 at 3 accepted
4 at 6 smart
5 at 6 rows 2
  L.java:1:7 class A
  A.java:1:7 class A
6 at 6 rows 1
  B.properties:1:1 property
"""

# What a file that is loaded has, and the store of it.
LOADED = b"class A {}\n"
STORE = bytes.fromhex("010101010101 00000001 01 0000000b 636c6173732041207b7d0a 00000014 0100000001010000000006000000014100000000 00000001 000000014101")

# Files of the folder that the program runs in.
FILES = {
    "L.java": LOADED,
    "good.out": TRANSCRIPT,
    "bad.out": TRANSCRIPT.replace(b"rows 1", b"rows 0"),
    "good.store": STORE,
    "bad.store": STORE[:-1] + b"\2",
}

# Each script with the words that the program gets, and whether its output is the same in each run.
SCRIPTS = {
    "overlay": (OVERLAY, ["play"], True),
    "conflict": (CONFLICT, ["play"], True),
    "demo": ("", ["demo", "--seed", "1", "--files", "2", "--edits", "1"], True),
    "demo with workers": ("", ["demo", "--seed", "1", "--files", "2", "--edits", "1", "--workers", "2"], True),
    "lanes": (LANES, ["play"], False),
    "lanes and workers": (LANES, ["play", "--workers", "2"], False),
    "check": (KEPT, ["check", "good.out"], True),
    "check of a bad one": (KEPT, ["check", "bad.out"], True),
    "index": (KEPT, ["index"], True),
    "store": (KEPT, ["play", "--store", "good.store"], True),
    "store that is refused": (KEPT, ["play", "--store", "bad.store"], True),
    "store and workers": (KEPT, ["play", "--store", "good.store", "--workers", "2"], False),
}


def made_refuser(folder):
    """The shared library that refuses."""
    source, library = f"{folder}/refuser.c", f"{folder}/refuser.so"
    pathlib.Path(source).write_text(REFUSER)
    subprocess.run(["cc", "-O2", "-shared", "-fPIC", "-o", library, source], check=True)
    return library


class Runs:
    """Runs of one script under the refuser."""

    def __init__(self, program, library, folder, script, words):
        self.command, self.script = [program, *words], script.encode()
        self.counted, self.folder = f"{folder}/requests", folder
        self.env = {**os.environ, "LD_PRELOAD": library, "REQUESTS": self.counted}

    def run(self, refused):
        """Status, output, what was told on standard error, and the number of requests."""
        pathlib.Path(self.counted).write_bytes(bytes(8))
        ran = subprocess.run(self.command, input=self.script, cwd=self.folder, capture_output=True, timeout=60, env={**self.env, "REFUSE": str(refused)})
        return ran.returncode, ran.stdout, ran.stderr, int.from_bytes(pathlib.Path(self.counted).read_bytes(), sys.byteorder)


def records_of(output):
    """How many records an output has behind its history, or lines of answers where it is a summary. Lines of rows and of changes begin with a space."""
    heads = [line for line in output.decode().splitlines() if not line.startswith(" ")]
    return len(heads) - 1 - int(heads[0].split()[1]) if heads and heads[0].startswith("history ") else len(heads)


def ending(status, output, error, whole, same):
    """How a run ended, by a word or two; one that passes is 'refused' or 'whole'. `whole`: status, output and what was told without a refusal."""
    if status == 6:
        return "refused" if output == b"" and error == b"ide: out of memory\n" else "refused, but told or wrote something else"
    if (status, error) == (whole[0], whole[2]):
        is_whole = output == whole[1] if same else records_of(output) == records_of(whole[1])
        return "whole" if is_whole else "done with another output"
    return f"status {status}"


def print_endings(name, requests, endings, first, passing):
    """Tells how the runs ended, and of each ending that doesn't pass the first request that brought it about."""
    print(f"{name}: {requests} requests, " + ", ".join(f"{many} {end}" for end, many in sorted(endings.items())), flush=True)
    for end in sorted(set(endings) - passing):
        print(f"    {end}: first at request {first[end]}")


def tried(name, program, library, folder):
    """Tries a script with each request refused; whether all runs pass."""
    script, words, same = SCRIPTS[name]
    runs = Runs(program, library, folder, script, words)
    *whole, requests = runs.run(0)
    if whole[0] not in (0, 8):
        print(f"{name}: without a refusal the program ended with status {whole[0]}: {whole[2].decode().strip()}")
        return False
    endings, first, refused = collections.Counter(), {}, 0
    while refused < (requests if same else 2 * requests):
        refused += 1
        try:
            status, output, error, counted = runs.run(refused)
        except subprocess.TimeoutExpired:
            end = "hung"
        else:
            end = ending(status, output, error, whole, same)
            if not same and counted < refused:
                break
        endings[end] += 1
        first.setdefault(end, refused)
    print_endings(name, requests, endings, first, {"refused", "whole"})
    return set(endings) <= {"refused", "whole"}


def told_by(line):
    """What a line of the calls tells behind its step."""
    return line.split(": ", 1)[1]


def told_before(lines, number):
    """What was told before the step of this line."""
    return AT_FIRST if lines[number].startswith("refused 0:") else told_by(lines[number - 1])


def ending_of_refusal(lines, number):
    """What a refused call left, by the line on it."""
    if told_by(lines[number]) == told_before(lines, number):
        return "as before"
    keeps = lines[number].startswith(KEEPING) and told_by(lines[number]) == told_by(lines[number + 1])
    return "with its part kept" if keeps else "refused, but something was made"


def ending_of_calls(status, output):
    """How a run of the calls ended; one that passes is in PASSING, 'whole' where no call was refused."""
    lines = output.decode().splitlines()
    if status != 0:
        return f"status {status}"
    if [line for line in lines if not line.startswith("refused ")] != CALLS.read_text().splitlines():
        return "done with another output"
    refusals = [ending_of_refusal(lines, number) for number, line in enumerate(lines) if line.startswith("refused ")]
    return max(refusals, default="whole", key=lambda it: it not in PASSING)


def tried_calls(program, library, folder):
    """Tries the calls with each request refused; whether all runs pass."""
    runs = Runs(program, library, folder, "", [])
    requests = runs.run(0)[3]
    endings, first = collections.Counter(), {}
    for refused in range(1, requests + 1):
        try:
            status, output, _, _ = runs.run(refused)
        except subprocess.TimeoutExpired:
            end = "hung"
        else:
            end = ending_of_calls(status, output)
        endings[end] += 1
        first.setdefault(end, refused)
    print_endings("calls", requests, endings, first, PASSING)
    return set(endings) <= PASSING


def main():
    words = argparse.ArgumentParser()
    words.add_argument("names", nargs="*", metavar="SCRIPT", help=", ".join([*SCRIPTS, "calls"]))
    words.add_argument("--program", default=str(PROGRAM))
    words.add_argument("--caller", default=str(CALLER))
    given = words.parse_args()
    with tempfile.TemporaryDirectory() as folder:
        library = made_refuser(folder)
        for file, content in FILES.items():
            pathlib.Path(folder, file).write_bytes(content)
        passes = [
            tried_calls(os.path.abspath(given.caller), library, folder)
            if name == "calls"
            else tried(name, os.path.abspath(given.program), library, folder)
            for name in given.names or [*SCRIPTS, "calls"]
        ]
    sys.exit(0 if all(passes) else 1)


if __name__ == "__main__":
    main()
