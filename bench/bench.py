#!/usr/bin/env python3
"""Times the built program `ide` on scripts that this file makes.

    bench/bench.py            all measures
    bench/bench.py creates    N files, a settle and some words, at N, 2N and 4N
    bench/bench.py edits      the cost of write, settle and class of one small file, and of insert, commit and class in
                              an open document of 1,000 characters, in workspaces of 1,000 and 15,000 files
    bench/bench.py texts      what a turn costs in one file of 500,000 and of 1,000,000 characters: an open and a close, a
                              commit and a save of what is committed, an edit with its commit, a move, a letter in and out
    bench/bench.py limits     a history, files and documents at their limits, at a half and at all of them
    bench/bench.py demo       `ide demo` with 5,000 and 10,000 files
    bench/bench.py one        one file of 1,000,000 characters, of ordinary code and of hostile texts
    bench/bench.py wide       one file, half and whole: a type of 200,000 supers, and 1,000,000 marks without a word
    bench/bench.py group      one group of 48 opens and 16 inserts of 1,000,000 characters each, half and whole
    bench/bench.py names      usages of a name used 100,000 times, and inheritors: 30,000 types in a chain, 30,000 of
                              one name, a cycle of 1,000, a name with 20,000 in as many files; each at half and whole
    bench/bench.py creates one --beside OLD
                              the same of another built program too, in turn, with the ratios of this one to it

Run `./ide < examples/first.ide` once before, so that the program is built. Times on shared machines say
little by themselves: read the ratios between the rows of one run.
"""
import itertools
import multiprocessing
import string
import sys
import tempfile

from real import PROGRAM, used

# Another built program, where one is named.
BESIDE = []

# A small process that starts the programs: the memory of the one that starts a program counts as the program's own peak.
STARTER = multiprocessing.get_context("fork").Pool(1)


def text(i, size):
    """A Java text of about `size` characters without a quote or a backslash."""
    head = f"class C{i} {{ int field{i}; "
    line = f"void method{i}(int a, int b) {{ return a + b * field{i}; }} "
    body = head + line * max(0, (size - len(head)) // len(line))
    return (body + "/" + "/" + "x" * max(0, size - len(body) - 3) + "}")[:size]


def measured(program, script, words=()):
    """Seconds, the least of three runs, and megabytes, the most of them, that a program takes on a script."""
    with tempfile.NamedTemporaryFile("w", suffix=".ide") as source:
        source.write(script)
        source.flush()
        turns = [STARTER.apply(used, ([program, *words], source.name)) for _ in range(3)]
    return min(turn[0] for turn in turns), max(turn[2] for turn in turns)


def processor(script):
    """Processor seconds that this repository's program takes on a script; the least of four runs."""
    with tempfile.NamedTemporaryFile("w", suffix=".ide") as source:
        source.write(script)
        source.flush()
        return min(STARTER.apply(used, ([PROGRAM], source.name))[1] for _ in range(4))


def run(script, words=()):
    """Seconds that this repository's program takes on a script, with these words; the least of three runs."""
    return measured(PROGRAM, script, words)[0]


def workspace(files, size):
    """Creates of so many files, and a settle."""
    lines = [f'create f{i}.java "{text(i, size)}"' for i in range(files)]
    return "\n".join(lines + ["settle", ""])


def row(name, script, seconds, rest=""):
    size = len(script.encode()) / 1e6
    print(f"  {name:22} {size:7.2f} MB  {seconds:7.3f} s  {size / seconds:6.1f} MB/s{rest}")


def rows(name, script):
    """A row for this program, beside the other one where one is named."""
    seconds, memory = measured(PROGRAM, script)
    rest = f"  {memory:6.1f} MB"
    for other in BESIDE:
        before, held = measured(other, script)
        rest += f"   beside {before:7.3f} s {held:6.1f} MB   time {seconds / before:5.2f} memory {memory / held:5.2f}"
    row(name, script, seconds, rest)


def creates(files=500, size=5000, words=100):
    print(f"files of {size} characters, a settle and {words} words")
    for n in (files, 2 * files, 4 * files):
        script = workspace(n, size) + "".join(f"word method{i}\n" for i in range(words))
        rows(f"{n} files", script)


def edits(turns=20000, size=500):
    print(f"files of {size} characters and a settle; then {turns} turns")
    write = "".join(f'write f7.java "class D{i} {{}}"\nsettle\nclass D{i}\n' for i in range(turns))
    head = f'create Doc.java "{text(0, 1000)}"\nopen Doc.java\n'
    insert = head + "".join(f'insert Doc.java 6 "{i % 10}"\ncommit Doc.java\nclass C0\nerase Doc.java 6 7\n' for i in range(turns))
    for what, turn in (("write, settle, class", write), ("insert, commit, class, erase", insert)):
        print(f"  {what}")
        for n in (1000, 15000):
            base = workspace(n, size)
            tell_turn(f"{n} files", base, turn, turns)


def tell_turn(name, base, turn, turns):
    """A row for the script `base`, with what each of so many turns behind it costs; beside another program, where one is named."""
    alone = run(base)
    cost = (run(base + turn) - alone) / turns * 1e6
    rest = f"  {cost:8.1f} us a turn"
    for other in BESIDE:
        before = (measured(other, base + turn)[0] - measured(other, base)[0]) / turns * 1e6
        rest += f"   beside {before:8.1f} us   {cost / before:5.2f}"
    row(name, base, alone, rest)


def texts(turns=200, size=1_000_000):
    print(f"one indexed file of a half of {size} characters and of all of them; then {turns} turns")
    opened = "open f0.java\n"
    changed = opened + "insert f0.java 0 \" \"\ncommit f0.java\nsave f0.java\n"
    measures = {
        "open, close": ("", "open f0.java\nclose f0.java\n"),
        "commit": (changed, "commit f0.java\n"),
        "save": (changed, "save f0.java\n"),
        "edit, commit": (opened, "insert f0.java 0 \" \"\ncommit f0.java\nerase f0.java 0 1\ncommit f0.java\n"),
        "move": ("", "move f0.java g.java\nmove g.java f0.java\n"),
        "insert, erase": (opened, "insert f0.java 9 \"x\"\nerase f0.java 9 10\n"),
    }
    for what, (head, turn) in measures.items():
        for n in (size // 2, size):
            tell_turn(f"{what} {n}", workspace(1, n) + head, turn * turns, turns)


def limits():
    print("limits: half of each and all of it, with one more refused")
    for n in (524288, 1048576):
        script = 'create A ""\n' + 'write A ""\n' * n
        rows(f"{n} writes", script)
    for n in (32768, 65536):
        script = "".join(f'create f{i} ""\n' for i in range(n)) + 'create z ""\n'
        rows(f"{n} files", script)
    for n in (512, 1024):
        script = "".join(f'create f{i} ""\nopen f{i}\n' for i in range(n)) + 'create z ""\nopen z\n'
        row(f"{n} documents", script, run(script))
    for n in (524288, 1048576):
        script = f'create A "{"x" * n}"\nopen A\ninsert A 0 "y"\nerase A 0 1\ninsert A 0 "y"\n'
        row(f"{n} characters", script, run(script))


def demo():
    print("ide demo, five edits a file")
    for n in (5000, 10000):
        words = ["demo", "--files", str(n), "--edits", str(5 * n)]
        taken = run("", words)
        rest = "".join(f"   beside {before:7.3f} s {taken / before:5.2f}" for before in (measured(it, "", words)[0] for it in BESIDE))
        print(f"  {n} files       {taken:7.3f} s{rest}")


def one(size=1_000_000):
    print(f"one file of {size} characters")
    texts = {
        "code": text(1, size),
        "/*/*/*": ("/*" * size)[:size],
        "slashes": "/" * size,
        "spaces": " " * size,
        "quotes": ('\\"' * size)[: 2 * size],
        "backslashes": ("\\\\" * size)[: 2 * size],
        "a b a b": ("a b " * size)[:size],
        "é": "é" * size,
    }
    for name, body in texts.items():
        script = f'create A.java "{body}"\nsettle\nword a\n'
        rows(name, script)


def short_names(n):
    """So many names of four letters, each another."""
    return map("".join, itertools.islice(itertools.product(string.ascii_letters, repeat=4), n))


def wide(supers=200_000, marks=1_000_000):
    print("one file, half and whole: the supers of one type, and marks without a word")
    for n in (supers // 2, supers):
        script = f'create A.java "class A implements {",".join(short_names(n))}{{}}"\nsettle\nsupers aaah\n'
        rows(f"{n} supers", script)
    for n in (marks // 2, marks):
        rows(f"{n} marks", f'create A.java "{";" * n}"\nsettle\nword a\n')


def group(opens=48, inserts=16, size=1_000_000):
    print(f"one group of opens, and of inserts of {size} characters each: half and whole")
    for part in (2, 1):
        names = [f"f{i}.java" for i in range(opens // part)]
        lines = [f'create {name} ""' for name in names] + ["group", *(f"open {name}" for name in names)]
        lines += [f'insert {name} 0 "{text(i, size)}"' for i, name in enumerate(names[: inserts // part])]
        rows(f"{len(names)} and {inserts // part}", "\n".join([*lines, "end", "status", ""]))


def types(heads):
    """A file of types, from the names of each and of its super."""
    body = "".join(f"class {name} extends {super_name}{{}}" for name, super_name in heads)
    return f'create A.java "{body}"\n'


def chain(n):
    return types((f"T{i + 1}", f"T{i}") for i in range(n))


def same(n):
    """Half of the types have one name and come from A, and the others come from that name."""
    return types([("B", "A")] * (n // 2) + [("C", "B")] * (n - n // 2))


def cycle(n):
    return types((f"T{(i + 1) % n}", f"T{i}") for i in range(n))


def files(n):
    return "".join(f'create f{i}.java "class T{i} extends A {{}}"\n' for i in range(n))


def uses(n):
    return f'create A.java "{"A " * n}"\n'


def uses_in_files(n, each=100):
    return "".join(f'create f{i}.java "{"A " * each}"\n' for i in range(n // each))


def names():
    """Times one question by asking it some times more."""
    print("processor milliseconds of a question about a name: half and whole, and the ratio of the two")
    measures = [
        ("inheritors: a chain", chain, 30_000, "inheritors T0", 20),
        ("inheritors: one name", same, 30_000, "inheritors A", 20),
        ("inheritors: a cycle", cycle, 1_000, "inheritors T0", 400),
        ("inheritors: files", files, 20_000, "inheritors A", 20),
        ("usages: one file", uses, 100_000, "usages A", 20),
        ("usages: files", uses_in_files, 100_000, "usages A", 20),
    ]
    for name, made, count, question, times in measures:
        taken = []
        for n in (count // 2, count):
            base = made(n) + "settle\n"
            taken.append((processor(base + f"{question}\n" * times) - processor(base)) / times * 1e3)
        print(f"  {name:22} {count:7} rows  {taken[0]:9.3f} ms  {taken[1]:9.3f} ms  {taken[1] / taken[0]:5.2f}")


def main():
    measures = {"creates": creates, "edits": edits, "texts": texts, "one": one, "wide": wide, "group": group, "names": names, "limits": limits, "demo": demo}
    words = sys.argv[1:]
    if "--beside" in words:
        words, BESIDE[:] = words[: words.index("--beside")], words[words.index("--beside") + 1 :]
    for name in words or measures:
        measures[name]()


if __name__ == "__main__":
    main()
