#!/usr/bin/env python3
"""Parts of the gate: `rt ci`'s own steps on the crates that are named, where what passed is kept by its text.

    bench/parts.py [--lanes N] [--jobs N] [--kept FOLDER] NAME[:KIND,..] ..

A KIND is proof, tests, run or edits; where none is named, all that the crate has. Proofs of libraries below the crates come
first, each where it isn't kept. So a library is proved once for all clones that use the same FOLDER (/tmp/segbolu-parts), and a
change costs what stands on it. Checks read the statements of the libraries below, as the gate's do.

Of a run of all parts of all crates, nothing but the gate says that it is green: `rt ci` keeps nothing.
"""
import argparse
import fcntl
import functools
import hashlib
import importlib.machinery
import importlib.util
import os
import pathlib
import shutil
import subprocess
import sys
import threading
import time

TOP = pathlib.Path(__file__).resolve().parent.parent
KINDS = ("proof", "tests", "run", "edits")


def kit():
    """The kit's `rt`, as a module."""
    path = os.path.realpath(shutil.which("rt"))
    loader = importlib.machinery.SourceFileLoader("rt_of_the_kit", path)
    made = importlib.util.module_from_spec(importlib.util.spec_from_loader(loader.name, loader))
    sys.modules[loader.name] = made
    loader.exec_module(made)
    return made


def with_memory(kit_crate):
    """Has each sum of a text, and each list of libraries below a crate, made once."""
    for name in ("stamp", "below"):
        setattr(kit_crate, name, functools.lru_cache(maxsize=None)(getattr(kit_crate, name)))


class Parts:
    """The crates of this clone, and what is kept of them."""

    def __init__(self, kept):
        self.kit, self.kept = kit(), pathlib.Path(kept)
        self.kept.mkdir(parents=True, exist_ok=True)
        rtlib, crate = self.kit.rtlib, self.kit.Crate
        with_memory(rtlib.Crate)
        rtlib.Crate, rtlib.stop = crate, self.kit.stop
        crate.cuts_libraries = True
        rtlib.guarded()
        crate.allowed = self.kit.handles_of(str(TOP))
        self.crates = {it.name: it for it in rtlib.crates_below(str(TOP))}
        for it in self.crates.values():
            self.kit.read_files(it)

    def kinds(self, crate):
        """What the gate does with a crate."""
        has = {"proof": True, "tests": crate.has_tests(), "run": crate.is_program, "edits": self.kit.edits_of(crate)[0]}
        return [it for it in KINDS if has[it]]

    def mark(self, crate, kind):
        """The file that says that a part passed, by all that it is made from."""
        sum = hashlib.sha256(crate.stamp().encode())
        files = list(self.kit.edits_of(crate)[0]) if kind == "edits" else []
        if kind == "run":
            given = pathlib.Path(crate.folder)
            files = [given / it for it in ("stdin", "stdout", "args", "status")] + sorted((given / "data").rglob("*"))
        for file in map(pathlib.Path, files):
            sum.update(repr((file.name, file.read_bytes() if file.is_file() else b"")).encode())
        return self.kept / f"{crate.name}.{kind}.{sum.hexdigest()[:24]}"

    def fetch(self, crate):
        """Whether a library is kept; then it lies where a check looks for it."""
        kept, at = self.kept / crate.stamp(), pathlib.Path(crate.folder, "out/rlib")
        if not kept.is_dir():
            return False
        if not (at / "stamp").is_file() or (at / "stamp").read_text() != crate.stamp():
            shutil.rmtree(at, ignore_errors=True)
            at.parent.mkdir(exist_ok=True)
            subprocess.run(["cp", "-al", kept, at], check=True)
        return True

    def keep(self, crate):
        """Keeps a library that was proved."""
        at, part = pathlib.Path(crate.folder, "out/rlib"), self.kept / f"{crate.stamp()}.part"
        (at / "stamp").write_text(crate.stamp())
        shutil.rmtree(part, ignore_errors=True)
        subprocess.run(["cp", "-al", at, part], check=True)
        part.rename(self.kept / crate.stamp())

    def prove(self, crate, flags):
        """Proves a crate from nothing, and compiles a program."""
        rtlib = self.kit.rtlib
        rtlib.stop_on_links(crate.folder)
        rtlib.stop_on_unread(crate.folder, list(self.crates.values()))
        rtlib.stop_on_text(crate, "verdict")
        self.kit.stop_on_words(crate)
        if rtlib.fmt(crate.folder, "--check", crate.out) or crate.ci(flags, False):
            return False
        if crate.makes_rlib():
            self.keep(crate)
        return True

    def runs(self, crate):
        """Whether each compiler's program writes what is wanted."""
        made = f"{crate.folder}/out/{crate.name}"
        ends = [it for it in self.kit.BACKENDS.values() if os.path.isfile(made + it)]
        return bool(ends) and all(self.kit.run(crate, False, it) for it in ends)

    def refuses(self, crate):
        """Whether the prover refuses each edit, which it tells."""
        good, bad = self.kit.edits_of(crate)
        tried = self.kit.must_fail_all(crate, good, ["--jobs", "1"])
        print("\n".join(text for _, text in tried), flush=True)
        return not bad and all(refused for refused, _ in tried)

    def do(self, crate, kind, jobs):
        """Whether a part passes; it is done where that isn't kept. One clone does it at a time."""
        mark = self.mark(crate, kind)
        with open(f"{mark}.lock", "w") as lock:
            fcntl.flock(lock, fcntl.LOCK_EX)
            if mark.exists() and (kind != "proof" or not crate.makes_rlib() or self.fetch(crate)):
                return True
            if not all(self.fetch(it) for it in crate.below()):
                return False
            began, flags = time.time(), ["--jobs", str(jobs)]
            with open(self.kept / f"{crate.name}.{kind}.log", "w") as crate.out:
                os.makedirs(f"{crate.folder}/out", exist_ok=True)
                try:
                    well = {
                        "proof": lambda: self.prove(crate, flags),
                        "tests": lambda: not crate.ci(flags, True) and self.kit.run(crate, True),
                        "run": lambda: self.runs(crate),
                        "edits": lambda: self.refuses(crate),
                    }[kind]()
                except SystemExit:
                    well = False
            if well:
                mark.write_text("passed\n")
            word = "passed" if well else f"FAILED, see {crate.out.name}"
            print(f"{crate.name} {kind}: {word}, {time.time() - began:.0f} s", flush=True)
            return well


def wanted(parts, words):
    """The parts that are asked for, and the proofs of the libraries below, lowest crates first."""
    found = {}
    for word in words:
        name, _, kinds = word.partition(":")
        crate = parts.crates.get(name) or sys.exit(f"there is no crate {name}")
        for below in crate.below():
            found[below.name, "proof"] = below
        for kind in kinds.split(",") if kinds else parts.kinds(crate):
            if kind not in parts.kinds(crate):
                sys.exit(f"{name} has no part {kind}")
            found[name, kind] = crate
    return sorted(found.items(), key=lambda it: (len(it[1].below()), KINDS.index(it[0][1])))


def go_through(parts, tasks, lanes, jobs):
    """Does tasks side by side, each once the proofs that it waits for have passed. The ones that failed or weren't done."""
    passed, running, failed, turn = set(), set(), set(), threading.Condition()
    keys = {key for key, _ in tasks}

    def waits(key, crate):
        proofs = {(it.name, "proof") for it in crate.below()} | ({(crate.name, "proof")} if key[1] != "proof" else set())
        return any(it in keys and it not in passed for it in proofs)

    def work(key, crate):
        well = parts.do(crate, key[1], jobs)
        with turn:
            running.discard(key)
            (passed if well else failed).add(key)
            turn.notify_all()

    left = dict(tasks)
    with turn:
        while left or running:
            for key, crate in list(left.items()):
                if len(running) < lanes and not waits(key, crate):
                    running.add(key)
                    del left[key]
                    threading.Thread(target=work, args=(key, crate)).start()
            if not running:
                break
            turn.wait()
    return sorted(failed | set(left))


def main():
    words = argparse.ArgumentParser(description=__doc__, formatter_class=argparse.RawDescriptionHelpFormatter)
    words.add_argument("--lanes", type=int, default=os.cpu_count())
    words.add_argument("--jobs", type=int, default=1)
    words.add_argument("--kept", default="/tmp/segbolu-parts")
    words.add_argument("parts", nargs="+", metavar="NAME[:KIND,..]")
    given = words.parse_args()
    os.chdir(TOP)
    parts = Parts(given.kept)
    lacking = go_through(parts, wanted(parts, given.parts), given.lanes, given.jobs)
    print("all passed" if not lacking else "not passed: " + ", ".join(f"{name} {kind}" for name, kind in lacking))
    return bool(lacking)


if __name__ == "__main__":
    sys.exit(main())
