#!/usr/bin/env python3
"""Gives a clone the libraries that `rt ci` kept on this machine, so that `rt check` there begins above them.

    bench/fetch.py [CLONE]    this repository, or another clone of it

For kits that keep what `rt ci` proved (13f does). Each library whose text, and that of all below it, was proved by any `rt ci NAME..`
lies in the clone's out/ afterwards, as the gate built it; one that the clone built itself over others is dropped where those changed.
It proves nothing and takes seconds. It prints which libraries came, which were there and which are missing: a check above a missing
one proves it by itself, which costs minutes.
"""
import functools
import os
import pathlib
import shutil
import sys

from parts import kit


class Clone:
    """A clone's crates, and what `rt ci` kept on this machine."""

    def __init__(self, top):
        self.kit = kit()
        rtlib = self.kit.rtlib
        rtlib.Crate.below = functools.lru_cache(maxsize=None)(rtlib.Crate.below)
        rtlib.Crate = self.kit.Crate
        self.kit.Crate.allowed = self.kit.handles_of(str(top))
        self.crates = sorted(rtlib.crates_below(str(top)), key=lambda it: len(it.below()))
        for it in self.crates:
            self.kit.read_files(it)
        self.kept = self.kit.Kept(self.crates)
        self.came, self.there, self.missing = [], [], []

    def take(self, crate):
        """Puts the kept library of a crate in its place. Whether it has one now."""
        place = pathlib.Path(crate.folder, "out/rlib")
        stamp, mark = place / "stamp", place / "kept_by_ci"
        below = {it.name for it in crate.below()}
        if below & set(self.missing):
            shutil.rmtree(place, ignore_errors=True)
            return False
        key = self.kept.key(crate)
        is_built = stamp.is_file() and stamp.read_text() == crate.stamp()
        if not os.path.isdir(self.kept.place(crate, False, key)):
            is_over_new = bool(below & set(self.came))
            if not is_built or is_over_new:
                shutil.rmtree(place, ignore_errors=True)
                return False
            self.there.append(crate.name)
        elif is_built and mark.is_file() and mark.read_text() == key:
            self.there.append(crate.name)
        else:
            shutil.rmtree(place, ignore_errors=True)
            if not self.kept.give(crate, False, key):
                return False
            stamp.write_text(crate.stamp())
            mark.write_text(key)
            self.came.append(crate.name)
        self.kept.is_built(crate)
        return True

    def take_all(self):
        for crate in self.crates:
            if not crate.is_program and not self.take(crate):
                self.missing.append(crate.name)
        for word in ("came", "there", "missing"):
            print(f"{word}:", *getattr(self, word))


def main():
    here = pathlib.Path(__file__).resolve().parent.parent
    top = pathlib.Path(sys.argv[1]).resolve() if len(sys.argv) > 1 else here
    os.chdir(top)
    Clone(top).take_all()


if __name__ == "__main__":
    main()
