#!/usr/bin/env python3
"""Compares two built programs `ide` by pairs: each runs once, in turn, and the ratios of the pairs are what counts.

    bench/pairs.py OLD NEW SCRIPT                    of a script, read from standard input
    bench/pairs.py --base BASE OLD NEW SCRIPT        of what SCRIPT takes above BASE, as turns behind a workspace
    bench/pairs.py .. SCRIPT -- play --workers 3     with these words, in the folder of the script
    bench/pairs.py --cpus 0 --pairs 15 ..            on these processors, so many pairs (9)

It prints the lower quartile, the median and the upper quartile of the ratios of NEW to OLD, of seconds, processor seconds and
peak memory, and the least that each took. On shared machines, whose speed changed twofold within a second, medians of eleven pairs
lay within a tenth of each other, and the least of each program's times did not.
"""
import argparse
import os
import pathlib
import statistics

from real import used


def taken(program, given):
    """What a program takes on the script, above what it takes on the base where one is named."""
    script = used([program, *given.words], given.script, given.script.parent)
    if not given.base:
        return script
    base = used([program, *given.words], given.base, given.base.parent)
    return tuple(most - least for most, least in zip(script, base))


def main():
    words = argparse.ArgumentParser(description=__doc__, formatter_class=argparse.RawDescriptionHelpFormatter)
    words.add_argument("--base", type=lambda path: pathlib.Path(path).resolve())
    words.add_argument("--cpus", type=lambda text: {int(word) for word in text.split(",")})
    words.add_argument("--pairs", type=int, default=9)
    words.add_argument("old", type=os.path.abspath)
    words.add_argument("new", type=os.path.abspath)
    words.add_argument("script", type=lambda path: pathlib.Path(path).resolve())
    words.add_argument("words", nargs="*")
    given = words.parse_args()
    if given.cpus:
        os.sched_setaffinity(0, given.cpus)
    pairs = [(taken(given.old, given), taken(given.new, given)) for _ in range(given.pairs)]
    for at, (name, unit) in enumerate({"time": "s", "processors": "s", "memory": "MB"}.items()):
        low, middle, high = statistics.quantiles((new[at] / old[at] for old, new in pairs), n=4)
        least = [min(pair[side][at] for pair in pairs) for side in (0, 1)]
        print(f"  {name:10} {low:6.3f} {middle:6.3f} {high:6.3f}   least {least[0]:9.4f} {unit} and {least[1]:9.4f} {unit}")


if __name__ == "__main__":
    main()
