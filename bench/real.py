#!/usr/bin/env python3
"""Times the built program `ide` on scripts of real Java sources.

    bench/real.py FOLDER              the program of this repository
    bench/real.py --load FOLDER       the same files by `load`, a half and all of them, with 100 questions of all forms;
                                      OLD NEW .. may follow here too
    bench/real.py --check FOLDER      four lanes that ask about these files, a half and all of them: `play`, and `check` of the
                                      transcript, which is as long as one may be, or as the folder allows
    bench/real.py --store FOLDER      stores of these files, of some 8,000,000 bytes and of 16,000,000: `index`, which writes one,
                                      and `play --store`, which reads it, beside `play` without it
    bench/real.py --keys FOLDER       the files of properties of a folder, a half and all of them, with 100 questions for keys
    bench/real.py --ask FOLDER        usages and inheritors of some names over all files of a folder, beside grep
    bench/real.py FOLDER OLD NEW ..   several built programs in one run, with their ratios to the first

FOLDER is any folder of Java sources. One that everybody can have is the base module of a JDK:

    apt-get update && apt-get install -y openjdk-17-source
    unzip -q /usr/lib/jvm/openjdk-17/lib/src.zip 'java.base/*' -d /tmp/jdk

Its files are parted into scripts of at most 16,700,000 bytes: a `create` line for each file, a `settle`, and `word` for
100 of the words. Each program takes each script three times, in turn; the least time counts, and the most memory
(the peak resident set). Run `./ide < examples/first.ide` once before, so that the program is built. Times on shared
machines say little by themselves: read the ratios. A settle makes index data on all processors: `taskset -c 0` before
the command gives it one.
"""
import collections
import os
import pathlib
import re
import shutil
import subprocess
import sys
import tempfile
import time

TOP = pathlib.Path(__file__).resolve().parent.parent
PROGRAM = TOP / "crates/ide/out/ide"
LIMIT = 16_700_000
ESCAPES = str.maketrans({'"': '\\"', "\\": "\\\\", "\n": "\\n", "\r": "\\r", "\t": "\\t"})


def create(folder, path):
    """The line that creates a file, or nothing where it is no text or too long."""
    try:
        text = path.read_bytes().decode()
    except UnicodeDecodeError:
        return b""
    name = re.sub(r'[\s":\\]', "_", str(path.relative_to(folder)))
    if len(text) > 1_048_576 or len(name) > 255:
        return b""
    return f'create {name} "{text.translate(ESCAPES)}"\n'.encode()


def words_of(text, count=100):
    """So many of the words of a script, taken from all over it."""
    found = sorted(set(re.findall(rb"[A-Za-z_][A-Za-z0-9_]{3,}", text)))
    return found[:: max(1, len(found) // count)][:count]


def scripts(folder):
    """The scripts that the sources make, each as large as it may be."""
    script = b""
    for path in sorted(folder.rglob("*.java")):
        line = create(folder, path)
        if len(script) + len(line) > LIMIT:
            yield finished(script)
            script = b""
        script += line
    if script:
        yield finished(script)


def finished(script):
    return script + b"settle\n" + b"".join(b"word " + word + b"\n" for word in words_of(script))


def make(folder, scratch):
    """Writes the scripts into a folder. In a process of its own: the memory of the one that starts a program counts
    as the program's own peak."""
    if os.fork() == 0:
        for number, script in enumerate(scripts(folder), 1):
            (scratch / f"{number:03}.ide").write_bytes(script)
        os._exit(0)
    if os.wait()[1] != 0:
        sys.exit("the scripts could not be made")
    return sorted(scratch.iterdir())


def used(command, script, folder=None, written=os.devnull):
    """Seconds, processor seconds and megabytes that a command takes on a script, in a folder; it writes to a file. The memory is
    what GNU time tells where it is installed: a process's peak begins with that of the one that starts it, and this one has 14 MB."""
    with open(script, "rb") as source, open(written, "wb") as sink, tempfile.NamedTemporaryFile("r") as peak:
        start = time.perf_counter()
        child = subprocess.Popen([*watched(peak.name), *command], stdin=source, stdout=sink, stderr=subprocess.PIPE, cwd=folder)
        _, status, usage = os.wait4(child.pid, 0)
        took = time.perf_counter() - start
        kilobytes = int(peak.read() or usage.ru_maxrss)
    if status != 0:
        sys.exit(f"{command} ended with {status}: {child.stderr.read().decode()}")
    return took, usage.ru_utime + usage.ru_stime, kilobytes / 1000


def watched(peak):
    """The words before a command by which GNU time writes its peak memory to a file; none where it isn't installed."""
    timer = shutil.which("time")
    return [timer, "--quiet", "--format=%M", f"--output={peak}"] if timer else []


def run(program, script, folder=None):
    """Seconds and megabytes that the program takes on a script, in a folder."""
    took, _, memory = used([program], script, folder)
    return took, memory


def compare(script, programs):
    """Times each program on a script, in turn, and prints a row for each."""
    size = script.stat().st_size / 1e6
    print(f"script {script.stem}: {size:.2f} MB")
    rows(script, programs, size)


def rows(script, programs, size, folder=None):
    """Times each program on a script, in turn, in a folder. A row for each, with its ratios to the first."""
    turns = [[run(program, script, folder) for program in programs] for _ in range(3)]
    first = None
    for at, program in enumerate(programs):
        seconds = min(turn[at][0] for turn in turns)
        memory = max(turn[at][1] for turn in turns)
        first = first or (seconds, memory)
        ratios = f"{seconds / first[0]:5.2f} {memory / first[1]:5.2f}"
        print(f"  {seconds:7.3f} s {memory:7.1f} MB {size / seconds:6.1f} MB/s  {ratios}  {program}")


def loads(folder, paths):
    """A script that loads files of a folder, and asks 100 questions of all forms."""
    names = [str(path.relative_to(folder)) for path in paths]
    types = [path.stem for path in paths]
    asks = []
    for at in range(0, len(types), max(1, len(types) // 20)):
        name = types[at] if re.fullmatch(r"\w+", types[at]) else "Object"
        asks += [f"class {name}", f"supers {name}", "method close", f"word {name}", f"outline {names[at]}"]
    return "".join(f"load {name}\n" for name in names) + "settle\n" + "\n".join(asks[:100] + ["status", ""])


def load(folder, programs):
    """Times loads of a half of the files of a folder, and of all of them."""
    paths = [p for p in sorted(folder.rglob("*.java")) if not re.search(r'[\s":\\]', str(p.relative_to(folder)))]
    for some in (paths[::2], paths):
        size = sum(path.stat().st_size for path in some) / 1e6
        print(f"{len(some)} files: {size:.2f} MB")
        with tempfile.NamedTemporaryFile("w", suffix=".ide") as script:
            script.write(loads(folder, some))
            script.flush()
            rows(script.name, programs, size, folder)


def lanes(names, share, count=4):
    """A script that loads files, asks for the outlines of a share of them in so many lanes, each file opened and closed
    around it, and settles at the end."""
    asked = names[: int(len(names) * share)]
    script = "".join(f"load {name}\n" for name in names)
    for at in range(count):
        script += "lane\n" + "".join(f"open {name}\noutline {name}\nclose {name}\n" for name in asked[at::count])
    return script + "finally\nsettle\nclass String\nusages Override\nstatus\n"


def play_and_check(folder, script, scratch, words=("--workers", "0"), times=3):
    """The least seconds of `play` and of `check` of its transcript, each with its processor seconds, and the transcript's size."""
    source, written = scratch / "script.ide", scratch / "transcript"
    source.write_text(script)
    play = min(used([PROGRAM, "play", *words], source, folder, written)[:2] for _ in range(times))
    check = min(used([PROGRAM, "check", str(written), *words], source, folder)[:2] for _ in range(times))
    return play, check, written.stat().st_size


def longest(folder, names, scratch, turns=10):
    """Of how many of the files, as a share, the outlines fit into a transcript that may be checked, of 16,777,216 bytes."""
    source, written = scratch / "script.ide", scratch / "transcript"
    low, share, high = 0, 1, 1
    for _ in range(turns):
        source.write_text(lanes(names, share))
        used([PROGRAM], source, folder, written)
        if written.stat().st_size > LIMIT:
            high = share
        elif share == 1:
            return 1
        else:
            low = share
        share = (low + high) / 2
    return low


def check(folder):
    """Times `play` and `check` of scripts of four lanes over a half of the files of a folder, and over all of them."""
    names = [str(p.relative_to(folder)) for p in sorted(folder.rglob("*.java"))]
    names = [name for name in names if not re.search(r'[\s":\\]', name)]
    with tempfile.TemporaryDirectory() as name:
        scratch = pathlib.Path(name)
        share = longest(folder, names, scratch)
        for some in (names[::2], names):
            played, checked, size = play_and_check(folder, lanes(some, share), scratch)
            print(
                f"  {len(some):6} files  transcript {size:10} bytes  play {played[0]:7.3f} s (processors {played[1]:7.3f} s)"
                f"  check {checked[0]:7.3f} s ({checked[1]:7.3f} s)  check / play {checked[0] / played[0]:5.2f}"
                f"  {checked[0] / size * 1e6:6.3f} us a byte"
            )


def store_of(folder, names, scratch):
    """Writes the store of files of a folder, and gives its size and the seconds of `index`."""
    source, written = scratch / "loads.ide", scratch / "store"
    source.write_text("".join(f"load {name}\n" for name in names) + "settle\nstatus\n")
    seconds = min(used([PROGRAM, "index"], source, folder, written)[:2] for _ in range(3))
    return written.stat().st_size, seconds


def store(folder):
    """Times stores of some 8 and some 16 million bytes of the files of a folder: written, read and not used at all."""
    names = [str(p.relative_to(folder)) for p in sorted(folder.rglob("*.java"))]
    names = [name for name in names if not re.search(r'[\s":\\]', name)]
    with tempfile.TemporaryDirectory() as name:
        scratch = pathlib.Path(name)
        for wanted in (8_000_000, 16_000_000):
            low, high = 0, len(names)
            while high - low > 1:
                middle = (low + high) // 2
                size, _ = store_of(folder, names[:middle], scratch)
                low, high = (middle, high) if size <= wanted else (low, middle)
            size, written = store_of(folder, names[:low], scratch)
            stored = min(used([PROGRAM, "play", "--store", str(scratch / "store")], scratch / "loads.ide", folder)[:2] for _ in range(3))
            plain = min(used([PROGRAM, "play"], scratch / "loads.ide", folder)[:2] for _ in range(3))
            print(
                f"  {low:6} files  store {size:10} bytes  index {written[0]:7.3f} s (processors {written[1]:7.3f} s)"
                f"  play --store {stored[0]:7.3f} s ({stored[1]:7.3f} s)  play {plain[0]:7.3f} s ({plain[1]:7.3f} s)"
            )


def keys_in(path):
    """The keys of a file of properties, roughly: names with letters and dots before an equals sign."""
    return re.findall(rb"(?m)^([A-Za-z][A-Za-z0-9.]*)[ \t]*=", path.read_bytes())


def keys(folder):
    """Times loads of the files of properties of a folder, a half and all of them, with 100 questions for their keys."""
    paths = [p for p in sorted(folder.rglob("*.properties")) if not re.search(r'[\s":\\]', str(p.relative_to(folder)))]
    for some in (paths[::2], paths):
        size = sum(path.stat().st_size for path in some) / 1e6
        asked = sorted({key.decode() for path in some for key in keys_in(path)})
        asked = asked[:: max(1, len(asked) // 100)][:100]
        print(f"{len(some)} files: {size:.2f} MB, {len(asked)} questions")
        with tempfile.NamedTemporaryFile("w", suffix=".ide") as script:
            script.write("".join(f"load {path.relative_to(folder)}\n" for path in some) + "settle\n")
            script.write("".join(f'key "{key}"\n' for key in asked))
            script.flush()
            rows(script.name, [PROGRAM], size, folder)


def used_once(paths):
    """The name of a method that stands once in all files."""
    seen = collections.Counter()
    for path in paths:
        seen.update(re.findall(rb"[A-Za-z_$][A-Za-z0-9_$]*", path.read_bytes()))
    named = (name for path in paths for name in re.findall(rb"void (\w{9,})\(", path.read_bytes()))
    return next(name.decode() for name in named if seen[name] == 1)


def asked(script, question, folder, times):
    """Processor seconds of a script with one question behind it, so often, and how many rows it finds."""
    with tempfile.NamedTemporaryFile("w", suffix=".ide") as source:
        source.write(script + f"{question}\n" * times)
        source.flush()
        seconds = min(used([PROGRAM], source.name, folder)[1] for _ in range(3))
        with open(source.name) as lines:
            out = subprocess.run([PROGRAM], stdin=lines, stdout=subprocess.PIPE, cwd=folder, check=True).stdout
    rows = re.findall(rb"^\d+ at \d+ rows (\d+)$", out, re.M)
    return seconds, int(rows[-1]) if rows else 0


def ask(folder):
    """Times usages and inheritors of some names over all files of a folder, beside grep for the word."""
    paths = [p for p in sorted(folder.rglob("*.java")) if not re.search(r'[\s":\\]', str(p.relative_to(folder)))]
    script = "".join(f"load {path.relative_to(folder)}\n" for path in paths) + "settle\n"
    alone, _ = asked(script, "", folder, 0)
    size = sum(path.stat().st_size for path in paths) / 1e6
    print(f"  {len(paths)} files, {size:.2f} MB, loaded and indexed in {alone:.3f} s of processors")
    questions = [("usages String", 20), ("usages Override", 20), (f"usages {used_once(paths)}", 200)]
    questions += [(f"inheritors {name}", 60) for name in ("Object", "Exception", "Comparable")]
    for question, times in questions:
        seconds, rows = asked(script, question, folder, times)
        command = ["grep", "-rlw", "--include=*.java", question.split()[1], str(folder)]
        grep = min(used(command, "/dev/null")[1] for _ in range(3))
        print(f"  {question:28} {(seconds - alone) / times * 1e3:8.2f} ms  {rows:7} rows   grep -rlw {grep * 1e3:8.2f} ms")


def main():
    if len(sys.argv) < 2:
        sys.exit(__doc__)
    if sys.argv[1] == "--ask":
        return ask(pathlib.Path(sys.argv[2]))
    for word, measure in (("--check", check), ("--store", store), ("--keys", keys)):
        if sys.argv[1] == word:
            return measure(pathlib.Path(sys.argv[2]))
    if sys.argv[1] == "--load":
        return load(pathlib.Path(sys.argv[2]), sys.argv[3:] or [PROGRAM])
    with tempfile.TemporaryDirectory() as scratch:
        for script in make(pathlib.Path(sys.argv[1]), pathlib.Path(scratch)):
            compare(script, sys.argv[2:] or [PROGRAM])


if __name__ == "__main__":
    main()
