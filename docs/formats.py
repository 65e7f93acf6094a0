#!/usr/bin/env python3
"""The examples of docs/FORMATS.md as cases of crates/program_cases, which the gate plays.

docs/formats.py                 writes them behind the other cases, into stdin and stdout
docs/formats.py --check         whether they stand there as written, and whether each line, status and refusal has one
docs/formats.py --try PROGRAM   runs each with a built program, and compares

An example is a row of fenced blocks with nothing between them; the line above it is its title. `words`: the command line;
`fails`: the call that fails; `tree NAME`: a file of the current folder; `script`: the script; `bad`: scripts of one line each,
all of them bad; `answer`: what is written; `status N`: the exit status, with its line on standard error. Bytes that are no text
stand as `answer hex`, or as a `tree` whose first line begins with `bytes`: hex digits, with a remark behind `#`. In a script
`{N times TEXT}` stands for TEXT N times, with the number for each `@` and a line feed for each `|`; where it is all of a line,
for N such lines. An answer with the line `...` shows the first and the last line, and `answer N bytes` how long it is.
"""

import os
import re
import resource
import subprocess
import sys
from dataclasses import dataclass, field
from pathlib import Path

TOP = Path(__file__).resolve().parent.parent
FORMATS = TOP / "docs" / "FORMATS.md"
CASES = TOP / "crates" / "program_cases"
MARK = "== FORMATS: "
KINDS = ["words", "fails", "tree", "script", "bad", "answer", "status"]
TIMES = re.compile(r"\{(\d+) times (.*?)\}(?=$|\"$)")
# refusals that no record shows, records that come about by turns of threads alone
UNSHOWN = {"stale", "cancelled"}


@dataclass
class Example:
    """A command line, a script, a call that fails, and what comes of them."""

    title: str
    words: list[str] = field(default_factory=lambda: ["ide"])
    script: list[str] = field(default_factory=list)
    fails: tuple[str, int] | None = None
    trees: list[tuple[str, list[str]]] = field(default_factory=list)
    answer: list[str] = field(default_factory=list)
    hexed: bytes | None = None
    length: int | None = None
    status: int = 0
    error: list[str] = field(default_factory=list)

    def is_cut(self):
        return "..." in self.answer

    def written(self):
        """How many bytes are written."""
        if self.hexed is not None:
            return len(self.hexed)
        if self.is_cut():
            return self.length
        return len("".join(line + "\n" for line in self.answer).encode())

    def is_case(self):
        """Whether the program of cases can bring it about."""
        return self.fails is None or self.fails[0] != "memory"


def hex_bytes(lines):
    """The bytes that hex digits spell, line by line; a remark stands behind `#`."""
    return bytes.fromhex("".join(line.split("#")[0] for line in lines))


def blocks_of(text):
    """Each row of blocks: its title, and of each block kind, rest of the first line and lines."""
    rows, title, row, lines = [], "", [], text.split("\n")
    at = 0
    while at < len(lines):
        line = lines[at]
        if line.startswith("```"):
            end = lines.index("```", at + 1)
            kind, _, rest = line[3:].partition(" ")
            if kind in KINDS:
                row.append((kind, rest, lines[at + 1 : end]))
            at = end
        elif line:
            if row:
                rows.append((title, row))
            row, title = [], line.rstrip(":")
        at += 1
    return rows + [(title, row)] if row else rows


def examples():
    """The examples, in order."""
    found = []
    for title, row in blocks_of(FORMATS.read_text()):
        example = Example(title)
        for kind, rest, lines in row:
            if kind == "words":
                example.words = lines[0].split(" ")
            elif kind == "fails":
                call, number = lines[0].split(" ")
                example.fails = (call, int(number))
            elif kind == "tree":
                example.trees.append((rest, lines))
            elif kind == "script":
                example.script = lines
            elif kind == "answer" and rest == "hex":
                example.hexed = hex_bytes(lines)
            elif kind == "answer":
                example.answer = lines
                example.length = int(rest.split(" ")[0].replace(",", "")) if rest else None
            elif kind == "status":
                example.status, example.error = int(rest), lines
            elif kind == "bad":
                found += [Example(f"{title}: {line}", script=[line], status=2, error=["ide: bad script line 1"]) for line in lines]
        if not any(kind == "bad" for kind, _, _ in row):
            found.append(example)
    return found


def setting_lines(example):
    """The lines of the case that are no lines of the script."""
    lines = []
    if example.words != ["ide"]:
        lines.append("=words " + "|".join(example.words))
    if example.fails:
        lines.append(f"={example.fails[0]} {example.fails[1]}")
    if example.hexed is not None:
        lines.append("=hex")
    if example.is_cut():
        lines += ["=room 64000000", "=ends"]
    return lines


def case_lines(example):
    """The example as a case: its title, its settings, and its script."""
    lines = [MARK + example.title] + setting_lines(example)
    for line in example.script:
        match = TIMES.search(line)
        if not match:
            if re.search(r"[|^]|^=", line):
                sys.exit(f"formats: no line of a case: {line}")
            lines.append(line)
        elif match.span() == (0, len(line)):
            lines.append(f"=times {match[1]} {match[2]}|")
        else:
            lines += [f"=times 1 {line[: match.start()]}", f"=times {match[1]} {match[2]}", line[match.end() :]]
    return lines


def wanted_lines(example):
    """What the program of cases prints of the example."""
    shown = [line for line in example.answer if line != "..."] if example.hexed is None else [example.hexed.hex()]
    head = [MARK + example.title, f"status {example.status}, {example.written()} bytes"]
    return head + example.error + shown


def script_bytes(example):
    """The script as it is meant."""

    def repeated(match):
        return "".join(match[2].replace("@", str(n)).replace("|", "\n") + end for n in range(1, int(match[1]) + 1))

    out = []
    for line in example.script:
        match = TIMES.search(line)
        end = "\n" if match and match.span() == (0, len(line)) else ""
        out.append(TIMES.sub(repeated, line) + ("" if end else "\n"))
    return "".join(out).encode()


def others(path):
    """The cases of a file that aren't ours."""
    cases, keeps = [], True
    for line in path.read_text().split("\n")[:-1]:
        if line.startswith("=="):
            keeps = not line.startswith(MARK)
        if keeps:
            cases.append(line)
    return cases


def files(found):
    """What the two files are to hold."""
    found = [example for example in found if example.is_case()]
    cases = sum((case_lines(example) for example in found), others(CASES / "stdin"))
    wanted = sum((wanted_lines(example) for example in found), others(CASES / "stdout"))
    return {CASES / "stdin": "\n".join(cases) + "\n", CASES / "stdout": "\n".join(wanted) + "\n"}


def tree_bytes(lines):
    """The bytes of a file of the current folder."""
    if lines and lines[0].startswith("bytes "):
        return hex_bytes([lines[0][6:]] + lines[1:])
    return script_bytes(Example("", script=lines))


def missing(found):
    """What of FORMATS has no example, and which files of the folder aren't as told."""
    text = FORMATS.read_text()
    faults = []
    lines = {line.strip().split(" ")[0] for example in found for line in example.script}
    for word in re.findall(r"^\| `([a-z]+)[^|]*\|", section(text, "Script"), re.M):
        if word not in lines:
            faults.append(f"no example of the line {word}")
    faults += [f"no script has the row {row}" for row in table_rows(text) if not any(has_row(example, row) for example in found)]
    statuses = {example.status for example in found}
    for status in re.findall(r"^\| (\d) \|", section(text, "Command line and status"), re.M):
        if int(status) not in statuses:
            faults.append(f"no example of the status {status}")
    answers = "\n".join("\n".join(example.answer) for example in found)
    for reason in sorted(reasons(text) - UNSHOWN):
        if not re.search(rf" {reason}\b", answers):
            faults.append(f"no example of the refusal {reason}")
    for name, lines in (tree for example in found for tree in example.trees):
        path = CASES / "data" / name
        if not path.exists() or path.read_bytes() != tree_bytes(lines):
            faults.append(f"{path} isn't as told")
    return faults


def table_rows(text):
    """Of each row of the table of lines with an answer: the example and the lines of the answer."""
    rows = [line.split(" | ")[2:] for line in section(text, "Script").split("\n") if line.startswith("| `")]
    cells = [[re.findall(r"`([^`]+)`", cell) for cell in row] for row in rows]
    return [(row[0][0], row[1]) for row in cells if len(row) > 1 and row[1]]


def has_row(example, row):
    """Whether the example has the line, and its record and the further lines in the answer."""
    asked, answer = row
    places = [n for n, line in enumerate(example.script, 1) if line == asked]
    return any(answer[0].startswith(f"{n} ") for n in places) and all(line in example.answer for line in answer)


def section(text, title):
    """A section of the document."""
    return re.split(r"^## ", text, flags=re.M)[[part.split("\n")[0] for part in re.split(r"^## ", text, flags=re.M)].index(title)]


def reasons(text):
    """Each reason to refuse that the document names."""
    table = re.search(r"^\| change \| reasons \|\n(.*?)\n\n", text, re.M | re.S)[1]
    words = {word.split(" ")[0] for row in table.split("\n")[1:] for word in re.findall(r"`([^`]+)`", row.split("|")[2])}
    return words | {"not-text", "too-long", "not-ready", "cancelled"}


def streams(example):
    """Standard input, standard output and what is set before the program begins, for the call that fails."""
    call, limit = example.fails or (None, 0)
    source = os.open("/", os.O_RDONLY) if call == "read" else None
    sink = os.open("/dev/full", os.O_WRONLY) if call == "write" else subprocess.PIPE
    memory = limit * 1024

    def narrow():
        if call == "memory":
            resource.setrlimit(resource.RLIMIT_AS, (memory, memory))

    return source, sink, narrow


def run(program, example):
    """Status, what stands on standard error, and what is written."""
    source, sink, narrow = streams(example)
    given = {"stdin": source} if source is not None else {"input": script_bytes(example)}
    done = subprocess.run(
        [program] + example.words[1:], stdout=sink, stderr=subprocess.PIPE, preexec_fn=narrow, cwd=CASES / "data", **given
    )
    return done.returncode, done.stderr.decode().split("\n")[:-1], done.stdout or b""


def is_as_written(program, example):
    """Runs an example and compares; what differs is printed."""
    status, error, out = run(program, example)
    lines = [out.hex()] if example.hexed is not None else out.decode().split("\n")[:-1]
    if example.is_cut():
        lines = [lines[0], "...", lines[-1]]
    wanted = example.answer if example.hexed is None else [example.hexed.hex()]
    if (status, error, lines, len(out)) == (example.status, example.error, wanted, example.written()):
        return True
    print(f"{example.title}: status {status}, {len(out)} bytes", *error, *lines[:40], sep="\n")
    return False


def main(words):
    found = examples()
    if words[:1] == ["--try"]:
        program = str(Path(words[1]).resolve())
        right = [is_as_written(program, example) for example in found]
        print(f"{right.count(True)} of {len(right)} examples are as written")
        return 0 if all(right) else 1
    stale = [str(path) for path, text in files(found).items() if path.read_text() != text]
    faults = missing(found)
    if words == ["--check"]:
        faults += [f"{path} isn't as docs/formats.py writes it" for path in stale]
    else:
        for path, text in files(found).items():
            path.write_text(text)
    print(*faults, f"{len(found)} examples", sep="\n")
    return 1 if faults else 0


if __name__ == "__main__":
    sys.exit(main(sys.argv[1:]))
