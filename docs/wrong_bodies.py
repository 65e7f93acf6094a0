#!/usr/bin/env python3
"""Wrong bodies that the proofs refuse, kept to be tried by hand when the function that they change is changed.

    docs/wrong_bodies.py                    writes docs/WRONG-BODIES.md, the table of all of them
    docs/wrong_bodies.py --check            says which can no longer be applied, and whether the table is up to date;
                                            ends with 1 where anything is amiss
    docs/wrong_bodies.py CRATE/NAME [..]    applies each in turn to the crate's sources, checks the crate, puts the
                                            sources back, and says whether the check refused it and by what

Each is a file docs/wrong-bodies/CRATE/NAME.edit in the form of a must-fail edit: a line 'file: PATH', then pairs of lines
'old: TEXT' and 'new: TEXT'. The ones that show what no other shows stand in crates/CRATE/must-fail, and `rt ci` tries
them. docs/wrong-bodies/refused.txt has a line 'CRATE/NAME: what was left unproved' for each that was tried since this
table stands; add to it what a try prints.
"""
import pathlib
import re
import subprocess
import sys

TOP = pathlib.Path(__file__).resolve().parent.parent
EDITS = TOP / "docs/wrong-bodies"
TABLE = TOP / "docs/WRONG-BODIES.md"
REFUSED = EDITS / "refused.txt"
HEAD = """# Wrong bodies

Bodies that a proof refuses, one a row: what each function would do wrong, and the clause or condition that refuses it.
Made by `docs/wrong_bodies.py` from `docs/wrong-bodies/` and `crates/*/must-fail/`. Those marked *gate* are tried by each
`rt ci`: they show what no other shows. The others were all refused when they were last tried; somebody who changes
such a function tries them again: `docs/wrong_bodies.py CRATE/NAME`. *Refused by* names the goal that the check left
unproved, as it prints it (`returns-..-clause-NAME` is the clause NAME where the function returns); it stands for those
that were tried since this table was begun. `ide_script/tree_is_probed_before_the_script` was refused by its proof's text alone.

"""
FUNCTION = re.compile(r"\bfn (\w+)")


class Edit:
    """One wrong body: its crate and name, and for each file the texts that it exchanges."""

    def __init__(self, path, in_gate):
        self.path, self.in_gate = path, in_gate
        self.crate = path.parent.parent.name if in_gate else path.parent.name
        self.name = path.stem
        self.pairs, file, old = [], None, None
        for line in path.read_text().splitlines():
            word, _, text = line.partition(": ")
            if word == "file":
                file = TOP / "crates" / self.crate / text.strip()
            elif word == "old":
                old = text
            elif line.startswith("new:"):
                self.pairs.append((file, old, line[len("new:") :].removeprefix(" ")))

    def applied(self):
        """The texts of the files that the edit changes, by path, or why it can't be applied."""
        texts = {}
        for file, old, new in self.pairs:
            if not file.is_file():
                return None, f"there is no {file.relative_to(TOP)}"
            text = texts.get(file) or file.read_text()
            if text.count(old) != 1:
                return None, f"'{old.strip()}' stands {text.count(old)} times in {file.relative_to(TOP)}"
            texts[file] = text.replace(old, new)
        return texts, None

    def function(self):
        """The function that the first exchange changes: the last one that begins before it."""
        file, old, _ = self.pairs[0]
        text = file.read_text() if file.is_file() else ""
        found = FUNCTION.findall(text[: text.find(old) + len(old)]) if old in text else []
        return f"`{file.stem}::{found[-1]}`" if found else f"`{file.stem}`"


def edits():
    """All wrong bodies, by crate and name."""
    kept = [Edit(path, True) for path in TOP.glob("crates/*/must-fail/*.edit")]
    return sorted(kept + [Edit(path, False) for path in EDITS.glob("*/*.edit")], key=lambda it: (it.crate, it.name))


def table():
    rows = [HEAD]
    refused = dict(line.split(": ", 1) for line in REFUSED.read_text().splitlines())
    crate = None
    for it in edits():
        if it.crate != crate:
            crate = it.crate
            rows.append(f"\n## {crate}\n\n| function | wrong body | refused by |\n|---|---|---|\n")
        words = it.name.replace("_", " ") + (" (*gate*)" if it.in_gate else "")
        rows.append(f"| {it.function()} | {words} | {refused.get(f'{it.crate}/{it.name}', '')} |\n")
    return "".join(rows)


def try_one(it):
    """Whether the check of the crate refuses the edit; prints its last lines."""
    texts, why = it.applied()
    if why:
        print(f"{it.crate}/{it.name}: can't be applied: {why}")
        return False
    before = {file: file.read_text() for file in texts}
    try:
        for file, text in texts.items():
            file.write_text(text)
        how = {"cwd": TOP / "crates" / it.crate, "capture_output": True, "text": True, "errors": "replace"}
        ran = subprocess.run(["rt", "check", "--jobs", "1"], **how)
    finally:
        for file, text in before.items():
            file.write_text(text)
    errors = [line for line in ran.stdout.splitlines() if any(word in line for word in (": error", ": not proved", "did not prove"))]
    refused = ran.returncode == 1 and "logic=not-proved" in ran.stdout
    print(f"{it.crate}/{it.name}: {'refused' if refused else 'NOT REFUSED' if not ran.returncode else 'not read'}")
    print("\n".join(f"    {line[:300]}" for line in errors[-6:]))
    return refused


def main():
    words = sys.argv[1:]
    if not words:
        TABLE.write_text(table())
    elif words == ["--check"]:
        amiss = [f"{it.crate}/{it.name}: {why}" for it in edits() for why in [it.applied()[1]] if why]
        if not TABLE.is_file() or TABLE.read_text() != table():
            amiss.append("docs/WRONG-BODIES.md isn't what docs/wrong_bodies.py would write")
        print("\n".join(amiss) or "each wrong body can be applied")
        sys.exit(1 if amiss else 0)
    else:
        by_name = {f"{it.crate}/{it.name}": it for it in edits()}
        unknown = [word for word in words if word not in by_name]
        if unknown:
            sys.exit(f"no wrong body is named {', '.join(unknown)}")
        sys.exit(0 if all([try_one(by_name[word]) for word in words]) else 1)


if __name__ == "__main__":
    main()
