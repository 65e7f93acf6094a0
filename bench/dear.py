#!/usr/bin/env python3
"""What a crate's check takes its time for: by module, and by goals that `search` alone doesn't prove.

    bench/dear.py modules CRATE [N]           the N dearest modules of what was checked last in crates/CRATE/out/incremental, and
                                              seconds by kind of module (40 where N isn't given)
    bench/dear.py goals CRATE FUNCTION ..     for each function (its path below the crate) the goals without an answer that `search`
                                              alone doesn't prove, so that the prover went on with `grind`

A module's seconds are the distance between its file's time and that of the file before, so a check of one job has to have made
them, from nothing and in one go (delete out/ first), and what runs beside it makes them longer. Kinds: `Lts` is a function's code with each
way out of it; `Proof` the proofs of its goals, those of `Answers` apart; the lemma files go by their names.

`goals` writes each goal without an answer as `search rules` into the function's Answers.antt, checks the function, and puts the
file back as it was.
"""
import collections
import pathlib
import re
import subprocess
import sys
import tempfile

TOP = pathlib.Path(__file__).resolve().parent.parent
NAMED = re.compile(r"^pub (\S+)\s*:", re.M)
REFUSED = re.compile(r"error: `([^`]+)`: `?search")
# Two files that lie further apart were made by two checks, in seconds.
APART = 120


def modules(crate, most):
    """Prints the seconds of a crate's modules, dearest first."""
    files = sorted((it.stat().st_mtime, it.stat().st_size, it.name) for it in (TOP / "crates" / crate / "out/incremental").rglob("*.oantt"))
    took, kinds = [], collections.Counter()
    for (before, _, _), (at, size, name) in zip(files, files[1:]):
        module = re.sub(r"(\.decls)?\.oantt$", "", name)
        if at - before < APART:
            took.append((at - before, size, module))
            kinds[module.rpartition(".")[2]] += at - before
    print(", ".join(f"{kind} {seconds:.1f}" for kind, seconds in kinds.most_common(12)))
    for seconds, size, module in sorted(took, reverse=True)[:most]:
        print(f"{seconds:8.2f} s {size:10} bytes  {module}")


def offered(crate, function, folder):
    """A function's goals with a hole each, as the kit writes them, one text for what comes before them and one for each."""
    rt = ["rt", "check", "--start", function, "--generated", folder]
    subprocess.run(rt, cwd=TOP / "crates" / crate, stdout=subprocess.DEVNULL, stderr=subprocess.DEVNULL)
    text = pathlib.Path(folder, f"Rattle-{crate}-proofs", function.replace("::", "/"), "AnswersOffered.antt").read_text()
    return re.split(r"\n(?=-- src)", text)


def goals(crate, function):
    """The goals of a function that `search` alone doesn't prove, and how many it was asked for."""
    with tempfile.TemporaryDirectory() as folder:
        head, *each = offered(crate, function, folder)
    file = TOP / "crates" / crate / "proofs" / function.replace("::", "/") / "Answers.antt"
    kept = file.read_text() if file.exists() else None
    answered = set(NAMED.findall(kept or ""))
    asked = [it.replace(" = ?", " = search rules") for it in each if not answered & set(NAMED.findall(it))]
    try:
        file.parent.mkdir(parents=True, exist_ok=True)
        has_rules = kept and re.search(r"^use .*\brules\b", kept, re.M)
        file.write_text("\n".join([*([] if has_rules or not kept else ["use Rattle.std.proofs.Common.{rules}"]), kept or head, *asked]))
        said = subprocess.run(["rt", "check", "--only", function], cwd=TOP / "crates" / crate, stdout=subprocess.PIPE, stderr=subprocess.STDOUT, text=True)
    finally:
        if kept is None:
            file.unlink(missing_ok=True)
        else:
            file.write_text(kept)
    return REFUSED.findall(said.stdout), len(asked)


def main():
    match sys.argv[1:]:
        case ["modules", crate, *most]:
            modules(crate, int(most[0]) if most else 40)
        case ["goals", crate, *functions] if functions:
            for function in functions:
                left, asked = goals(crate, function)
                print(f"{function}: {len(left)} of {asked}", *left, sep="\n    ", flush=True)
        case _:
            sys.exit(__doc__)


if __name__ == "__main__":
    main()
