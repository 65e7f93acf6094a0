#!/usr/bin/env python3
"""Writes docs/DEFINITIONS.md: each public definition of specs/ with the sentence that stands above it.

    docs/definitions.py           writes the file
    docs/definitions.py --check   says which definitions have no sentence of their own, and whether the file is
                                  what would be written; ends with 1 where anything is amiss
"""
import pathlib
import re
import sys

TOP = pathlib.Path(__file__).resolve().parent.parent
WRITTEN = TOP / "docs/DEFINITIONS.md"
DEFINITION = re.compile(rf"^( *)(?:abbrev |unfoldable )*pub (?!mod\b|use\b)(record |data )?(?:abbrev |unfoldable )*(\S+)\s*[:({{]")
HEAD = """# Definitions

Each public definition of the `specs/` of the crates whose names don't end in `_tests`, with the sentence that stands above it in
its file. Made by `docs/definitions.py` from the files themselves. A file's first line says what it is about.

## The headline, sentence by sentence

Of every run of `ide play` that ends with status 0, in `run_ide`'s clause `ends` (`IsTranscript`, which is `IsTranscriptOf` of
what was read for the loads, and so `RunFits` of what is printed). Where source, tree or sink tell no bytes, as the real ones, it
is said of bytes that they may have had.

| what is said | where it stands |
|---|---|
| however the steps of lanes and workers fall | the clauses of `run_ide` and of `play` hold for any `Threads`; they rest on the lock's rule (`IsKept` in `action_lock/specs/Rule.antt`), which holds between any two atomic steps |
| the one printed history | `transcript_of` prints `ended.history`; `RunFits.legal`: no entry is refused where it stands |
| each accepted write stands in it once | `RunFits`: it is `opening`, `middle` and `closing`; in its part a section's entries are its own list in `SectionFits`, piece by piece, and nothing else there has its seat (`LanesFit`: `made_by`; `seats`; `worked`) |
| each printed reply is the one that indexing from scratch gives | `IsDone.step`: the answer is that of `step_of`, which for a question is `reply` of the world that the prefix makes, and `reply` lists the shown texts (`shown_text`: of an open document the committed one, else the content) anew |
| after a prefix of that history | `IsDone.stands`: `start`, and what the command made behind it, begin the history |
| a prefix that holds all that its lane had seen | `IsDone.late` and the marks of `SectionFits`; a lane begins at the mark behind the prelude, the last section behind all others |
| a settle that goes through leaves nothing unready | the law `a_settle_readies_all` of `history_laws` on `settled`: where that isn't refused; where it is, a file stays unready and the history is full |
| `cancelled` only where the lane's pass saw pending writes | `IsGivenUp`: the record's count of sights rose by exactly as many as it was allowed attempts, or stands at its last value (`counted_by`); `Fits` and `run_beside`: only in a lane that has another lane or a worker beside it. That these counts are the pass's is `HasSighted` (of `soft_ask`), which alone makes a `Sighted` |
| what workers made | `RunFits.worked` (`WorkerFits`): of each worker, intakes without a line, no two of the same file and stamp, as many as it tells; `EndFits` |

## The headline, in reading order

From what a script is to what is printed. A file's first lines name what it takes from others; besides the files of this table
these are mostly texts and names (`ide_text`), documents (`document_buf`), the filter and unready marks (`dumb_mode`), lists of
declarations (`stub_tree`), the stages of a listing (`decl_parser`), tokens (`java_tokens`), the lines of property files
(`property_index`), the forms of a script's lines (`script_lang`), prefixes and rows of lists (`list_laws`), counts and entries of a
pass (`action_lock`), and the bytes, faults and asked files of source, tree and sink (`ide_io`). A name that comes from a crate's
`specs.declared` is declared in that crate's sources (`specs.declared.entry.Entry` of `write_history` in its `src/entry.rt`), and
isn't listed here.

| what | definitions | file |
|---|---|---|
| which bytes spell a script: its prelude, its lanes, its last section | `IsScript`, `Parts` | `script_lang/specs/Grammar.antt`, `Parts.antt` |
| the world: files by their ids, each with path, content, stamp, the stamp at which it was indexed last, and its document where it is open; the text that searches see of a file; which files are unready | `World`, `File`; `shown_text`; `is_unready` | `write_history/specs/World.antt` |
| which paths are lawful | `is_path` | `write_history/specs/Path.antt` |
| why a change is refused, and what it does to which file | `refusal_of`, `put_of` | `write_history/specs/Effect.antt` |
| the world that a history leads to, and that no entry is refused where it stands | `fold`, `IsLegal` | `write_history/specs/Fold.antt` |
| the words of a text, where a name stands in it, its declarations, and its property keys | `words_of`; `places_of`; `listing_of`; `keys_of` | `java_tokens/specs/Words.antt`; `Places.antt`; `decl_parser/specs/Listing.antt`; `property_index/specs/Keys.antt` |
| which declarations a question asks for; the types that come from a name, level by level | `is_class`, `has_super`, `is_method`; `inheritors_of` | `query_engine/specs/Fits.antt`; `Inheritors.antt` |
| the answer to a question in a world: it lists the shown texts anew | `reply` | `query_engine/specs/Reply.antt` |
| what a settle adds to a history | `settled` | `write_history/specs/Settle.antt` |
| the steps of a serial run: what changes, a settle and a question add behind a history, and their answers | `changes_step`, `settle_step`; `query_step` | `write_history/specs/Serial.antt`; `query_engine/specs/Reply.antt` |
| what one command adds behind a history and is answered, by these steps; one thread | `step_of`; `run_of` | `transcripts/specs/Serial.antt` |
| what a worker makes: intakes without a line, no two with the same changes | `IsIntakeBy`, `AreApart` | `index_workers/specs/Work.antt` |
| one record of a run beside others; a section; lanes; workers; the whole run | `IsDone`, `IsGivenUp`; `SectionFits`; `LanesFit`; `WorkerFits`; `RunFits` | `transcripts/specs/Fits.antt` |
| what was read for the loads | `AreLoadsOf` | `transcripts/specs/Loads.antt` |
| the bytes that print a history and records | `transcript_of`; `entry_line` | `transcripts/specs/Transcript.antt`; `write_history/specs/Print.antt` |
| a played script and its transcript, where this was read for its loads; the same with what a tree gives for them | `PlaysWith`, `IsTranscriptOf`; `Plays`, `IsTranscript` | `transcripts/specs/Play.antt` |
| what the words of the command line ask for | `request_of` | `command_line/specs/Request.antt` |
| that a script was read, and for which files the tree was asked; which bytes the sink took | `GivesScript`, `TellsOfScript`; `Writes`, `ScriptEnds` | `ide_script/specs/Reading.antt`; `Writing.antt` |
| how the program ends | `PlayEnds`, `RunEnds` | `ide_script/specs/Run.antt` |

What the proofs over threads speak of stands in sources besides: `src/rule.rt` and `src/plays.rt` of `action_lock`, and
`src/rule.rt` of `job_queue`, are statements (the rule that holds between any two atomic steps, and what each step tells the
pass that takes it), to be read with `specs/Rule.antt` and `specs/Steps.antt`. The peeks by which a waiting call looks before
it tries again are plain loads outside the table of steps; no clause rests on them.
"""


def crates():
    """The crates in the order of crates.txt, without those of tests."""
    for line in (TOP / "crates.txt").read_text().splitlines():
        name = line.split("#")[0].split(":")[0].split()
        if name and not name[0].endswith("_tests"):
            yield name[0]


def definitions(path):
    """Pairs of a name and its sentence, in order. A block of definitions that are recursive together may have one
    sentence above it, which is that of its first."""
    comment, record_indent = [], None
    for line in path.read_text().splitlines():
        bare = line.strip()
        indent = len(line) - len(line.lstrip())
        if bare.startswith("--"):
            comment.append(bare[2:].strip())
            continue
        if record_indent is not None and bare and indent <= record_indent:
            record_indent = None
        found = DEFINITION.match(line)
        if found and record_indent is None:
            yield found.group(3), " ".join(comment)
            if found.group(2):
                record_indent = indent
        if not re.match(r"^(unfoldable |abbrev )?mutual\b", bare):
            comment = []


def sections():
    """The text of each crate's part, and the definitions that lack a sentence."""
    text, lacking = [HEAD], []
    for crate in crates():
        specs = TOP / "crates" / crate / "specs"
        files = sorted(p for p in specs.rglob("*.antt") if p.name != "Lib.antt")
        if not files:
            continue
        text.append(f"\n## {crate}\n")
        for path in files:
            head = path.read_text().splitlines()[0].lstrip("- ").strip()
            text.append(f"\n`specs/{path.relative_to(specs)}`: {head}\n\n")
            for name, sentence in definitions(path):
                if not sentence:
                    lacking.append(f"crates/{crate}/specs/{path.relative_to(specs)}: {name} has no sentence")
                text.append(f"- `{name}`: {sentence}\n" if sentence else f"- `{name}`\n")
    return "".join(text), lacking


def main():
    text, amiss = sections()
    if "--check" not in sys.argv[1:]:
        WRITTEN.write_text(text)
        return
    if WRITTEN.read_text() != text:
        amiss.append("docs/DEFINITIONS.md isn't what docs/definitions.py would write")
    print("\n".join(amiss) or "each definition has its sentence")
    sys.exit(1 if amiss else 0)


if __name__ == "__main__":
    main()
