#!/usr/bin/env python3
"""Writes crates/meaning_entries/proofs/Vectors.antt, the rows of the table of cases that come from files.

tests/vectors/table/NN.in, .out             input and output of the search program
tests/vectors/audit/NNN.index, .series, .out   two texts and what their audit says
tests/vectors/extend/NNN.in, .out           an index text with a series line behind it, and the extended index's text
tests/vectors/computed.txt                  which audits and extensions are small enough to compute on; the table is, whole

usage: tests/make_cases.py [--check]    --check only says whether the file is what the vectors give
"""
import pathlib, sys

top = pathlib.Path(__file__).resolve().parent.parent
vectors = top / "tests" / "vectors"
target = top / "crates" / "meaning_entries" / "proofs" / "Vectors.antt"

HEAD = """\
-- Cases from files: made by tests/make_cases.py from tests/vectors, and not edited by hand.
use Rattle.meaning_numbers.proofs.Prelude.{Bool, List, [], ◌∷◌}
use Rattle.meaning_entries.proofs.Row.{prints, audits, extends}

unfoldable pub vectors : List Bool
vectors =
"""


def quoted(path):
    text = path.read_bytes().decode("latin-1")
    out = []
    for c in text:
        if c == "\n":
            out.append("\\n")
        elif c in '"\\':
            out.append("\\" + c)
        elif " " <= c <= "~":
            out.append(c)
        else:
            out.append("\\u{%x}" % ord(c))
    return '"' + "".join(out) + '"'


def rows():
    for path in sorted((vectors / "table").glob("*.in")):
        yield f"prints {quoted(path)} {quoted(path.with_suffix('.out'))}", path
    computed = [vectors / name for name in (vectors / "computed.txt").read_text().split()]
    for path in (p.with_suffix(".index") for p in computed if p.parent.name == "audit"):
        yield f"audits {quoted(path)} {quoted(path.with_suffix('.series'))} {quoted(path.with_suffix('.out'))}", path
    for path in (p.with_suffix(".in") for p in computed if p.parent.name == "extend"):
        yield f"extends {quoted(path)} {quoted(path.with_suffix('.out'))}", path


def main():
    text = HEAD
    for row, path in rows():
        text += f"    -- {path.parent.name}/{path.stem}\n    {row} ∷\n"
    text = text + "    []\n"
    if "--check" in sys.argv[1:]:
        sys.exit(0 if target.read_text() == text else "crates/meaning_entries/proofs/Vectors.antt is not what tests/vectors gives")
    target.write_text(text)


main()
