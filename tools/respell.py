#!/usr/bin/env python3
"""Spells this repository's own definitions, lemmas and fields in snake case, after port.py has run.

usage: python3 tools/respell.py      at the top of the repository, once

A name in lower camel case becomes snake case in specs/, proofs/, clauses, ghost imports and must-fail edits: rowAt is row_at.
A dash that joins two names stays. Where the new name would meet a lemma's in one file, that lemma takes the ending _lem.
Functions, types, fields and constants of src/ keep their names, and so do strings and comments' words that are no names.
"""

import glob
import re
import sys

NAME = r"[^\s(){}.;,@\"«»:]+"
HUMP = re.compile(r"(?<=[a-z0-9₀-₉])([A-Z])")
WORD = re.compile(NAME)
DECLARED = re.compile(
    r"(?m)^ *(?:(?:pub|abbrev|unfoldable|opaque|data|record|ruleset) +)*("
    + NAME
    + r")(?: \{[^{}\n]*\})*(?: \([^()\n]*\))* :(?=\s)"
)
# Names that are bound and not declared, in clauses of records and in lambdas.
BOUND = "workLength outLength tableNames handOf argumentsMet minimumsOf usedY usedX insertedKey inT didBy behindOf combinationsFormed modelAction".split()
# Lemmas that a definition's new name would meet: the crate, the module and the lemma.
MET = [
    ("reduce", "proofs/WinningLaws", "row_count"),
    ("text_moves", "specs/NameLaws", "no_line"),
    ("mdp", "specs/StepLaws", "held_with"),
    ("checking", "specs/DecisionLaws", "is_true"),
    ("round_trip", "specs/WrittenLaws", "constant_number"),
    ("reading", "specs/GoodLaws", "in_order"),
    ("run_lines", "proofs/ValueLaws", "value_read"),
    ("text_replays", "specs/DrawnLaws", "no_variant"),
    ("write", "proofs/ResultLaws", "row_words"),
    ("regression", "specs/FreeCallLaws", "free_own"),
    ("answers", "specs/DigitLaws", "is_digit"),
    ("text_spreads", "specs/LineLaws", "value_in"),
    ("combine", "specs/PairedLaws", "went_to"),
]


def snake(name):
    parts = name.split("-")
    return "-".join(
        HUMP.sub(lambda m: "_" + m[1].lower(), it) if it[:1].islower() else it
        for it in parts
    )


def tight(line):
    """Writes a projection of an edit as it is written now."""
    line = re.sub(r"(?<=[\w)'′]) \.(?=\w)", ".", line).replace("′", "'")
    return re.sub(r"(?<![\w'])\((\w+(?:\.\w+)+)\)", r"\1", line)


def read(path):
    with open(path, encoding="utf-8") as it:
        return it.read()


def write(path, text):
    with open(path, "w", encoding="utf-8") as it:
        it.write(text)


def name_lemmas():
    """Gives the lemmas of MET their ending, where they are declared and where they are imported."""
    for crate, module, lemma in MET:
        path = f"Rattle.{crate}.{module.replace('/', '.')}."
        imported = re.compile(
            rf"use {re.escape(path)}\{{[^}}]*(?<![^\s{{,]){lemma}(?![^\s}},])"
        )
        own = f"crates/{crate}/{module}.antt"
        for file in glob.glob("crates/*/*/**/*.antt", recursive=True):
            text = read(file)
            if file == own or imported.search(text):
                new = re.sub(
                    rf"(?<![^\s(){{}};,«]){lemma}(?![^\s(){{}};,.»])",
                    lemma + "_lem",
                    text,
                )
                if new != text:
                    write(file, new)


def main():
    name_lemmas()
    antt = glob.glob("crates/*/*/**/*.antt", recursive=True)
    sources = glob.glob("crates/*/src/*.rt")
    edits = glob.glob("crates/*/must-fail/*")
    names = {
        it
        for file in antt
        for it in DECLARED.findall(re.sub(r"--[^\n]*", " ", read(file)))
    }
    table = {
        it: snake(it) for it in names.union(BOUND) if snake(it) != it
    }
    taken = {}
    for old, new in table.items():
        if new in taken:
            print(f"left: {old} and {taken[new]} fall together as {new}")
        taken[new] = old
    for file in antt + sources:
        text = read(file)
        pieces = re.split(r'("(?:\\.|[^"\\\n])*")', text) if file.endswith(".rt") else [text]
        new = "".join(
            it if it.startswith('"') else WORD.sub(lambda m: table.get(m[0], m[0]), it)
            for it in pieces
        )
        if new != text:
            write(file, new)
    for file in edits:
        # port.py turns no edit: the spelling of projections and of the names that it turned itself.
        text = read(file)
        lines = [
            tight(WORD.sub(lambda m: snake(m[0]), it))
            if it.startswith(("old: ", "new: "))
            else it
            for it in text.split("\n")
        ]
        new = "\n".join(lines)
        if new != text:
            write(file, new)
    print(f"{len(table)} names are spelled anew")


if __name__ == "__main__":
    sys.exit(main())
