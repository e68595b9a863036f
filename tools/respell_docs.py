#!/usr/bin/env python3
"""Spells the names of definitions and theorems in the documents as specs/ and proofs/ spell them now.

usage: python3 tools/respell_docs.py [--names | --comments] [COMMIT] [FILE..]      at the top of the repository

The map is what was declared at COMMIT (the landed one, where none is given) beside what is declared now: crate by crate, file by file, in
order. Names in `code` are turned, and names in camel case elsewhere; names of src/ stay. Without files: README.md, docs/*.md (but PORT.md,
and BELIEVED.md, which host/believed writes), docs/requests/*.md, examples/README.md, host/README.md. --comments does the same for the
comments of crates/ and for the tables of specs/Lib.antt. --names prints the map alone. What may mean two names is printed and left.
"""

import difflib
import glob
import os
import re
import subprocess
import sys

LANDED = "5101c5b2e55159410add5dd89ccd95e178e6fb5e"
NAME = r"[^\s(){}.;,@\"«»:`]+"
MARKS = "pub|abbrev|unfoldable|opaque"
DECLARED = re.compile(rf"^(?:(?:{MARKS}) +)*(?:(?:data|record) +)?({NAME})(?: \{{[^{{}}]*\}}| \([^()]*\))* *:(?=\s|$)")
# A constructor or a field may stand with others.
MEMBERS = re.compile(rf"^(?:pub +)?((?:{NAME} +)+):(?=\s|$)")
WORD = re.compile(NAME)
HUMP = re.compile(r"(?<=[a-z0-9₀-₉])([A-Z])")
PAGES = ["README.md", "docs/*.md", "docs/requests/*.md", "examples/README.md", "host/README.md"]
WRITTEN = ["docs/PORT.md", "docs/BELIEVED.md"]


def key(name):
    """What a name's spellings have in common."""
    name = re.sub("[◌_·-]+", "_", HUMP.sub(r"_\1", name)).replace("′", "'").lower()
    return re.sub("_lem$", "", name)


def declared(text):
    """The names that a file declares, in order: definitions, theorems, constructors and fields, and those of its where blocks."""
    found = []
    for line in text.split("\n"):
        line = re.sub(r"(^|\s)--(\s|-|$).*", "", line).strip()
        one = DECLARED.match(line) or MEMBERS.match(line)
        if one:
            found += [it for it in one[1].split() if it not in ("pub", "where", "module", "let", "in")]
    return found


def module(path):
    """A file's crate and its module, wherever it stands now."""
    parts = path.split("/")
    return parts[1], "/".join(parts[3:])


def git(*words):
    return subprocess.run(["git", *words], check=True, capture_output=True, text=True).stdout


def then(commit):
    names = git("ls-tree", "-r", "--name-only", commit, "--", "crates").split("\n")
    names = [it for it in names if re.match(r"crates/\w+/(specs|proofs)/.*\.antt$", it)]
    said = subprocess.run(
        ["git", "cat-file", "--batch"],
        input="".join(f"{commit}:{it}\n" for it in names).encode(),
        check=True,
        capture_output=True,
    ).stdout
    found, at = {}, 0
    for name in names:
        end = said.index(b"\n", at)
        size = int(said[at:end].split()[2])
        found[name] = said[end + 1 : end + 1 + size].decode()
        at = end + 2 + size
    return found


def now():
    files = glob.glob("crates/*/specs/**/*.antt", recursive=True) + glob.glob("crates/*/proofs/**/*.antt", recursive=True)
    found = {}
    for file in sorted(files):
        with open(file, encoding="utf-8") as it:
            found[file] = it.read()
    return found


def renamed(old, new):
    """Pairs of names of one file, in order."""
    before, after = declared(old), declared(new)
    same = difflib.SequenceMatcher(None, [key(it) for it in before], [key(it) for it in after], autojunk=False)
    for what, a, b, c, d in same.get_opcodes():
        if what == "equal" or (what == "replace" and b - a == d - c):
            yield from zip(before[a:b], after[c:d])


def names_now(commit):
    """Each name that was declared at the commit, with the crates that declare it and what they call it now."""
    before, after = then(commit), now()
    places = {}
    for path in after:
        places.setdefault(module(path), []).append(path)
    table = {}
    for path, text in before.items():
        new = path if path in after else next(iter(places.get(module(path), [])), None)
        if new is not None:
            for old, name in renamed(text, after[new]):
                table.setdefault(old, {}).setdefault(name, set()).add(path.split("/")[1])
    return table


def turned(line, table, crate, where):
    """A line with names spelled anew: each one inside `code`, and those in camel case outside."""

    def turn(found, spans):
        names = table.get(found[0], {})
        if not spans and not HUMP.search(found[0]) or [*names] == [found[0]]:
            return found[0]
        # One name only, or the one of the crate itself, or of a crate that the line speaks of.
        own = [it for it, crates in names.items() if crate in crates]
        spoken = [it for it, crates in names.items() if any(re.search(rf"\b{it}\b", line) for it in crates)]
        fit = [*names] if len(names) == 1 else own or spoken
        if len(fit) > 1 or names and not fit:
            print(f"{where}: {found[0]} may be {' or '.join(sorted(names))}")
        return fit[0] if len(fit) == 1 else found[0]

    parts = re.split(r"(`[^`]*`)", line)
    return "".join(WORD.sub(lambda found: turn(found, it.startswith("`")), it) for it in parts)


def listed(line, names):
    """A line of a first page's table: the names in front of ` == ` or `: `."""
    head = re.compile(r"(^--   |, |; )([^\s,;]+?)(?=(?:, [^\s,;]+)*(?: == |: ))")
    return head.sub(lambda found: found[1] + names.get(found[2], found[2]), line)


def comments(path, text, table):
    """A file of a crate with its comments' names spelled anew."""
    crate, lines = path.split("/")[1], text.split("\n")
    mark = "//" if path.endswith(".rt") else "--"
    names = {old: min(it for it, crates in new.items() if crate in crates) for old, new in table.items() if any(crate in it for it in new.values())}
    for number, line in enumerate(lines):
        if path.endswith("/specs/Lib.antt") and line.startswith("--   "):
            line = listed(line, names)
        before, found, said = line.partition(mark)
        if found and not before.strip():
            lines[number] = before + found + turned(said, table, crate, f"{path}:{number + 1}")
    return "\n".join(lines)


def main():
    words = sys.argv[1:]
    shows, crates = "--names" in words, "--comments" in words
    words = [it for it in words if not it.startswith("--")]
    commit = words.pop(0) if words and not os.path.exists(words[0]) else LANDED
    table = names_now(commit)
    if shows:
        for old, names in sorted(table.items()):
            for name, homes in sorted(names.items()):
                if old != name or len(names) > 1:
                    print(old, name, *sorted(homes))
        return 0
    files = words or [it for page in PAGES for it in sorted(glob.glob(page)) if it not in WRITTEN]
    if crates:
        files = sorted(it for kind in ("antt", "rt") for it in glob.glob(f"crates/*/*/**/*.{kind}", recursive=True) if it.split("/")[2] != "out")
    for file in files:
        with open(file, encoding="utf-8") as it:
            text = it.read()
        if crates:
            new = comments(file, text, table)
        else:
            lines = text.split("\n")
            new = "\n".join(turned(it, table, "", f"{file}:{number + 1}") for number, it in enumerate(lines))
        if new != text:
            print(f"{file}: spelled anew")
            with open(file, "w", encoding="utf-8") as it:
                it.write(new)
    return 0


if __name__ == "__main__":
    sys.exit(main())
