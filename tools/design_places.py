#!/usr/bin/env python3
"""Counts the places of the design pass in crates/*/src: design_places.py [--list] [TREE]. docs/DESIGN-PASS.md says what each count means."""
import glob
import re
import sys

LIST = "--list" in sys.argv
ARGS = [a for a in sys.argv[1:] if not a.startswith("--")]
TREE = ARGS[0] if ARGS else "."


def sources():
    for path in sorted(glob.glob(f"{TREE}/crates/*/src/**/*.rt", recursive=True)):
        crate = path[len(TREE) :].split("/")[2]
        text = open(path, encoding="utf-8").read()
        code = "\n".join(l for l in text.split("\n") if not re.match(r"\s*(//|ghost use|requires |ensures )", l))
        yield crate, path, code


def functions(code):
    starts = [m.start() for m in re.finditer(r'^(?:pub )?(?:extern "C" )?fn |^    (?:pub )?fn ', code, re.M)]
    for a, b in zip(starts, starts[1:] + [len(code)]):
        body = code[a:b]
        name = re.search(r"fn (\w+)", body).group(1)
        head = body[: body.find("{")]
        yield name, head, body


def enums(code):
    for m in re.finditer(r"enum (\w+) \{(.*?)\n\}", code, re.S):
        yield m.group(1), [v.strip().rstrip(",") for v in m.group(2).split("\n") if v.strip()]


def shape(variants):
    """option: a value or nothing; result: a value or a refusal (or what two or more plain variants say went wrong)"""
    values = [v for v in variants if "(" in v]
    plain = [v for v in variants if "(" not in v]
    refusals = [v for v in values if re.match(r"Refused\(Refusal", v)]
    others = [v for v in values if v not in refusals]
    if len(variants) == 2 and refusals:
        return "result"
    if len(values) == 1 and len(plain) == 1 and not refusals:
        return "option"
    return None


found = {}


def add(key, crate, what):
    found.setdefault(key, []).append(f"{crate} {what}")


LENT = [
    ("space, heads, links", ("space", "heads", "links")),
    ("plan, index, limit", ("plan", "index", "limit")),
    ("names, arities, listings, table", ("names", "arities", "listings", "table")),
    ("arities, listings, table", ("arities", "listings", "table")),
    ("n, constants, facts", ("n", "constants", "facts")),
    ("words, counts, n", ("words", "counts", "n")),
]
for crate, path, code in sources():
    for name, variants in enums(code):
        s = shape(variants)
        if s:
            add(f"1 enums of the shape of {s.capitalize()}", crate, name)
    for name, head, body in functions(code):
        for m in re.finditer(r"let (?:Some|Ok|\w+::\w+)\([^;{]*?\) = [^;{]*?else \{\s*return ([^;]*);", body, re.S):
            add("1 let-else that hands a refusal or nothing on", crate, name)
        if re.search(r"match \w+ \{\s*(Ok|\w+::(Done|Rows))\(\w+\) => (Ok|\w+::(Done|Rows))\(\w+\),\s*(Err|\w+::Refused)\(\w+\) => (Err|\w+::Refused)\(\w+\),\s*\}", body):
            add("1 match that hands a result on as another", crate, name)
        for m in re.finditer(r"while (.*) \{", body):
            cond = m.group(1)
            up = re.match(r"(\w+) < ", cond)
            down = re.match(r"(\w+) > |0 < (\w+)$", cond)
            x = (up and up.group(1)) or (down and (down.group(1) or down.group(2)))
            if x and re.search(r"\b%s (\+=|-=) 1;" % x, body):
                add("3 while loops that count an index", crate, f"{name} {x}")
            else:
                add("3 other while loops", crate, f"{name}: {cond}")
        loops = len(re.findall(r"for \w+ in ", body))
        for m in re.finditer(r"for (\w+) in ([^{]*)\.\.([^{]*) \{", body):
            add("3 for loops over a range", crate, f"{name} {m.group(1)}")
        if re.search(r"if \w+(\.\w+)? < \w+(\.\w+)? \{\s*return \w+(\.\w+)?;\s*\}\s*\w+(\.\w+)?\s*\}", body) and body.count("if ") == 1 and len(body) < 400:
            add("4 min or max by hand", crate, name)
        if re.search(r"-> bool", head) and re.search(r"!= \w+\.\w+ \{\s*return false", body) and re.search(r"\(\w+: (\w+), \w+: \1\)", head):
            add("4 equality by hand", crate, name)
        if re.search(r"-> bool", head) and len(re.findall(r"=> (?:true|false),", body)) >= 2:
            add("4 bool of a variant by a list of arms", crate, name)
        for m in re.finditer(r"(\w+) \{((?:\s*\w+: (\w+)\.\w+,){3,}[^}]*)\}", body):
            add("4 struct written out field by field from another", crate, f"{name} {m.group(1)}")
        if re.search(r"-> (u64|usize)", head) and re.search(r"\{\s*if [^{]* \{\s*return 1;\s*\}\s*0\s*\}|\{\s*if [^{]* \{\s*return 0;\s*\}\s*1\s*\}", body):
            add("4 number of a bool by hand", crate, name)
        params = re.findall(r"(\w+): ", head)
        for label, names in LENT:
            if all(n in params for n in names):
                add(f"5 functions with {label}", crate, name)
        if len(params) >= 8:
            add("5 functions of eight parameters or more", crate, name)
for key in sorted(found):
    print(f"{len(found[key]):4d}  {key}")
    if LIST:
        for f in found[key]:
            print(f"        {f}")
