#!/usr/bin/env python3
"""Respells the repository's own definitions, lemmas, fields and constructors in snake case.

usage: python3 tools/respell.py [TOP]          turns every clause, specification and proof below TOP (this repository) by tools/respell.tsv
       python3 tools/respell.py --list [TOP]   prints the rows of such a table for the names that are still spelled otherwise

The table has a row for each name: old, a tab, new. A word is turned where it stands whole; behind a dot only if it is a field or
follows a path of one of the repository's crates; and never where a file imports it from a module of goals or from another library.
In documents it turns code spans alone. Functions, strings, inputs and outputs keep their names. The crate `bytes`, whose name a
library of the kit has, becomes `octets`.
"""

import os
import re
import sys

HERE = os.path.dirname(os.path.realpath(__file__))
WORD = re.compile(r"[^\s(){}\[\].;,@\"«»`]+")
SIGNATURE = re.compile(r"^(\s*)((?:(?:pub|abbrev|unfoldable|private)\s+)*)([^\s:(){}]+)((?:\s+[^\s:(){}]+)*)\s:\s(.*)$")
IMPORT = re.compile(r"use\s+([^\s{]+)\.\{([^}]*)\}")
CAMEL = re.compile(r"(?<=[a-z0-9])(?=[A-Z])")
RUST_CLAUSE = re.compile(r"ghost\b|requires\b|ensures\b")


def files(top):
    for folder, dirs, names in os.walk(os.path.join(top, "crates")):
        dirs[:] = sorted(d for d in dirs if d not in ("out", ".git"))
        for name in sorted(names):
            if name.endswith((".rt", ".antt")):
                yield os.path.join(folder, name)


def crates(top):
    return set(os.listdir(os.path.join(top, "crates")))


def is_own(path, own):
    parts = path.split(".")
    return parts[0] == "Rattle" and len(parts) > 1 and parts[1] in own


def imports(text, own):
    """The words of a file that come from goals or from other libraries."""
    theirs = set()
    for m in IMPORT.finditer(text):
        goals = re.search(r"\.(Goals|Given)\b", m[1]) or ".declared." in m[1]
        if goals or not is_own(m[1], own):
            for item in m[2].split(","):
                theirs.add(item.strip().split(" as ")[-1].strip())
    return theirs


def declared(top):
    """Names with their kinds: 'name' or 'field'."""
    found, theirs, own = {}, set(), crates(top)
    for path in files(top):
        with open(path, encoding="utf-8") as f:
            text = f.read()
        theirs |= imports(text, own)
        if not path.endswith(".antt"):
            continue
        block = None
        for line in text.split("\n"):
            if re.match(r"^(pub\s+)?(record|data)\b", line):
                block = "field" if "record" in line.split(":")[0] else "name"
            elif line and not line.startswith(" "):
                block = None
            if line.startswith("use ") or line.lstrip().startswith("--"):
                continue
            m = SIGNATURE.match(line)
            if not m or re.match(r"(goal|need)\.", m[5]) or m[3] in ("let", "record", "data", "module"):
                continue
            found.setdefault(m[3], set()).add("field" if block == "field" else "name")
    return found, theirs


def snake(name):
    new = CAMEL.sub("_", name.replace("-", "_"))
    return new if new == name else new.lower() if name[0].islower() else new


def turn_line(line, table, fields, skip, own):
    def one(m):
        word, at = m[0], m.start()
        if word not in table or word in skip:
            return word
        if at and line[at - 1] == ".":
            head = re.search(r"([^\s(){}\[\];,@\"«»`]*)\.$", line[:at])
            path = head[1] if head else ""
            if is_own(path, own) and not re.search(r"\.(Goals|Given)$", path):
                return table[word]
            first = path.split(".")[0]
            last = path.split(".")[-1]
            if word in fields and not (path in ("c", "w", "goal", "l", "g", "l.fn", "l.initial") or (first in ("c", "w") and last in ("new", "auto", "last", "kept"))):
                return table[word]
            return word
        return table[word]

    return WORD.sub(one, line)


def turn(path, table, fields, own):
    with open(path, encoding="utf-8") as f:
        text = f.read()
    skip = imports(text, own)
    out = "\n".join(turn_line(line, table, fields, skip, own) for line in text.split("\n"))
    if out != text:
        with open(path, "w", encoding="utf-8") as f:
            f.write(out)
    return out != text


def turn_page(path, table):
    with open(path, encoding="utf-8") as f:
        text = f.read()
    out = re.sub(r"`[^`\n]+`", lambda s: WORD.sub(lambda m: table.get(m[0], m[0]), s[0]), text)
    if out != text:
        with open(path, "w", encoding="utf-8") as f:
            f.write(out)


def rename_crate(top, old, new):
    """Another name for a crate: its folder, its line and its place in others' lines, and the paths that begin with it."""
    if not os.path.isdir(os.path.join(top, "crates", old)):
        return
    os.rename(os.path.join(top, "crates", old), os.path.join(top, "crates", new))
    every = list(files(top)) + [os.path.join(top, "crates.txt")]
    for path in every:
        with open(path, encoding="utf-8") as f:
            text = f.read()
        if path.endswith("crates.txt"):
            out = re.sub(r"(?<![\w#])%s(?=:| |$)" % old, new, text, flags=re.M)
        else:
            out = re.sub(r"\bRattle\.%s\b" % old, "Rattle." + new, text)
            out = re.sub(r"(?<![\w.])%s::" % old, new + "::", out)
        if out != text:
            with open(path, "w", encoding="utf-8") as f:
                f.write(out)


def main(args):
    listing = "--list" in args
    args = [a for a in args if a != "--list"]
    top = args[0] if args else os.path.dirname(HERE)
    found, theirs = declared(top)
    if listing:
        for name in sorted(found):
            if name not in theirs and snake(name) != name and not name[0].isupper():
                print(name + "\t" + snake(name))
        return
    table = {}
    with open(os.path.join(HERE, "respell.tsv"), encoding="utf-8") as f:
        for line in f:
            old, new = line.rstrip("\n").split("\t")
            table[old] = new
    fields = {n for n in found if "field" in found[n]}
    own = crates(top)
    rename_crate(top, "bytes", "octets")
    own |= crates(top)
    n = sum(turn(path, table, fields, own) for path in files(top))
    pages = [os.path.join(top, "README.md")] + [os.path.join(top, "docs", p) for p in sorted(os.listdir(os.path.join(top, "docs")))]
    for page in pages:
        if page.endswith(".md"):
            turn_page(page, table)
    print("%d names, %d files turned" % (len(table), n))


if __name__ == "__main__":
    main(sys.argv[1:])
