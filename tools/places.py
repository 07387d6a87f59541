#!/usr/bin/env python3
"""Counts the places in crates/*/src where an older form may stand, by kind.

    python3 tools/places.py            counts, a line for each kind
    python3 tools/places.py -l         and each place, as file:line text
    python3 tools/places.py -l WORD    the places of the kinds whose name has WORD

It goes by the text alone: what it lists is to be looked at, and is not all of it wrong.
"""
import collections
import glob
import os
import re
import sys

TOP = os.path.dirname(os.path.dirname(os.path.abspath(__file__)))

# Functions: from the word fn to the body's brace, the contract cut into its clauses.
FN = re.compile(r"^[ \t]*(?:pub(?:\(crate\))? )?(?:const )?fn (\w+)", re.M)


def functions(text):
    """(line, name, public, parameters, result, clauses) of each function."""
    for m in FN.finditer(text):
        line = text.count("\n", 0, m.start()) + 1
        public = text[m.start():m.end()].lstrip().startswith("pub fn")
        depth, i = 0, text.index("(", m.end())
        start = i
        while True:
            depth += {"(": 1, ")": -1}.get(text[i], 0)
            i += 1
            if depth == 0:
                break
        params = text[start + 1:i - 1]
        j = min(x for x in (text.find("\n{", i), text.find("{\n", i), text.find(" {", i), text.find(";", i), len(text)) if x >= 0)
        result = re.match(r"\s*->\s*([^\n{;]+)", text[i:])
        result = result.group(1).strip() if result else ""
        clauses = []
        rest = text[i:]
        end = re.search(r"^[ \t]*\{$|^[ \t]*\}|;$|\{\n|\{\}", rest, re.M)
        contract = rest[:end.start()] if end else rest
        contract = rest[:2600] if end and "ensures" not in contract and "requires" not in contract else contract
        for c in re.finditer(r"^\s*(requires|ensures)( \w+)? \{ (.*) \}$", rest, re.M):
            if re.search(r"^[ \t]*\{\s*$", rest[:c.start()], re.M):
                break
            if FN.search(rest[:c.start()]):
                break
            clauses.append((c.group(1), c.group(3)))
        yield line, m.group(1), public, params, result, clauses


def split_params(params):
    out, depth, cur = [], 0, ""
    for ch in params:
        depth += {"(": 1, "<": 1, "[": 1, ")": -1, ">": -1, "]": -1}.get(ch, 0)
        if ch == "," and depth == 0:
            out.append(cur)
            cur = ""
        else:
            cur += ch
    out.append(cur)
    return [" ".join(p.split()) for p in out if p.strip()]


def conjuncts(clause):
    """The facts of a clause, cut at its outermost ×."""
    clause = clause.strip()
    parts, depth, cur = [], 0, ""
    for ch in clause:
        depth += {"(": 1, ")": -1}.get(ch, 0)
        if ch == "×" and depth == 0:
            parts.append(cur)
            cur = ""
        else:
            cur += ch
    parts.append(cur)
    out = []
    for p in parts:
        p = p.strip()
        while p.startswith("(") and p.endswith(")"):
            depth = 0
            for k, ch in enumerate(p):
                depth += {"(": 1, ")": -1}.get(ch, 0)
                if depth == 0 and k < len(p) - 1:
                    break
            else:
                p = p[1:-1].strip()
                continue
            break
        out.extend(conjuncts(p) if "×" in p and len(parts) > 1 or ("×" in p and p != clause) else [p])
    return out


KINDS = [
    ("1 a bool that says whether a buffer was written", None),
    ("1 a function of a theorem that answers 0", re.compile(r"^\{\n    0\n\}", re.M)),
    ("1 an error handed on by hand", re.compile(r"Err\(\w+\) => return Err\(|Err\(\w+\) => Err\(\w+(::\w+)?[ (]|if let Err\(\w+\) =.*\{\s*\n\s*return Err")),
    ("1 a number for a kind or an end", re.compile(r"^(?:pub )?const [A-Z_]+: u16 = 0x|kind: u16|^type End = \(u8|^\s+[12] => \w|\(1, 1\) =>|\(1, 2\) =>|\(2, 1\) =>|\(2, 2\) =>|== 0 \{ Axis|column: bool|Ok\(\(?_?\)?\)\)? => 0,|\bu8\); \d+\] = \[", re.M)),
    ("2 a function name that stands twice", None),
    ("3 a loop that counts", re.compile(r"^\s*for \w+ in [^{]*\.\.|^\s*while |^\s*loop ", re.M)),
    ("4 printing written by hand for an error", re.compile(r"^impl (?:fmt::Display|Error) for", re.M)),
    ("4 equality, copying or conversion by hand", re.compile(r"\bsame(?:_cell)?\(|from_[bl]e_bytes\(\[|hash_kind: h\.hash_kind|fn axis_b\w+|fn is_column|fn hex|fn unhex|fn digit|as u8,$|_kind != \w::kind_byte", re.M)),
    ("5 more than five parameters", None),
    ("5 a fact in three contracts or more of a crate", None),
    ("6 a table beside a length, or beside another", re.compile(r"let mut \w+ = \[0(?:u8|u16)?; [A-Z_0-9]+\];|&mut \w+\[0\.\.|: \[u32; CELLS\]|: \[bool; \w+\]", re.M)),
    ("7 a switch on what to run", re.compile(r"match (?:fault|kind|code|\(shape\.)", re.M)),
]


def main():
    show = "-l" in sys.argv
    word = next((a for a in sys.argv[1:] if a != "-l"), "")
    found = collections.OrderedDict((k, []) for k, _ in KINDS)
    names = collections.defaultdict(list)
    for path in sorted(glob.glob(os.path.join(TOP, "crates/*/src/*.rt"))):
        text = open(path).read()
        rel = os.path.relpath(path, TOP)
        for kind, pattern in KINDS:
            if pattern is None:
                continue
            for m in pattern.finditer(text):
                at = m.end() if text[m.start()] == "\n" else m.start()
                line = text.count("\n", 0, at) + 1
                found[kind].append(f"{rel}:{line} {text.splitlines()[line - 1].strip()[:90]}")
        for line, name, public, params, result, clauses in functions(text):
            place = f"{rel}:{line} {name}"
            names[name].append(place)
            ps = split_params(params)
            if len([p for p in ps if not p.endswith("self")]) > 5:
                found["5 more than five parameters"].append(f"{place} ({len(ps)})")
            if result == "bool" and any("&mut" in p for p in ps):
                found["1 a bool that says whether a buffer was written"].append(place)
    for name, places in names.items():
        if len(places) > 1:
            found["2 a function name that stands twice"].append(f"{name}: " + ", ".join(p.split()[0][7:] for p in places))
    for crate in sorted(glob.glob(os.path.join(TOP, "crates/*"))):
        facts = collections.defaultdict(set)
        for path in sorted(glob.glob(os.path.join(crate, "src/*.rt"))):
            for line, name, public, params, result, clauses in functions(open(path).read()):
                for word_, clause in clauses:
                    if word_ == "requires":
                        for fact in conjuncts(clause):
                            facts[fact].add(name)
        for fact, where in sorted(facts.items()):
            if len(where) > 2:
                found["5 a fact in three contracts or more of a crate"].append(f"{os.path.basename(crate)}: {fact} ({len(where)}: {', '.join(sorted(where))})")
    for kind, places in found.items():
        if word and word not in kind:
            continue
        print(f"{len(places):4}  {kind}")
        if show:
            for p in places:
                print("      " + p)


main()
