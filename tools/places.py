#!/usr/bin/env python3
"""Lists the places in crates/*/src that docs/DESIGN-PASS.md counts, by its points.

usage: python3 tools/places.py [--lines] [POINT..]

Prints for each point what is looked for and how often it is found; with --lines each place too. A place found is a
candidate: the page says which of them were changed and which stay, and why.
"""
import glob
import re
import sys
from collections import defaultdict

# What is looked for in single lines.
LINES = {
    1: [
        ("enums", r"^\s*(pub(\(\w+\))? )?enum \w+"),
        ("a case turned into a number by hand", r"^\s*\w+::\w+ => (0x)?[0-9a-f]+,$"),
        ("a number turned into a case by hand", r"^\s*\(?(0x[0-9a-f]+|\d+|\"\d+\")(, \d+\))? => (Ok|Some)\(\w+::\w+\)"),
        ("a flag beside a value, or answered for one", r"-> \(\w+, bool\)|-> \(bool, \w+\)|^\s*(pub(\(\w+\))? )?fn (is|has|wrong|hold)\w*\(.*-> bool"),
        ("Option or Result taken apart by hand", r"^\s*(None|Err\(_\w*\)|Ok\(\(\)\)) => |^\s*\} else \{ return"),
    ],
    3: [
        ("loops over numbers", r"\bfor \w+ in [^{]*\.\."),
        ("loops over items", r"\bfor [^{]* in (?![^{]*\.\.)"),
        ("while and loop", r"^\s*(while|loop)\b"),
        ("a count kept by hand", r"\+= 1;|wrapping_add\(1\)|saturating_add\(1\)"),
    ],
    4: [
        ("types without the common derives", r"^#\[derive\((Clone, Copy|Drop|Clone, Copy, PartialEq, Eq)\)\]"),
        ("conversions by name", r"\bfn (new|at|of|from_\w+|\w+_of|number|offset|same_\w+|is_end|\w+_name|hex\w*|nibble|\w+_kind)\("),
        ("text by cases", r"=> \"[^\"]*\",$"),
        ("impls of Display", r"impl.* (fmt::)?Display for"),
        ("impls of From, TryFrom", r"impl.* (Try)?From<"),
    ],
    6: [
        ("arrays and lengths kept beside", r"\[\w+; \w+\]|: usize,$"),
        ("one field or parameter of several that make one value", r"^\s*(pub(\(\w+\))? )?\w+_(inner|outer)\b.*:"),
    ],
    7: [
        ("a match on a command, or a function kept as a value", r"match (command|sort|parts\.next\(\)|words\.next\(\)|asked)\b|\bdyn\b|\bfn\([A-Z]|impl Fn"),
    ],
}

KEYWORDS = set("as break const continue else enum fn for if impl in let loop match mod mut pub ref return self Self struct trait type use where while ensures requires ghost".split())


def files():
    return sorted(f for f in glob.glob("crates/*/src/*.rt") if not f.endswith("/tests.rt"))


def functions(path):
    """Each function of a file: line, name, head (with its clauses), body."""
    text = open(path, encoding="utf-8").read().split("#[cfg(test)]\nmod tests {")[0]
    for m in re.finditer(r"^[ ]*(?:pub(?:\(\w+\))? )?(?:final )?(?:extern \"C\" )?fn (\w+)", text, re.M):
        open_at = re.compile(r"^[ ]*\{\}?$|\) (?:-> [^\n{;]*)?\{$", re.M).search(text, m.end())
        if not open_at:
            continue
        head = text[m.start() : open_at.end() - 1]
        if ";\n" in head:
            continue
        depth, i = 0, open_at.end() - 1
        if text[i] == "}":
            i -= 1
        start = i
        while i < len(text):
            depth += {"{": 1, "}": -1}.get(text[i], 0)
            i += 1
            if depth == 0:
                break
        yield text.count("\n", 0, m.start()) + 1, m.group(1), head, text[start:i]


def shape(text):
    tokens = re.findall(r"\"[^\"]*\"|\w+|[^\s\w]", re.sub(r"//.*", "", text))
    return tuple(t if t in KEYWORDS or not re.match(r"\w|\"", t) else "_" for t in tokens)


def twins():
    """Functions whose bodies differ only in names, types and constants."""
    groups = defaultdict(list)
    for path in files():
        for line, name, head, body in functions(path):
            form = shape(body)
            if len(form) >= 12:
                groups[form].append(f"{path}:{line} {name}")
    return [" ~ ".join(g) for g in groups.values() if len(g) > 1]


def repeated_clauses():
    """Facts that stand in the clauses of three functions or more."""
    found = defaultdict(set)
    for path in files():
        for line, name, head, body in functions(path):
            for clause in re.findall(r"requires (?:\w+ )?\{ (.*) \}", head):
                for fact in re.split(r" × (?![^(]*\))", clause):
                    found[fact.strip("()")].add(f"{path}:{line} {name}")
    return [f"{fact}: {', '.join(sorted(at))}" for fact, at in sorted(found.items()) if len(at) > 2]


def travelling():
    """Parameters that stand side by side in three functions or more of one crate."""
    found = defaultdict(set)
    for path in files():
        for line, name, head, body in functions(path):
            args = re.findall(r"(\w+): &?(?:mut )?[\w<>\[\]'; ]+", head.split("requires")[0].split("ensures")[0])
            for a, b in zip(args, args[1:]):
                found[(path.split("/")[1], a, b)].add(f"{path}:{line} {name}")
    return [f"{crate}: {a}, {b}: {len(at)} functions" for (crate, a, b), at in sorted(found.items()) if len(at) > 2]


def main():
    args = sys.argv[1:]
    lines = "--lines" in args
    points = {int(a) for a in args if a.isdigit()} or set(range(1, 9))
    found = {2: [("functions alike but for names, types and constants", twins())]}
    found[5] = [("facts in three requires or more", repeated_clauses()), ("parameters side by side in three functions or more", travelling())]
    for point, kinds in LINES.items():
        found[point] = []
        for kind, pattern in kinds:
            at = []
            for path in files():
                text = open(path, encoding="utf-8").read().split("#[cfg(test)]\nmod tests {")[0]
                at += [f"{path}:{n} {l.strip()}" for n, l in enumerate(text.split("\n"), 1) if re.search(pattern, l) and not l.lstrip().startswith("//")]
            found[point].append((kind, at))
    proofs = glob.glob("crates/*/proofs/**/*.antt", recursive=True)
    answers = [p for p in proofs if p.endswith("Answers.antt")]
    count = lambda ps: sum(len(open(p, encoding="utf-8").read().split("\n")) - 1 for p in ps)
    lemmas = sum(len(re.findall(r"^ *(?:pub )?[\w-]+ : ", open(p, encoding="utf-8").read(), re.M)) for p in proofs if p not in answers and not p.endswith("Invariants.antt"))
    found[8] = [(f"proofs: {len(proofs)} files of {count(proofs)} lines; answers: {len(answers)} files of {count(answers)} lines; lemmas of our own: {lemmas}", [])]
    for point in sorted(points):
        for kind, at in found[point]:
            print(f"{point}. {kind}" + (f": {len(at)}" if point != 8 else ""))
            if lines:
                for place in at:
                    print("     " + place)


main()
