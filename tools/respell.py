#!/usr/bin/env python3
"""Brings this repository's own definitions, fields and lemmas to one spelling: words in snake case, facts and types in
camel case.

usage: tools/respell.py [--list]     at the top of the repository, once, right after port.py; --list only prints the names

What is declared in specs/ and proofs/ of a crate is renamed wherever it stands in that text and in the contracts of src/;
in a comment, names in capitals stay, which are those of the documents there. Names that the check makes (the goals that an
answer file answers) and names of src/ stay. A new name that some file
already uses for something else is an error, and nothing is written.
"""

import glob
import re
import sys

# What the rule alone would spell badly: the fields of a word, which would fall together with the registers that patterns
# bind; comparisons of integers; lemmas that would fall together with the definition that they speak of, or with the
# library's bit_and, bit_or and bit_xor; and a definition that would have the name of a function that answers something else.
SPELLED = {
    "OPCODE": "opcode_field",
    "FUNCTION": "function_field",
    "RS1": "rs1_field",
    "RS2": "rs2_field",
    "RD-I": "rd_i_field",
    "RD-R": "rd_r_field",
    "SA": "sa_field",
    "IMMEDIATE": "immediate_field",
    "OFFSET": "offset_field",
    "equalZ": "int_equal",
    "decides-ltZ": "decides_int_lt",
    "by-function": "by_function_lem",
    "by-opcode": "by_opcode_lem",
    "relations-code": "relations_code_lem",
    "with-special": "with_special_lem",
    "fits_word": "fits_word_lem",
    "bytesPut": "bytes_put_by",
    "wordsPut": "words_put_by",
    "listingText": "text_of_listing",
    "bit-and": "bit_of_and",
    "bit-or": "bit_of_or",
    "bit-xor": "bit_of_xor",
}

TOKEN = re.compile(r"[^\s(){},;.`\"|\[\]]+")
DECLARED = re.compile(r"^\s*(?:(?:abbrev|unfoldable|pub|ruleset)\s+)*([^\s(){},;.]+)\s+:(\s|$)")
COMMENT = re.compile(r"\s*(//|--)")
PATH = re.compile(r"\bRattle(\.[^\s(){},;.]+)+")
GROUP = re.compile(r"^\s*(?:pub\s+)?(?:data|record|ruleset)\s+([^\s(){},;.]+)")


def files():
    found = glob.glob("crates/*/specs/**/*.antt", recursive=True)
    found += glob.glob("crates/*/proofs/**/*.antt", recursive=True)
    return sorted(found)


def spelled(name):
    if name in SPELLED:
        return SPELLED[name]
    if not re.match(r"[a-z]", name):
        return name
    words = re.sub(r"([a-z0-9])([A-Z])", lambda m: m.group(1) + "_" + m.group(2).lower(), name)
    return words.replace("-", "_")


def declared():
    names = set()
    for path in files():
        answers = path.rsplit("/", 1)[1] in ("Answers.antt", "Invariants.antt")
        with open(path, encoding="utf-8") as text:
            for line in text:
                if line.lstrip().startswith("--") or (answers and "goal." in line):
                    continue
                for form in (DECLARED, GROUP):
                    match = form.match(line)
                    if match:
                        names.add(match.group(1))
    return {name: spelled(name) for name in names if spelled(name) != name}


def turned(text, renamed):
    def line_turned(line):
        comment = COMMENT.match(line)
        return TOKEN.sub(lambda m: m.group(0) if comment and m.group(0).isupper() else renamed.get(m.group(0), m.group(0)), line)

    return "\n".join(line_turned(line) for line in text.split("\n"))


def main():
    renamed = declared()
    paths = files() + sorted(glob.glob("crates/*/src/*.rt"))
    if "--list" in sys.argv:
        for name in sorted(renamed):
            print(name, renamed[name])
        return 0
    texts = {}
    clashes = []
    for path in paths:
        with open(path, encoding="utf-8") as text:
            texts[path] = text.read()
        # Functions and variables of src/ are not seen in a contract, nor the folders that a path goes through.
        if path.endswith(".rt"):
            continue
        tokens = set(TOKEN.findall(PATH.sub(" ", texts[path])))
        for name in sorted(tokens & set(renamed)):
            if renamed[name] in tokens and renamed[name] not in renamed:
                clashes.append(f"{path}: {name} would fall together with {renamed[name]}")
    new = sorted(renamed.values())
    clashes += [f"two names would become {name}" for name in sorted(set(new)) if new.count(name) > 1]
    if clashes:
        print("\n".join(clashes), file=sys.stderr)
        return 1
    for path, text in texts.items():
        out = turned(text, renamed)
        if out != text:
            with open(path, "w", encoding="utf-8") as to:
                to.write(out)
    print(f"{len(renamed)} names")
    return 0


if __name__ == "__main__":
    raise SystemExit(main())
