#!/usr/bin/env python3
"""Instruction words: a decoder, an encoder and the assembly notation.

Written by hand from the rules of docs/INSTRUCTIONS.md. It shares no code with
the core, so that it can serve as an outside check of the proved code.

    python3 vectors/words.py          writes crates/word_vectors/stdin and stdout
    python3 vectors/words.py answer   reads words (8 hex digits, one a line) from
                                      standard input, prints one line for each
"""

import os
import random
import re
import sys

SEED = 20260101

# ---------------------------------------------------------------- the table

# Fields: name -> (lowest bit, width).
I_FIELDS = {"rs1": (21, 5), "rd": (16, 5), "imm": (0, 16)}
R_FIELDS = {"rs1": (21, 5), "rs2": (16, 5), "rd": (11, 5), "sa": (6, 5)}
J_FIELDS = {"offset": (0, 26)}

SPECIALS = ["sr", "esr", "eca", "epc", "edpc", "edata"]

# A shape says which fields an instruction uses and how it is written.
# shape -> (fields of the form, used fields, notation)
SHAPES = {
    "load":    (I_FIELDS, ("rs1", "rd", "imm"), "{rd}, {simm}({rs1})"),
    "store":   (I_FIELDS, ("rs1", "rd", "imm"), "{simm}({rs1}), {rd}"),
    "imm":     (I_FIELDS, ("rs1", "rd", "imm"), "{rd}, {rs1}, {simm}"),
    "lhgi":    (I_FIELDS, ("rd", "imm"), "{rd}, {uimm}"),
    "branch":  (I_FIELDS, ("rs1", "imm"), "{rs1}, {simm}"),
    "jumpreg": (I_FIELDS, ("rs1",), "{rs1}"),
    "jump":    (J_FIELDS, ("offset",), "{soffset}"),
    "none":    (J_FIELDS, (), ""),
    "shiftsa": (R_FIELDS, ("rs1", "rd", "sa"), "{rd}, {rs1}, {sa}"),
    "reg":     (R_FIELDS, ("rs1", "rs2", "rd"), "{rd}, {rs1}, {rs2}"),
    "lhg":     (R_FIELDS, ("rs2", "rd"), "{rd}, {rs2}"),
    "movs2i":  (R_FIELDS, ("rd", "sa"), "{rd}, {special}"),
    "movi2s":  (R_FIELDS, ("rs1", "sa"), "{special}, {rs1}"),
}

# opcode -> (mnemonic, shape)
OPCODES = {
    0x02: ("j", "jump"),
    0x03: ("jal", "jump"),
    0x04: ("beqz", "branch"),
    0x05: ("bnez", "branch"),
    0x08: ("addi", "imm"),
    0x09: ("addiu", "imm"),
    0x0A: ("subi", "imm"),
    0x0B: ("subiu", "imm"),
    0x0C: ("andi", "imm"),
    0x0D: ("ori", "imm"),
    0x0E: ("xori", "imm"),
    0x0F: ("lhgi", "lhgi"),
    0x16: ("jr", "jumpreg"),
    0x17: ("jalr", "jumpreg"),
    0x18: ("clri", "imm"),
    0x19: ("sgri", "imm"),
    0x1A: ("seqi", "imm"),
    0x1B: ("sgei", "imm"),
    0x1C: ("slsi", "imm"),
    0x1D: ("snei", "imm"),
    0x1E: ("slei", "imm"),
    0x1F: ("seti", "imm"),
    0x20: ("lb", "load"),
    0x21: ("lh", "load"),
    0x23: ("lw", "load"),
    0x24: ("lbu", "load"),
    0x25: ("lhu", "load"),
    0x28: ("sb", "store"),
    0x29: ("sh", "store"),
    0x2B: ("sw", "store"),
    0x3E: ("trap", "jump"),
    0x3F: ("rfe", "none"),
}

# function code (opcode 0) -> (mnemonic, shape)
FUNCTIONS = {
    0x00: ("slli", "shiftsa"),
    0x02: ("srli", "shiftsa"),
    0x03: ("srai", "shiftsa"),
    0x04: ("sll", "reg"),
    0x06: ("srl", "reg"),
    0x07: ("sra", "reg"),
    0x10: ("movs2i", "movs2i"),
    0x11: ("movi2s", "movi2s"),
    0x20: ("add", "reg"),
    0x21: ("addu", "reg"),
    0x22: ("sub", "reg"),
    0x23: ("subu", "reg"),
    0x24: ("and", "reg"),
    0x25: ("or", "reg"),
    0x26: ("xor", "reg"),
    0x27: ("lhg", "lhg"),
    0x28: ("clr", "reg"),
    0x29: ("sgr", "reg"),
    0x2A: ("seq", "reg"),
    0x2B: ("sge", "reg"),
    0x2C: ("sls", "reg"),
    0x2D: ("sne", "reg"),
    0x2E: ("sle", "reg"),
    0x2F: ("set", "reg"),
}

# mnemonic -> (opcode, function or None, shape)
MNEMONICS = {}
for _code, (_name, _shape) in OPCODES.items():
    MNEMONICS[_name] = (_code, None, _shape)
for _code, (_name, _shape) in FUNCTIONS.items():
    assert _name not in MNEMONICS
    MNEMONICS[_name] = (0, _code, _shape)


# ------------------------------------------------- decode, encode, notation

class Refused15(Exception):
    """A field outside its width, or a special register above 5."""


def decode(word):
    """The instruction of a word as (mnemonic, used fields), or None: illegal."""
    opcode = word >> 26
    if opcode == 0:
        entry = FUNCTIONS.get(word & 0x3F)
    else:
        entry = OPCODES.get(opcode)
    if entry is None:
        return None
    name, shape = entry
    places, used, _ = SHAPES[shape]
    fields = {}
    for field in used:
        low, width = places[field]
        fields[field] = (word >> low) % (1 << width)
    if shape in ("movs2i", "movi2s") and fields["sa"] > 5:
        return None
    return name, fields


def encode(name, fields):
    """The word of an instruction; fields are the unsigned numbers in the word."""
    opcode, function, shape = MNEMONICS[name]
    places, used, _ = SHAPES[shape]
    assert set(fields) == set(used), (name, fields)
    word = opcode * 2**26
    if function is not None:
        word += function
    for field, value in fields.items():
        low, width = places[field]
        if not 0 <= value < 2**width:
            raise Refused15(f"{name}: {field} {value} needs more than {width} bits")
        if shape in ("movs2i", "movi2s") and field == "sa" and value > 5:
            raise Refused15(f"{name}: special register {value}")
        word += value * 2**low
    return word


def signed(value, width):
    """The number that a field of this width means, sign-extended."""
    return value - 2**width if value >= 2 ** (width - 1) else value


def text(name, fields):
    """The assembly notation of an instruction."""
    shown = {}
    for field, value in fields.items():
        if field in ("rs1", "rs2", "rd"):
            shown[field] = f"r{value}"
        elif field == "imm":
            shown["simm"] = str(signed(value, 16))
            shown["uimm"] = str(value)
        elif field == "offset":
            shown["soffset"] = str(signed(value, 26))
        elif field == "sa":
            shown["sa"] = str(value)
            if MNEMONICS[name][2] in ("movs2i", "movi2s"):
                shown["special"] = SPECIALS[value]
    operands = SHAPES[MNEMONICS[name][2]][2].format(**shown)
    return f"{name} {operands}" if operands else name


def assemble(line):
    """The word of a line in assembly notation (to check the notation)."""
    name, _, operands = line.partition(" ")
    _, _, shape = MNEMONICS[name]
    pattern = re.escape(SHAPES[shape][2])
    pattern = re.sub(r"\\{(\w+)\\}", r"(?P<\1>[a-z0-9-]+)", pattern)
    found = re.fullmatch(pattern, operands)
    assert found, line
    fields = {}
    for key, value in found.groupdict().items():
        if key in ("rs1", "rs2", "rd"):
            assert value[0] == "r"
            fields[key] = int(value[1:])
        elif key == "simm":
            assert -(2**15) <= int(value) < 2**15
            fields["imm"] = int(value) % 2**16
        elif key == "uimm":
            fields["imm"] = int(value)
        elif key == "soffset":
            assert -(2**25) <= int(value) < 2**25
            fields["offset"] = int(value) % 2**26
        elif key == "sa":
            fields["sa"] = int(value)
        elif key == "special":
            fields["sa"] = SPECIALS.index(value)
    return encode(name, fields)


def answer(word):
    """The line printed for a word."""
    instruction = decode(word)
    if instruction is None:
        return f"{word:08x} illegal"
    return f"{word:08x} {encode(*instruction):08x} {text(*instruction)}"


# ------------------------------------------------------------- the vectors

def field_values(field, pick):
    """A value for a field, often one at a boundary."""
    if field == "imm":
        return pick.choice([0, 1, 0x7FFF, 0x8000, 0xFFFF, pick.getrandbits(16)])
    if field == "offset":
        return pick.choice([0, 1, 2**25 - 1, 2**25, 2**26 - 1, pick.getrandbits(26)])
    return pick.choice([0, 1, 15, 16, 31, pick.getrandbits(5), pick.getrandbits(5)])


def legal_fields(name, pick):
    _, _, shape = MNEMONICS[name]
    fields = {f: field_values(f, pick) for f in SHAPES[shape][1]}
    if shape in ("movs2i", "movi2s"):
        fields["sa"] = pick.randrange(6)
    return fields


def unused_mask(name):
    """The bits of an instruction's word that it does not use."""
    _, function, shape = MNEMONICS[name]
    places, used, _ = SHAPES[shape]
    mask = 2**26 - 1
    if function is not None:
        mask -= 0x3F
    for field in used:
        low, width = places[field]
        mask -= (2**width - 1) << low
    return mask


def make_words():
    pick = random.Random(SEED)
    words = []

    # A few by hand.
    words += [0x8C010000, 0x00211020, 0xF8000000, 0x04000000, 0x3022FFFF,
              0x00000000, 0xFFFFFFFF, 0x00000001, 0x80000000, 0x7FFFFFFF]

    # Every opcode over boundary patterns of the 26 bits below it.
    low26 = [0, 1, 0x7FFF, 0x8000, 0xFFFF, 0x10000, 2**21, 31 << 21, 31 << 16,
             2**25 - 1, 2**25, 2**26 - 1, 0x155AAAA, 0x2AA5555]
    for opcode in range(64):
        for low in low26:
            words.append(opcode << 26 | low)
        for _ in range(2):
            words.append(opcode << 26 | pick.getrandbits(26))

    # Opcode 0: every function code over patterns of the 20 bits between.
    for function in range(64):
        for middle in (0, 2**20 - 1, 1, 31, 31 << 5, 31 << 10, 31 << 15, 0x11111):
            words.append(middle << 6 | function)
        for _ in range(2):
            words.append(pick.getrandbits(20) << 6 | function)

    # Both moves, every special register, unused fields 0, all ones, random.
    for function in (0x10, 0x11):
        for special in range(32):
            for upper in (0, 2**15 - 1, pick.getrandbits(15)):
                words.append(upper << 11 | special << 6 | function)

    # Every instruction at boundary fields, written plainly and with rubbish
    # in the bits that it does not use.
    for name in MNEMONICS:
        mask = unused_mask(name)
        for _ in range(6):
            words.append(encode(name, legal_fields(name, pick)))
        if mask:
            words.append(encode(name, legal_fields(name, pick)) | mask)
            for _ in range(6):
                words.append(encode(name, legal_fields(name, pick))
                             | pick.getrandbits(32) & mask)

    # Each boundary immediate and offset with every instruction that has one.
    for name, (_, _, shape) in MNEMONICS.items():
        used = SHAPES[shape][1]
        for field, values in (("imm", (0, 1, 0x7FFF, 0x8000, 0xFFFF)),
                              ("offset", (0, 1, 2**25 - 1, 2**25, 2**26 - 1))):
            if field in used:
                for value in values:
                    fields = legal_fields(name, pick)
                    fields[field] = value
                    words.append(encode(name, fields))

    # Legal words with random fields, half of them with random unused bits, and
    # a share of any words at all.
    for turn in range(1350):
        name = pick.choice(sorted(MNEMONICS))
        _, _, shape = MNEMONICS[name]
        places, used, _ = SHAPES[shape]
        fields = {f: pick.getrandbits(places[f][1]) for f in used}
        if shape in ("movs2i", "movi2s"):
            fields["sa"] = pick.randrange(6)
        rubbish = pick.getrandbits(32) & unused_mask(name) if turn % 2 else 0
        words.append(encode(name, fields) | rubbish)
    for _ in range(250):
        words.append(pick.getrandbits(32))

    kept, seen = [], set()
    for word in words:
        if word not in seen:
            seen.add(word)
            kept.append(word)
    return kept


def check(words):
    """Laws that the decoder, encoder and notation must keep on these words."""
    meant = {}
    for word in words:
        instruction = decode(word)
        if instruction is None:
            continue
        canon = encode(*instruction)
        assert decode(canon) == instruction, hex(word)
        assert word & ~unused_mask(instruction[0]) == canon, hex(word)
        line = text(*instruction)
        assert assemble(line) == canon, line
        assert meant.setdefault(line, canon) == canon, line
    for name in MNEMONICS:
        assert any(line.split(" ")[0] == name for line in meant), name
    assert text(*decode(0x00211020)) == "add r2, r1, r1"
    assert text(*decode(0x3022FFFF)) == "andi r2, r1, -1"
    assert decode(0x04000000) is None


def main():
    if sys.argv[1:] == ["answer"]:
        for line in sys.stdin:
            print(answer(int(line.strip(), 16)))
        return
    if sys.argv[1:]:
        sys.exit("usage: words.py [answer]")
    crate = os.path.join(os.path.dirname(os.path.abspath(__file__)), "../crates/word_vectors")
    words = make_words()
    check(words)
    with open(os.path.join(crate, "stdin"), "w") as out:
        out.write("".join(f"{word:08x}\n" for word in words))
    with open(os.path.join(crate, "stdout"), "w") as out:
        out.write("".join(answer(word) + "\n" for word in words))
    legal = sum(decode(word) is not None for word in words)
    print(f"{len(words)} words, {legal} legal, {len(words) - legal} illegal",
          file=sys.stderr)


if __name__ == "__main__":
    main()
