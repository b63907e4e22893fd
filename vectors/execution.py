#!/usr/bin/env python3
"""What instructions compute: results, loads, next pairs of addresses, causes.

Written by hand from the rules of docs/INSTRUCTIONS.md, over Python's integers. It
shares no code with the core, so that it can serve as an outside check of the proved
code; words are read by words.py beside it.

    python3 vectors/execution.py          writes crates/execute_vectors/stdin and stdout
    python3 vectors/execution.py answer   reads commands (see README.md) from standard
                                          input, prints one line for each
"""

import os
import random
import sys

import words

SEED = 20260202
WORD = 2**32

# ---------------------------------------------------------------- the rules


def number(word):
    """The signed number that a word stands for."""
    return word - WORD if word >= 2**31 else word


def extended(bits, width):
    """The word of a field of this width, sign-extended."""
    return (bits - 2**width if bits >= 2 ** (width - 1) else bits) % WORD


def alu(name, a, b):
    """The result, and whether it overflows."""
    if name in ("and", "or", "xor"):
        pairs = [(a >> k & 1, b >> k & 1) for k in range(32)]
        rule = {"and": lambda x, y: x == 1 and y == 1,
                "or": lambda x, y: x == 1 or y == 1,
                "xor": lambda x, y: x != y}[name]
        return sum(2**k for k, (x, y) in enumerate(pairs) if rule(x, y)), False
    sign = 1 if name in ("add", "addu") else -1
    true = number(a) + sign * number(b)
    overflow = name in ("add", "sub") and not -(2**31) <= true < 2**31
    return true % WORD, overflow


def shift(name, a, by):
    """Shifted by the amount modulo 32, on the written-out bits."""
    bits = f"{a:032b}"
    n = by % 32
    if name == "sll":
        bits = (bits + "0" * n)[n:]
    elif name == "srl":
        bits = ("0" * n + bits)[:32]
    else:
        bits = (bits[0] * n + bits)[:32]
    return int(bits, 2)


def test(code, a, b):
    """1 if an asked relation holds: bit 0 greater, bit 1 equal, bit 2 less."""
    x, y = number(a), number(b)
    asked = [name for k, name in enumerate(("greater", "equal", "less")) if code >> k & 1]
    relation = "greater" if x > y else "equal" if x == y else "less"
    return int(relation in asked)


# name -> (bytes, whether the sign is copied)
LOADS = {"lb": (1, True), "lh": (2, True), "lw": (4, False), "lbu": (1, False), "lhu": (2, False)}
STORES = {"sb": 1, "sh": 2, "sw": 4}


def load(name, value):
    """What a load of this value leaves in its register."""
    width, copied = LOADS[name]
    loaded = value % 256**width
    return extended(loaded, 8 * width) if copied else loaded


def constant(fields):
    """s, or 0 of an instruction that has neither an immediate nor an offset."""
    if "imm" in fields:
        return extended(fields["imm"], 16)
    if "offset" in fields:
        return extended(fields["offset"], 26)
    return 0


def next_pair(name, s, pc, operand, saved):
    """The pair that an instruction leaves; pc is the second address of its own."""
    if name == "rfe":
        return saved
    target = None
    if name in ("j", "jal"):
        target = (pc + s) % WORD
    elif name in ("jr", "jalr"):
        target = operand
    elif name == "beqz" and operand == 0 or name == "bnez" and operand != 0:
        target = (pc + s) % WORD
    return (pc, (pc + 4) % WORD if target is None else target)


def counted(causes, status):
    """Causes 0 to 5 always count, the others where their bit of the status is 1."""
    kept = [k for k in range(32) if causes >> k & 1 and (k < 6 or status >> k & 1)]
    return kept, sum(2**k for k in kept)


# ------------------------------------------------------------- the answers


def answer(line):
    """The line printed for a command."""
    command, first, *rest = line.split()
    given = [int(part, 16) for part in rest]
    if command == "alu":
        result, overflow = alu(first, *given)
        return f"{result:08x} {'overflow' if overflow else 'fits'}"
    if command == "shift":
        return f"{shift(first, *given):08x}"
    if command == "test":
        return str(test(int(first), *given))
    if command == "high":
        return f"{int(first, 16) % 65536 * 65536:08x}"
    if command == "load":
        return f"{LOADS[first][0]} {load(first, *given):08x}"
    if command == "place":
        width = LOADS[first][0] if first in LOADS else STORES[first]
        address = sum(given) % WORD
        return f"{address:08x} {'aligned' if address % width == 0 else 'misaligned'}"
    if command == "extend":
        return f"{extended(given[0], {'imm': 16, 'offset': 26}[first]):08x}"
    if command == "next":
        name, fields = words.decode(int(first, 16))
        pc, operand, edpc, epc = given
        s = constant(fields)
        dpc, after = next_pair(name, s, pc, operand, (edpc, epc))
        return f"{s:08x} {(pc + 4) % WORD:08x} {dpc:08x} {after:08x}"
    if command == "cause":
        causes, status = given
        if int(first):
            causes = causes | 2 ** int(first)
        kept, count = counted(causes, status)
        return f"{causes:08x} {count:08x} {min(kept) if kept else 'none'}"
    raise ValueError(line)


# ------------------------------------------------------------- the vectors

EDGES = [0, 1, 2, 4, 0x7F, 0x80, 0xFF, 0x7FFF, 0x8000, 0xFFFF, 0x10000, 0x55555555, 0xAAAAAAAA,
         2**31 - 1, 2**31, 2**31 + 1, 2**32 - 4, 2**32 - 1]
ALU = ["add", "addu", "sub", "subu", "and", "or", "xor"]


def some_word(pick):
    """A word, often one at a boundary or with few bits."""
    return pick.choice([pick.choice(EDGES), pick.getrandbits(32), pick.getrandbits(32),
                        1 << pick.randrange(32), WORD - 1 - (1 << pick.randrange(32))])


def make_lines():
    pick = random.Random(SEED)
    lines = []

    for name in ALU:
        for a in EDGES:
            for b in pick.sample(EDGES, 6) + [a]:
                lines.append(f"alu {name} {a:x} {b:x}")
        for _ in range(40):
            lines.append(f"alu {name} {some_word(pick):x} {some_word(pick):x}")
    # Sums and differences right at the ends of the signed range.
    for name in ("add", "sub", "addu", "subu"):
        for _ in range(12):
            a = pick.getrandbits(32)
            for end in (2**31 - 1, 2**31):
                b = end - number(a) if name.startswith("add") else number(a) - end
                for near in (-1, 0, 1):
                    lines.append(f"alu {name} {a:x} {(b + near) % WORD:x}")

    for name in ("sll", "srl", "sra"):
        for by in list(range(34)) + [63, 64, 2**31, 2**32 - 1]:
            for a in (2**31, 1, 2**32 - 1, pick.getrandbits(32)):
                lines.append(f"shift {name} {a:x} {by:x}")

    for code in range(8):
        for a, b in ((0, 0), (0, 1), (1, 0), (2**32 - 1, 0), (0, 2**32 - 1), (2**31, 2**31 - 1),
                     (2**31 - 1, 2**31), (2**31, 2**31), (2**32 - 1, 2**31), (2**31, 2**32 - 1)):
            lines.append(f"test {code} {a:x} {b:x}")
        for _ in range(10):
            lines.append(f"test {code} {some_word(pick):x} {some_word(pick):x}")

    for value in EDGES + [pick.getrandbits(32) for _ in range(12)]:
        lines.append(f"high {value:x}")
        for name in LOADS:
            lines.append(f"load {name} {value:x}")

    for name in list(LOADS) + list(STORES):
        for base in range(4):
            for s in (0, 1, 2, 3, 2**32 - 4, 2**32 - 1, extended(pick.getrandbits(16), 16)):
                lines.append(f"place {name} {base:x} {s:x}")
        for _ in range(4):
            lines.append(f"place {name} {pick.getrandbits(32):x} {pick.getrandbits(32):x}")

    for field, width in (("imm", 16), ("offset", 26)):
        values = [0, 1, 2 ** (width - 1) - 1, 2 ** (width - 1), 2**width - 2, 2**width - 1]
        for value in values + [pick.getrandbits(width) for _ in range(20)]:
            lines.append(f"extend {field} {value:x}")

    # Every instruction, with operands that are 0 and not.
    for name in words.MNEMONICS:
        for turn in range(10):
            word = words.encode(name, words.legal_fields(name, pick))
            pc = pick.choice([4, 0x104, 2**32 - 4, 2**32 - 1, pick.getrandbits(32)])
            operand = 0 if turn % 2 else some_word(pick)
            saved = f"{pick.getrandbits(32):x} {pick.getrandbits(32):x}"
            lines.append(f"next {word:08x} {pc:x} {operand:x} {saved}")

    for cause in range(7):
        for bit in range(0, 32, 5):
            lines.append(f"cause {cause} {1 << bit:x} {1 << bit:x}")
            lines.append(f"cause {cause} {1 << bit:x} 0")
        for _ in range(10):
            lines.append(f"cause {cause} {some_word(pick):x} {some_word(pick):x}")
    for bit in range(32):
        for status in (0, 1 << bit, WORD - 1 - (1 << bit), WORD - 1):
            lines.append(f"cause 0 {1 << bit:x} {status:x}")
            lines.append(f"cause 0 {WORD - (1 << bit):x} {status:x}")
    lines.append("cause 0 0 ffffffff")
    return list(dict.fromkeys(lines))


def check():
    """A few answers worked out by hand."""
    for line, expected in (
            ("alu add 7fffffff 1", "80000000 overflow"),
            ("alu and 12345678 ffffffff", "12345678 fits"),
            ("next 0c000020 104 0 0 0", "00000020 00000108 00000104 00000124"),
            ("cause 6 0 40", "00000040 00000040 6"),
            ("cause 5 80 80", "000000a0 000000a0 5"),
            ("shift sra 80000000 4", "f8000000"),
            ("test 4 ffffffff 0", "1")):
        assert answer(line) == expected, (line, answer(line))


def main():
    if sys.argv[1:] == ["answer"]:
        for line in sys.stdin:
            print(answer(line))
        return
    if sys.argv[1:]:
        sys.exit("usage: execution.py [answer]")
    check()
    crate = os.path.join(os.path.dirname(os.path.abspath(__file__)), "../crates/execute_vectors")
    lines = make_lines()
    with open(os.path.join(crate, "stdin"), "w") as out:
        out.write("".join(line + "\n" for line in lines))
    with open(os.path.join(crate, "stdout"), "w") as out:
        out.write("".join(answer(line) + "\n" for line in lines))
    print(f"{len(lines)} commands", file=sys.stderr)


if __name__ == "__main__":
    main()
