#!/usr/bin/env python3
"""Memories: ROM, RAM, paged RAM and slow layers, and the commands that try them.

Written by hand from the rules of docs/MEMORIES.md. It shares no code with the
core, so that it can serve as an outside check of the proved code.

    python3 vectors/memories.py          writes crates/memory_vectors/stdin and stdout
    python3 vectors/memories.py answer   reads commands from standard input, prints
                                         the answers
"""

import os
import random
import sys

SEED = 20260103

TOP = 2**32
PAGE = 256
MOST_BYTES = 65536
MOST_WORDS = 16384
MOST_WAITS = 255

WAIT = "wait"
ABSENT = "absent"


def done(value):
    return f"done {value}"


# ---------------------------------------------------- memories that never wait

class Rom:
    """Word k at address 4k."""

    def __init__(self, words):
        self.words = words

    def look(self, address):
        place, rest = divmod(address, 4)
        if rest != 0 or place >= MOST_WORDS or place >= len(self.words):
            return None
        return self.words[place]

    def ask(self, access):
        sort, address = access
        assert sort == "fetch"
        word = self.look(address)
        return ABSENT if word is None else done(word)


class Ram:
    """Byte k at address k, if the mark of its page is set."""

    def __init__(self, data, marks):
        self.data = data
        self.marks = marks

    def look(self, address):
        if address >= MOST_BYTES or address >= len(self.data):
            return None
        return self.data[address] if self.marks[address // PAGE] else None

    def ask(self, access):
        sort, address, width = access[:3]
        if width not in (1, 2, 4) or address % width != 0:
            return ABSENT
        places = range(address, address + width)
        if any(place >= TOP or self.look(place) is None for place in places):
            return ABSENT
        if sort == "load":
            return done(sum(self.look(place) * 256**k for k, place in enumerate(places)))
        for k, place in enumerate(places):
            self.data[place] = access[3] // 256**k % 256
        return done(0)


# -------------------------------------------------------------- slow memories

class Slow:
    """Answers wait n times to an access before it asks the memory below."""

    def __init__(self, waits, below):
        self.waits = min(waits, MOST_WAITS)
        self.below = below
        self.heard = None     # the access that waits were given for
        self.given = 0

    def look(self, address):
        return self.below.look(address)

    def ask(self, access):
        if access != self.heard:
            self.heard, self.given = access, 0
        if self.given < self.waits:
            self.given += 1
            return WAIT
        answer = self.below.ask(access)
        if answer != WAIT:
            self.heard = None
        return answer


def settle(memory, access):
    """Asks the same until the answer is not wait."""
    for _ in range(2 * MOST_WAITS + 1):
        answer = memory.ask(access)
        if answer != WAIT:
            return answer
    raise AssertionError("more waits than the longest wait")


# --------------------------------------------------------------- the commands

def words_of(length):
    return [(k * 2654435761 + 12345) % TOP for k in range(length)]


def marks_of(digits):
    """256 marks, page 0 first, the highest bit of a digit first."""
    assert len(digits) == 64 and digits == digits.lower()
    return [int(digit, 16) >> bit & 1 == 1 for digit in digits for bit in (3, 2, 1, 0)]


def digits_of(marks):
    assert len(marks) == 256
    return "".join(
        f"{sum(marks[4 * k + j] << 3 - j for j in range(4)):x}" for k in range(64))


def access_of(words):
    """The access that the words of a command name."""
    sort, numbers = words[0], [int(word) for word in words[1:]]
    assert len(numbers) == {"fetch": 1, "load": 2, "store": 3}[sort], words
    assert all(0 <= number < TOP for number in numbers), words
    return (sort, *numbers)


class Bench:
    """The two memories that the commands speak of, and the caller's bytes."""

    def __init__(self):
        self.data = None

    def follow(self, line):
        """The lines that are printed for a command."""
        words = line.split()
        if words[0] in ("paged", "ram"):
            before = self.finish()
            self.begin(words)
            return before
        return [self.answer(words)]

    def finish(self):
        """The line at the end of a pair of memories: what the bytes are then."""
        if self.data is None:
            return []
        total = sum((k + 1) * byte for k, byte in enumerate(self.data)) % TOP
        return [f"bytes {total}"]

    def begin(self, words):
        if words[0] == "paged":
            outer, inner, length = map(int, words[1:4])
            self.data = bytearray(length)
            ram = Ram(self.data, marks_of(words[4]))
            self.data_memory = Slow(outer, Slow(inner, ram))
        else:
            outer, length = map(int, words[1:3])
            self.data = bytearray(length)
            self.data_memory = Slow(outer, Ram(self.data, [True] * 256))
        outer, inner, length = map(int, words[-3:])
        self.program_memory = Slow(outer, Slow(inner, Rom(words_of(length))))

    def memory(self, sort):
        return self.program_memory if sort == "fetch" else self.data_memory

    def answer(self, words):
        if words[0] == "look":
            memory = {"byte": self.data_memory, "word": self.program_memory}[words[1]]
            found = memory.look(int(words[2]))
            return "nothing" if found is None else f"{words[1]} {found}"
        if words[0] == "settle":
            return settle(self.memory(words[1]), access_of(words[1:]))
        if words[0] in ("both", "step"):
            fetch = access_of(["fetch", words[1]])
            load = access_of(["load", *words[2:]])
            if words[0] == "both":
                answers = self.program_memory.ask(fetch), self.data_memory.ask(load)
            else:
                answers = settle(self.program_memory, fetch), settle(self.data_memory, load)
            return " / ".join(answers)
        return self.memory(words[0]).ask(access_of(words))


# ------------------------------------------------------------- the generator

ALL = "f" * 64
WIDTHS = (0, 1, 2, 3, 4, 5, 8)
LENGTHS = (0, 1, 3, 255, 256, 257, 4096, 65535, 65536, 65537, 70000)
ROM_LENGTHS = (0, 1, 16383, 16384, 16385, 17000)
VALUES = (0, 1, 0x7F, 0x80, 0xFF, 0x100, 0x1FF, 0xFFFF, 0x10000, 0x12345, 0xDEADBEEF,
          TOP - 1)


def around(*places):
    """These addresses and some beside them, within 32 bits."""
    near = (-8, -4, -3, -2, -1, 0, 1, 2, 3, 4, 8)
    return sorted({place + by for place in places for by in near if 0 <= place + by < TOP})


def shown(access):
    return " ".join(str(part) for part in access)


class Writer:
    """Gathers commands and follows them on the model."""

    def __init__(self):
        self.bench = Bench()
        self.lines = []
        self.answers = []

    def put(self, line):
        self.lines.append(line)
        printed = self.bench.follow(line)
        self.answers += printed
        return printed[-1] if printed else None

    def paged(self, outer, inner, length, pages, program=(0, 0, 0)):
        self.put(f"paged {outer} {inner} {length} {pages} " + shown(program))

    def ram(self, outer, length, program=(0, 0, 0)):
        self.put(f"ram {outer} {length} " + shown(program))

    def ask(self, access, times=1):
        answer = None
        for _ in range(times):
            answer = self.put(shown(access))
        return answer

    def settle(self, access):
        return self.put("settle " + shown(access))

    def until_answered(self, access):
        """Single asks until the answer is not wait; how many waits there were."""
        waits = 0
        while self.ask(access) == WAIT:
            waits += 1
        return waits

    def look_bytes(self, places):
        for place in places:
            self.put(f"look byte {place}")


def altered(access, pick):
    """An access of the same memory that differs in one part."""
    if access[0] == "fetch":
        return ("fetch", pick.choice([access[1] ^ 4, access[1] ^ 1, (access[1] + 4) % TOP]))
    sort, address, width = access[:3]
    part = pick.choice(["sort", "address", "width", "value"])
    if part == "sort":
        if sort == "load":
            return ("store", address, width, pick.choice([0, 1, pick.getrandbits(32)]))
        return ("load", address, width)
    if part == "address":
        address = pick.choice([address ^ 1, address ^ 4, address ^ 65536, (address + 8) % TOP])
    elif part == "width" or sort == "load":
        width = pick.choice([other for other in WIDTHS if other != width])
    else:
        # The low bytes stay: the two differ as they are handed in.
        return (sort, address, width, access[3] ^ 1 << pick.choice([8, 16, 31]))
    return (sort, address, width, *access[3:])


def examples(w):
    """The tables of docs/MEMORIES.md."""
    w.paged(2, 1, 10, ALL)
    w.settle(("store", 8, 1, 7))
    for expected in (WAIT, WAIT, WAIT, "done 7", WAIT):
        assert w.ask(("load", 8, 2)) == expected
    for fifth, tail in ((2, (WAIT, WAIT, WAIT, "done 7")), (1, ("done 7",))):
        w.paged(2, 1, 10, ALL)
        w.settle(("store", 8, 1, 7))
        for width in (2, 1, 1, 1):
            assert w.ask(("load", 8, width)) == WAIT
        for expected in tail:
            assert w.ask(("load", 8, fifth)) == expected
    w.ram(0, 10)
    w.settle(("store", 8, 1, 7))
    for access, expected in (
            (("load", 8, 4), ABSENT), (("load", 9, 2), ABSENT), (("load", 8, 3), ABSENT),
            (("load", 8, 2), "done 7"), (("store", 8, 2, 0x12345), "done 0"),
            (("load", 8, 2), done(0x2345)), (("store", 6, 4, 1), ABSENT),
            (("load", 65536, 1), ABSENT)):
        assert w.ask(access) == expected
    w.look_bytes(range(5, 12))


def lengths(w, pick):
    """Bytes of every length: accesses and looks around each end."""
    for length in LENGTHS:
        for kind in ("ram", "paged"):
            if kind == "ram":
                w.ram(0, length)
            else:
                w.paged(0, 0, length, ALL)
            ends = around(0, length, MOST_BYTES, TOP)
            for place in ends:
                if place < length or pick.random() < 0.4:
                    fitting = [width for width in (1, 2, 4) if place % width == 0]
                    w.ask(("store", place, pick.choice(fitting), pick.choice(VALUES)))
                if pick.random() < 0.2:
                    w.ask(("store", place, pick.choice(WIDTHS), pick.choice(VALUES)))
            for place in ends:
                if place < length or pick.random() < 0.5:
                    fitting = [width for width in (1, 2, 4) if place % width == 0]
                    w.ask(("load", place, pick.choice(fitting)))
                if place < length or pick.random() < 0.5:
                    w.put(f"look byte {place}")


def widths(w, pick):
    """Every width at every place of a few bytes, on a length that is no multiple of 4."""
    w.paged(0, 0, 263, ALL)
    for place in range(252, 264):
        w.ask(("store", place, 1, place * 37))
    for place in range(254, 266):
        for width in WIDTHS:
            w.ask(("load", place, width))
    for place in range(254, 266):
        for width in WIDTHS:
            value = pick.getrandbits(32)
            answer = w.ask(("store", place, width, value))
            if width in (1, 2, 4) and pick.random() < 0.4:
                w.put(f"look byte {place + pick.randrange(width)}")
            elif answer == ABSENT and pick.random() < 0.3:
                w.put(f"look byte {place}")
    w.look_bytes(range(248, 266))
    for width in (6, 7, 9, 16, 255, 256, 257, 258, 260, 65536, 65537, 2**31, TOP - 1):
        w.ask(("load", 0, width))
        w.ask(("store", 0, width, 77))
    w.look_bytes(range(4))


def pages(w, pick):
    """Pages missing: single ones, all but one, every second one, all, at random."""
    patterns = []
    for page in (0, 1, 2, 100, 254, 255):
        patterns.append([k != page for k in range(256)])
        patterns.append([k == page for k in range(256)])
    patterns += [[k % 2 == 0 for k in range(256)], [False] * 256]
    patterns += [[pick.random() < 0.5 for _ in range(256)] for _ in range(3)]
    for marks in patterns:
        length = pick.choice([65536, 65536, 70000, 65535, 25700])
        w.paged(0, 0, length, digits_of(marks))
        borders = [k for k in range(1, 256) if marks[k] != marks[k - 1]]
        for page in pick.sample(borders, min(3, len(borders))) + [0, 1, 256]:
            for place in (page * PAGE - 4, page * PAGE - 2, page * PAGE - 1, page * PAGE,
                          page * PAGE + 1, page * PAGE + 2, page * PAGE + 255):
                if place >= 0 and pick.random() < 0.6:
                    width = pick.choice((1, 2, 4))
                    w.ask(("store", place - place % width, width, pick.getrandbits(32)))
                    if pick.random() < 0.5:
                        w.ask(("load", place, pick.choice((1, 2, 4))))
                    else:
                        w.put(f"look byte {place}")


def roms(w, pick):
    """Words of every number: fetches and looks around each end."""
    for length in ROM_LENGTHS:
        w.ram(0, 4, (0, 0, length))
        for place in around(0, 4 * length, 4 * MOST_WORDS, TOP):
            if place % 4 == 0 or pick.random() < 0.4:
                w.ask(("fetch", place))
            if place % 4 == 0 or pick.random() < 0.4:
                w.put(f"look word {place}")
        for _ in range(6):
            place = 4 * pick.randrange(max(length, 1))
            w.put(f"{pick.choice(('fetch', 'look word'))} {place}")


def long_runs(w):
    """Single asks over the long waits."""
    load, store = ("load", 40, 4), ("store", 40, 4, 0x1234567)
    w.paged(254, 1, 64, ALL, (255, 0, 20))
    assert w.until_answered(load) == 255
    assert w.until_answered(("fetch", 8)) == 255
    w.paged(0, 255, 64, ALL)
    w.ask(load, 254)
    w.ask(store, 2)
    assert w.until_answered(load) == 255
    w.ram(256, 64, (300, 2, 20))
    assert w.until_answered(store) == 255
    w.settle(load)
    assert w.until_answered(("fetch", 84)) == 257
    w.settle(("fetch", 16))


def settled_runs(w, pick):
    """Long waits, met by settling mostly."""
    for outer, inner in ((254, 0), (255, 0), (256, 1), (300, 300), (3, 254), (255, 255),
                         (0, 300), (0, 0)):
        w.paged(outer, inner, 300, ALL, (inner, outer, 40))
        w.settle(("store", 16, 4, 0xCAFE0102))
        for access in (("load", 16, 4), ("load", 17, 1), ("load", 17, 2), ("load", 300, 1),
                       ("fetch", 12), ("fetch", 13), ("fetch", 160), ("store", 18, 2, TOP - 1)):
            w.ask(access, pick.randrange(3))
            if pick.random() < 0.5:
                w.ask(altered(access, pick))
            w.settle(access)
        w.put("step 20 16 4")
        w.put("both 20 16 4")
        w.put("step 24 16 8")
        w.look_bytes((16, 17, 18, 19))


WAIT_PAIRS = ((0, 0), (1, 0), (0, 1), (1, 1), (2, 0), (0, 2), (2, 1), (1, 2), (3, 0), (0, 3),
              (3, 2), (2, 3), (3, 3), (5, 4))


def any_access(pick, length, words):
    """An access, often one that is done."""
    if pick.random() < 0.2:
        place = 4 * pick.randrange(words + 1) + pick.choice((0, 0, 0, 0, 0, 0, 1, 2))
        return ("fetch", place)
    width = pick.choice((1, 2, 4, 1, 2, 4, 1, 2, 4, 1, 2, 4, pick.choice(WIDTHS)))
    place = pick.choice((8, 12, pick.randrange(length), pick.randrange(length)))
    if pick.random() < 0.1:
        place = pick.choice((length, 65536, TOP - 4, TOP - 1))
    if pick.random() < 0.9:
        place -= place % max(width, 1)
    if pick.random() < 0.5:
        return ("load", place, width)
    return ("store", place, width, pick.choice(VALUES + (pick.getrandbits(32),)))


def interrupted_runs(w, pick):
    """Runs of one access, interrupted by others that differ in one part."""
    for outer, inner in WAIT_PAIRS:
        for kind in ("paged", "ram"):
            length = pick.choice((16, 30, 257))
            words = pick.choice((3, 20))
            total = outer + inner if kind == "paged" else outer
            if kind == "paged":
                w.paged(outer, inner, length, ALL, (inner, outer, words))
            else:
                w.ram(outer, length, (outer, inner, words))
            for _ in range(13):
                access = any_access(pick, length, words)
                w.ask(access, pick.randrange(total + 2))
                turn = pick.random()
                if turn < 0.5:
                    w.ask(altered(access, pick), pick.randrange(1, max(outer, 1) + 2))
                elif turn < 0.6:
                    # The same, in between an access of the other memory.
                    other = ("load", 8, 1) if access[0] == "fetch" else ("fetch", 4)
                    w.ask(other)
                elif turn < 0.7:
                    w.put(f"look byte {pick.randrange(length + 2)}")
                if pick.random() < 0.6:
                    w.until_answered(access)
                else:
                    w.ask(access, pick.randrange(1, total + 2))
                if pick.random() < 0.3:
                    w.ask(access)
                if access[0] == "store" and pick.random() < 0.5:
                    w.put(f"look byte {access[1]}")
                if pick.random() < 0.15:
                    w.settle(any_access(pick, length, words))


def tandem(w, pick):
    """Both memories asked in one tick, and in one step."""
    for data_waits in ((0, 0), (1, 0), (2, 1), (0, 3)):
        for program_waits in ((0, 0), (0, 1), (3, 0), (1, 2)):
            w.paged(*data_waits, 40, ALL, (*program_waits, 9))
            for place in (8, 12, 36):
                w.settle(("store", place, 4, pick.getrandbits(32)))
            for _ in range(4):
                fetch = pick.choice((0, 4, 32, 36, 5))
                place, width = pick.choice(((8, 4), (12, 2), (13, 1), (36, 4), (38, 4), (40, 1)))
                for _ in range(pick.randrange(1, 7)):
                    w.put(f"both {fetch} {place} {width}")
                turn = pick.random()
                if turn < 0.3:
                    w.ask(("fetch", fetch))
                elif turn < 0.6:
                    w.ask(("load", place, width))
                elif turn < 0.8:
                    w.put(f"both {fetch} {place ^ 4} {width}")
                w.put(f"step {fetch} {place} {width}")


def make_commands():
    pick = random.Random(SEED)
    w = Writer()
    examples(w)
    widths(w, pick)
    lengths(w, pick)
    pages(w, pick)
    roms(w, pick)
    long_runs(w)
    interrupted_runs(w, pick)
    tandem(w, pick)
    settled_runs(w, pick)
    w.answers += w.bench.finish()
    return w.lines, w.answers


def answer(lines):
    """The lines that are printed for these commands."""
    bench = Bench()
    printed = []
    for line in lines:
        printed += bench.follow(line)
    return printed + bench.finish()


def count(lines, answers):
    """How many commands and answers of each sort, for the person who runs it."""
    found = {}
    for text in lines:
        sort = text.split()[0]
        found[sort] = found.get(sort, 0) + 1
    for text in answers:
        for part in text.split(" / "):
            sort = "-> " + part.split()[0]
            found[sort] = found.get(sort, 0) + 1
    return ", ".join(f"{sort} {number}" for sort, number in found.items())


def main():
    if sys.argv[1:] == ["answer"]:
        for line in answer(text for text in sys.stdin if text.strip()):
            print(line)
        return
    if sys.argv[1:]:
        sys.exit("usage: memories.py [answer]")
    crate = os.path.join(os.path.dirname(os.path.abspath(__file__)), "../crates/memory_vectors")
    lines, answers = make_commands()
    assert answer(lines) == answers
    with open(os.path.join(crate, "stdin"), "w") as out:
        out.write("".join(line + "\n" for line in lines))
    with open(os.path.join(crate, "stdout"), "w") as out:
        out.write("".join(line + "\n" for line in answers))
    print(f"{len(lines)} commands, {len(answers)} lines; {count(lines, answers)}",
          file=sys.stderr)


if __name__ == "__main__":
    main()
