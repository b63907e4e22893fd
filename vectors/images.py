#!/usr/bin/env python3
"""Images: a loader of its own, and the commands that try it.

Written by hand from the rules of docs/IMAGE.md. It shares no code with the
core or with tools/, so that it can serve as an outside check of the proved code.

    python3 vectors/images.py          writes crates/image_vectors/stdin and stdout
    python3 vectors/images.py answer   reads commands from standard input, prints
                                       one line for each try
"""

import os
import random
import sys

SEED = 20260102

BLOCK = 512

# How long the memories are: program words and data bytes.
ROOM = {"words": 1024, "bytes": 4096}


# -------------------------------------------------------------- the loader

class Refused(Exception):
    def __init__(self, number, block):
        super().__init__(f"refused {number} block {block}")


def number_at(data, place, width):
    """The unsigned number in these bytes, lowest byte first."""
    return sum(data[place + k] * 256**k for k in range(width))


def check_of(block):
    """The check that a block should have: the sum of its first 127 words."""
    return sum(number_at(block, 4 * k, 4) for k in range(127)) % 2**32


def read(image):
    """The (kind, address, payload) of every block, or Refused."""
    size = len(image)
    if size == 0 or size > 65536 or size % BLOCK != 0:
        raise Refused(3, 0)
    last = size // BLOCK - 1
    found = []
    for place in range(last + 1):
        block = image[place * BLOCK:(place + 1) * BLOCK]
        kind = block[4]
        count = number_at(block, 6, 2)
        address = number_at(block, 8, 4)
        end = {1: 4 * ROOM["words"], 2: ROOM["bytes"], 3: 0}
        if number_at(block, 508, 4) != check_of(block):
            raise Refused(4, place)
        if number_at(block, 0, 4) != place:
            raise Refused(5, place)
        if kind not in (1, 2, 3) or block[5] != 0:
            raise Refused(6, place)
        if count > 496 or count % 4 != 0 or (kind == 3 and count != 0):
            raise Refused(7, place)
        if address % 4 != 0 or (kind == 3 and address != 0) or address + count > end[kind]:
            raise Refused(8, place)
        if any(block[12 + count:508]):
            raise Refused(9, place)
        if (kind == 3) != (place == last):
            raise Refused(10, place)
        found.append((kind, address, block[12:12 + count]))
    return found


def load(image):
    """The program words and data bytes after loading into cleared memories."""
    words = [0] * ROOM["words"]
    data = [0] * ROOM["bytes"]
    for kind, address, payload in read(image):
        if kind == 1:
            for k in range(len(payload) // 4):
                words[address // 4 + k] = number_at(payload, 4 * k, 4)
        elif kind == 2:
            for k, byte in enumerate(payload):
                data[address + k] = byte
    return words, data


def try_image(image):
    """The line printed for a try."""
    try:
        words, data = load(bytes(image))
    except Refused as refusal:
        return str(refusal)
    p = sum((k + 1) * word for k, word in enumerate(words)) % 2**32
    d = sum((k + 1) * byte for k, byte in enumerate(data)) % 2**32
    return f"loaded {p} {d}"


def execute(image, line):
    """One command on an image; answers the image and a line to print or None."""
    command, *rest = line.split()
    if command == "new":
        return bytearray(int(rest[0])), None
    if command == "set":
        place, text = int(rest[0]), bytes.fromhex(rest[1])
        assert place + len(text) <= len(image), line
        image[place:place + len(text)] = text
        return image, None
    if command == "sum":
        start = int(rest[0]) * BLOCK
        assert start + BLOCK <= len(image), line
        value = check_of(image[start:start + BLOCK])
        image[start + 508:start + 512] = value.to_bytes(4, "little")
        return image, None
    if command == "room":
        ROOM["words"], ROOM["bytes"] = int(rest[0]), int(rest[1])
        return image, None
    if command == "try":
        return image, try_image(image)
    raise ValueError(line)


# -------------------------------------------------------------- the script

def le(value, width):
    return (value % 256**width).to_bytes(width, "little")


class Script:
    """Collects commands and keeps the image that they make."""

    def __init__(self):
        self.lines = []
        self.answers = []
        self.image = bytearray()

    def do(self, line):
        self.lines.append(line)
        self.image, said = execute(self.image, line)
        if said is not None:
            self.answers.append(said)

    def new(self, size):
        self.do(f"new {size}")

    def set(self, place, content):
        for start in range(0, len(content), 64):
            self.do(f"set {place + start} {bytes(content[start:start + 64]).hex()}")

    def sum(self, block):
        self.do(f"sum {block}")

    def attempt(self):
        self.do("try")

    def block(self, place, kind, address, payload=b"", count=None, number=None):
        """Writes one block over zero bytes, with its check."""
        size = len(payload) if count is None else count
        which = place if number is None else number
        header = le(which, 4) + bytes([kind, 0]) + le(size, 2) + le(address, 4)
        self.set(place * BLOCK, header + payload)
        self.sum(place)

    def base(self, blocks):
        """A whole image of (kind, address, payload), the end block added."""
        self.new((len(blocks) + 1) * BLOCK)
        for place, (kind, address, payload) in enumerate(blocks):
            self.block(place, kind, address, payload)
        self.block(len(blocks), 3, 0)

    def variant(self, edits, summed):
        """Edits the image, sums the blocks told, tries it, and restores it.

        edits: a list of (offset, bytes); a later one goes over an earlier one.
        Answers the line of the try.
        """
        before = bytes(self.image)
        touched = []
        for place, content in edits:
            self.set(place, content)
            touched.append((place, len(content)))
        for block in sorted(summed):
            self.sum(block)
        self.attempt()
        for place, size in touched:
            self.set(place, before[place:place + size])
        for block in sorted(summed):
            self.sum(block)
        if bytes(self.image) != before:
            # The check before was not the right one, put it back as it was.
            for block in sorted(summed):
                at = block * BLOCK + 508
                self.set(at, before[at:at + 4])
        assert bytes(self.image) == before
        return self.answers[-1]


def blocks_of(edits):
    return {place // BLOCK for place, _ in edits}


# ------------------------------------------------------------------ faults

def header(image, block):
    start = block * BLOCK
    return (image[start + 4], number_at(image, start + 6, 2),
            number_at(image, start + 8, 4))


def fault(pick, image, block, rule):
    """Edits that break this rule in this block (alone, if the check is redone
    and the block is sound; rule 4 needs the check not to be redone)."""
    start = block * BLOCK
    kind, count, address = header(image, block)
    last = len(image) // BLOCK - 1
    if rule == 4:
        place = start + 508 + pick.randrange(4)
        return [(place, bytes([image[place] ^ 1 << pick.randrange(8)]))]
    if rule == 5:
        wrong = pick.choice([block + 1, block - 1, block + 256, block + 65536,
                             block + 2**24, 2**32 - 1, pick.getrandbits(32)])
        if wrong % 2**32 == block:
            wrong = block + 2
        return [(start, le(wrong, 4))]
    if rule == 6:
        if pick.randrange(3) == 0:
            return [(start + 5, bytes([pick.choice([1, 2, 3, 128, 255])]))]
        return [(start + 4, bytes([pick.choice([0, 4, 5, 16, 129, 255])]))]
    if rule == 7:
        if kind == 3:
            wrong = pick.choice([4, 8, 496, 1, 500, 65532])
        else:
            wrong = pick.choice([497, 498, 500, 504, 508, 512, 1024, 32768, 65532,
                                 65535, count + 1, count + 2, count + 3, 494])
        return [(start + 6, le(wrong, 2))]
    if rule == 8:
        if kind == 3:
            wrong = pick.choice([1, 2, 4, 4096, 2**32 - 4, 2**31])
        else:
            wrong = pick.choice([address + 1, address + 2, address + 3,
                                 4096 - count + 4, 4100, 2**31, 2**32 - 4,
                                 2**32 - max(count, 4), 65536, 2**24, 4096 - count + 1])
        return [(start + 8, le(wrong, 4))]
    if rule == 9:
        if count >= 496:
            return []
        place = start + pick.choice([12 + count, 507, pick.randrange(12 + count, 508)])
        return [(place, bytes([pick.choice([1, 128, 255, pick.randrange(1, 256)])]))]
    if rule == 10:
        if block == last:
            return [(start + 4, bytes([pick.choice([1, 2])]))]
        # An end block too early, otherwise sound: no count, address or payload.
        return [(start + 4, bytes([3])), (start + 6, bytes(2)), (start + 8, bytes(4)),
                (start + 12, bytes(count))]
    raise ValueError(rule)


def fresh(pick, size):
    """Random payload without zero bytes."""
    return bytes(pick.randrange(1, 256) for _ in range(size))


def random_blocks(pick, blocks, longest):
    found = []
    for _ in range(blocks):
        kind = pick.choice([1, 2])
        count = 4 * pick.randrange(longest // 4 + 1)
        near = pick.randrange(4)
        if near == 0:
            address = 4096 - count - 4 * pick.randrange(4)
        elif near == 1:
            address = 4 * pick.randrange((4096 - count) // 4 + 1)
        else:
            address = 4 * pick.randrange(8)  # overlaps are likely
        address = max(0, min(address, 4096 - count))
        found.append((kind, address, fresh(pick, count)))
    return found


# ------------------------------------------------------------- boundaries

def sizes(script):
    """Rule 3, by zero images and by images that are sound but for their size."""
    for size in (0, 1, 4, 256, 508, 511, 512, 513, 516, 1023, 1024, 1025, 1536,
                 65023, 65024, 65535, 65536, 65537, 65540, 66047, 66048, 66049,
                 66560, 69632, 70000):
        script.new(size)
        script.attempt()
    for size in (512, 513, 516, 768, 1023):
        script.new(size)
        script.block(0, 3, 0)
        script.attempt()
    # A whole sound image followed by one stray byte, or by another block.
    for size in (1024, 1025, 1536):
        script.new(size)
        script.block(0, 2, 8, b"\x01\x02\x03\x04")
        script.block(1, 3, 0)
        script.attempt()
    # The longest image (128 blocks), one block less, one block more.
    for count in (127, 128, 129):
        script.new(count * BLOCK)
        for place in range(count - 1):
            script.block(place, 1 + place % 2, 4 * place, bytes([place, 1, 2, 255]))
        script.block(count - 1, 3, 0)
        script.attempt()
        if count == 128:
            script.variant([(127 * BLOCK + 4, b"\x02")], {127})
            script.variant([(127 * BLOCK, le(128, 4))], {127})
            script.variant([(126 * BLOCK + 508, b"\x00")], set())
            script.variant([(64 * BLOCK + 507, b"\x01")], {64})
            script.variant([(64 * BLOCK + 4, b"\x03")], {64})
            script.variant([(127 * BLOCK + 507, b"\x01"), (1 * BLOCK + 9, b"\x10")],
                           {1, 127})


def ends(script):
    """Rules 7 and 8 around the limits, for both kinds, alone in an image."""
    for kind in (1, 2):
        script.new(2 * BLOCK)
        script.block(0, kind, 0)
        script.block(1, 3, 0)
        for count in (0, 4, 8, 12, 252, 256, 260, 488, 492, 496,
                      1, 2, 3, 5, 254, 255, 494, 495, 497, 498, 499, 500, 504, 508,
                      512, 516, 752, 1008, 4096, 32768, 65024, 65532, 65535):
            script.variant([(6, le(count, 2))], {0})
        for count in (0, 4, 8, 256, 492, 496):
            for past in (-8, -4, 0, 4, 8):
                script.variant([(6, le(count, 2) + le(4096 - count + past, 4))], {0})
            for off in (1, 2, 3):
                script.variant([(6, le(count, 2) + le(4096 - count - off, 4))], {0})
            # address + count goes round 2^32 to 0, to 4, just not
            for back in (count + 4, count, count - 4, 4):
                script.variant([(6, le(count, 2) + le(2**32 - max(back, 4), 4))], {0})
        for address in (0, 4, 1, 2, 3, 5, 4092, 4093, 4094, 4095, 4096, 4097, 4098,
                        4100, 4351, 4352, 8192, 65532, 65536, 65540, 2**24, 2**24 + 4,
                        2**31 - 4, 2**31, 2**31 + 4, 2**32 - 4096, 2**32 - 512,
                        2**32 - 8, 2**32 - 4, 2**32 - 3, 2**32 - 2, 2**32 - 1):
            for count in (0, 4):
                script.variant([(6, le(count, 2) + le(address, 4))], {0})
        # bytes that must be stored in the last places and no further
        for count in (4, 16, 496):
            payload = bytes(1 + (7 * k) % 255 for k in range(count))
            for past in (-4, 0, 4):
                script.variant([(6, le(count, 2) + le(4096 - count + past, 4) + payload)],
                               {0})
    # The end block: its count and address are 0.
    script.new(BLOCK)
    script.block(0, 3, 0)
    for count in (1, 2, 4, 8, 256, 492, 496, 497, 500, 512, 65532, 65535):
        script.variant([(6, le(count, 2))], {0})
        script.variant([(6, le(count, 2))], set())
    for address in (1, 2, 3, 4, 8, 256, 4092, 4096, 4100, 65536, 2**24, 2**31,
                    2**32 - 4, 2**32 - 1):
        script.variant([(8, le(address, 4))], {0})
    script.variant([(6, le(4, 2) + le(2**32 - 4, 4))], {0})
    for place in (12, 13, 15, 16, 255, 256, 260, 504, 506, 507):
        script.variant([(place, b"\x01")], {0})
        script.variant([(place, b"\x80")], set())


def kinds(script):
    """Rules 6 and 10: each kind byte in the first, a middle and the last block."""
    script.base([(1, 16, bytes(range(1, 9))), (2, 0, b""), (2, 32, bytes(range(9, 21)))])
    for block in range(4):
        for kind in (0, 1, 2, 3, 4, 5, 6, 7, 8, 16, 17, 18, 19, 127, 128, 129, 130, 131,
                     254, 255):
            script.variant([(block * BLOCK + 4, bytes([kind]))], {block})
        for zero in (1, 2, 3, 4, 16, 128, 255):
            script.variant([(block * BLOCK + 5, bytes([zero]))], {block})
        script.variant([(block * BLOCK + 4, b"\x00\x01")], {block})
    # Block 1 has no payload: as an end block it is too early.
    for sums in (set(), {1}):
        script.variant([(BLOCK + 4, b"\x03")], sums)
    # Two end blocks: the first one is too early.
    script.new(2 * BLOCK)
    script.block(0, 3, 0)
    script.block(1, 3, 0)
    script.attempt()
    # The end block missing: one block or two of another kind.
    for kind in (1, 2):
        script.new(BLOCK)
        script.block(0, kind, 0, b"\x05\x06\x07\x08")
        script.attempt()
        script.new(2 * BLOCK)
        script.block(0, kind, 0, b"\x05\x06\x07\x08")
        script.block(1, kind, 4, b"\x05\x06\x07\x08")
        script.attempt()


def numbers(script):
    """Rule 5 in each block; blocks exchanged."""
    script.base([(1, 0, b"\x01\x02\x03\x04"), (2, 0, b"\x05\x06\x07\x08")])
    for block in range(3):
        for number in (0, 1, 2, 3, 4, 255, 256, 256 + block, 65536 + block,
                       2**24 + block, block * 2**24, 2**31 + block, 2**32 - 1):
            script.variant([(block * BLOCK, le(number, 4))], {block})
    image = bytes(script.image)
    for a, b in ((0, 1), (1, 2), (0, 2)):
        one, two = image[a * BLOCK:a * BLOCK + 16], image[b * BLOCK:b * BLOCK + 16]
        script.variant([(a * BLOCK, two), (b * BLOCK, one)], {a, b})
        # exchanged, but numbered by place
        script.variant([(a * BLOCK + 4, two[4:]), (b * BLOCK + 4, one[4:])], {a, b})


def checks(script):
    """Rule 4: the check off by a little, each byte of it, sums that go round."""
    script.base([(1, 0, b"\xff" * 32), (2, 8, b"\xff\xff\xff\xff\x01\x00\x00\x80")])
    for block in range(3):
        at = block * BLOCK + 508
        value = number_at(script.image, at, 4)
        for off in (1, -1, 2, 256, -256, 65536, 2**24, 2**31):
            script.variant([(at, le(value + off, 4))], set())
        script.variant([(at, le(value, 4)[::-1])], set())
        script.variant([(at, le(0, 4))], set())
        script.variant([(at, le(2 * value, 4))], set())  # a sum over the check too
        script.variant([(at, le(-value, 4))], set())
    # Words exchanged: the check stays right and the image is another one.
    start = BLOCK + 12
    script.variant([(start, script.image[start + 4:start + 8]
                     + script.image[start:start + 4])], set())
    # One word more, another less by the same: the check stays right.
    first = number_at(script.image, start, 4)
    second = number_at(script.image, start + 4, 4)
    for by in (1, 255, 65536, 2**31, 2**32 - 1):
        script.variant([(start, le(first + by, 4) + le(second - by, 4))], set())
    # The same between header and payload.
    script.variant([(BLOCK + 8, le(12, 4) + le(first - 4, 4))], set())
    script.variant([(BLOCK + 8, le(9, 4) + le(first - 1, 4))], set())
    script.variant([(BLOCK, le(2, 4)), (start, le(first - 1, 4))], set())
    script.variant([(BLOCK + 5, b"\x01"), (start, le(first - 256, 4))], set())
    script.variant([(BLOCK + 504, le(1, 4)), (start, le(first - 1, 4))], set())
    # A full block of ones bits: the sum goes round many times.
    for kind in (1, 2):
        script.new(2 * BLOCK)
        script.block(0, kind, 4096 - 496, b"\xff" * 496)
        script.block(1, 3, 0)
        script.attempt()
        script.variant([(508, le(number_at(script.image, 508, 4) - 1, 4))], set())
        script.variant([(507, b"\xfe")], set())
        script.variant([(507, b"\xfe")], {0})


def strays(script):
    """Rule 9: the first and last place beyond the count, for several counts."""
    for kind in (1, 2):
        script.new(2 * BLOCK)
        script.block(0, kind, 64)
        script.block(1, 3, 0)
        for count in (0, 4, 8, 248, 488, 492, 496):
            lead = le(count, 2)
            if count:
                # the last place within the count may hold anything
                script.variant([(6, lead), (12 + count - 1, b"\x01")], {0})
                script.variant([(6, lead), (12, b"\x80")], {0})
            if count < 496:
                for place in sorted({12 + count, 12 + count + 1, 12 + count + 3, 506, 507}):
                    for byte in (b"\x01", b"\xff"):
                        script.variant([(6, lead), (place, byte)], {0})
                script.variant([(6, lead), (12 + count, b"\x01"), (507, b"\x01")], set())


def order(script, pick):
    """Two faults: the first block in file order, then the lowest rule, wins."""
    rules = (4, 5, 6, 7, 8, 9, 10)
    script.base([(1, 8, fresh(pick, 8)), (2, 4, fresh(pick, 12)), (1, 4088, fresh(pick, 8))])
    for block in range(4):
        for one in rules:
            for two in rules:
                if one >= two:
                    continue
                late = fault(pick, script.image, block, two)
                so_far = bytearray(script.image)
                for place, content in late:
                    so_far[place:place + len(content)] = content
                early = fault(pick, so_far, block, one)
                if (one, two) == (6, 10):
                    # As the kind is one byte, rule 6 uses byte 5 here.
                    early = [(block * BLOCK + 5, b"\x01")]
                said = script.variant(late + early, set() if one == 4 else {block})
                assert said == f"refused {one} block {block}", (said, one, two)
    for one in rules:
        for two in rules:
            for a, b in ((0, 1), (1, 3), (2, 3)):
                edits = (fault(pick, script.image, a, one)
                         + fault(pick, script.image, b, two))
                summed = {block for block, rule in ((a, one), (b, two)) if rule != 4}
                said = script.variant(edits, summed)
                assert said == f"refused {one} block {a}", (said, one, two, a, b)


def singles(script, pick):
    """Each rule broken in each block of several images, summed and not."""
    for blocks, longest in ((0, 0), (1, 24), (2, 16), (3, 32), (5, 12), (1, 496)):
        script.base(random_blocks(pick, blocks, longest))
        script.attempt()
        for block in range(blocks + 1):
            for rule in (4, 5, 6, 7, 8, 9, 10):
                for _ in range(2):
                    edits = fault(pick, script.image, block, rule)
                    if edits and sum(len(c) for _, c in edits) < 100:
                        said = script.variant(edits, set() if rule == 4 else {block})
                        assert said == f"refused {rule} block {block}", (said, rule)
                if rule != 4 and edits and sum(len(c) for _, c in edits) < 100:
                    script.variant(edits, set())


def sound(script, pick):
    """Images that load: overlaps, counts of 0, addresses near the end."""
    for turn in range(60):
        script.base(random_blocks(pick, pick.randrange(0, 6), 28))
        script.attempt()
        last = len(script.image) // BLOCK - 1
        for _ in range(5):
            if last == 0:
                break
            # Another kind, address, smaller content or other content.
            block = pick.randrange(last)
            kind, count, address = header(script.image, block)
            start = block * BLOCK
            what = pick.randrange(4)
            if what == 0:
                edits = [(start + 4, bytes([3 - kind]))]
            elif what == 1:
                edits = [(start + 8, le(4 * pick.randrange((4096 - count) // 4 + 1), 4))]
            elif what == 2:
                more = min(496, count + 4 * pick.randrange(1, 4))
                edits = [(start + 6, le(more, 2))]
            else:
                size = pick.randrange(1, 5)
                if count == 0:
                    continue
                place = start + 12 + pick.randrange(max(1, count - size + 1))
                edits = [(place, fresh(pick, min(size, count)))]
            script.variant(edits, {block})
    # Full blocks, one over the other by half.
    script.base([(2, 0, fresh(pick, 496)), (2, 248, fresh(pick, 496)),
                 (1, 3600, fresh(pick, 496)), (1, 3352, fresh(pick, 496))])
    script.attempt()
    for a, b in ((0, 1), (2, 3)):
        one, two = script.image[a * BLOCK + 8:][:4], script.image[b * BLOCK + 8:][:4]
        script.variant([(a * BLOCK + 8, two), (b * BLOCK + 8, one)], {a, b})


def several(script, pick, tries):
    """One to four faults anywhere, each block summed or not."""
    left = tries
    while left > 0:
        blocks = pick.randrange(0, 6)
        script.base(random_blocks(pick, blocks, 20))
        for _ in range(min(left, 40)):
            edits = []
            keep = set()
            for _ in range(pick.choice([1, 2, 2, 3, 4])):
                block = pick.randrange(blocks + 1)
                rule = pick.choice([4, 5, 6, 7, 8, 9, 10, 5, 6, 7, 8, 9])
                edits += fault(pick, script.image, block, rule)
                if rule == 4:
                    keep.add(block)
            if not edits:
                continue
            summed = blocks_of(edits) - keep
            if pick.randrange(8) == 0 and summed:
                summed.discard(pick.choice(sorted(summed)))
            script.variant(edits, summed)
            left -= 1


def rooms(script):
    """Memories of several lengths: each kind is held to its own memory's end."""
    for words, size in ((1024, 4092), (1023, 4096), (64, 4096), (1024, 256), (4, 13), (3, 16),
                        (4, 0), (0, 16), (0, 0), (1, 3), (1, 4)):
        script.do(f"room {words} {size}")
        for kind in (1, 2):
            for end in (4 * words, size):
                for count in (0, 4, 12):
                    for past in (-8, -4, 0, 4):
                        address = end // 4 * 4 - count + past
                        if address >= 0:
                            script.base([(kind, address, bytes(range(1, count + 1)))])
                            script.attempt()
    script.do("room 1024 4096")


def make_script():
    pick = random.Random(SEED)
    script = Script()
    # The sum program.
    script.base([(1, 0, bytes.fromhex("0000018c20102100000000f8")),
                 (2, 0, b"\x07\x00\x00\x00")])
    script.attempt()
    sizes(script)
    ends(script)
    kinds(script)
    numbers(script)
    checks(script)
    strays(script)
    order(script, pick)
    singles(script, pick)
    sound(script, pick)
    several(script, pick, 800)
    rooms(script)
    return script


def main():
    if sys.argv[1:] == ["answer"]:
        image = bytearray()
        for line in sys.stdin:
            image, said = execute(image, line)
            if said is not None:
                print(said)
        return
    if sys.argv[1:]:
        sys.exit("usage: images.py [answer]")
    crate = os.path.join(os.path.dirname(os.path.abspath(__file__)), "../crates/image_vectors")
    script = make_script()
    with open(os.path.join(crate, "stdin"), "w") as out:
        out.write("".join(line + "\n" for line in script.lines))
    with open(os.path.join(crate, "stdout"), "w") as out:
        out.write("".join(line + "\n" for line in script.answers))
    tally = {}
    for said in script.answers:
        key = said.split(" ")[1] if said.startswith("refused") else "loaded"
        tally[key] = tally.get(key, 0) + 1
    print(f"{len(script.answers)} tries: "
          + ", ".join(f"{key} {tally[key]}" for key in
                      sorted(tally, key=lambda k: (k != "loaded", k.zfill(2)))),
          file=sys.stderr)


if __name__ == "__main__":
    main()
