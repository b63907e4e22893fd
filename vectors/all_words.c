/* Every word, read and written back by the proved code, against a table of its own, written by hand from
   docs/INSTRUCTIONS.md: which bits of a word each instruction keeps. vectors/all_words builds and runs it. */
#include <stdint.h>
#include <stdio.h>

#define ILLEGAL (UINT64_C(1) << 32)

/* The word that a word's instruction is written as, or ILLEGAL: the proved code. */
uint64_t canonical_word(uint32_t word);

/* The fields of a word. */
enum {
    RS1 = 0x03e00000,
    RD_I = 0x001f0000,
    IMM = 0x0000ffff,
    RS2 = 0x001f0000,
    RD_R = 0x0000f800,
    SA = 0x000007c0,
    FUNCTION = 0x0000003f,
    OFFSET = 0x03ffffff
};

static const uint32_t OPCODE = 0xfc000000;

static uint64_t by_function(uint32_t word)
{
    uint32_t function = word & FUNCTION;
    uint32_t special = (word & SA) >> 6;

    switch (function) {
    case 0x00: case 0x02: case 0x03:
        return word & (OPCODE | FUNCTION | RS1 | RD_R | SA);
    case 0x04: case 0x06: case 0x07:
        return word & (OPCODE | FUNCTION | RS1 | RS2 | RD_R);
    case 0x10:
        return special > 5 ? ILLEGAL : word & (OPCODE | FUNCTION | RD_R | SA);
    case 0x11:
        return special > 5 ? ILLEGAL : word & (OPCODE | FUNCTION | RS1 | SA);
    case 0x27:
        return word & (OPCODE | FUNCTION | RS2 | RD_R);
    default:
        if (function >= 0x20 && function <= 0x2f)
            return word & (OPCODE | FUNCTION | RS1 | RS2 | RD_R);
        return ILLEGAL;
    }
}

static uint64_t expected(uint32_t word)
{
    uint32_t opcode = word >> 26;

    switch (opcode) {
    case 0x00:
        return by_function(word);
    case 0x02: case 0x03: case 0x3e:
        return word & (OPCODE | OFFSET);
    case 0x3f:
        return word & OPCODE;
    case 0x04: case 0x05:
        return word & (OPCODE | RS1 | IMM);
    case 0x0f:
        return word & (OPCODE | RD_I | IMM);
    case 0x16: case 0x17:
        return word & (OPCODE | RS1);
    case 0x20: case 0x21: case 0x23: case 0x24: case 0x25:
    case 0x28: case 0x29: case 0x2b:
        return word & (OPCODE | RS1 | RD_I | IMM);
    default:
        if ((opcode >= 0x08 && opcode <= 0x0e) || (opcode >= 0x18 && opcode <= 0x1f))
            return word & (OPCODE | RS1 | RD_I | IMM);
        return ILLEGAL;
    }
}

int main(void)
{
    uint64_t words = 0, legal = 0, different = 0;
    uint32_t word = 0;

    do {
        uint64_t got = canonical_word(word);
        uint64_t want = expected(word);
        words++;
        legal += want != ILLEGAL;
        if (got != want && different++ < 10)
            printf("%08lx: %lx, expected %lx\n", (unsigned long)word, (unsigned long)got, (unsigned long)want);
    } while (++word != 0);
    printf("words %lu legal %lu different %lu\n", (unsigned long)words, (unsigned long)legal, (unsigned long)different);
    return different != 0;
}
