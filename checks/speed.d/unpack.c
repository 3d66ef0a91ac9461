/* Unpacks the file `packed`, which holds blocks as RFC 1951 describes them, each with codes of its own, and writes the text.
   It ends with 1 where a block is of another kind. */
#include "arnold.h"

enum { MOST_BITS = 15, LENGTHS = 19, LITERALS = 288, DISTANCES = 32, BLOCK_END = 256, OWN_CODES = 2, PIECE = 4096 };

struct code {
    uint16_t counts[MOST_BITS + 1];     /* how many symbols have so many bits */
    uint16_t symbols[LITERALS];         /* in the order of their bits */
};

static uint8_t packed[65536], text[65536];
static size_t packed_len, packed_at, text_len;
static uint32_t held, held_bits;

static uint32_t bits(uint32_t count)
{
    while (held_bits < count) {
        held |= (uint32_t)packed[packed_at++] << held_bits;
        held_bits += 8;
    }
    uint32_t taken = held & ((1u << count) - 1);
    held >>= count;
    held_bits -= count;
    return taken;
}

/* The symbol whose bits come next. */
static uint32_t symbol(const struct code *code)
{
    int32_t found = 0, first = 0, index = 0;
    for (int len = 1; len <= MOST_BITS; len++) {
        found |= (int32_t)bits(1);
        int32_t count = code->counts[len];
        if (found - count < first)
            return code->symbols[index + (found - first)];
        index += count;
        first = (first + count) << 1;
        found <<= 1;
    }
    return BLOCK_END;
}

/* A code in which each symbol has so many bits. */
static void build(struct code *code, const uint8_t *lengths, int count)
{
    uint16_t places[MOST_BITS + 1] = { 0 };
    for (int len = 0; len <= MOST_BITS; len++)
        code->counts[len] = 0;
    for (int i = 0; i < count; i++)
        code->counts[lengths[i]]++;
    for (int len = 1; len < MOST_BITS; len++)
        places[len + 1] = places[len] + code->counts[len];
    for (int i = 0; i < count; i++)
        if (lengths[i])
            code->symbols[places[lengths[i]]++] = i;
}

/* Reads so many lengths, of which some are repeated. */
static void read_lengths(const struct code *code, uint8_t *lengths, uint32_t count)
{
    uint32_t at = 0;
    while (at < count) {
        uint32_t said = symbol(code), times = 1;
        uint8_t length = said;
        if (said == 16) {
            length = lengths[at - 1];
            times = 3 + bits(2);
        } else if (said > 16) {
            length = 0;
            times = said == 17 ? 3 + bits(3) : 11 + bits(7);
        }
        while (times-- > 0)
            lengths[at++] = length;
    }
}

static void read_codes(struct code *literals, struct code *distances)
{
    static const uint8_t order[LENGTHS] = { 16, 17, 18, 0, 8, 7, 9, 6, 10, 5, 11, 4, 12, 3, 13, 2, 14, 1, 15 };
    static uint8_t lengths[LITERALS + DISTANCES];
    uint32_t literal_count = 257 + bits(5), distance_count = 1 + bits(5), length_count = 4 + bits(4);
    for (uint32_t i = 0; i < LENGTHS; i++)
        lengths[order[i]] = i < length_count ? bits(3) : 0;
    build(literals, lengths, LENGTHS);
    read_lengths(literals, lengths, literal_count + distance_count);
    build(literals, lengths, literal_count);
    build(distances, lengths + literal_count, distance_count);
}

/* Copies bytes that were unpacked before. */
static void repeat(uint32_t said, const struct code *distances)
{
    static const uint16_t from[29] = { 3, 4, 5, 6, 7, 8, 9, 10, 11, 13, 15, 17, 19, 23, 27, 31, 35, 43, 51, 59, 67, 83, 99, 115,
                                       131, 163, 195, 227, 258 };
    static const uint8_t more[29] = { 0, 0, 0, 0, 0, 0, 0, 0, 1, 1, 1, 1, 2, 2, 2, 2, 3, 3, 3, 3, 4, 4, 4, 4, 5, 5, 5, 5, 0 };
    static const uint16_t back[30] = { 1, 2, 3, 4, 5, 7, 9, 13, 17, 25, 33, 49, 65, 97, 129, 193, 257, 385, 513, 769, 1025, 1537,
                                       2049, 3073, 4097, 6145, 8193, 12289, 16385, 24577 };
    uint32_t len = from[said] + bits(more[said]);
    uint32_t far = symbol(distances);
    uint32_t distance = back[far] + bits(far < 2 ? 0 : far / 2 - 1);
    while (len-- > 0) {
        text[text_len] = text[text_len - distance];
        text_len++;
    }
}

static void unpack_block(void)
{
    static struct code literals, distances;
    read_codes(&literals, &distances);
    for (;;) {
        uint32_t said = symbol(&literals);
        if (said == BLOCK_END)
            return;
        if (said < BLOCK_END)
            text[text_len++] = said;
        else
            repeat(said - BLOCK_END - 1, &distances);
    }
}

int main(void)
{
    int64_t file = open("packed", 6, OPEN_THERE), count;
    while ((count = read(file, packed + packed_len, PIECE)) > 0)
        packed_len += count;
    for (uint32_t is_last = 0; !is_last;) {
        is_last = bits(1);
        if (bits(2) != OWN_CODES)
            return 1;
        unpack_block();
    }
    for (size_t at = 0; at < text_len; at += count)
        count = write(CONSOLE_OUT, text + at, text_len - at);
    return 0;
}
