/* A small setup packet, read into the ten tables, and codewords by a book of them, through the C interface. `examples/run` builds it. */
#include "tables.h"
#include "writer.h"
#include <inttypes.h>
#include <stdio.h>
#include <torchvalley.h>

static const struct torchvalley_identity identity = {.channels = 1, .rate = 8000, .blocksize0 = 256, .blocksize1 = 2048};

/* One of each kind; book 0 has four entries, of lengths 1, 2, 3 and 3. Counts and lengths are written less one. */
static void write_packet(void) {
    const uint8_t lengths[4] = {1, 2, 3, 3};
    for (size_t i = 0; i < 7; i++)
        put("\5vorbis"[i], 8);
    put(0, 8), put(0x564342, 24), put(1, 16), put(4, 24), put(0, 2); /* one book: pattern, dimensions, entries; neither ordered nor sparse */
    for (size_t i = 0; i < 4; i++)
        put(lengths[i] - 1u, 5);
    put(0, 4);                                                         /* no values */
    put(0, 6), put(0, 16);                                             /* one time value */
    put(0, 6), put(1, 16), put(0, 5), put(1, 2), put(7, 4);            /* one floor: type 1, no partition, multiplier 2, 7 range bits */
    put(0, 6), put(0, 16), put(0, 24), put(0, 24), put(0, 24);         /* one residue: type 0, begin, end, partition size 1 */
    put(0, 6), put(0, 8), put(0, 4);                                   /* one classification, class book 0, no vector book */
    put(0, 6), put(0, 16), put(0, 4), put(0, 8), put(0, 8), put(0, 8); /* one mapping: no coupling, one submap of floor 0 and residue 0 */
    put(0, 6), put(1, 1), put(0, 16), put(0, 16), put(0, 8);           /* one mode: long blocks, mapping 0 */
    put(1, 1);                                                         /* the framing bit */
}

static void print_setup(const char *name, size_t length) {
    uint32_t refusal = torchvalley_setup(identity, packet, length, TABLES);
    printf("%s: refusal %" PRIu32 ", counts", name, refusal);
    for (size_t i = 0; i < 5; i++)
        printf(" %" PRIu32, tables.counts[i]);
    printf(", sound %d\n", torchvalley_setup_sound(identity, TABLES));
}

static void print_codeword(uint32_t book, size_t byte, uint8_t bit) {
    const uint8_t audio[1] = {0xEB}; /* the bits 110 10 111, the lowest first */
    struct torchvalley_codeword answer = torchvalley_codeword(identity, TABLES, book, audio, sizeof audio, byte, bit);
    printf("book %" PRIu32 " at bit %zu: ", book, 8 * byte + bit);
    if (answer.refusal != 0)
        printf("refusal %" PRIu32 "\n", answer.refusal);
    else
        printf("entry %" PRIu32 ", next bit %zu\n", answer.entry, 8 * answer.byte + answer.bit);
}

int main(void) {
    write_packet();
    size_t length = (bits + 7) / 8;
    print_setup("setup", length);
    printf("codewords");
    for (size_t i = 0; i < 4; i++)
        printf(" %" PRIu32, tables.codewords[i]);
    printf("\n");
    print_codeword(0, 0, 0);
    print_codeword(0, 0, 3);
    print_codeword(0, 0, 5);
    print_codeword(0, 1, 0);
    print_codeword(1, 0, 0);

    print_setup("cut", length - 1);
    print_codeword(0, 0, 0);
    packet[(bits - 1) / 8] &= (uint8_t) ~(1u << (bits - 1) % 8);
    print_setup("no framing", length);
    printf("a place short: refusal %" PRIu32 "\n", torchvalley_setup(identity, packet, length, tables.counts, 4, AFTER_COUNTS));
    printf("no identity: refusal %" PRIu32 "\n", torchvalley_setup((struct torchvalley_identity){0}, packet, length, TABLES));
    return 0;
}
