/* The packets that ask for most, to be run with a small stack: codewords of one bit, as many class words and vectors as eight channels of the
 * largest block can have. `examples/run` builds it and allows it 64 KiB of stack. */
#include "tables.h"
#include "writer.h"
#include <inttypes.h>
#include <stdio.h>
#include <string.h>
#include <torchvalley.h>

static const struct torchvalley_identity identity = {.channels = 8, .rate = 8000, .blocksize0 = 8192, .blocksize1 = 8192};

static uint8_t curves[32768];
static uint32_t codewords[294912];
static uint8_t audio[36868];

/* Partitions of one place; each has a class word and, in each of so many passes, a vector. All channels are coupled to the first. */
static void write_setup(uint32_t residue_type, uint32_t passes) {
    memset(packet, 0, sizeof packet);
    bits = 0;
    for (size_t i = 0; i < 7; i++)
        put("\5vorbis"[i], 8);
    put(0, 8), put(0x564342, 24), put(1, 16), put(1, 24), put(0, 2), put(0, 5);  /* one book: one entry, of length 1 */
    put(1, 4), put(0, 32), put(0, 32), put(0, 4), put(0, 1), put(0, 1);          /* one value */
    put(0, 6), put(0, 16);                                                       /* one time value */
    put(0, 6), put(1, 16), put(0, 5), put(0, 2), put(7, 4);                      /* one floor: no partition, multiplier 1 */
    put(0, 6), put(residue_type, 16), put(0, 24), put(0xFFFFFF, 24), put(0, 24); /* one residue: partition size 1 */
    put(0, 6), put(0, 8);                                                        /* one classification, class book 0 */
    put(passes == 0 ? 0 : 7, 3), put(1, 1), put(passes == 0 ? 0 : 31, 5);        /* a vector book in each pass, or in none */
    for (uint32_t pass = 0; pass < passes; pass++)
        put(0, 8);
    put(0, 6), put(0, 16), put(0, 1), put(1, 1), put(6, 8); /* one mapping: one submap, seven coupling steps */
    for (uint32_t channel = 1; channel < 8; channel++)
        put(0, 3), put(channel, 3);
    put(0, 2), put(0, 8), put(0, 8), put(0, 8);
    put(0, 6), put(1, 1), put(0, 16), put(0, 16), put(0, 8); /* one mode: long blocks */
    put(1, 1);                                               /* the framing bit */
}

/* The packet with so many codewords: type and window flags 0, a used floor of two Y, seven unused ones, which are 27 bits; then a bit for each
 * codeword, of either value. */
static size_t write_audio(uint32_t words) {
    size_t bytes = (27 + words + 7) / 8;
    memset(audio, 0xA8, bytes);
    audio[0] = 0x08, audio[1] = 0, audio[2] = 0;
    return bytes;
}

/* Both calls, the one that changes the tally where it lies and the one that takes it by value. */
static void print_audio(uint32_t residue_type, uint32_t passes, size_t places) {
    const struct torchvalley_tally before = {.blocksize = 8192, .samples = 5};
    struct torchvalley_tally tally = before;
    size_t length = write_audio(32768 * (1 + passes));
    write_setup(residue_type, passes);
    uint32_t refusal = torchvalley_setup(identity, packet, (bits + 7) / 8, TABLES);
    struct torchvalley_audio_answer answer =
        torchvalley_audio(&tally, identity, TABLES, audio, length, curves, sizeof curves, codewords, places);
    struct torchvalley_audio_left left =
        torchvalley_audio_by_value(before, identity, TABLES, audio, length, curves, sizeof curves, codewords, places);
    bool same = left.answer.refusal == answer.refusal && left.answer.codewords == answer.codewords && left.tally.blocksize == tally.blocksize &&
                left.tally.samples == tally.samples;
    printf("type %" PRIu32 ", %" PRIu32 " passes, %zu places: setup %" PRIu32 ", refusal %" PRIu32 ", codewords %" PRIu64, residue_type, passes,
           places, refusal, answer.refusal, answer.codewords);
    printf(", samples %" PRIu64 ", by value %s\n", tally.samples, same ? "the same" : "others");
}

int main(void) {
    for (uint32_t residue_type = 0; residue_type < 3; residue_type++) {
        print_audio(residue_type, 0, 32768);
        print_audio(residue_type, 8, 294912);
        print_audio(residue_type, 8, 294911);
        print_audio(residue_type, 8, 16384);
    }
    return 0;
}
