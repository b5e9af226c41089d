/* Reads records from standard input and prints a line for each, as the tool does, through the C interface. A record is the length of its body in four
 * bytes and its kind in two, lowest first, then the body: 1 an identification, 2 a setup, 3 an audio packet. `examples/run` builds it. */
#include "tables.h"
#include <inttypes.h>
#include <stdio.h>
#include <torchvalley.h>

/* What the reader lends from call to call: an identity and a tally by value, the tables, and the outputs of an audio packet. */
static struct torchvalley_identity identity;
static struct torchvalley_tally tally;
static uint8_t curves[32768];
static uint32_t codewords[16384];
static uint8_t body[49152];

/* A good identification clears tables and tally; tables that are all zero are not sound. */
static void read_identification(size_t length) {
    struct torchvalley_identity_answer answer = torchvalley_identification(body, length);
    if (answer.refusal != 0) {
        printf("refused %" PRIu32 "\n", answer.refusal);
        return;
    }
    identity = answer.identity;
    tally = (struct torchvalley_tally){0};
    torchvalley_setup(identity, body, 0, TABLES); /* a packet of no bytes is refused and leaves them all zero */
    printf("identity channels %" PRIu32 " rate %" PRIu32 " blocks %" PRIu32 " %" PRIu32 "\n", identity.channels, identity.rate, identity.blocksize0,
           identity.blocksize1);
}

/* A good setup clears the tally, a refused one leaves no tables. Without an identification the identity is all zero and not sound. */
static void read_setup(size_t length) {
    uint32_t refusal = torchvalley_setup(identity, body, length, TABLES);
    if (refusal != 0) {
        printf("refused %" PRIu32 "\n", refusal);
        return;
    }
    tally = (struct torchvalley_tally){0};
    printf("setup books %" PRIu32 " modes %" PRIu32 "\n", tables.counts[0], tables.counts[4]);
}

static void read_audio(size_t length) {
    struct torchvalley_audio_answer answer =
        torchvalley_audio(&tally, identity, TABLES, body, length, curves, sizeof curves, codewords, sizeof codewords / sizeof codewords[0]);
    if (answer.refusal != 0)
        printf("refused %" PRIu32 "\n", answer.refusal);
    else
        printf("audio block %" PRIu32 " samples %" PRIu64 " words %" PRIu64 "\n", answer.blocksize, answer.samples, answer.codewords);
}

static void read_packet(unsigned kind, size_t length) {
    if (kind == 1)
        read_identification(length);
    else if (kind == 2)
        read_setup(length);
    else if (kind == 3)
        read_audio(length);
    else
        printf("kind unknown\n");
}

/* Reads a body, of which the buffer keeps the last part where it is too long. False where the input ends before. */
static bool read_body(size_t length) {
    for (size_t part; length != 0; length -= part)
        if ((part = fread(body, 1, length < sizeof body ? length : sizeof body, stdin)) == 0)
            return false;
    return true;
}

int main(void) {
    uint8_t header[6];
    uint64_t records = 0;
    for (size_t read; (read = fread(header, 1, sizeof header, stdin)) != 0; records++) {
        size_t length = header[0] | header[1] << 8 | header[2] << 16 | (size_t)header[3] << 24;
        printf("%" PRIu64 " ", records + 1);
        if (read < sizeof header || !read_body(length)) {
            printf("torn\n");
            break;
        }
        if (length > sizeof body)
            printf("too long\n");
        else
            read_packet(header[4] | header[5] << 8, length);
    }
    printf("end %" PRIu64 "\n", records);
    return 0;
}
