/* Torchvalley: a reader of Vorbis I packets whose every answer is proved.
 *
 * Link target/staticlib/libtorchvalley.a, which `.ci/library` builds of the crate torchvalley_c (x86-64 Linux).
 *
 * No call allocates, keeps state, or asks anything of its input: any bytes and any numbers may be handed in. The caller's only duty is
 * that a pointer, which is never null, and the length beside it name memory that may be read and that nobody writes to during the call.
 * A list that is lent for the answer (no const) may also be written, and shares no byte with another list of the call. What it holds before the
 * call does not matter: every place of it is written.
 */
#ifndef TORCHVALLEY_H
#define TORCHVALLEY_H

#include <stdbool.h>
#include <stddef.h>
#include <stdint.h>

#ifdef __cplusplus
extern "C" {
#endif

/* What the identification packet says of a stream. */
struct torchvalley_identity {
    uint32_t channels;        /* 1 to 8 */
    uint32_t rate;            /* samples a second, not 0 */
    int32_t bitrate_maximum;  /* the three bitrates are hints and not judged */
    int32_t bitrate_nominal;
    int32_t bitrate_minimum;
    uint32_t blocksize0;      /* samples of a short block: 64, 128, 256, 512, 1024, 2048, 4096 or 8192 */
    uint32_t blocksize1;      /* samples of a long block, from the same list and not below blocksize0 */
};

struct torchvalley_identity_answer {
    /* 0 where the packet is accepted. Else why it is sent back:
     *    1  the packet ends before a bit that is needed
     *    2  the type byte is not 1, or the name not "vorbis"
     *    3  the version is not 0
     *    4  no channel, rate 0, a block size not 64 to 8192, or the first larger than the second
     *    5  the framing bit is 0
     *   14  more than 8 channels
     * Where several apply, the first in reading order is given. */
    uint32_t refusal;
    /* All zero on a refusal. */
    struct torchvalley_identity identity;
};

/* Reads the identification packet of `length` bytes at `packet`. Bits after the framing bit are ignored. */
struct torchvalley_identity_answer torchvalley_identification(const uint8_t *packet, size_t length);

/* Whether an identity is sound: refusals 4 and 14 would not refuse it. Every accepted identity is. */
bool torchvalley_identity_sound(struct torchvalley_identity identity);

/* The tables of a setup are ten lists, which docs/TABLES.md draws. Each has a fixed need of so many numbers; a longer one is as good, and has zeros
 * behind what is written:
 *
 *   counts              5  how many books, floors, residues, mappings and modes there are
 *   books           2,816  11 for each book
 *   lengths        16,384  one for each entry of all books
 *   codewords      16,384  one for each entry of all books
 *   multiplicands  16,384
 *   floors         17,728  277 for each floor
 *   residues          384  6 for each residue
 *   plans          32,768  512 for each residue
 *   mappings       51,456  804 for each mapping
 *   modes             128  2 for each mode */

/* Reads the setup packet of a stream whose identification packet gave `identity`. The answer is 0, and then the tables hold the packet's content and
 * are sound with the identity; or the number of a refusal, and then every table is all zero:
 *    1  the packet ends before a bit that is needed
 *    2  the type byte is not 5, or the name not "vorbis"
 *    5  the framing bit is 0
 *    6  a codebook has a wrong pattern, no dimension, no entry, a run past its entries, an ordered length above 32 or an unknown lookup type
 *    7  a codeword's length asks for more code space than is free
 *    8  a codebook leaves code space over; but a sole used entry of length 1 is accepted
 *    9  a time value, mapping type, reserved field, window type or transform type is not 0
 *   10  the type of a floor is above 1, or that of a residue above 2
 *   11  a codebook, channel, submap, floor, residue or mapping is named that is not there, or a channel is coupled with itself
 *   12  a floor has more than 65 X values, or two equal ones
 *   13  a residue begins after its end, has more classifications than its class book can name, a vector book without values, or a partition that its
 *       vectors do not fill
 *   14  more than 8,192 entries in a codebook, 16,384 entries or 16,384 multiplicands in all; or a floor of type 0
 *   17  a table is shorter than its fixed need
 *   18  the identity is not sound
 * 18 goes before 17, and 17 before all others, of which the first in reading order is given. Bits after the framing bit are ignored. */
uint32_t torchvalley_setup(struct torchvalley_identity identity, const uint8_t *packet, size_t packet_length, uint32_t *counts, size_t counts_length,
                           uint32_t *books, size_t books_length, uint8_t *lengths, size_t lengths_length, uint32_t *codewords,
                           size_t codewords_length, uint16_t *multiplicands, size_t multiplicands_length, uint16_t *floors, size_t floors_length,
                           uint32_t *residues, size_t residues_length, uint16_t *plans, size_t plans_length, uint8_t *mappings,
                           size_t mappings_length, uint8_t *modes, size_t modes_length);

/* Whether identity and tables are sound: the identity is, and the tables are the writing-out of some content that meets every rule for its channels.
 * That content is one alone, whatever the identity. Tables as an accepted packet left them are sound, with the identity of that call; tables that are
 * too short or all zero are not. */
bool torchvalley_setup_sound(struct torchvalley_identity identity, const uint32_t *counts, size_t counts_length, const uint32_t *books,
                             size_t books_length, const uint8_t *lengths, size_t lengths_length, const uint32_t *codewords,
                             size_t codewords_length, const uint16_t *multiplicands, size_t multiplicands_length, const uint16_t *floors,
                             size_t floors_length, const uint32_t *residues, size_t residues_length, const uint16_t *plans,
                             size_t plans_length, const uint8_t *mappings, size_t mappings_length, const uint8_t *modes, size_t modes_length);

struct torchvalley_codeword {
    /* 0 where a codeword was read. Else why none was, and all below is zero:
     *    1  the packet ends before a bit that is needed, or the place asked for lies past its end
     *   11  there is no such book
     *   18  identity or tables are not sound, a table shorter than its fixed need among them
     * 18 goes before 11, and 11 before 1. */
    uint32_t refusal;
    /* The number of the entry that was read. */
    uint32_t entry;
    /* The place behind its codeword: the byte of the packet, and the bit in it, 0 to 7. */
    size_t byte;
    uint8_t bit;
};

/* Reads one codeword of book number `book` of the tables, in any packet, from bit 8 * byte + bit of it on. Bit 0 is the lowest of its byte, and a bit
 * above 7 counts on into the next bytes. A sole used entry takes one bit, which may be either. */
struct torchvalley_codeword torchvalley_codeword(struct torchvalley_identity identity, const uint32_t *counts, size_t counts_length,
                                                 const uint32_t *books, size_t books_length, const uint8_t *lengths, size_t lengths_length,
                                                 const uint32_t *codewords, size_t codewords_length, const uint16_t *multiplicands,
                                                 size_t multiplicands_length, const uint16_t *floors, size_t floors_length,
                                                 const uint32_t *residues, size_t residues_length, const uint16_t *plans, size_t plans_length,
                                                 const uint8_t *mappings, size_t mappings_length, const uint8_t *modes, size_t modes_length,
                                                 uint32_t book, const uint8_t *packet, size_t packet_length, size_t byte, uint8_t bit);

/* How far a stream has come. The caller sets both numbers to 0 before its first audio packet. */
struct torchvalley_tally {
    uint32_t blocksize; /* the block size of the last accepted audio packet */
    uint64_t samples;   /* the samples finished so far */
};

/* Where the window of a block rises and falls, in samples of the block. */
struct torchvalley_window {
    uint32_t left_start;
    uint32_t left_end;
    uint32_t right_start;
    uint32_t right_end;
};

struct torchvalley_audio_answer {
    /* 0 where the packet is accepted. Else why it is sent back, and all below is zero:
     *    1  the packet ends before a bit that is needed for type, mode or window flags; a packet of no bytes does
     *   15  the first bit is 1: no audio packet
     *   16  there is no such mode
     *   17  `curves` or `codewords` has too few places
     *   18  identity or tables are not sound, a table shorter than its fixed need among them; or the tally is not
     *   19  the samples would pass 18446744073709551615
     * 18 goes before all others; then 1, 15 and 16 as they come in reading order; then 17, and 19 last. */
    uint32_t refusal;
    uint32_t mode;      /* the number of the mode */
    uint32_t blocksize; /* the samples of the block, n below */
    uint32_t previous;  /* the window flags: 1 where the block before, or after, is long; both 0 in a short block */
    uint32_t next;
    struct torchvalley_window window;
    uint64_t samples;   /* the samples that this packet finishes; none for the first of a stream */
    uint64_t codewords; /* how many codewords the residues have */
    uint8_t used[255];  /* for each channel 1 where its floor is used, else 0; zeros behind the last channel */
};

/* Reads an audio packet of a stream, by the tables that its setup packet left, and brings the tally up to date where it lies. `table_codewords` is
 * the list `codewords` of the tables; `codewords` is an output here.
 *
 * The tally is sound when both its numbers are 0, or its block size is one of the identity's two. It is read and written, and shares no byte with a
 * list of the call.
 *
 * `curves` needs n/2 bytes for each channel and gets the curves of the floors, channel after channel, zeros for an unused floor. `codewords` needs a
 * place for each codeword of the residues and gets them in reading order: twice the number of the entry, plus 1 where it names a vector and not a
 * class word. Places behind what is written are 0. Curves never need more than 32,768 bytes, nor codewords more than 294,912 places.
 *
 * A refused packet leaves the tally as it stood, and both outputs all zero. A packet that ends after its window flags is accepted: a floor that is not
 * there whole is unused, as are those of later channels, and the codewords are those before the end. Bits after the last needed one are ignored. */
struct torchvalley_audio_answer torchvalley_audio(struct torchvalley_tally *tally, struct torchvalley_identity identity, const uint32_t *counts,
                                                  size_t counts_length, const uint32_t *books, size_t books_length, const uint8_t *lengths,
                                                  size_t lengths_length, const uint32_t *table_codewords, size_t table_codewords_length,
                                                  const uint16_t *multiplicands, size_t multiplicands_length, const uint16_t *floors,
                                                  size_t floors_length, const uint32_t *residues, size_t residues_length, const uint16_t *plans,
                                                  size_t plans_length, const uint8_t *mappings, size_t mappings_length, const uint8_t *modes,
                                                  size_t modes_length, const uint8_t *packet, size_t packet_length, uint8_t *curves,
                                                  size_t curves_length, uint32_t *codewords, size_t codewords_length);

/* An audio answer, and the tally after the packet: as it stood where that was refused. */
struct torchvalley_audio_left {
    struct torchvalley_tally tally;
    struct torchvalley_audio_answer answer;
};

/* The same with the tally by value. */
struct torchvalley_audio_left torchvalley_audio_by_value(
    struct torchvalley_tally tally, struct torchvalley_identity identity, const uint32_t *counts, size_t counts_length, const uint32_t *books,
    size_t books_length, const uint8_t *lengths, size_t lengths_length, const uint32_t *table_codewords, size_t table_codewords_length,
    const uint16_t *multiplicands, size_t multiplicands_length, const uint16_t *floors, size_t floors_length, const uint32_t *residues,
    size_t residues_length, const uint16_t *plans, size_t plans_length, const uint8_t *mappings, size_t mappings_length, const uint8_t *modes,
    size_t modes_length, const uint8_t *packet, size_t packet_length, uint8_t *curves, size_t curves_length, uint32_t *codewords,
    size_t codewords_length);

/* Enters lengths one by one into a space of codewords, at first empty. `lengths` has `count` of them, any bytes; `answers` gets a number for each, in
 * order: the lowest codeword of that length that is free, whose leftmost bit is the highest of as many bits as the length says, and which is free no
 * more; or 4294967296, a refusal, which changes nothing, where the length asks for more code space than is free or is not 1 to 32. Places of
 * `answers` behind them are 0. The answer is 0; or 17, and then `answers` is all zero:
 *   17  `answers` has fewer places than there are lengths */
uint32_t torchvalley_enter_lengths(const uint8_t *lengths, size_t count, uint64_t *answers, size_t places);

/* Hands out the codewords of a book. `lengths` has the length of each of its entries, 1 to 32, or 0 for an unused one; `words` gets a number for
 * each entry: its codeword, whose leftmost bit is the highest of as many bits as the length says, or 0 for an unused one. In entry order each is
 * the lowest that is free. Places of `words` behind them are 0. The answer is 0, or the number of a refusal, and then `words` is all zero:
 *    7  a length asks for more code space than is free, or is above 32
 *    8  code space is left over, or no entry is used; but a sole used entry of length 1 is accepted
 *   17  `words` has fewer places than there are entries */
uint32_t torchvalley_codewords(const uint8_t *lengths, size_t entries, uint32_t *words, size_t places);

/* Final Y and flags of a floor of type 1, from its X list and the values that an audio packet has for it. In list order `y` gets each point's Y
 * below the range that goes with the multiplier, and `flags` 1 where the curve passes through the point, else 0. True where the lists fit each
 * other: 2 to 65 X, as many values and places of `y` and `flags`, a multiplier of 1 to 4. Otherwise false, and `y` and `flags` are all zero. */
bool torchvalley_floor_points(const uint16_t *x, size_t x_count, const uint16_t *values, size_t value_count, uint8_t multiplier, uint8_t *y,
                              size_t y_count, uint8_t *flags, size_t flag_count);

/* The curve of a floor of type 1 through its points whose flag is not 0, at each place of `out`, which has n/2 for a block of n samples. A height
 * is Y times the multiplier, at most 255. True where there are as many X, Y and flags, at least one, and the first X is 0. Otherwise false, and
 * `out` is all zero. */
bool torchvalley_floor_curve(const uint16_t *x, size_t x_count, const uint8_t *y, size_t y_count, const uint8_t *flags, size_t flag_count,
                             uint8_t multiplier, uint8_t *out, size_t out_count);

#ifdef __cplusplus
}
#endif

#endif
