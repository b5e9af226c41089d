/* voicelog: reads records of Vorbis packets from standard input and prints a line for each (README.md, "The tool").
 *
 * All that it does is proved and lies in the crate voicelog, which voicelog_c exports; this file lends the memory. None of it is on the stack,
 * which stays below 64 KiB.
 */
#define _POSIX_C_SOURCE 200809L

#include <signal.h>
#include <stdint.h>
#include <stdio.h>

/* Takes all records of standard input and writes their lines to standard output. The sizes are exactly these; what the memory holds before does not matter.
 * 0 where the input was read to its end, 1 where standard output failed, 2 where standard input failed, 3 where there are more records than can be counted. */
uint32_t voicelog(uint32_t counts[static 5], uint32_t books[static 2816], uint8_t lengths[static 16384], uint32_t codewords[static 16384],
                  uint16_t multiplicands[static 16384], uint16_t floors[static 17728], uint32_t residues[static 384], uint16_t plans[static 32768],
                  uint8_t mappings[static 51456], uint8_t modes[static 128], uint8_t curves[static 32768], uint32_t words[static 16384],
                  uint8_t input[static 65536], uint8_t lines[static 65536]);

/* The tables of a setup, the outputs of an audio packet, the bytes that were read, the lines that are to be written. */
static uint32_t counts[5], books[2816];
static uint8_t lengths[16384];
static uint32_t codewords[16384];
static uint16_t multiplicands[16384], floors[17728];
static uint32_t residues[384];
static uint16_t plans[32768];
static uint8_t mappings[51456], modes[128];
static uint8_t curves[32768];
static uint32_t words[16384];
static uint8_t input[65536], lines[65536];

int main(int argc, char **argv) {
    static const char *const failed[] = {
        "standard output could not be written",
        "standard input could not be read",
        "there are more records than can be counted",
    };
    (void)argv;
    if (argc > 1) {
        fputs("usage: voicelog < RECORDS\nIt takes no arguments: records come from standard input, and lines go to standard output.\n", stderr);
        return 64;
    }
    /* A reader that has gone is an output that fails, and no sudden end. */
    signal(SIGPIPE, SIG_IGN);
    uint32_t status = voicelog(counts, books, lengths, codewords, multiplicands, floors, residues, plans, mappings, modes, curves, words, input, lines);
    if (status >= 1 && status <= 3)
        fprintf(stderr, "voicelog: %s\n", failed[status - 1]);
    return (int)status;
}
