/* The ten lists of a setup, for the examples. */
#ifndef TABLES_H
#define TABLES_H

#include <torchvalley.h>

/* Each list has its fixed need. 274 KiB are much for a stack, so a program has one set of them. */
static struct {
    uint32_t counts[5], books[2816];
    uint8_t lengths[16384];
    uint32_t codewords[16384];
    uint16_t multiplicands[16384], floors[17728];
    uint32_t residues[384];
    uint16_t plans[32768];
    uint8_t mappings[51456], modes[128];
} tables;

/* The ten lists, as pointer and length, in the order of the calls. */
#define LIST(name) tables.name, sizeof tables.name / sizeof tables.name[0]
#define TABLES LIST(counts), AFTER_COUNTS
#define AFTER_COUNTS                                                                                                                                 \
    LIST(books), LIST(lengths), LIST(codewords), LIST(multiplicands), LIST(floors), LIST(residues), LIST(plans), LIST(mappings), LIST(modes)

#endif
