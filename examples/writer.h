/* A packet that an example writes field by field. */
#ifndef WRITER_H
#define WRITER_H

#include <stddef.h>
#include <stdint.h>

static uint8_t packet[256];
static size_t bits;

/* A field, from its low bit up, into the lowest free bits of the packet. */
static void put(uint32_t value, unsigned width) {
    for (unsigned i = 0; i < width; i++, bits++)
        packet[bits / 8] |= (value >> i & 1) << bits % 8;
}

#endif
