/* Lengths entered one by one, the codewords of a book, and final Y and the curve of a floor, on the figures of the papers, through the C interface. `examples/run` builds it. */
#include <inttypes.h>
#include <stdio.h>
#include <torchvalley.h>

static void print_bytes(const char *name, const uint8_t *bytes, size_t count) {
    printf("%s", name);
    for (size_t i = 0; i < count; i++)
        printf(" %u", bytes[i]);
    printf("\n");
}

static void book(void) {
    const uint8_t lengths[8] = {2, 4, 4, 4, 4, 2, 3, 3};
    uint32_t words[8];
    printf("book %" PRIu32 ":", torchvalley_codewords(lengths, 8, words, 8));
    for (size_t i = 0; i < 8; i++)
        printf(" %" PRIu32, words[i]);
    printf("\n");
    printf("without the last %" PRIu32 ", one place short %" PRIu32 "\n", torchvalley_codewords(lengths, 7, words, 7),
           torchvalley_codewords(lengths, 8, words, 7));
}

static void entered(void) {
    const uint8_t lengths[5] = {2, 1, 2, 33, 2};
    uint64_t answers[6];
    printf("entered %" PRIu32 ":", torchvalley_enter_lengths(lengths, 5, answers, 6));
    for (size_t i = 0; i < 6; i++)
        printf(" %" PRIu64, answers[i]);
    printf("\none place short %" PRIu32 "\n", torchvalley_enter_lengths(lengths, 5, answers, 4));
}

static void floor_1(void) {
    const uint16_t x[9] = {0, 128, 64, 32, 96, 16, 48, 80, 112};
    const uint16_t values[9] = {110, 20, 9, 89, 0, 49, 19, 60, 19};
    uint8_t y[9], flags[9], curve[17];
    printf("fit %d\n", torchvalley_floor_points(x, 9, values, 9, 1, y, 9, flags, 9));
    print_bytes("final Y", y, 9);
    print_bytes("flags", flags, 9);
    printf("fit %d\n", torchvalley_floor_curve(x, 9, y, 9, flags, 9, 1, curve, 17));
    print_bytes("curve", curve, 17);
    printf("multiplier 5: fit %d\n", torchvalley_floor_points(x, 9, values, 9, 5, y, 9, flags, 9));
}

int main(void) {
    entered();
    book();
    floor_1();
    return 0;
}
