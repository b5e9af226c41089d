/* Reads one identification packet from standard input and prints what it says, through the C interface. `examples/run` builds it. */
#include <inttypes.h>
#include <stdio.h>
#include <torchvalley.h>

int main(void) {
    uint8_t packet[4096];
    size_t length = fread(packet, 1, sizeof packet, stdin);
    struct torchvalley_identity_answer answer = torchvalley_identification(packet, length);
    if (answer.refusal != 0) {
        printf("1 refused %" PRIu32 "\n", answer.refusal);
        return 0;
    }
    struct torchvalley_identity identity = answer.identity;
    printf("1 identity channels %" PRIu32 " rate %" PRIu32 " blocks %" PRIu32 " %" PRIu32 "\n", identity.channels, identity.rate, identity.blocksize0,
           identity.blocksize1);
    return torchvalley_identity_sound(identity) ? 0 : 2;
}
