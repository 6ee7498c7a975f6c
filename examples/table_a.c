/* Places table A of docs/PROTOCOL.md and prints the answer block in hexadecimal. */
#include "graupenzelt.h"

#include <stdio.h>

int main(void) {
    static const uint8_t block[] = {0x23, 0x32, 0x31, 0x32, 0x02, 0x02, 0x20, 0x03,
                                    0x00, 0x00, 0x10, 0x00, 0x12, 0x01, 0x00, 0x10};
    static uint16_t work[GRAUPENZELT_WORK];
    uint8_t answer[GRAUPENZELT_ANSWER];

    struct graupenzelt_handled r =
        graupenzelt_handle(block, sizeof block, answer, sizeof answer, work, GRAUPENZELT_WORK);
    if (r.number != 0) {
        printf("refused %u at %zu\n", (unsigned)r.number, r.place);
        return 1;
    }
    for (size_t i = 0; i < r.length; i++) {
        printf("%02x%c", answer[i], i + 1 < r.length ? ' ' : '\n');
    }
    return 0;
}
