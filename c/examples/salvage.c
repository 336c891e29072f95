/* A scarred log of U: bytes were lost, and no silence came. What can be had of it, run by run. */
#include "istrolf.h"
#include <stdio.h>

int main(void) {
    const uint16_t log[] = {0x87, 5, 3, 0, 1, 0x85, 5, 0xFD, 0x87, 0, 0, 2, 1, ISTROLF_BREAK, 0x83, 9, 0, 0, 0};
    const size_t count = sizeof log / sizeof *log;
    uint16_t places[sizeof log / sizeof *log / 3 + 1];
    istrolf_picked p = istrolf_salvage_pick('U', log, count, places, sizeof places / sizeof *places);
    for (size_t i = 0; i < p.runs; i++) {
        printf("report at %u:", (unsigned)places[i]);
        for (size_t j = 0; j < 5; j++) printf(" %02X", (unsigned)log[places[i] + j]);
        printf("\n");
    }
    printf("%u bytes left out\n", (unsigned)p.left);
    return 0;
}
