/* Lists a recording and reads the listing back: its items, and then those before a faulty line. */
#include "istrolf.h"
#include <stdio.h>

static void read_back(const uint8_t *listing, size_t count) {
    int32_t out[5 * 8];
    istrolf_read_lines r = istrolf_readback_read(istrolf_readback_fresh(), listing, count, out, sizeof out / sizeof *out);
    for (size_t i = 0; i < r.items; i++)
        printf("kind %d line %d: %d %d %d\n", out[5 * i], out[5 * i + 1], out[5 * i + 2], out[5 * i + 3], out[5 * i + 4]);
    if (r.refusal == 0) r = istrolf_readback_finish(r.next, count - r.taken);
    printf("refusal %d, line %u\n", r.refusal, r.line);
}

int main(void) {
    const char recording[] = "F\tV\nB\t5\nB\t108\nB\t5\nB\t61\nQ\n";
    uint8_t listing[400];
    istrolf_listed fed = istrolf_lister_feed(istrolf_lister_fresh(), (const uint8_t *)recording, sizeof recording - 1, listing, sizeof listing);
    istrolf_listed end = istrolf_lister_finish(fed.next, listing + fed.written, sizeof listing - fed.written);
    size_t count = fed.written + end.written;
    read_back(listing, count);
    listing[count - 2] = '-'; /* H and a minus */
    read_back(listing, count);
    return 0;
}
