/* The reader of the Digital VSXXX in plain C99, written from change request 9 and figures C-4 and C-5 of document 001.
 * */
#include "formats.h"
#include <string.h>

INLINE int is_test(uint8_t first) { return (first & 0xF0) == 0xA0; }

INLINE int begins(uint8_t byte) { return (byte & 0xE0) == 0x80 || is_test(byte); }

INLINE unsigned size_from(uint8_t first) { return is_test(first) ? 4 : 3; }

/* May this byte stand at a place behind the first? */
INLINE int goes_on(unsigned place, uint8_t byte) { return place == 3 ? byte < 8 : byte < 0x80; }

static int good_puck_reader(const istrolf_puck_reader *r) {
    const uint8_t *k = r->kept;
    if (r->count == 0) return k[0] == 0 && k[1] == 0 && k[2] == 0;
    if (!begins(k[0]) || r->count >= size_from(k[0])) return 0;
    return (r->count > 1 ? k[1] < 0x80 : k[1] == 0) && (r->count > 2 ? k[2] < 0x80 : k[2] == 0);
}

/* The six numbers of a report. */
INLINE void write_six(const uint8_t *b, int16_t *out) {
    if (is_test(b[0])) {
        out[0] = b[2] >= ISTROLF_FATAL ? 2 : 1;
        out[1] = b[0] & 15;
        out[2] = b[1] >> 4;
        out[3] = b[1] & 15;
        out[4] = b[2];
        out[5] = b[3];
    } else {
        out[0] = 0;
        decode('S', b, out + 1);
    }
}

void plain_puck_reader(istrolf_puck_reader *r) { memset(r, 0, sizeof *r); }

INLINE uint8_t read_puck(istrolf_puck_reader *r, const uint16_t *words, size_t count, int16_t *out, size_t room, plain_counts *counts) {
    unsigned n = r->count;
    size_t at = 0, reports = 0, dropped = 0;
    uint8_t kept[4] = {0, 0, 0, 0}, refusal = ISTROLF_OK;
    counts->taken = counts->reports = counts->dropped = 0;
    if (!good_puck_reader(r)) return ISTROLF_BAD_STATE;
    memcpy(kept, r->kept, 3);
    for (; at < count; at++) {
        uint16_t word = words[at];
        uint8_t byte = (uint8_t)word;
        if (word >= 256) {
            if (word > 257) {
                refusal = ISTROLF_BAD_WORD;
                break;
            }
            dropped += n;
            n = 0;
        } else if (begins(byte)) {
            dropped += n;
            kept[0] = byte;
            n = 1;
        } else if (n == 0 || !goes_on(n, byte)) {
            dropped += n + 1;
            n = 0;
        } else if (n + 1 < size_from(kept[0])) {
            kept[n++] = byte;
        } else {
            if (room < 6) break;
            kept[n] = byte;
            write_six(kept, out);
            out += 6, room -= 6, reports++;
            n = 0;
        }
    }
    for (unsigned i = 0; i < 3; i++) r->kept[i] = i < n ? kept[i] : 0;
    r->count = (uint8_t)n;
    counts->taken = at, counts->reports = reports, counts->dropped = dropped;
    return refusal;
}

uint8_t plain_puck_read(istrolf_puck_reader *r, const uint16_t *words, size_t count, int16_t *out, size_t room, plain_counts *counts) {
    return read_puck(r, words, count, out, room, counts);
}

uint8_t plain_puck_step(istrolf_puck_reader *r, uint16_t word, plain_puck_answer *answer) {
    int16_t six[6];
    plain_counts c;
    uint8_t refusal = read_puck(r, &word, 1, six, 6, &c);
    int tests = c.reports > 0 && six[0] > 0;
    answer->tests = (uint8_t)tests, answer->movements = (uint8_t)(c.reports > 0 && !tests), answer->dropped = (uint8_t)c.dropped;
    if (answer->movements) {
        istrolf_report p = {(uint8_t)six[1], six[2], six[3], 0, 0};
        answer->movement = p;
    } else if (tests) {
        istrolf_self_test t = {(uint8_t)six[1], (uint8_t)six[2], (uint8_t)six[3], (uint8_t)six[4], (uint8_t)six[5]};
        answer->test = t;
    }
    return refusal;
}
