/* The bridge to recorders that know only V, in plain C99, written from change request 8. */
#include "formats.h"
#include <string.h>

enum { MOST = 127 }; /* what a V report carries on either axis */

static int good_bridge(const istrolf_bridge *b) {
    int most = b->based ? 4095 : 0;
    if (b->based > 1 || b->middle > 1 || (b->based && b->reader.format != 'A')) return 0;
    return b->x >= 0 && b->x <= most && b->y >= 0 && b->y <= most;
}

static int needs(int d) { return ((d < 0 ? -d : d) + MOST - 1) / MOST; }

static int held(int d) { return d < -MOST ? -MOST : d > MOST ? MOST : d; }

/* The V reports of a movement; buttons are L and R. Their number, or 0 where they have no room. */
static size_t split(int buttons, int x, int y, uint8_t *out, size_t room) {
    int across = needs(x), along = needs(y), count = across > along ? across : along;
    uint8_t first = (uint8_t)(0x40 | (buttons & 4) << 3 | (buttons & 1) << 4);
    if (count == 0) count = 1;
    if (room < 3 * (size_t)count) return 0;
    for (int i = 0; i < count; i++, out += 3) {
        int dx = held(x), dy = -held(y);
        out[0] = (uint8_t)(first | (dy >> 4 & 12) | (dx >> 6 & 3));
        out[1] = dx & 63;
        out[2] = dy & 63;
        x -= dx, y += dy;
    }
    return (size_t)count;
}

/* A report that came in: its V reports, and what is remembered of it. */
INLINE size_t pass_on(uint8_t letter, istrolf_bridge *b, const int16_t *p, uint8_t *out, size_t room) {
    int x = p[1] + p[3], y = p[2] + p[4], middle = p[0] >> 1 & 1;
    if (letter == 'A') x = b->based ? p[1] - b->x : 0, y = b->based ? p[2] - b->y : 0;
    size_t sent = split(p[0], x, y, out, room);
    if (sent == 0) return 0;
    if (letter == 'A') b->based = 1, b->x = p[1], b->y = p[2];
    if (middle && !b->middle && b->presses < 65535) b->presses++;
    b->middle = (uint8_t)middle;
    return sent;
}

/* The words of a line to a bridge of this format. */
INLINE uint8_t convert_in(uint8_t letter, istrolf_bridge *b, const uint16_t *words, size_t count, uint8_t *out, size_t room, plain_counts *counts, size_t *sent) {
    istrolf_reader *r = &b->reader;
    unsigned size = size_of(letter), n = r->count;
    int marked = is_marked(letter), awaiting = r->awaiting;
    size_t at = 0, reports = 0, dropped = 0, used = 0;
    uint8_t kept[5], refusal = ISTROLF_OK;
    if (!good_reader(letter, r)) return ISTROLF_BAD_STATE;
    memcpy(kept, r->kept, 5);
    for (; at < count; at++) {
        uint8_t byte = (uint8_t)(letter == 'V' ? words[at] & 0x7F : words[at]);
        if (words[at] >= 256) {
            if (words[at] > 257) {
                refusal = ISTROLF_BAD_WORD;
                break;
            }
            dropped += n;
            n = 0;
            awaiting = words[at] == 256 && !marked;
        } else if (awaiting) {
            dropped++;
        } else if (fits(letter, n, byte)) {
            kept[n] = byte;
            if (n + 1 == size) {
                int16_t report[5];
                decode(letter, kept, report);
                size_t more = pass_on(letter, b, report, out + used, room - used);
                if (more == 0) break;
                used += 3 * more, reports++;
                n = 0;
            } else {
                n++;
            }
        } else if (marked && fits(letter, 0, byte)) {
            dropped += n;
            kept[0] = byte;
            n = 1;
        } else {
            dropped += n + 1;
            n = 0;
            awaiting = !marked;
        }
    }
    for (unsigned i = 0; i < 5; i++) r->kept[i] = i < n ? kept[i] : 0;
    r->count = (uint8_t)n, r->awaiting = (uint8_t)awaiting;
    counts->taken = at, counts->reports = reports, counts->dropped = dropped;
    *sent = used / 3;
    return refusal;
}

uint8_t plain_bridge(istrolf_bridge *b, uint8_t letter) {
    memset(b, 0, sizeof *b);
    return plain_fresh(&b->reader, letter);
}

uint8_t plain_convert(istrolf_bridge *b, const uint16_t *words, size_t count, uint8_t *out, size_t room, plain_counts *counts, size_t *sent) {
    counts->taken = counts->reports = counts->dropped = *sent = 0;
    if (!good_bridge(b)) return ISTROLF_BAD_STATE;
    switch (b->reader.format) {
    case 'S': return convert_in('S', b, words, count, out, room, counts, sent);
    case 'V': return convert_in('V', b, words, count, out, room, counts, sent);
    case 'A': return convert_in('A', b, words, count, out, room, counts, sent);
    case 'B': return convert_in('B', b, words, count, out, room, counts, sent);
    case 'U': return convert_in('U', b, words, count, out, room, counts, sent);
    case 'T': return convert_in('T', b, words, count, out, room, counts, sent);
    case 'W': return convert_in('W', b, words, count, out, room, counts, sent);
    default: return ISTROLF_BAD_STATE;
    }
}
