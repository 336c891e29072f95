/* The seven formats in plain C99, by their letters: sizes, marks, which byte may stand where, and the numbers of a
 * report; and a good reader. What goes by the letter is inlined, so that a loop that calls it with a constant letter is
 * one for that format. */
#ifndef FORMATS_H
#define FORMATS_H
#include "plain.h"

#define INLINE static inline __attribute__((always_inline))

INLINE unsigned size_of(uint8_t letter) {
    switch (letter) {
    case 'S': case 'V': case 'T': return 3;
    case 'A': case 'B': case 'U': case 'W': return 5;
    default: return 0;
    }
}

INLINE int is_marked(uint8_t letter) { return letter == 'S' || letter == 'V' || letter == 'A' || letter == 'B'; }

INLINE int odd(uint8_t byte) { return __builtin_parity(byte); }

INLINE int digit(uint8_t c) { return c >= '0' && c <= '9' ? c - '0' : c >= 'A' && c <= 'F' ? c - 'A' + 10 : -1; }

/* May this byte stand at this place? */
INLINE int fits(uint8_t letter, unsigned place, uint8_t byte) {
    switch (letter) {
    case 'S': return place == 0 ? (byte & 0xE0) == 0x80 : byte < 0x80;
    case 'V': return (byte & 0xC0) == (place == 0 ? 0x40 : 0);
    case 'A':
    case 'B': return (place == 0 ? (byte & 0x63) == 0x40 : (byte & 0x40) == 0) && !odd(byte);
    case 'U': return place > 0 || (byte & 0xF8) == 0x80;
    case 'T': return place > 0 || byte < 8;
    case 'W': return place > 0 ? digit(byte) >= 0 : byte >= '0' && byte <= '7';
    default: return 0;
    }
}

/* A number of so many bits, two's complement. */
INLINE int16_t signed_of(unsigned value, unsigned bits) { return (int16_t)(value >> (bits - 1) ? (int)value - (1 << bits) : (int)value); }

/* The five numbers of a report: buttons, x1, y1, x2, y2. */
INLINE void decode(uint8_t letter, const uint8_t *b, int16_t *out) {
    out[3] = out[4] = 0;
    switch (letter) {
    case 'S':
        out[0] = b[0] & 7;
        out[1] = b[0] & 16 ? b[1] : -b[1];
        out[2] = b[0] & 8 ? b[2] : -b[2];
        break;
    case 'V':
        out[0] = (b[0] >> 3 & 4) | (b[0] >> 4 & 1);
        out[1] = signed_of((b[0] & 3u) << 6 | b[1], 8);
        out[2] = -signed_of((b[0] & 12u) << 4 | b[2], 8);
        break;
    case 'A':
    case 'B': {
        unsigned x = (b[2] & 63u) << 6 | (b[1] & 63u), y = (b[4] & 63u) << 6 | (b[3] & 63u);
        out[0] = b[0] >> 2 & 7;
        out[1] = letter == 'A' ? (int16_t)x : signed_of(x, 12);
        out[2] = letter == 'A' ? (int16_t)y : signed_of(y, 12);
        break;
    }
    case 'U':
        out[0] = ~b[0] & 7;
        for (int i = 1; i < 5; i++) out[i] = signed_of(b[i], 8);
        break;
    case 'T':
        out[0] = b[0];
        out[1] = signed_of(b[1], 8), out[2] = signed_of(b[2], 8);
        break;
    case 'W':
        out[0] = b[0] - '0';
        out[1] = signed_of((unsigned)(digit(b[2]) << 4 | digit(b[1])), 8);
        out[2] = signed_of((unsigned)(digit(b[4]) << 4 | digit(b[3])), 8);
        break;
    }
}

INLINE int good_reader(uint8_t letter, const istrolf_reader *r) {
    if (r->count >= size_of(letter) || r->awaiting > (r->count == 0 && !is_marked(letter))) return 0;
    for (unsigned i = 0; i < 5; i++)
        if (i < r->count ? !fits(letter, i, r->kept[i]) : r->kept[i] != 0) return 0;
    return 1;
}
#endif
