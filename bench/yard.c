/* The yard check in plain C99, written from change requests 11 and 14. */
#include "formats.h"
#include <string.h>

/* Can a box send this byte at this place, behind the first and the last byte of its report? It can where the byte fits,
 * but for minus zero in S and -128 on the wire of an eight-bit format. */
INLINE int stands(uint8_t letter, unsigned place, uint8_t first, uint8_t last, uint8_t byte) {
    if (!fits(letter, place, byte)) return 0;
    if (place == 0) return 1;
    switch (letter) {
    case 'S': return byte > 0 || (first & (place == 1 ? 16 : 8)) != 0;
    case 'V': return ((first >> (place == 1 ? 0 : 2) & 3) << 6 | byte) != 128;
    case 'U':
    case 'T': return byte != 128;
    case 'W': return place % 2 != 0 || last != '0' || byte != '8';
    default: return 1;
    }
}

INLINE int good_yard(uint8_t letter, const istrolf_yard *y) {
    if (y->count >= size_of(letter) || y->ended > 1) return 0;
    if (y->count == 0) return y->first == 0 && y->last == 0;
    if (y->ended || !stands(letter, 0, 0, 0, y->first)) return 0;
    return y->count == 1 ? y->last == y->first : stands(letter, y->count - 1u, y->first, 0, y->last);
}

/* A word, to a good check. */
INLINE uint8_t judge(uint8_t letter, istrolf_yard *y, uint16_t word) {
    unsigned count = y->count;
    if (y->ended) return 0;
    if (word < 256 && stands(letter, count, y->first, y->last, (uint8_t)word)) {
        if (count == 0) y->first = (uint8_t)word;
        y->last = (uint8_t)word;
        if (count + 1 < size_of(letter)) {
            y->count++;
            return 1;
        }
    } else if (word < 256 || (word == ISTROLF_SILENCE && count > 0)) {
        y->ended = 1;
    }
    y->first = y->last = y->count = 0;
    return !y->ended;
}

INLINE uint8_t step_in(uint8_t letter, istrolf_yard *y, uint16_t word, uint8_t *can) {
    if (!good_yard(letter, y)) return ISTROLF_BAD_STATE;
    if (word > 257) return ISTROLF_BAD_WORD;
    *can = judge(letter, y, word);
    return ISTROLF_OK;
}

INLINE uint8_t check_in(uint8_t letter, const uint16_t *words, size_t count, uint8_t *proper, size_t *sendable) {
    istrolf_yard y = {letter, 0, 0, 0, 0};
    size_t at = 0;
    for (; at < count && words[at] <= 257; at++)
        if (!judge(letter, &y, words[at])) break;
    for (size_t i = at; i < count; i++)
        if (words[i] > 257) return ISTROLF_BAD_WORD;
    *proper = at == count;
    *sendable = at;
    return ISTROLF_OK;
}

uint8_t plain_yard(istrolf_yard *y, uint8_t letter) {
    int known = size_of(letter) > 0;
    memset(y, 0, sizeof *y);
    y->format = known ? letter : 'U';
    return known ? ISTROLF_OK : ISTROLF_BAD_LETTER;
}

uint8_t plain_yard_step(istrolf_yard *y, uint16_t word, uint8_t *can) {
    *can = 0;
    switch (y->format) {
    case 'S': return step_in('S', y, word, can);
    case 'V': return step_in('V', y, word, can);
    case 'A': return step_in('A', y, word, can);
    case 'B': return step_in('B', y, word, can);
    case 'U': return step_in('U', y, word, can);
    case 'T': return step_in('T', y, word, can);
    case 'W': return step_in('W', y, word, can);
    default: return ISTROLF_BAD_STATE;
    }
}

uint8_t plain_yard_check(uint8_t letter, const uint16_t *words, size_t count, uint8_t *proper, size_t *sendable) {
    *proper = 0, *sendable = 0;
    switch (letter) {
    case 'S': return check_in('S', words, count, proper, sendable);
    case 'V': return check_in('V', words, count, proper, sendable);
    case 'A': return check_in('A', words, count, proper, sendable);
    case 'B': return check_in('B', words, count, proper, sendable);
    case 'U': return check_in('U', words, count, proper, sendable);
    case 'T': return check_in('T', words, count, proper, sendable);
    case 'W': return check_in('W', words, count, proper, sendable);
    default: return ISTROLF_BAD_LETTER;
    }
}
