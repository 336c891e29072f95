/* Text in plain C99: a decimal written, and the word that a line of a recording has. */
#ifndef TEXT_H
#define TEXT_H
#include "plain.h"

/* A decimal of so many digits at least. */
static inline uint8_t *put_number(uint8_t *to, int number, int width) {
    uint8_t digits[12];
    int count = 0;
    unsigned left = number < 0 ? 0u - (unsigned)number : (unsigned)number;
    if (number < 0) *to++ = '-';
    do digits[count++] = (uint8_t)('0' + left % 10);
    while ((left /= 10) > 0 || count < width);
    while (count > 0) *to++ = digits[--count];
    return to;
}

/* The word of a line, or -1. */
static inline int word_on(const uint8_t *line, size_t length) {
    int byte = 0;
    if (length == 1) return line[0] == 'X' ? ISTROLF_BREAK : line[0] == 'Q' ? ISTROLF_SILENCE : -1;
    if (length < 3 || length > 5 || line[0] != 'B' || line[1] != '\t' || (line[2] == '0' && length > 3)) return -1;
    for (size_t i = 2; i < length; i++) {
        if (line[i] < '0' || line[i] > '9') return -1;
        byte = 10 * byte + (line[i] - '0');
    }
    return byte < 256 ? byte : -1;
}
#endif
