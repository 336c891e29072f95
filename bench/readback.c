/* The reader of listings in plain C99, written from change requests 2, 12 and 13: reading, and rewriting at the other
 * width. */
#include "plain.h"
#include <string.h>

/* A letter, a line number, three buttons and two numbers of a sign and five digits, each behind its tab. */
enum { LONGEST = 26 };

static int is_digit(uint8_t c) { return c >= '0' && c <= '9'; }

static uint32_t most_at(uint8_t width) { return width == 4 ? 9999 : 999999; }

static int good_readback(const istrolf_readback *r) {
    uint32_t besides = r->ended ? 2 : 1;
    if (r->ended > 1 || r->salvage > 1) return 0;
    if (r->lines == 0) return r->width == 0 && r->last == 0 && !r->ended && !r->salvage;
    return (r->width == 4 || r->width == 6) && r->last <= most_at(r->width) && r->lines >= besides && r->lines <= r->last + besides;
}

/* ---- Fields: each of these reads one behind its tab and gives the place behind it, or NULL. A newline stands behind
 * every line. */

static const uint8_t *take_line_number(const uint8_t *s, unsigned width, int32_t *number) {
    int32_t n = 0;
    if (*s++ != '\t') return NULL;
    for (unsigned i = 0; i < width; i++, s++) {
        if (!is_digit(*s)) return NULL;
        n = 10 * n + (*s - '0');
    }
    *number = n;
    return s;
}

/* A decimal of 16 bits signed, without leading zeros and without a minus before 0. */
static const uint8_t *take_number(const uint8_t *s, int32_t least, int32_t *number) {
    if (*s++ != '\t') return NULL;
    int negative = *s == '-', digits = 0;
    int32_t n = 0;
    s += negative;
    if (*s == '0' && (negative || is_digit(s[1]))) return NULL;
    for (; is_digit(*s); s++) {
        if (++digits > 5) return NULL;
        n = 10 * n + (*s - '0');
    }
    if (negative) n = -n;
    if (digits == 0 || n < least || n > INT16_MAX) return NULL;
    *number = n;
    return s;
}

static const uint8_t *take_buttons(const uint8_t *s, int32_t *number) {
    if (*s++ != '\t') return NULL;
    if ((s[0] != 'L' && s[0] != '-') || (s[1] != 'M' && s[1] != '?' && s[1] != '-') || (s[2] != 'R' && s[2] != '-')) return NULL;
    *number = (s[0] == 'L' ? 4 : 0) + (s[1] == 'M' ? 2 : s[1] == '?' ? 8 : 0) + (s[2] == 'R' ? 1 : 0);
    return s + 3;
}

/* ---- Lines */

/* The five numbers of a line's item, and the place of its newline; NULL where it is none. */
static const uint8_t *take_item(const uint8_t *s, unsigned width, int32_t *item) {
    memset(item, 0, 5 * sizeof *item);
    switch (*s++) {
    case 'R':
        item[0] = ISTROLF_ITEM_R;
        if ((s = take_line_number(s, width, &item[1])) == NULL || (s = take_buttons(s, &item[2])) == NULL) return NULL;
        if ((s = take_number(s, INT16_MIN, &item[3])) == NULL || (s = take_number(s, INT16_MIN, &item[4])) == NULL) return NULL;
        break;
    case 'D':
        item[0] = ISTROLF_ITEM_D;
        if ((s = take_line_number(s, width, &item[1])) == NULL || (s = take_number(s, 1, &item[2])) == NULL) return NULL;
        break;
    case 'H':
        item[0] = ISTROLF_ITEM_H;
        if ((s = take_number(s, 0, &item[2])) == NULL) return NULL;
        break;
    case 'E':
        item[0] = ISTROLF_ITEM_OVER;
        if (s[0] == '\t' && s[1] == 'o' && s[2] == 'v' && s[3] == 'e' && s[4] == 'r') {
            s += 5;
            break;
        }
        item[0] = ISTROLF_ITEM_E;
        if ((s = take_line_number(s, width, &item[1])) == NULL) return NULL;
        break;
    default: return NULL;
    }
    return *s == '\n' ? s : NULL;
}

static int is_numbered(const int32_t *item) { return item[0] != 0 && item[0] != ISTROLF_ITEM_H && item[0] != ISTROLF_ITEM_OVER; }

static const uint8_t *take_opening(istrolf_readback *r, const uint8_t *s) {
    if ((s[0] != 'L' && s[0] != 'S') || s[1] != '\t' || (s[2] != '4' && s[2] != '6') || s[3] != '\n') return NULL;
    r->salvage = s[0] == 'S';
    r->width = (uint8_t)(s[2] - '0');
    return s + 3;
}

/* A whole line in its place: its newline, with the reader behind it, or NULL where it is faulty. The item of the first
 * line is 0. */
static const uint8_t *take_line(istrolf_readback *r, const uint8_t *line, int32_t *item) {
    const uint8_t *end;
    item[0] = 0;
    if (r->ended) return NULL;
    if (r->lines == 0) {
        end = take_opening(r, line);
    } else {
        end = take_item(line, r->width, item);
        if (end == NULL) return NULL;
        if (is_numbered(item)) {
            if ((uint32_t)item[1] <= r->last) return NULL;
            r->last = (uint32_t)item[1];
        }
        r->ended = item[0] >= ISTROLF_ITEM_H;
    }
    r->lines += end != NULL;
    return end;
}

/* How many bytes of a piece are whole lines. */
static size_t whole_of(const uint8_t *input, size_t count) {
    while (count > 0 && input[count - 1] != '\n') count--;
    return count;
}

void plain_readback(istrolf_readback *r) { memset(r, 0, sizeof *r); }

uint8_t plain_readback_read(istrolf_readback *r, const uint8_t *input, size_t count, int32_t *out, size_t room, plain_lines *told) {
    size_t whole = whole_of(input, count), used = 0;
    const uint8_t *s = input, *end = input + whole;
    uint8_t refusal = ISTROLF_OK;
    memset(told, 0, sizeof *told);
    if (!good_readback(r)) return ISTROLF_BAD_STATE;
    while (s < end) {
        istrolf_readback next = *r;
        int32_t item[5];
        const uint8_t *newline = take_line(&next, s, item);
        if (newline == NULL) {
            refusal = ISTROLF_BAD_LISTING;
            break;
        }
        if (item[0] > 0) {
            if (room - used < 5) break;
            memcpy(out + used, item, sizeof item);
            used += 5;
        }
        *r = next;
        s = newline + 1;
    }
    if (s == end && count - whole > LONGEST) refusal = ISTROLF_BAD_LISTING;
    told->taken = (size_t)(s - input);
    told->given = used / 5;
    told->line = refusal == ISTROLF_OK ? 0 : r->lines + 1;
    return refusal;
}

uint8_t plain_readback_finish(const istrolf_readback *r, size_t left, uint32_t *line) {
    *line = 0;
    if (!good_readback(r)) return ISTROLF_BAD_STATE;
    if (r->ended && left == 0) return ISTROLF_OK;
    *line = r->lines + 1;
    return ISTROLF_BAD_LISTING;
}

/* A line at the other width: its number alone is written anew, or the width that the first line tells. */
static void put_line(unsigned from, unsigned width, const uint8_t *line, size_t length, const int32_t *item, uint8_t *to) {
    if (!is_numbered(item)) {
        memcpy(to, line, length);
        if (item[0] == 0) to[2] = (uint8_t)('0' + width);
        return;
    }
    unsigned left = (unsigned)item[1];
    to[0] = line[0], to[1] = '\t';
    for (unsigned i = width; i > 0; i--, left /= 10) to[1 + i] = (uint8_t)('0' + left % 10);
    memcpy(to + 2 + width, line + 2 + from, length - 2 - from);
}

uint8_t plain_readback_rewrite(istrolf_readback *r, const uint8_t *input, size_t count, uint8_t *out, size_t room, plain_lines *told) {
    size_t whole = whole_of(input, count), used = 0;
    const uint8_t *s = input, *end = input + whole;
    uint8_t refusal = ISTROLF_OK;
    memset(told, 0, sizeof *told);
    if (!good_readback(r)) return ISTROLF_BAD_STATE;
    while (s < end) {
        istrolf_readback next = *r;
        int32_t item[5] = {0, 0, 0, 0, 0};
        const uint8_t *newline = take_line(&next, s, item);
        if (newline == NULL || (next.width == 6 && item[1] > 9999)) {
            refusal = newline == NULL ? ISTROLF_BAD_LISTING : ISTROLF_TOO_WIDE;
            break;
        }
        unsigned from = next.width, width = from == 4 ? 6 : 4;
        size_t length = (size_t)(newline + 1 - s), behind = is_numbered(item) ? length + width - from : length;
        if (room - used < behind) break;
        put_line(from, width, s, length, item, out + used);
        used += behind;
        *r = next;
        s = newline + 1;
    }
    if (s == end && count - whole > LONGEST) refusal = ISTROLF_BAD_LISTING;
    told->taken = (size_t)(s - input);
    told->given = used;
    told->line = refusal == ISTROLF_OK ? 0 : r->lines + 1;
    return refusal;
}
