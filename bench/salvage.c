/* The salvage of a scarred log in plain C99, written from change request 12: the runs that are picked, and the listing
 * of a recording. */
#include "formats.h"
#include "text.h"
#include <string.h>

/* ---- The runs. The first that starts is always right: one that starts later ends later, so it leaves no more behind
 * it and more before. */

INLINE int starts(uint8_t letter, const uint16_t *words, size_t count) {
    unsigned size = size_of(letter);
    if (count < size) return 0;
    for (unsigned i = 0; i < size; i++)
        if (words[i] > 255 || !fits(letter, i, (uint8_t)words[i])) return 0;
    return 1;
}

INLINE void pick_in(uint8_t letter, const uint16_t *words, size_t count, uint16_t *places, size_t room, plain_picked *told) {
    size_t at = 0, runs = 0, left = 0;
    while (at < count) {
        if (!starts(letter, words + at, count - at)) {
            left += words[at++] < 256;
            continue;
        }
        if (runs == room) break;
        places[runs++] = (uint16_t)at;
        at += size_of(letter);
    }
    told->taken = at, told->runs = runs, told->left = left;
}

uint8_t plain_pick(uint8_t letter, const uint16_t *words, size_t count, uint16_t *places, size_t room, plain_picked *told) {
    memset(told, 0, sizeof *told);
    if (size_of(letter) == 0) return ISTROLF_BAD_LETTER;
    if (is_marked(letter)) return ISTROLF_MARKED;
    if (count > ISTROLF_SALVAGE_WORDS) return ISTROLF_LONG_LOG;
    for (size_t i = 0; i < count; i++)
        if (words[i] > 257) return ISTROLF_BAD_WORD;
    switch (letter) {
    case 'U': pick_in('U', words, count, places, room, told); break;
    case 'T': pick_in('T', words, count, places, room, told); break;
    default: pick_in('W', words, count, places, room, told); break;
    }
    return ISTROLF_OK;
}

/* ---- The recording, to the log of its words. */

typedef struct {
    uint8_t letter;
    size_t bad;  /* the line of which an E stands alone, or 0 */
    int over;    /* too many words: E over stands alone */
    size_t count;
    uint16_t words[ISTROLF_SALVAGE_WORDS];
} plain_log;

static void take_log(plain_log *log, const uint8_t *input, size_t count) {
    log->letter = 0, log->bad = 0, log->over = 0, log->count = 0;
    size_t line = 0, at = 0;
    while (at < count) {
        const uint8_t *s = input + at;
        size_t length = 0;
        while (at + length < count && length < 6 && s[length] != '\n') length++;
        line++;
        if (line == 1) {
            if (length != 3 || s[0] != 'F' || s[1] != '\t' || size_of(s[2]) == 0 || is_marked(s[2])) break;
            log->letter = s[2];
        } else {
            int word = word_on(s, length);
            if (word < 0) break;
            if (log->count == ISTROLF_SALVAGE_WORDS) {
                log->over = 1;
                return;
            }
            log->words[log->count++] = (uint16_t)word;
        }
        at += length + 1;
    }
    if (at < count || line == 0) log->bad = line == 0 ? 1 : line;
}

/* ---- The listing */

typedef struct {
    uint8_t *out;
    size_t room, used;
    uint8_t whole;
} plain_text;

/* A line that has room is added, and none behind one that has not. */
static void add(plain_text *t, const uint8_t *line, const uint8_t *end) {
    size_t length = (size_t)(end - line);
    if (!t->whole || length > t->room - t->used) {
        t->whole = 0;
        return;
    }
    memcpy(t->out + t->used, line, length);
    t->used += length;
}

static void add_text(plain_text *t, const char *text, size_t length) { add(t, (const uint8_t *)text, (const uint8_t *)text + length); }

static void add_left(plain_text *t, size_t place, size_t left) {
    uint8_t line[ISTROLF_LISTER_ROOM] = {'D', '\t'}, *to;
    if (left == 0) return;
    to = put_number(line + 2, (int)place + 1, 6);
    *to++ = '\t';
    to = put_number(to, (int)left, 1);
    *to++ = '\n';
    add(t, line, to);
}

INLINE void add_report(uint8_t letter, plain_text *t, const uint16_t *words, size_t place) {
    uint8_t line[ISTROLF_LISTER_ROOM] = {'R', '\t'}, bytes[5] = {0, 0, 0, 0, 0}, *to;
    int16_t p[5];
    for (unsigned i = 0; i < size_of(letter); i++) bytes[i] = (uint8_t)words[i];
    decode(letter, bytes, p);
    to = put_number(line + 2, (int)(place + size_of(letter)) + 1, 6);
    *to++ = '\t';
    *to++ = p[0] & 4 ? 'L' : '-';
    *to++ = p[0] & 2 ? 'M' : '-';
    *to++ = p[0] & 1 ? 'R' : '-';
    *to++ = '\t';
    to = put_number(to, p[1] + p[3], 1);
    *to++ = '\t';
    to = put_number(to, p[2] + p[4], 1);
    *to++ = '\n';
    add(t, line, to);
}

/* The reports, and each longest run of bytes left out at the line of its last. */
INLINE void list_in(uint8_t letter, plain_text *t, const plain_log *log) {
    size_t left = 0, at = 0;
    while (at < log->count) {
        if (starts(letter, log->words + at, log->count - at)) {
            add_left(t, at, left);
            left = 0;
            add_report(letter, t, log->words + at, at);
            at += size_of(letter);
        } else if (log->words[at] < 256) {
            left++, at++;
        } else {
            add_left(t, at, left);
            left = 0;
            at++;
        }
    }
    add_left(t, at, left);
}

uint8_t plain_salvage(const uint8_t *input, size_t count, uint8_t *out, size_t room, size_t *written) {
    plain_log log;
    plain_text t = {out, room, 0, 1};
    take_log(&log, input, count);
    add_text(&t, "S\t6\n", 4);
    if (log.over) {
        add_text(&t, "E\tover\n", 7);
    } else if (log.bad > 0) {
        uint8_t line[ISTROLF_LISTER_ROOM] = {'E', '\t'}, *to = put_number(line + 2, (int)log.bad, 6);
        *to++ = '\n';
        add(&t, line, to);
    } else {
        switch (log.letter) {
        case 'U': list_in('U', &t, &log); break;
        case 'T': list_in('T', &t, &log); break;
        default: list_in('W', &t, &log); break;
        }
        add_text(&t, "H\t0\n", 4);
    }
    *written = t.used;
    return t.whole;
}
