/* Reader, encoder, box and lister in plain C99, written from the paper and its change requests 1, 3, 5, 6, 13 and 14,
 * as a C programmer would write them. */
#include "formats.h"
#include "text.h"
#include <string.h>

/* ---- The encoder */

static uint8_t even(unsigned byte) { return (uint8_t)(odd((uint8_t)byte) ? byte | 0x80 : byte); }

static void write_report(uint8_t letter, const istrolf_report *p, uint8_t *b) {
    unsigned x = (uint16_t)p->x1, y = (uint16_t)p->y1;
    switch (letter) {
    case 'S':
        b[0] = (uint8_t)(0x80 | (p->x1 >= 0 ? 16 : 0) | (p->y1 >= 0 ? 8 : 0) | p->buttons);
        b[1] = (uint8_t)(p->x1 >= 0 ? p->x1 : -p->x1);
        b[2] = (uint8_t)(p->y1 >= 0 ? p->y1 : -p->y1);
        break;
    case 'V':
        y = (uint16_t)-p->y1;
        b[0] = (uint8_t)(0x40 | (p->buttons & 4) << 3 | (p->buttons & 1) << 4 | (y >> 4 & 12) | (x >> 6 & 3));
        b[1] = x & 63;
        b[2] = y & 63;
        break;
    case 'A':
    case 'B':
        b[0] = even(0x40u | (unsigned)p->buttons << 2);
        b[1] = even(x & 63), b[2] = even(x >> 6 & 63);
        b[3] = even(y & 63), b[4] = even(y >> 6 & 63);
        break;
    case 'U':
        b[0] = 0x80 | (p->buttons ^ 7);
        b[1] = (uint8_t)x, b[2] = (uint8_t)y;
        b[3] = (uint8_t)p->x2, b[4] = (uint8_t)p->y2;
        break;
    case 'T': b[0] = p->buttons, b[1] = (uint8_t)x, b[2] = (uint8_t)y; break;
    case 'W':
        b[0] = '0' + p->buttons;
        b[1] = (uint8_t)"0123456789ABCDEF"[x & 15], b[2] = (uint8_t)"0123456789ABCDEF"[x >> 4 & 15];
        b[3] = (uint8_t)"0123456789ABCDEF"[y & 15], b[4] = (uint8_t)"0123456789ABCDEF"[y >> 4 & 15];
        break;
    }
}

static int within(int16_t v, int low, int high) { return v >= low && v <= high; }

uint8_t plain_encode(uint8_t letter, const istrolf_report *p, uint8_t *buffer, size_t room, size_t *length) {
    unsigned size = size_of(letter);
    int low = letter == 'S' ? -127 : letter == 'A' ? 0 : letter == 'B' ? -2048 : -128;
    int high = letter == 'A' ? 4095 : letter == 'B' ? 2047 : 127, v = letter == 'V', u = letter == 'U';
    *length = 0;
    if (size == 0) return ISTROLF_BAD_LETTER;
    if (p->buttons > 7) return ISTROLF_BAD_BUTTONS;
    if (!within(p->x1, low, high)) return ISTROLF_BAD_X1;
    if (!within(p->y1, low + v, high + v)) return ISTROLF_BAD_Y1; /* V's wire has minus y */
    if (!within(p->x2, u ? low : 0, u ? high : 0)) return ISTROLF_BAD_X2;
    if (!within(p->y2, u ? low : 0, u ? high : 0)) return ISTROLF_BAD_Y2;
    if (room < size) return ISTROLF_SHORT_BUFFER;
    write_report(letter, p, buffer);
    *length = size;
    return ISTROLF_OK;
}

/* ---- The reader */

/* The words of a line to a reader of this format. */
INLINE uint8_t read_in(uint8_t letter, istrolf_reader *r, const uint16_t *words, size_t count, int16_t *out, size_t room, plain_counts *counts) {
    unsigned size = size_of(letter), n = r->count;
    int marked = is_marked(letter), awaiting = r->awaiting;
    size_t at = 0, reports = 0, dropped = 0;
    uint8_t kept[5], refusal = ISTROLF_OK;
    if (!good_reader(letter, r)) return ISTROLF_BAD_STATE;
    memcpy(kept, r->kept, 5);
    for (; at < count; at++) {
        uint8_t byte = (uint8_t)(letter == 'V' ? words[at] & 0x7F : words[at]);
        if (words[at] >= 256) {
            if (words[at] > 257) {
                refusal = ISTROLF_BAD_WORD;
                break;
            }
            dropped += n;
            n = 0;
            awaiting = words[at] == 256 && !marked;
        } else if (awaiting) {
            dropped++;
        } else if (fits(letter, n, byte)) {
            if (n + 1 == size && room < 5) break;
            kept[n++] = byte;
            if (n == size) {
                decode(letter, kept, out);
                out += 5, room -= 5, reports++;
                n = 0;
            }
        } else if (marked && fits(letter, 0, byte)) {
            dropped += n;
            kept[0] = byte;
            n = 1;
        } else {
            dropped += n + 1;
            n = 0;
            awaiting = !marked;
        }
    }
    for (unsigned i = 0; i < 5; i++) r->kept[i] = i < n ? kept[i] : 0;
    r->count = (uint8_t)n, r->awaiting = (uint8_t)awaiting;
    counts->taken = at, counts->reports = reports, counts->dropped = dropped;
    return refusal;
}

uint8_t plain_fresh(istrolf_reader *r, uint8_t letter) {
    int known = size_of(letter) > 0;
    memset(r, 0, sizeof *r);
    r->format = known ? letter : 'U';
    r->awaiting = !is_marked(r->format);
    return known ? ISTROLF_OK : ISTROLF_BAD_LETTER;
}

uint8_t plain_read(istrolf_reader *r, const uint16_t *words, size_t count, int16_t *out, size_t room, plain_counts *counts) {
    counts->taken = counts->reports = counts->dropped = 0;
    switch (r->format) {
    case 'S': return read_in('S', r, words, count, out, room, counts);
    case 'V': return read_in('V', r, words, count, out, room, counts);
    case 'A': return read_in('A', r, words, count, out, room, counts);
    case 'B': return read_in('B', r, words, count, out, room, counts);
    case 'U': return read_in('U', r, words, count, out, room, counts);
    case 'T': return read_in('T', r, words, count, out, room, counts);
    case 'W': return read_in('W', r, words, count, out, room, counts);
    default: return ISTROLF_BAD_STATE;
    }
}

uint8_t plain_step(istrolf_reader *r, uint16_t word, plain_answer *answer) {
    int16_t out[5];
    plain_counts c;
    uint8_t refusal = plain_read(r, &word, 1, out, 5, &c);
    answer->reports = (uint8_t)c.reports, answer->dropped = (uint8_t)c.dropped;
    if (c.reports > 0) {
        istrolf_report p = {(uint8_t)out[0], out[1], out[2], out[3], out[4]};
        answer->report = p;
    }
    return refusal;
}

/* ---- The box */

static int is_timed(uint8_t mode) { return mode == 'J' || mode == 'K' || mode == 'L' || mode == 'R' || mode == 'M' || mode == 'Q' || mode == 'N'; }

static int is_stream(uint8_t mode) { return mode == 'O' || is_timed(mode); }

static int on_pad(istrolf_pair p) { return within(p.x, 0, 4095) && within(p.y, 0, 4095); }

static int good_box(const istrolf_box *b) {
    uint8_t format = b->settings.format, mode = b->settings.mode, length = b->going.length, sent = b->going.sent, count = b->memory.count;
    const uint8_t *bytes = b->going.bytes;
    if (size_of(format) == 0 || (mode != 'D' && !is_stream(mode)) || b->settings.buttons > 7) return 0;
    if (!on_pad(b->track.position) || !on_pad(b->track.last)) return 0;
    if ((sent > 0 || length > 0) && sent >= length) return 0;
    if (length > 3 && length != size_of(format)) return 0;
    if (format == 'U' && sent < 4 && (bytes[3] != 0 || bytes[4] != 0)) return 0;
    for (unsigned i = length; i < 5; i++)
        if (bytes[i] != 0) return 0;
    if (b->due > 1 || b->dormant > 1 || b->memory.showing > 1 || count > 8) return 0;
    for (unsigned i = 0; i < 8; i++)
        if (b->memory.states[i] > (i < count ? 7 : 0)) return 0;
    if (b->dormant && (length > 0 || b->due)) return 0;
    if (count > 0 && (b->dormant || !is_stream(mode))) return 0;
    return !b->memory.showing || (count > 0 && length == size_of(format));
}

/* A value held between two ends; what is thrown away goes to a sum that is held at the ends of 64 bits. */
static int16_t hold(int value, int low, int high, int64_t *sum) {
    int held = value < low ? low : value > high ? high : value;
    int64_t excess = value - held;
    if (sum != NULL) *sum = excess > 0 && *sum > INT64_MAX - excess ? INT64_MAX : excess < 0 && *sum < INT64_MIN - excess ? INT64_MIN : *sum + excess;
    return (int16_t)held;
}

static int has_moved(const istrolf_box *b) {
    const istrolf_pair *c = &b->track.counter, *p = &b->track.position, *l = &b->track.last;
    return b->settings.format == 'A' ? p->x != l->x || p->y != l->y : c->x != 0 || c->y != 0;
}

static istrolf_pair take_movement(istrolf_box *b) {
    istrolf_pair p = b->track.position;
    if (b->settings.format != 'A') {
        int low = b->settings.format == 'B' ? -2048 : -127, high = b->settings.format == 'B' ? 2047 : 127;
        p.x = hold(b->track.counter.x, low, high, &b->sums.limit.x);
        p.y = hold(b->track.counter.y, low, high, &b->sums.limit.y);
    }
    memset(&b->track.counter, 0, sizeof b->track.counter);
    b->track.last = b->track.position;
    return p;
}

static void reply(istrolf_box *b, uint8_t length, uint8_t first, uint8_t second) {
    b->going.length = length;
    b->going.bytes[0] = first;
    b->going.bytes[1] = second;
}

static void obey(istrolf_box *b, uint8_t byte) {
    switch (byte) {
    case 'A': case 'B': case 'S': case 'T': case 'U': case 'V': case 'W':
        b->settings.format = byte;
        memset(&b->track.counter, 0, sizeof b->track.counter);
        b->track.last = b->track.position;
        break;
    case 'D': case 'P': b->settings.mode = 'D'; break;
    case 'd': b->dormant = 1; break;
    case 'J': case 'K': case 'L': case 'R': case 'M': case 'Q': case 'N': case 'O': b->settings.mode = byte; return;
    case ' ': reply(b, 1, 0x06, 0); return;
    case 'f': {
        uint8_t code = 0;
        while ((uint8_t)"UTWB SAV"[code] != b->settings.format) code++;
        reply(b, 1, (uint8_t)(0x10 + 2 * code), 0);
        return;
    }
    case 't': reply(b, 2, b->settings.format, b->settings.mode); return;
    case 0x05: reply(b, 3, b->settings.buttons, 0); return;
    default: return;
    }
    b->due = byte == 'P';
    memset(&b->memory, 0, sizeof b->memory);
}

void plain_box(istrolf_box *b) {
    memset(b, 0, sizeof *b);
    b->settings.format = 'U';
    b->settings.mode = 'O';
}

uint8_t plain_motion(istrolf_box *b, int16_t dx, int16_t dy) {
    istrolf_pair *c = &b->track.counter, *p = &b->track.position;
    if (!good_box(b)) return ISTROLF_BAD_STATE;
    if (b->dormant) return ISTROLF_OK;
    c->x = hold(c->x + dx, INT16_MIN, INT16_MAX, &b->sums.counter.x);
    c->y = hold(c->y + dy, INT16_MIN, INT16_MAX, &b->sums.counter.y);
    p->x = hold(p->x + dx, 0, 4095, NULL);
    p->y = hold(p->y + dy, 0, 4095, NULL);
    return ISTROLF_OK;
}

uint8_t plain_buttons(istrolf_box *b, uint8_t buttons) {
    if (!good_box(b)) return ISTROLF_BAD_STATE;
    if (buttons > 7) return ISTROLF_BAD_BUTTONS;
    if (b->dormant || buttons == b->settings.buttons) return ISTROLF_OK;
    b->settings.buttons = buttons;
    if (is_stream(b->settings.mode)) {
        if (b->memory.count < 8) b->memory.count++;
        b->memory.states[b->memory.count - 1] = buttons;
    }
    return ISTROLF_OK;
}

uint8_t plain_host(istrolf_box *b, uint8_t byte, uint16_t *word) {
    *word = PLAIN_NO_WORD;
    if (!good_box(b)) return ISTROLF_BAD_STATE;
    if (b->dormant) {
        b->dormant = 0;
        reply(b, 1, 0x06, 0);
        return ISTROLF_OK;
    }
    if (b->going.length > 0) {
        *word = ISTROLF_BREAK;
        memset(&b->going, 0, sizeof b->going);
        b->memory.showing = 0;
    }
    obey(b, byte);
    return ISTROLF_OK;
}

uint8_t plain_latch(istrolf_box *b) {
    if (!good_box(b)) return ISTROLF_BAD_STATE;
    int wanted = b->due || b->memory.count > 0 || (b->settings.mode == 'O' && has_moved(b));
    if (b->dormant || b->going.length > 0 || !wanted) return ISTROLF_OK;
    istrolf_pair moved = take_movement(b);
    istrolf_report p = {b->memory.count > 0 ? b->memory.states[0] : b->settings.buttons, moved.x, moved.y, 0, 0};
    write_report(b->settings.format, &p, b->going.bytes);
    b->going.length = (uint8_t)size_of(b->settings.format);
    b->memory.showing = b->memory.count > 0;
    b->due = 0;
    return ISTROLF_OK;
}

uint8_t plain_send(istrolf_box *b, uint16_t *word) {
    *word = PLAIN_NO_WORD;
    if (!good_box(b)) return ISTROLF_BAD_STATE;
    *word = ISTROLF_SILENCE;
    if (b->going.length == 0) return ISTROLF_OK;
    if (b->settings.format == 'U' && b->going.sent == 3) {
        istrolf_pair second = take_movement(b);
        b->going.bytes[3] = (uint8_t)second.x;
        b->going.bytes[4] = (uint8_t)second.y;
    }
    *word = b->going.bytes[b->going.sent++];
    if (b->going.sent < b->going.length) return ISTROLF_OK;
    memset(&b->going, 0, sizeof b->going);
    if (b->memory.showing) {
        for (unsigned i = 0; i < 7; i++) b->memory.states[i] = b->memory.states[i + 1];
        b->memory.states[7] = 0;
        b->memory.count--;
        b->memory.showing = 0;
    }
    return ISTROLF_OK;
}

uint8_t plain_period(istrolf_box *b) {
    if (!good_box(b)) return ISTROLF_BAD_STATE;
    if (!b->dormant && is_timed(b->settings.mode) && has_moved(b)) b->due = 1;
    return ISTROLF_OK;
}

/* ---- The lister */

enum { MOST_LINES = 999999 };

static uint8_t *put_text(uint8_t *to, const char *text) {
    while (*text) *to++ = (uint8_t)*text++;
    return to;
}

static uint8_t *put_line(uint8_t *to, const char *letter, uint32_t line) { return put_number(put_text(to, letter), (int)line, 6); }

static uint8_t *put_report(uint8_t *to, uint8_t format, uint32_t line, const int16_t *p) {
    to = put_text(put_line(to, "R\t", line), "\t");
    *to++ = p[0] & 4 ? 'L' : '-';
    *to++ = format == 'V' ? '?' : p[0] & 2 ? 'M' : '-';
    *to++ = p[0] & 1 ? 'R' : '-';
    to = put_number(put_text(to, "\t"), p[1] + p[3], 1);
    return put_text(put_number(put_text(to, "\t"), p[2] + p[4], 1), "\n");
}

/* A whole line, of which five bytes are held at most, and its text. */
static uint8_t *take_line(istrolf_lister *m, uint8_t *to) {
    size_t length = m->count;
    int word = word_on(m->held, length);
    m->count = 0;
    if (m->line == MOST_LINES) {
        m->ended = 1;
        return put_text(to, "E\tover\n");
    }
    m->line++;
    if (m->line == 1 && length == 3 && m->held[0] == 'F' && m->held[1] == '\t' && size_of(m->held[2]) > 0) {
        plain_fresh(&m->reader, m->held[2]);
    } else if (m->line == 1 || word < 0) {
        m->ended = 1;
        to = put_text(put_line(to, "E\t", m->line), "\n");
    } else {
        int16_t report[5];
        plain_counts c;
        uint16_t one = (uint16_t)word;
        plain_read(&m->reader, &one, 1, report, 5, &c);
        if (c.reports > 0) to = put_report(to, m->reader.format, m->line, report);
        if (c.dropped > 0) to = put_text(put_number(put_text(put_line(to, "D\t", m->line), "\t"), (int)c.dropped, 1), "\n");
    }
    return to;
}

static int good_lister(const istrolf_lister *m) { return m->ended <= 1 && m->line <= MOST_LINES && m->count <= 5 && good_reader(m->reader.format, &m->reader); }

static uint8_t *open_listing(const istrolf_lister *m, uint8_t *to) { return m->line == 0 && m->count == 0 && !m->ended ? put_text(to, "L\t6\n") : to; }

void plain_lister(istrolf_lister *m) {
    memset(m, 0, sizeof *m);
    plain_fresh(&m->reader, 'U');
}

uint8_t plain_feed(istrolf_lister *m, const uint8_t *input, size_t count, uint8_t *out, size_t room, size_t *taken, size_t *written) {
    size_t at = 0, used = 0;
    *taken = *written = 0;
    if (!good_lister(m)) return ISTROLF_BAD_STATE;
    for (; at < count && !m->ended; at++) {
        int whole = input[at] == '\n' || m->count == 5;
        if (!whole && (m->line > 0 || m->count > 0)) {
            m->held[m->count++] = input[at];
            continue;
        }
        uint8_t text[ISTROLF_LISTER_ROOM], *end = open_listing(m, text);
        istrolf_lister next = *m;
        if (!whole) next.held[next.count] = input[at];
        if (input[at] != '\n') next.count++;
        if (whole) end = take_line(&next, end);
        size_t length = (size_t)(end - text);
        if (length > room - used) break;
        memcpy(out + used, text, length);
        used += length;
        *m = next;
    }
    *taken = m->ended ? count : at; /* behind the end nothing is looked at */
    *written = used;
    return ISTROLF_OK;
}

uint8_t plain_finish(istrolf_lister *m, uint8_t *out, size_t room, size_t *written) {
    uint8_t text[2 * ISTROLF_LISTER_ROOM], *end = open_listing(m, text);
    istrolf_lister next = *m;
    *written = 0;
    if (!good_lister(m)) return ISTROLF_BAD_STATE;
    if (!next.ended && next.count > 0) end = take_line(&next, end);
    if (!next.ended) end = next.line == 0 ? put_text(end, "E\t000001\n") : put_text(put_number(put_text(end, "H\t"), next.reader.count, 1), "\n");
    size_t length = (size_t)(end - text);
    if (length > room) return ISTROLF_OK;
    memcpy(out, text, length);
    *written = length;
    *m = next;
    m->ended = 1;
    return ISTROLF_OK;
}
