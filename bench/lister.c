/* The program mlist in plain C99, as a C programmer would write it: the listing of standard input, to standard output. README.md, "A recording and its listing",
 * says what it does. Its blocks are as long as those of crates/mlist/src/main.rt. */
#include <stdint.h>
#include <string.h>

/* Of the C library; c/kit has no header for them. */
long read(int file, void *to, size_t count);
long write(int file, const void *from, size_t count);
void perror(const char *what);

enum { BLOCK = 4096, ROOM = 40 * BLOCK, LONGEST = 5, MOST_LINES = 999999, BREAK = 256, SILENCE = 257 };

/* ---- Text: each of these writes at a place and gives the place behind. */

static char *put_text(char *to, const char *text, size_t length) {
    memcpy(to, text, length);
    return to + length;
}

static char *put_digits(char *to, unsigned number, int width) {
    for (int i = width - 1; i >= 0; i--, number /= 10) to[i] = (char)('0' + number % 10);
    return to + width;
}

/* A decimal of four digits at most. */
static char *put_number(char *to, int number) {
    unsigned n = (unsigned)(number < 0 ? -number : number);
    if (number < 0) *to++ = '-';
    return put_digits(to, n, n < 10 ? 1 : n < 100 ? 2 : n < 1000 ? 3 : 4);
}

static char *put_dropped(char *to, unsigned line, int count) {
    if (count == 0) return to;
    to = put_digits(put_text(to, "D\t", 2), line, 6);
    to = put_number(put_text(to, "\t", 1), count);
    return put_text(to, "\n", 1);
}

/* ---- The reader: its format, the bytes kept of a report, and whether it awaits a silence. */

static char format;
static int size, marked, kept, awaiting;
static uint8_t bytes[5];

static int digit(int c) { return c >= '0' && c <= '9' ? c - '0' : c >= 'A' && c <= 'F' ? c - 'A' + 10 : -1; }

/* A number of so many bits, two's complement. */
static int signed_of(int value, int bits) { return value >> (bits - 1) ? value - (1 << bits) : value; }

/* May this byte stand at this place of a report? */
static int fits(int place, int byte) {
    switch (format) {
    case 'S': return place == 0 ? (byte & 0xE0) == 0x80 : byte < 0x80;
    case 'V': return (byte & 0xC0) == (place == 0 ? 0x40 : 0);
    case 'A':
    case 'B': return (place == 0 ? (byte & 0x63) == 0x40 : (byte & 0x40) == 0) && !__builtin_parity((unsigned)byte);
    case 'U': return place > 0 || (byte & 0xF8) == 0x80;
    case 'T': return place > 0 || byte < 8;
    default: return place > 0 ? digit(byte) >= 0 : byte >= '0' && byte <= '7';
    }
}

/* The report whose bytes are all there; U's two pairs are summed. */
static char *take_report(char *to, unsigned line) {
    const uint8_t *b = bytes;
    int buttons = b[0] & 7, x = signed_of(b[1], 8), y = signed_of(b[2], 8); /* as in T */
    switch (format) {
    case 'S': x = b[0] & 16 ? b[1] : -b[1], y = b[0] & 8 ? b[2] : -b[2]; break;
    case 'V':
        buttons = (b[0] >> 3 & 4) | (b[0] >> 4 & 1);
        x = signed_of((b[0] & 3) << 6 | b[1], 8), y = -signed_of((b[0] & 12) << 4 | b[2], 8);
        break;
    case 'A':
    case 'B':
        buttons = b[0] >> 2 & 7;
        x = (b[2] & 63) << 6 | (b[1] & 63), y = (b[4] & 63) << 6 | (b[3] & 63);
        if (format == 'B') x = signed_of(x, 12), y = signed_of(y, 12);
        break;
    case 'U': buttons ^= 7, x += signed_of(b[3], 8), y += signed_of(b[4], 8); break;
    case 'W': x = signed_of(digit(b[2]) << 4 | digit(b[1]), 8), y = signed_of(digit(b[4]) << 4 | digit(b[3]), 8); break;
    }
    to = put_digits(put_text(to, "R\t", 2), line, 6);
    *to++ = '\t';
    *to++ = buttons & 4 ? 'L' : '-';
    *to++ = format == 'V' ? '?' : buttons & 2 ? 'M' : '-';
    *to++ = buttons & 1 ? 'R' : '-';
    to = put_number(put_text(to, "\t", 1), x);
    to = put_number(put_text(to, "\t", 1), y);
    return put_text(to, "\n", 1);
}

/* A word of the line, and what it gives: a report, a number of bytes dropped, or nothing. */
static char *take_word(char *to, unsigned line, int word) {
    int before = kept;
    if (word >= BREAK) {
        kept = 0, awaiting = word == BREAK && !marked;
        return put_dropped(to, line, before);
    }
    if (awaiting) return put_dropped(to, line, 1);
    if (format == 'V') word &= 0x7F;
    if (fits(before, word)) {
        bytes[before] = (uint8_t)word, kept = before + 1;
        if (kept < size) return to;
        kept = 0;
        return take_report(to, line);
    }
    if (marked && fits(0, word)) {
        bytes[0] = (uint8_t)word, kept = 1;
        return put_dropped(to, line, before);
    }
    kept = 0, awaiting = !marked;
    return put_dropped(to, line, before + 1);
}

/* ---- The lister: how many lines it has taken, and whether the listing has ended. */

static unsigned lines;
static int ended;

/* The first line sets the format. This and the next give the place of a good line's newline, or NULL. */
static const char *format_on(const char *text) {
    if (text[0] != 'F' || text[1] != '\t' || text[2] == '\n' || text[3] != '\n') return NULL;
    format = text[2];
    marked = format == 'S' || format == 'V' || format == 'A' || format == 'B';
    size = format == 'S' || format == 'V' || format == 'T' ? 3 : 5;
    awaiting = !marked;
    return marked || format == 'U' || format == 'T' || format == 'W' ? text + 3 : NULL;
}

/* Each other line has a word. */
static const char *word_on(const char *text, int *word) {
    int at = 1;
    *word = text[0] == 'X' ? BREAK : SILENCE;
    if (text[0] == 'B') {
        if (text[1] != '\t') return NULL;
        for (at = 2, *word = 0; at < LONGEST && text[at] >= '0' && text[at] <= '9'; at++) *word = 10 * *word + (text[at] - '0');
        if (at == 2 || (at > 3 && text[2] == '0') || *word > 255) return NULL;
    } else if (text[0] != 'X' && text[0] != 'Q') {
        return NULL;
    }
    return text[at] == '\n' ? text + at : NULL;
}

/* The line behind those that were taken is bad, missing or one too many. */
static char *put_end(char *to) {
    ended = 1;
    if (lines == MOST_LINES) return put_text(to, "E\tover\n", 7);
    return put_text(put_digits(put_text(to, "E\t", 2), lines + 1, 6), "\n", 1);
}

static const char *newline_of(const char *line) {
    while (*line != '\n') line++;
    return line;
}

/* The lines from *text to the end, where a newline stands that is not the input's. A line that comes up to there is not whole and is left, but one that is too long
 * is bad already. */
static char *take_lines(char *to, const char **text, const char *end) {
    const char *line = *text;
    while (line < end) {
        int word = 0;
        const char *good = lines == 0 ? format_on(line) : word_on(line, &word), *newline = good ? good : newline_of(line);
        if (newline == end && newline - line <= LONGEST) break;
        if (!good || lines == MOST_LINES) return put_end(to);
        if (lines++ > 0) to = take_word(to, lines, word);
        line = newline + 1;
    }
    *text = line;
    return to;
}

static int show(const char *from, const char *end) {
    while (from < end) {
        long count = write(1, from, (size_t)(end - from));
        if (count <= 0) {
            perror("mlist: standard output");
            return 0;
        }
        from += count;
    }
    return 1;
}

/* Block by block; the start of a line that is not whole is moved before the next block. */
int main(void) {
    static char input[LONGEST + BLOCK + 1], out[ROOM];
    char *to = put_text(out, "L\t6\n", 4);
    size_t held = 0;
    long count;
    do {
        const char *text = input;
        count = read(0, input + held, BLOCK);
        if (count < 0) {
            perror("mlist: standard input");
            return 0;
        }
        char *end = input + held + count;
        if (count == 0 && held > 0) *end++ = '\n'; /* the last newline may be missing */
        *end = '\n';
        to = take_lines(to, &text, end);
        if (count == 0 && !ended) to = lines == 0 ? put_end(to) : put_text(put_number(put_text(to, "H\t", 2), kept), "\n", 1);
        if (!show(out, to)) return 0;
        to = out;
        for (held = 0; text + held < end; held++) input[held] = text[held];
    } while (count > 0 && !ended);
    return 0;
}
