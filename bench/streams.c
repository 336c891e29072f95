/* Draws, differences, and the streams of line words with their recordings. */
#include "bench.h"
#include <stdio.h>
#include <string.h>

/* ---- Draws and differences */

uint64_t seed;

uint64_t drawn(uint64_t count) {
    seed = seed * 6364136223846793005u + 1442695040888963407u;
    return (seed >> 33) % count;
}

int16_t drawn_between(int low, int high) { return (int16_t)(low + (int)drawn((uint64_t)(high - low + 1))); }

const char *now;
int different;
size_t compared;

void same(int equal, const char *what, size_t place) {
    compared++;
    if (equal || different) return;
    printf("bench: %s: different %s at %zu\n", now, what, place);
    different = 1;
}

int same_reader(const istrolf_reader *a, const istrolf_reader *b) {
    return a->format == b->format && memcmp(a->kept, b->kept, 5) == 0 && a->count == b->count && a->awaiting == b->awaiting;
}

int same_report(const istrolf_report *a, const istrolf_report *b) {
    return a->buttons == b->buttons && a->x1 == b->x1 && a->y1 == b->y1 && a->x2 == b->x2 && a->y2 == b->y2;
}

/* ---- Streams of line words */

const char letters[] = "SVABUTW";
const char *const stream_names[STREAMS] = {"clean", "a silence behind each report", "nine silences behind each report", "every third report damaged", "random bytes",
                                           "awaiting a silence", "every third report broken off"};
uint8_t letter;
uint16_t words[WORDS];
uint8_t text[32 * WORDS];
size_t ends[WORDS];
int16_t numbers[ROOM], other_numbers[ROOM];
uint8_t listing[ROOM], other_listing[ROOM];

/* A report that the format holds. */
istrolf_report any_report(uint8_t letter) {
    int low = letter == 'A' ? 0 : letter == 'B' ? -2048 : -127, high = letter == 'A' ? 4095 : letter == 'B' ? 2047 : 127;
    istrolf_report p = {(uint8_t)drawn(8), 0, 0, 0, 0};
    p.x1 = drawn_between(low, high), p.y1 = drawn_between(low, high);
    if (letter == 'U') p.x2 = drawn_between(low, high), p.y2 = drawn_between(low, high);
    return p;
}

/* A stream begins with a silence, but for a reader that awaits one; a damaged report has a byte that arrived damaged,
 * and a silence behind it; one that is broken off has a break in place of that byte and those behind it. */
void make_words(uint8_t letter, stream s, int bit7) {
    size_t count = 0;
    seed = letter + 256 * s;
    if (s != AWAITING) words[count++] = ISTROLF_SILENCE;
    for (size_t report = 0; count < WORDS; report++) {
        uint8_t bytes[5];
        size_t length = istrolf_encode(letter, any_report(letter), bytes, 5).length;
        size_t damage = (s == DAMAGED || s == BROKEN) && report % 3 == 2 ? drawn(length) : length;
        if (s == BROKEN && damage < length) length = damage + 1;
        size_t silences = s == SILENCE || (s == DAMAGED && damage < length) ? 1 : s == NINE ? 9 : s == RANDOM && drawn(4) == 0;
        for (size_t i = 0; i < length && count < WORDS; i++) {
            uint8_t byte = s == RANDOM ? (uint8_t)drawn(256) : bytes[i];
            words[count++] = i == damage ? ISTROLF_BREAK : bit7 ? byte | 128 : byte;
        }
        while (silences-- > 0 && count < WORDS) words[count++] = ISTROLF_SILENCE;
    }
}

static size_t put_line(size_t at, uint16_t word) {
    if (word >= 256) {
        text[at++] = word == ISTROLF_BREAK ? 'X' : 'Q';
    } else {
        text[at++] = 'B', text[at++] = '\t';
        if (word >= 100) text[at++] = (uint8_t)('0' + word / 100);
        if (word >= 10) text[at++] = (uint8_t)('0' + word / 10 % 10);
        text[at++] = (uint8_t)('0' + word % 10);
    }
    text[at++] = '\n';
    return at;
}

void make_recording(void) {
    text[0] = 'F', text[1] = '\t', text[2] = letter, text[3] = '\n';
    ends[0] = 4;
    for (size_t i = 1; i < WORDS; i++) ends[i] = put_line(ends[i - 1], words[i - 1]);
}
