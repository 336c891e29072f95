/* A recorder of the five byte format: words come from the port in pieces, as many as there are, and each press of the middle button saves once. */
#include "istrolf.h"
#include <stdio.h>

/* What stood on the line: a report cut off by a lost byte, in which a header-like byte follows; then a silence, and a tap of M within a long move. */
static const uint16_t line[] = {135, 5,   0, 133, 0, 0, 257, 135, 100, 0,  27,  0, 133, 127, 0, 127, 1, 133, 127, 0,
                                90,  256, 0, 133, 9, 0, 257, 133, 127, 0, 127, 0, 135, 3,   0, 0,   0, 133, 0,   0, 0, 0, 257};

/* The port: what has arrived since it was last asked, at most `most` words. */
static size_t arrived(size_t turn, uint16_t *words, size_t most) {
    static size_t at = 0;
    size_t count = turn % 4 + 1, left = sizeof line / sizeof *line - at;
    if (count > most) count = most;
    if (count > left) count = left;
    for (size_t i = 0; i < count; i++) words[i] = line[at++];
    return count;
}

typedef struct {
    istrolf_reader reader; /* with the bytes of an unfinished report, from one piece to the next */
    istrolf_watch watch;   /* of its reports: one press of M is one save */
    long x, y;             /* the cursor */
    int saves;
} recorder;

static void shown(recorder *r, const int16_t *report) {
    istrolf_watched w = istrolf_watch_over(r->watch, report, 5);
    r->watch = w.next;
    r->x += report[1] + report[3];
    r->y += report[2] + report[4];
    if (w.middle > 0) printf("save %d at %ld %ld\n", ++r->saves, r->x, r->y);
}

static void heard(recorder *r, const uint16_t *words, size_t count) {
    while (count > 0) {
        int16_t out[5]; /* room for one report: the rest waits for the next turn of this loop */
        istrolf_reading a = istrolf_reader_read(r->reader, words, count, out, 5);
        r->reader = a.next;
        if (a.reports > 0) shown(r, out);
        if (a.dropped > 0) printf("%zu dropped\n", a.dropped);
        words += a.taken;
        count -= a.taken;
        if (a.refusal == ISTROLF_BAD_WORD) {
            words++, count--; /* no word of a port: pass over it */
        } else if (a.refusal) {
            printf("the reader's state was spoilt\n"); /* BAD_STATE would come for ever: begin anew */
            r->reader = istrolf_reader_fresh('U').reader;
        }
    }
}

int main(void) {
    recorder r = {istrolf_reader_fresh('U').reader, istrolf_watch_fresh(), 0, 0, 0};
    uint16_t words[4];
    size_t count;
    for (size_t turn = 0; (count = arrived(turn, words, 4)) > 0; turn++) {
        if (turn == 8) r.reader.count ^= 64; /* something wrote where it should not */
        heard(&r, words, count);
    }
    printf("%d saves, cursor %ld %ld, %d bytes kept\n", r.saves, r.x, r.y, r.reader.count);
    return 0;
}
