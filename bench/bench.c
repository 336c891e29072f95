/* The bench: the library and plain C over the same streams.
 *
 *   bench check                      compares all answers; the first difference is told, and the status is 1
 *   bench time PART                  a line for each stream of a part: its name, and the nanoseconds that a word takes
 *                                    the library and plain C, each the best of several
 *   bench count PART ours|plain      a line for each stream: its name, and half its words. That side is run over that
 *                                    half and over all, with a call of mark before and behind each
 *   bench guard PART STREAM FORMAT ..    the same of the library, over these streams alone
 *   bench write FORMAT STREAM whole|half    the recording of a stream, or its first half, for the program mlist
 *
 * The parts stand in base.c and requests.c. A word is a line word; of the encoder a report, of the box an event, of
 * the lister and the reader of listings a line. */
#include "bench.h"
#include <stdio.h>
#include <string.h>
#include <time.h>

static volatile size_t kept;

void __attribute__((noinline)) mark(void) { kept = 0; }

static double best(run *f) {
    double least = 1e9;
    for (int turn = 0; turn < 7; turn++) {
        int runs = 0;
        clock_t start = clock(), time;
        do kept = f(WORDS), runs++;
        while ((time = clock() - start) < CLOCKS_PER_SEC / 1000);
        double one = 1e9 * (double)time / (double)CLOCKS_PER_SEC / runs / WORDS;
        if (one < least) least = one;
    }
    return least;
}

static void counted(run *f) {
    mark();
    kept = f(WORDS / 2);
    mark();
    kept = f(WORDS);
    mark();
}

/* ---- Parts */

static const part *measured;

static void time_one(const char *format, const char *stream) {
    if (measured->make != NULL) measured->make();
    printf("%s\t%s\t%s\t%.2f\t%.2f\n", measured->name, stream, format, best(measured->ours), best(measured->plain));
}

static void count_side(const char *format, const char *stream, run *side) {
    if (measured->make != NULL) measured->make();
    counted(side);
    printf("%s\t%s\t%s\t%d\n", measured->name, stream, format, WORDS / 2);
}

static void count_ours(const char *format, const char *stream) { count_side(format, stream, measured->ours); }

static void count_plain(const char *format, const char *stream) { count_side(format, stream, measured->plain); }

static int is(const char *one, const char *other) {
    while (*one && *one == *other) one++, other++;
    return *one == *other;
}

static const part *part_of(const char *name) {
    for (const part *p = base; p->name; p++)
        if (is(p->name, name)) return p;
    for (const part *p = requests; p->name; p++)
        if (is(p->name, name)) return p;
    return NULL;
}

/* ---- What is asked for */

static const char *guarded_stream, *guarded_format;

static void count_guarded(const char *format, const char *stream) {
    if (is(stream, guarded_stream) && is(format, guarded_format)) count_ours(format, stream);
}

static int guard(int count, char **given) {
    for (; count >= 3; count -= 3, given += 3) {
        measured = part_of(given[0]);
        if (measured == NULL) return 2;
        guarded_stream = given[1], guarded_format = given[2];
        measured->each(count_guarded);
    }
    return count == 0 ? 0 : 2;
}

static int check(void) {
    check_base();
    check_requests();
    if (!different) printf("bench: the answers agree, %zu compared\n", compared);
    return different;
}

static int write_recording(const char *format, const char *name, const char *size) {
    for (int s = CLEAN; s < STREAMS; s++) {
        if (!is(stream_names[s], name)) continue;
        letter = (uint8_t)format[0];
        make_words(letter, (stream)s, 0);
        make_recording();
        printf("%.*s", (int)ends[(is(size, "half") ? WORDS / 2 : WORDS) - 1], (const char *)text);
        return 0;
    }
    return 2;
}

int main(int count, char **given) {
    const char *what = count > 1 ? given[1] : "";
    if (count == 2 && is(what, "check")) return check();
    if (count > 2 && is(what, "guard")) return guard(count - 2, given + 2);
    if (count == 5 && is(what, "write")) return write_recording(given[2], given[3], given[4]);
    measured = count > 2 ? part_of(given[2]) : NULL;
    if (measured == NULL) return 2;
    if (count == 3 && is(what, "time")) measured->each(time_one);
    else if (count == 4 && is(what, "count")) measured->each(is(given[3], "ours") ? count_ours : count_plain);
    else return 2;
    return 0;
}
