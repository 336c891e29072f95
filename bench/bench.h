/* What the files of the bench share: draws and streams (streams.c), what is run and compared (base.c, requests.c), and
 * how it is measured (bench.c). */
#ifndef BENCH_H
#define BENCH_H
#include "plain.h"

enum { WORDS = 8000, ROOM = 8 * 5 * WORDS };

/* ---- Draws */

extern uint64_t seed;
uint64_t drawn(uint64_t count);
int16_t drawn_between(int low, int high);

/* ---- Differences: the first is told. now names the stream, and compared counts what was compared. */

extern const char *now;
extern int different;
extern size_t compared;
void same(int equal, const char *what, size_t place);
int same_reader(const istrolf_reader *a, const istrolf_reader *b);
int same_report(const istrolf_report *a, const istrolf_report *b);

/* ---- Streams: words of a format, and the recording of the words with the place where each of its lines ends. */

typedef enum { CLEAN, SILENCE, NINE, DAMAGED, RANDOM, AWAITING, BROKEN, STREAMS } stream;

extern const char letters[];
extern const char *const stream_names[STREAMS];
extern uint8_t letter;
extern uint16_t words[WORDS];
extern uint8_t text[32 * WORDS];
extern size_t ends[WORDS];

istrolf_report any_report(uint8_t letter);
void make_words(uint8_t letter, stream s, int bit7);
void make_recording(void);

/* ---- Lent: what either side writes to. */

extern int16_t numbers[ROOM], other_numbers[ROOM];
extern uint8_t listing[ROOM], other_listing[ROOM];

/* ---- Parts: what is measured. run goes over the first count words of the stream that was made, and gives a number, so
 * that nothing is left out. */

typedef size_t run(size_t count);
typedef void act(const char *format, const char *stream);

typedef struct {
    const char *name;
    void (*each)(act *); /* makes one stream after the other, and does the act with each */
    void (*make)(void);  /* what is to be made besides, or NULL */
    run *ours, *plain;
} part;

extern const part base[], requests[]; /* behind the last a NULL */
void check_base(void);
void check_requests(void);
#endif
