/* The same rules in plain C: states are those of istrolf.h and are changed in place; each function gives 0 or the
 * number of a refusal. Reader, encoder, box and lister stand in plain.c, each of the others in a file of its name. */
#ifndef PLAIN_H
#define PLAIN_H
#include "istrolf.h"

typedef struct {
    uint8_t reports, dropped;
    istrolf_report report; /* where reports is 1 */
} plain_answer;

typedef struct {
    size_t taken, reports, dropped;
} plain_counts;

uint8_t plain_fresh(istrolf_reader *r, uint8_t letter);
uint8_t plain_step(istrolf_reader *r, uint16_t word, plain_answer *answer);
uint8_t plain_read(istrolf_reader *r, const uint16_t *words, size_t count, int16_t *out, size_t room, plain_counts *counts);

uint8_t plain_encode(uint8_t letter, const istrolf_report *p, uint8_t *buffer, size_t room, size_t *length);

enum { PLAIN_NO_WORD = 0xFFFF };
void plain_box(istrolf_box *b);
uint8_t plain_motion(istrolf_box *b, int16_t dx, int16_t dy);
uint8_t plain_buttons(istrolf_box *b, uint8_t buttons);
uint8_t plain_host(istrolf_box *b, uint8_t byte, uint16_t *word);
uint8_t plain_latch(istrolf_box *b);
uint8_t plain_send(istrolf_box *b, uint16_t *word);
uint8_t plain_period(istrolf_box *b);

void plain_lister(istrolf_lister *m);
uint8_t plain_feed(istrolf_lister *m, const uint8_t *input, size_t count, uint8_t *out, size_t room, size_t *taken, size_t *written);
uint8_t plain_finish(istrolf_lister *m, uint8_t *out, size_t room, size_t *written);

uint8_t plain_told(istrolf_told *t, uint8_t letter);
uint8_t plain_command(istrolf_told *t, uint8_t byte, uint8_t *discarded);
uint8_t plain_waking(istrolf_told *t, uint8_t *discarded);
uint8_t plain_told_step(istrolf_told *t, uint16_t word, plain_answer *answer, istrolf_reply *reply);
uint8_t plain_told_read(istrolf_told *t, const uint16_t *words, size_t count, int16_t *out, size_t room, plain_counts *counts, istrolf_reply *reply);

uint8_t plain_bridge(istrolf_bridge *b, uint8_t letter);
uint8_t plain_convert(istrolf_bridge *b, const uint16_t *words, size_t count, uint8_t *out, size_t room, plain_counts *counts, size_t *sent);

typedef struct {
    size_t taken, given; /* given: items, or bytes written */
    uint32_t line;       /* a line that was refused, or 0 */
} plain_lines;

void plain_readback(istrolf_readback *r);
uint8_t plain_readback_read(istrolf_readback *r, const uint8_t *input, size_t count, int32_t *out, size_t room, plain_lines *told);
uint8_t plain_readback_finish(const istrolf_readback *r, size_t left, uint32_t *line);
uint8_t plain_readback_rewrite(istrolf_readback *r, const uint8_t *input, size_t count, uint8_t *out, size_t room, plain_lines *told);

typedef struct {
    uint8_t movements, tests, dropped;
    istrolf_report movement; /* where movements is 1 */
    istrolf_self_test test;  /* where tests is 1 */
} plain_puck_answer;

void plain_puck_reader(istrolf_puck_reader *r);
uint8_t plain_puck_step(istrolf_puck_reader *r, uint16_t word, plain_puck_answer *answer);
uint8_t plain_puck_read(istrolf_puck_reader *r, const uint16_t *words, size_t count, int16_t *out, size_t room, plain_counts *counts);

uint8_t plain_yard(istrolf_yard *y, uint8_t letter);
uint8_t plain_yard_step(istrolf_yard *y, uint16_t word, uint8_t *can);
uint8_t plain_yard_check(uint8_t letter, const uint16_t *words, size_t count, uint8_t *proper, size_t *sendable);

typedef struct {
    size_t taken, runs, left;
} plain_picked;

uint8_t plain_pick(uint8_t letter, const uint16_t *words, size_t count, uint16_t *places, size_t room, plain_picked *told);

/* Gives 1 if every line had room. */
uint8_t plain_salvage(const uint8_t *input, size_t count, uint8_t *out, size_t room, size_t *written);
#endif
