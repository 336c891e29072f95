/* The reader that is told of replies in plain C99, written from change request 10. */
#include "formats.h"
#include <string.h>

static const uint8_t sizes[] = {0, 1, 1, 2, 3}; /* of the replies, by what is awaited */

/* "10H plus twice the code U 0, T 1, W 2, B 3, S 5, A 6, V 7": the format of such a byte, or 0. */
static uint8_t format_of(uint8_t byte) {
    if (byte < 0x10 || byte > 0x1E || byte % 2 != 0) return 0;
    return (uint8_t)"UTWB\0SAV"[(byte - 0x10) / 2];
}

static int is_mode(uint8_t byte) {
    switch (byte) {
    case 'J': case 'K': case 'L': case 'R': case 'M': case 'Q': case 'N': case 'O': case 'D': return 1;
    default: return 0;
    }
}

/* May this byte stand at this place of the reply? */
static int continues(uint8_t awaited, unsigned place, uint8_t byte) {
    switch (awaited) {
    case ISTROLF_AWAITS_ACK: return byte == 0x06;
    case ISTROLF_AWAITS_CODE: return format_of(byte) != 0;
    case ISTROLF_AWAITS_LETTERS: return place == 0 ? size_of(byte) > 0 : is_mode(byte);
    case ISTROLF_AWAITS_BUTTONS: return 1;
    default: return 0;
    }
}

static int good_came(const istrolf_told *t) {
    const istrolf_came *c = &t->came;
    if (t->awaited > ISTROLF_AWAITS_BUTTONS || (c->count > 0 && c->count >= sizes[t->awaited])) return 0;
    if (c->count > 0 ? !continues(t->awaited, 0, c->first) : c->first != 0) return 0;
    return c->count > 1 ? continues(t->awaited, 1, c->second) : c->second == 0;
}

static void forget(istrolf_told *t) {
    t->awaited = ISTROLF_AWAITS_NOTHING;
    memset(&t->came, 0, sizeof t->came);
}

/* The last byte of a reply, and what it tells. */
static void tell(istrolf_told *t, uint8_t byte, istrolf_reply *reply) {
    reply->kind = t->awaited;
    if (t->awaited == ISTROLF_AWAITS_CODE) reply->format = format_of(byte);
    if (t->awaited == ISTROLF_AWAITS_LETTERS) reply->format = t->came.first, reply->mode = byte;
    if (t->awaited == ISTROLF_AWAITS_BUTTONS) reply->buttons = t->came.first & 7;
    forget(t);
}

/* The next byte of the reply, if the word is one. */
static int take_reply(istrolf_told *t, uint16_t word, istrolf_reply *reply) {
    if (word > 255 || !continues(t->awaited, t->came.count, (uint8_t)word)) return 0;
    if (t->came.count + 1 == sizes[t->awaited]) tell(t, (uint8_t)word, reply);
    else if (t->came.count++ == 0) t->came.first = (uint8_t)word;
    else t->came.second = (uint8_t)word;
    return 1;
}

/* A reply that is awaited is broken by a word that the report reader took. */
static void break_off(istrolf_told *t, istrolf_reply *reply) {
    reply->kind = ISTROLF_REPLY_BROKEN;
    reply->came = t->came;
    forget(t);
}

uint8_t plain_told(istrolf_told *t, uint8_t letter) {
    forget(t);
    return plain_fresh(&t->reader, letter);
}

static uint8_t await(istrolf_told *t, uint8_t awaited, uint8_t *discarded) {
    *discarded = 0;
    if (!good_reader(t->reader.format, &t->reader) || !good_came(t)) return ISTROLF_BAD_STATE;
    if (awaited == ISTROLF_AWAITS_NOTHING) return ISTROLF_NO_REPLY;
    *discarded = t->came.count;
    forget(t);
    t->awaited = awaited;
    return ISTROLF_OK;
}

uint8_t plain_command(istrolf_told *t, uint8_t byte, uint8_t *discarded) {
    uint8_t awaited = byte == ' ' ? ISTROLF_AWAITS_ACK : byte == 'f' ? ISTROLF_AWAITS_CODE : byte == 't' ? ISTROLF_AWAITS_LETTERS :
                      byte == 5 ? ISTROLF_AWAITS_BUTTONS : ISTROLF_AWAITS_NOTHING;
    return await(t, awaited, discarded);
}

uint8_t plain_waking(istrolf_told *t, uint8_t *discarded) { return await(t, ISTROLF_AWAITS_ACK, discarded); }

uint8_t plain_told_step(istrolf_told *t, uint16_t word, plain_answer *answer, istrolf_reply *reply) {
    memset(reply, 0, sizeof *reply);
    answer->reports = answer->dropped = 0;
    if (!good_came(t)) return ISTROLF_BAD_STATE;
    if (t->awaited != ISTROLF_AWAITS_NOTHING && good_reader(t->reader.format, &t->reader) && take_reply(t, word, reply)) return ISTROLF_OK;
    uint8_t refusal = plain_step(&t->reader, word, answer);
    if (refusal == ISTROLF_OK && t->awaited != ISTROLF_AWAITS_NOTHING) break_off(t, reply);
    return refusal;
}

uint8_t plain_told_read(istrolf_told *t, const uint16_t *words, size_t count, int16_t *out, size_t room, plain_counts *counts, istrolf_reply *reply) {
    size_t at = 0;
    memset(reply, 0, sizeof *reply);
    counts->taken = counts->reports = counts->dropped = 0;
    if (!good_came(t) || !good_reader(t->reader.format, &t->reader)) return ISTROLF_BAD_STATE;
    while (at < count && t->awaited != ISTROLF_AWAITS_NOTHING && take_reply(t, words[at], reply)) at++;
    uint8_t refusal = plain_read(&t->reader, words + at, count - at, out, room, counts);
    if (counts->taken > 0 && t->awaited != ISTROLF_AWAITS_NOTHING) break_off(t, reply);
    counts->taken += at;
    return refusal;
}
