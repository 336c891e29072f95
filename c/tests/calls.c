/* Long reads, steps of the box, pieces for the lister and ends, with states, words and rooms that look random, wrong
 * ones too. The program crates/calls hands the same to the functions below those for C and must write the same: of each
 * one number over all that the calls gave back. */
#include "istrolf.h"
#include <stdio.h>
#include <string.h>

/* Draws, each told by its call and its place. */

static uint64_t turned(uint64_t x) {
    uint64_t y = ((x % 2147483648u) * 1103515245u + 12345u) % 2147483648u;
    return y ^ (y / 65536);
}

static uint64_t drawn(uint64_t call, uint64_t place, uint64_t count) {
    return turned(turned(turned(call) ^ place) ^ call) / 16 % count;
}

static uint8_t drawn_byte(uint64_t call, uint64_t place, uint64_t count) { return (uint8_t)drawn(call, place, count); }

static uint8_t mark(uint64_t call, uint64_t place, uint64_t count) { return drawn(call, place, count) == 0; }

static uint8_t letter(uint64_t call, uint64_t place) { return (uint8_t)"SVABUTWSVABUTWUX"[drawn(call, place, 16)]; }

static uint8_t mode(uint64_t call, uint64_t place) { return (uint8_t)"JKLRMQNODORORODP"[drawn(call, place, 16)]; }

static uint8_t host(uint64_t call, uint64_t place) {
    return (uint8_t)"JKLRMQNODPSVABUTWORO ftdx5 ROOJd"[drawn(call, place, 32)];
}

static int16_t movement(uint64_t call, uint64_t place) {
    static const int16_t movements[8] = {0, 1, -3, 127, -128, 4095, 32767, -32768};
    return movements[drawn(call, place, 8)];
}

static int16_t position(uint64_t call, uint64_t place) {
    static const int16_t positions[8] = {0, 1, 100, 2048, 4095, 7, 8, 4096};
    return positions[drawn(call, place, 8)];
}

static int64_t sum(uint64_t call, uint64_t place) {
    static const int64_t sums[4] = {0, -70000, 9223372036854775000, -9223372036854775000};
    return sums[drawn(call, place, 4)];
}

static uint16_t word(uint64_t call, uint64_t place) {
    static const uint16_t words[64] = {152, 148, 159, 5,   3,   0,   100, 154, 64,  108, 111, 5,   61,  76,  236, 20,
                                       192, 68,  72,  80,  92,  129, 63,  3,   5,   160, 130, 144, 128, 130, 133, 135,
                                       7,   250, 255, 1,   0,   1,   2,   4,   7,   200, 128, 9,   48,  49,  50,  55,
                                       65,  70,  57,  51,  56,  69,  40,  103, 257, 257, 257, 257, 256, 256, 258, 65535};
    return words[drawn(call, place, 64)];
}

/* One number for all that a call gives back. */

static uint64_t mixed(uint64_t h, uint64_t v) {
    uint64_t high = ((h % 2147483647u) * 31 + v / 4294967296u) % 2147483647u;
    return (high * 31 + v % 4294967296u) % 2147483647u;
}

/* By its sign, as the member's own type has it, and its distance from 0 or -1. */
#define SIGNED(h, v) mixed(mixed(h, (v) < 0), (uint64_t)((v) < 0 ? -1 - (v) : (v)))

static uint64_t mixed_bytes(uint64_t h, const uint8_t *v, size_t count) {
    for (size_t i = 0; i < count; i++) h = mixed(h, v[i]);
    return h;
}

static uint64_t mixed_reader(uint64_t h, istrolf_reader r) {
    return mixed(mixed(mixed_bytes(mixed(h, r.format), r.kept, 5), r.count), r.awaiting);
}

/* The reader. */

static istrolf_reader any_reader(uint64_t call) {
    istrolf_reader r = {.format = letter(call, 10), .count = drawn_byte(call, 15, 6), .awaiting = mark(call, 11, 2)};
    r.kept[0] = drawn_byte(call, 13, 256), r.kept[1] = drawn_byte(call, 14, 64);
    return r;
}

static istrolf_reader chosen_reader(istrolf_reader last, uint64_t call) {
    uint64_t kind = drawn(call, 1, 16);
    return kind == 0 ? istrolf_reader_fresh(letter(call, 2)).reader : kind == 1 ? any_reader(call) : last;
}

static uint64_t read_words(uint64_t h, istrolf_reader *last, uint64_t call) {
    uint16_t words[8];
    int16_t out[12];
    for (uint64_t i = 0; i < 8; i++) words[i] = word(call, 30 + i);
    for (int i = 0; i < 12; i++) out[i] = 7;
    istrolf_reader reader = chosen_reader(*last, call);
    istrolf_reading a = istrolf_reader_read(reader, words, drawn(call, 40, 9), out, drawn(call, 41, 13));
    *last = a.next;
    h = mixed_reader(mixed(mixed(mixed(mixed(h, a.refusal), a.taken), a.reports), a.dropped), a.next);
    for (int i = 0; i < 12; i++) h = SIGNED(h, out[i]);
    return h;
}

/* The box. */

static istrolf_pair any_position(uint64_t call, uint64_t place) {
    istrolf_pair p = {.x = position(call, place), .y = position(call, place + 1)};
    return p;
}

static istrolf_sum any_sum(uint64_t call, uint64_t place) {
    istrolf_sum s = {.x = sum(call, place), .y = sum(call, place + 1)};
    return s;
}

static istrolf_box any_box(uint64_t call) {
    istrolf_box b = istrolf_box_fresh();
    b.settings.format = letter(call, 60), b.settings.mode = mode(call, 61);
    b.settings.buttons = drawn_byte(call, 62, 9);
    b.track.counter.x = movement(call, 63), b.track.counter.y = movement(call, 64);
    b.track.position = any_position(call, 65), b.track.last = any_position(call, 67);
    b.sums.limit = any_sum(call, 79), b.sums.counter = any_sum(call, 81);
    b.due = mark(call, 85, 2), b.dormant = mark(call, 86, 8);
    if (mark(call, 69, 4)) {
        for (uint64_t i = 0; i < 3; i++) b.going.bytes[i] = drawn_byte(call, 70 + i, 256);
        b.going.length = drawn_byte(call, 73, 6), b.going.sent = drawn_byte(call, 74, 6);
    }
    if (mark(call, 75, 4)) {
        b.memory.states[0] = drawn_byte(call, 76, 8), b.memory.states[1] = drawn_byte(call, 77, 9);
        b.memory.count = drawn_byte(call, 78, 10), b.memory.showing = mark(call, 84, 8);
    }
    return b;
}

static istrolf_box chosen_box(istrolf_box last, uint64_t call) {
    uint64_t kind = drawn(call, 88, 128);
    return kind < 6 ? istrolf_box_fresh() : kind < 8 ? any_box(call) : last;
}

static istrolf_stepped stepped(istrolf_box b, uint64_t call) {
    switch (drawn(call, 89, 6)) {
    case 0: return istrolf_box_motion(b, movement(call, 90), movement(call, 91));
    case 1: return istrolf_box_buttons(b, drawn_byte(call, 92, 9));
    case 2: return istrolf_box_host(b, host(call, 93));
    case 3: return istrolf_box_latch(b);
    case 4: return istrolf_box_send(b);
    default: return istrolf_box_period(b);
    }
}

static uint64_t mixed_pair(uint64_t h, istrolf_pair p) {
    h = SIGNED(h, p.x);
    return SIGNED(h, p.y);
}

static uint64_t mixed_sum(uint64_t h, istrolf_sum s) {
    h = SIGNED(h, s.x);
    return SIGNED(h, s.y);
}

static uint64_t mixed_box(uint64_t h, istrolf_box b) {
    h = mixed(mixed(mixed(h, b.settings.format), b.settings.mode), b.settings.buttons);
    h = mixed_pair(mixed_pair(mixed_pair(h, b.track.counter), b.track.position), b.track.last);
    h = mixed_bytes(mixed(mixed(h, b.going.length), b.going.sent), b.going.bytes, 5);
    h = mixed(mixed(mixed_bytes(h, b.memory.states, 8), b.memory.count), b.memory.showing);
    return mixed(mixed(mixed_sum(mixed_sum(h, b.sums.limit), b.sums.counter), b.due), b.dormant);
}

static uint64_t step(uint64_t h, istrolf_box *last, uint64_t call) {
    istrolf_stepped s = stepped(chosen_box(*last, call), call);
    *last = s.next;
    return mixed_box(mixed(mixed(mixed(h, s.refusal), s.sent), s.word), s.next);
}

/* The lister. */

static const char text[] = "F\tS\nQ\nB\t148\nB\t5\nB\t3\nB\t148\nB\t152\nX\nB\t154\nB\t7\nB\t9\n"
                           "F\tV\nB\t108\nB\t5\nB\t61\nB\t236\nQ\nB\t64\nZ\nB\t256\n";

typedef struct {
    istrolf_lister lister;
    size_t at; /* in the text */
} placed;

static placed any_lister(uint64_t call) {
    placed m = {.at = drawn(call, 106, 88)};
    m.lister.line = (uint32_t)(990000 * drawn(call, 112, 2) + drawn(call, 105, 10002));
    m.lister.ended = mark(call, 101, 16), m.lister.count = drawn(call, 104, 8);
    m.lister.held[0] = 66, m.lister.held[1] = 9, m.lister.held[2] = drawn_byte(call, 103, 64);
    m.lister.reader = any_reader(call);
    return m;
}

static placed chosen_lister(placed last, uint64_t call) {
    uint64_t kind = drawn(call, 107, 32);
    placed fresh = {istrolf_lister_fresh(), 48 * kind};
    return kind < 2 ? fresh : kind == 2 ? any_lister(call) : last;
}

static uint64_t mixed_listed(uint64_t h, istrolf_listed a, const uint8_t *out) {
    h = mixed(mixed(mixed(mixed(h, a.refusal), a.ended), a.taken), a.written);
    h = mixed_bytes(mixed(mixed(h, a.next.line), a.next.ended), a.next.held, 5);
    return mixed_bytes(mixed_reader(mixed(h, a.next.count), a.next.reader), out, 60);
}

static uint64_t list(uint64_t h, placed *last, uint64_t call) {
    uint8_t out[60];
    placed m = chosen_lister(*last, call);
    size_t at = m.at < 88 ? m.at : 0, most = drawn(call, 109, 12);
    if (most > 88 - at) most = 88 - at;
    memset(out, 46, 60);
    istrolf_listed f = istrolf_lister_feed(m.lister, (const uint8_t *)text + at, most, out, drawn(call, 108, 61));
    h = mixed_listed(h, f, out);
    memset(out, 46, 60);
    istrolf_listed e = istrolf_lister_finish(f.next, out, drawn(call, 110, 61));
    last->lister = mark(call, 111, 16) ? e.next : f.next, last->at = at + f.taken;
    return mixed_listed(h, e, out);
}

int main(void) {
    uint64_t reads = 0, steps = 0, lists = 0;
    istrolf_reader reader = istrolf_reader_fresh('U').reader;
    istrolf_box box = istrolf_box_fresh();
    placed lister = {istrolf_lister_fresh(), 0};
    for (uint64_t call = 0; call < 100000; call++) {
        reads = read_words(reads, &reader, call);
        steps = step(steps, &box, call);
        lists = list(lists, &lister, call);
    }
    printf("istrolf_reader_read %llu\n", (unsigned long long)reads);
    printf("istrolf_box %llu\n", (unsigned long long)steps);
    printf("istrolf_lister %llu\n", (unsigned long long)lists);
    return 0;
}
