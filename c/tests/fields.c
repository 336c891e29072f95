/* Nobody proves that istrolf.h and the library agree on their structs. So distinct values go through every member of every struct here, both ways, each
 * by what the library makes of it, and are compared. */
#include "istrolf.h"
#include <stdio.h>

static int compared, wrong;

static void same(const char *member, long long found, long long expected) {
    compared++;
    if (found == expected) return;
    wrong++;
    printf("%s is %lld, and not %lld\n", member, found, expected);
}

static void same_reader(istrolf_reader r, uint8_t format, const uint8_t *kept, uint8_t count, uint8_t awaiting) {
    same("reader.format", r.format, format);
    for (int i = 0; i < 5; i++) same("reader.kept", r.kept[i], kept[i]);
    same("reader.count", r.count, count);
    same("reader.awaiting", r.awaiting, awaiting);
}

static void reader(void) {
    const uint8_t none[5] = {0}, four[5] = {135, 11, 12, 13, 0};
    istrolf_new_reader n = istrolf_reader_fresh('T');
    same("new_reader.refusal", n.refusal, 0);
    same_reader(n.reader, 'T', none, 0, 1);
    same("new_reader.refusal", istrolf_reader_fresh('X').refusal, ISTROLF_BAD_LETTER);

    /* in: the kept bytes, their count and the format make the report; out: the same by its members */
    istrolf_reader r = {'U', {135, 11, 12, 13, 0}, 4, 0};
    istrolf_read_word w = istrolf_reader_step(r, 240);
    same("read_word.refusal", w.refusal, 0);
    same("read_word.reports", w.reports, 1);
    same("read_word.dropped", w.dropped, 0);
    same("report.buttons", w.report.buttons, 0);
    same("report.x1", w.report.x1, 11);
    same("report.y1", w.report.y1, 12);
    same("report.x2", w.report.x2, 13);
    same("report.y2", w.report.y2, -16);
    same_reader(w.next, 'U', none, 0, 0);
    w = istrolf_reader_step(r, ISTROLF_BREAK);
    same("read_word.reports", w.reports, 0);
    same("read_word.dropped", w.dropped, 4);
    same_reader(w.next, 'U', none, 0, 1);
    w = istrolf_reader_step(w.next, 135); /* it awaits a silence, so a byte is dropped */
    same("read_word.dropped", w.dropped, 1);
    w = istrolf_reader_step(r, 258);
    same("read_word.refusal", w.refusal, ISTROLF_BAD_WORD);
    same_reader(w.next, 'U', four, 4, 0);

    const uint16_t words[] = {240, 257, 130, 1, 2, 3, 4, 131, 5, 256, 7};
    int16_t out[12] = {0};
    for (int i = 0; i < 12; i++) out[i] = (int16_t)(700 + i);
    istrolf_reading a = istrolf_reader_read(r, words, 11, out, 12);
    const int16_t numbers[12] = {0, 11, 12, 13, -16, 5, 1, 2, 3, 4, 710, 711};
    same("reading.refusal", a.refusal, 0);
    same("reading.taken", (long long)a.taken, 11);
    same("reading.reports", (long long)a.reports, 2);
    same("reading.dropped", (long long)a.dropped, 3);
    same_reader(a.next, 'U', none, 0, 1);
    for (int i = 0; i < 12; i++) same("out", out[i], numbers[i]);
    r.awaiting = 2;
    a = istrolf_reader_read(r, words, 11, out, 12);
    same("reading.refusal", a.refusal, ISTROLF_BAD_STATE);
    same("reading.taken", (long long)a.taken, 0);
    same_reader(a.next, 'U', four, 4, 2);
}

static void same_port(istrolf_port p, uint8_t held, uint8_t clears, uint32_t silence, uint32_t left) {
    same("port.held", p.held, held);
    same("port.clears", p.clears, clears);
    same("port.silence", p.silence, silence);
    same("port.left", p.left, left);
}

static void same_port_word(istrolf_port_word w, uint8_t words, uint16_t word) {
    same("port_word.words", w.words, words);
    same("port_word.word", w.word, word);
}

static void port(void) {
    same_port(istrolf_port_fresh(70000), 0, 0, 70000, 70000);
    same_port(istrolf_port_clearing(80000), 0, 1, 80000, 80000);

    /* in: what is held of a mark, whether bit 7 is cleared, the length of a silence and what is left of it; out: the same */
    const istrolf_port plain = {0, 0, 70000, 60000}, clearing = {0, 9, 70000, 60000}, marked = {1, 9, 70000, 60000}, half = {2, 9, 70000, 60000};
    istrolf_port_word w = istrolf_port_byte(plain, 0xEC);
    same_port_word(w, 1, 0xEC);
    same_port(w.next, 0, 0, 70000, 70000);
    w = istrolf_port_byte(clearing, 0xEC);
    same_port_word(w, 1, 0x6C);
    same_port(w.next, 0, 9, 70000, 70000);
    w = istrolf_port_byte(clearing, 0xFF);
    same_port_word(w, 0, 0);
    same_port(w.next, 1, 9, 70000, 70000);
    w = istrolf_port_byte(marked, 0xFF);
    same_port_word(w, 1, 0x7F);
    same_port(w.next, 0, 9, 70000, 70000);
    w = istrolf_port_byte(marked, 0);
    same_port_word(w, 0, 0);
    same_port(w.next, 2, 9, 70000, 70000);
    same_port_word(istrolf_port_byte(marked, 1), 1, ISTROLF_BREAK);
    same_port_word(istrolf_port_byte(half, 0x41), 1, ISTROLF_BREAK);
    w = istrolf_port_quiet(marked, 59999);
    same_port_word(w, 0, 0);
    same_port(w.next, 1, 9, 70000, 1);
    w = istrolf_port_quiet(marked, 60000);
    same_port_word(w, 1, ISTROLF_SILENCE);
    same_port(w.next, 0, 9, 70000, 0);
    w = istrolf_port_quiet(w.next, 4000000000u);
    same_port_word(w, 0, 0);
    same_port(w.next, 0, 9, 70000, 0);
    w = istrolf_port_lost(half);
    same_port_word(w, 1, ISTROLF_BREAK);
    same_port(w.next, 2, 9, 70000, 70000);

    /* five words of twelve bytes, FF at the end; and only three where there is room for three */
    const uint8_t raw[12] = {0x41, 0xFF, 0xFF, 0xFF, 0, 0, 0xFF, 0, 0x42, 0x43, 0xFF, 0};
    const uint16_t words[7] = {0x41, 0xFF, ISTROLF_BREAK, ISTROLF_BREAK, 0x43, 705, 706};
    uint16_t out[7];
    for (int i = 0; i < 7; i++) out[i] = (uint16_t)(700 + i);
    istrolf_port_words a = istrolf_port_bytes(plain, raw, 11, out, 7);
    same("port_words.taken", (long long)a.taken, 11);
    same("port_words.written", (long long)a.written, 5);
    same_port(a.next, 1, 0, 70000, 70000);
    for (int i = 0; i < 7; i++) same("out", out[i], words[i]);
    a = istrolf_port_bytes(plain, raw, 12, out, 3);
    same("port_words.taken", (long long)a.taken, 8);
    same("port_words.written", (long long)a.written, 3);
    same_port(a.next, 2, 0, 70000, 70000);
}

static void same_watch(istrolf_watch w, uint8_t known, uint8_t last) {
    same("watch.known", w.known, known);
    same("watch.last", w.last, last);
}

static void same_watched(istrolf_watched a, istrolf_watch next, size_t left, size_t middle, size_t right) {
    same_watch(a.next, next.known, next.last);
    same("watched.left", (long long)a.left, (long long)left);
    same("watched.middle", (long long)a.middle, (long long)middle);
    same("watched.right", (long long)a.right, (long long)right);
}

static void watch(void) {
    same_watch(istrolf_watch_fresh(), 0, 0);
    same_watch(istrolf_watch_knowing(6), 1, 6);
    const istrolf_watch unaware = {0, 6}, knowing = {7, 6};

    /* in: what is known, the buttons seen last, and of the report the buttons alone; out: what went down and up */
    const istrolf_report p = {3, 4, 5, 6, 7};
    istrolf_changes c = istrolf_watch_heard(unaware, p);
    same_watch(c.next, 1, 3);
    same("changes.down", c.down, 0);
    same("changes.up", c.up, 0);
    c = istrolf_watch_heard(knowing, p);
    same_watch(c.next, 1, 3);
    same("changes.down", c.down, ISTROLF_R);
    same("changes.up", c.up, ISTROLF_L);

    /* R goes down three times, L twice, M once; behind the sixth report stand four numbers more */
    const int16_t numbers[34] = {3,  4, 4, 4, 4, 4, 1, 1, 1, 1, 1, 6, 6, 6, 6, -1, 7,
                                 7,  7, 7, 5, 2, 2, 2, 2, 0, 7, 7, 7, 7, 7, 7, 7,  7};
    const istrolf_watch last = {1, 0};
    same_watched(istrolf_watch_over(knowing, numbers, 34), last, 2, 0, 3);
    same_watched(istrolf_watch_over(istrolf_watch_knowing(0), numbers, 34), last, 2, 1, 3);
    same_watched(istrolf_watch_over(unaware, numbers, 34), last, 2, 0, 2);
    same_watched(istrolf_watch_over(knowing, numbers, 4), knowing, 0, 0, 0);
    same_watched(istrolf_watch_over(unaware, numbers, 0), unaware, 0, 0, 0);
}

static void encoder(void) {
    const istrolf_report p = {5, 11, -12, 13, -14};
    const uint8_t bytes[7] = {130, 11, 244, 13, 242, 76, 77};
    uint8_t buffer[7] = {71, 72, 73, 74, 75, 76, 77};
    istrolf_encoding e = istrolf_encode('U', p, buffer, 7);
    same("encoding.refusal", e.refusal, 0);
    same("encoding.length", (long long)e.length, 5);
    for (int i = 0; i < 7; i++) same("buffer", buffer[i], bytes[i]);
    const istrolf_report wide[4] = {{0, 900, 0, 0, 0}, {0, 0, 900, 0, 0}, {0, 0, 0, 900, 0}, {0, 0, 0, 0, 900}};
    const uint8_t told[4] = {ISTROLF_BAD_X1, ISTROLF_BAD_Y1, ISTROLF_BAD_X2, ISTROLF_BAD_Y2};
    for (int i = 0; i < 4; i++) same("report", istrolf_encode('U', wide[i], buffer, 7).refusal, told[i]);
    same("encoding.refusal", istrolf_encode('U', p, buffer, 4).refusal, ISTROLF_SHORT_BUFFER);
}

static void same_box(istrolf_box found, istrolf_box expected) {
    same("settings.format", found.settings.format, expected.settings.format);
    same("settings.mode", found.settings.mode, expected.settings.mode);
    same("settings.buttons", found.settings.buttons, expected.settings.buttons);
    same("track.counter.x", found.track.counter.x, expected.track.counter.x);
    same("track.counter.y", found.track.counter.y, expected.track.counter.y);
    same("track.position.x", found.track.position.x, expected.track.position.x);
    same("track.position.y", found.track.position.y, expected.track.position.y);
    same("track.last.x", found.track.last.x, expected.track.last.x);
    same("track.last.y", found.track.last.y, expected.track.last.y);
    same("going.length", found.going.length, expected.going.length);
    same("going.sent", found.going.sent, expected.going.sent);
    for (int i = 0; i < 5; i++) same("going.bytes", found.going.bytes[i], expected.going.bytes[i]);
    for (int i = 0; i < 8; i++) same("memory.states", found.memory.states[i], expected.memory.states[i]);
    same("memory.count", found.memory.count, expected.memory.count);
    same("memory.showing", found.memory.showing, expected.memory.showing);
    same("sums.limit.x", found.sums.limit.x, expected.sums.limit.x);
    same("sums.limit.y", found.sums.limit.y, expected.sums.limit.y);
    same("sums.counter.x", found.sums.counter.x, expected.sums.counter.x);
    same("sums.counter.y", found.sums.counter.y, expected.sums.counter.y);
    same("due", found.due, expected.due);
    same("dormant", found.dormant, expected.dormant);
}

static istrolf_box stepped(istrolf_stepped s, uint8_t refusal, uint8_t sent, uint16_t word) {
    same("stepped.refusal", s.refusal, refusal);
    same("stepped.sent", s.sent, sent);
    same("stepped.word", s.word, word);
    return s.next;
}

static void box(void) {
    const istrolf_box made = {{'B', 'R', 5},
                              {{21, 22}, {23, 24}, {25, 26}},
                              {5, 1, {81, 82, 83, 84, 85}},
                              {{5, 1, 6, 2, 7, 3, 0, 0}, 6, 1},
                              {{31, 32}, {33, 34}},
                              1,
                              0};
    istrolf_box b = made;

    /* counters and position take the motion, and what a counter does not hold goes to its own sum */
    b = stepped(istrolf_box_motion(made, 300, -400), 0, 0, 0);
    istrolf_box e = made;
    e.track.counter.x = 321, e.track.counter.y = -378;
    e.track.position.x = 323, e.track.position.y = 0;
    same_box(b, e);
    same("track.counter.y, below 0", b.track.counter.y, -378);
    b = stepped(istrolf_box_motion(b, 32767, -32768), 0, 0, 0);
    e.track.counter.x = 32767, e.track.counter.y = -32768;
    e.track.position.x = 4095, e.track.position.y = 0;
    e.sums.counter.x = 33 + 321, e.sums.counter.y = 34 - 378;
    same_box(b, e);
    same("sums.counter.y, below 0", b.sums.counter.y < 0, 1);

    /* the bytes go out in order; the last takes the state that was shown */
    for (int i = 1; i < 5; i++) {
        b = stepped(istrolf_box_send(b), 0, 1, (uint16_t)(81 + i));
        if (i < 4) e.going.sent = (uint8_t)(i + 1);
    }
    e.going.length = 0, e.going.sent = 0;
    for (int i = 0; i < 5; i++) e.going.bytes[i] = 0;
    const uint8_t states[8] = {1, 6, 2, 7, 3, 0, 0, 0};
    for (int i = 0; i < 8; i++) e.memory.states[i] = states[i];
    e.memory.count = 5, e.memory.showing = 0;
    same_box(b, e);

    /* latching clears the counters, sets the last position, and adds to the limit's sums what a report does not hold */
    b = stepped(istrolf_box_latch(b), 0, 0, 0);
    e.sums.limit.x = 31 + 32767 - 2047, e.sums.limit.y = 32 - (32768 - 2048);
    e.track.counter.x = 0, e.track.counter.y = 0;
    e.track.last = e.track.position;
    const uint8_t bytes[5] = {68, 63, 159, 0, 160};
    for (int i = 0; i < 5; i++) e.going.bytes[i] = b.going.bytes[i], same("latched", b.going.bytes[i] & 127, bytes[i] & 127);
    e.going.length = 5, e.memory.showing = 1, e.due = 0;
    same_box(b, e);

    /* a byte of the host's breaks off with 256; the replies tell format, mode and buttons */
    b = stepped(istrolf_box_host(b, 't'), 0, 1, ISTROLF_BREAK);
    b = stepped(istrolf_box_send(b), 0, 1, 'B');
    b = stepped(istrolf_box_send(b), 0, 1, 'R');
    b = stepped(istrolf_box_host(b, 5), 0, 0, 0);
    b = stepped(istrolf_box_send(b), 0, 1, 5);
    same("memory.count", b.memory.count, 5);
    same("memory.showing", b.memory.showing, 0);

    /* a change is remembered behind the others; due, by the interval; dormant, by d */
    b = stepped(istrolf_box_buttons(b, 4), 0, 0, 0);
    same("settings.buttons", b.settings.buttons, 4);
    same("memory.states", b.memory.states[5], 4);
    same("memory.count", b.memory.count, 6);
    b = stepped(istrolf_box_motion(b, 1, 0), 0, 0, 0);
    same("due", b.due, 0);
    b = stepped(istrolf_box_period(b), 0, 0, 0);
    same("due", b.due, 1);
    b = stepped(istrolf_box_host(b, 'd'), 0, 1, ISTROLF_BREAK);
    same("due", b.due, 0);
    same("dormant", b.dormant, 1);
    b = stepped(istrolf_box_send(b), 0, 1, ISTROLF_SILENCE);
    e = b;
    b = stepped(istrolf_box_motion(b, 9, 9), 0, 0, 0); /* which a dormant box does not feel */
    same_box(b, e);

    /* a mark of 2 in each place is refused, and handed back */
    b = made, b.memory.showing = 2, e = b;
    same_box(stepped(istrolf_box_send(b), ISTROLF_BAD_STATE, 0, 0), e);
    b = made, b.due = 2, e = b;
    same_box(stepped(istrolf_box_send(b), ISTROLF_BAD_STATE, 0, 0), e);
    b = made, b.dormant = 2, e = b;
    same_box(stepped(istrolf_box_send(b), ISTROLF_BAD_STATE, 0, 0), e);
    same_box(stepped(istrolf_box_buttons(made, 8), ISTROLF_BAD_BUTTONS, 0, 0), made);

    const istrolf_box fresh = {{'U', 'O', 0}, {{0, 0}, {0, 0}, {0, 0}}, {0, 0, {0}}, {{0}, 0, 0}, {{0, 0}, {0, 0}}, 0, 0};
    same_box(istrolf_box_fresh(), fresh);
}

static void same_lister(istrolf_lister m, uint32_t line, uint8_t ended, const char *held, size_t count) {
    same("lister.line", m.line, line);
    same("lister.ended", m.ended, ended);
    same("lister.count", (long long)m.count, (long long)count);
    for (size_t i = 0; i < count; i++) same("lister.held", m.held[i], (uint8_t)held[i]);
}

static void lister(void) {
    const uint8_t none[5] = {0}, two[5] = {148, 5, 0, 0, 0};
    uint8_t out[80];
    istrolf_lister m = istrolf_lister_fresh();
    same_lister(m, 0, 0, "", 0);
    same_reader(m.reader, 'U', none, 0, 1);

    /* in: the line, the bytes of the unfinished line and the reader make the text; out: the same by their members */
    m.line = 41, m.ended = 0, m.count = 2;
    for (int i = 0; i < 2; i++) m.held[i] = (uint8_t)"B\t"[i];
    const istrolf_reader r = {'S', {148, 5, 0, 0, 0}, 2, 0};
    m.reader = r;
    istrolf_listed a = istrolf_lister_feed(m, (const uint8_t *)"3\nQ", 3, out, sizeof out);
    const char text[] = "R\t000042\tL--\t5\t-3\n";
    same("listed.refusal", a.refusal, 0);
    same("listed.ended", a.ended, 0);
    same("listed.taken", (long long)a.taken, 3);
    same("listed.written", (long long)a.written, (long long)(sizeof text - 1));
    for (size_t i = 0; i < sizeof text - 1; i++) same("out", out[i], (uint8_t)text[i]);
    same_lister(a.next, 42, 0, "Q", 1);
    same_reader(a.next.reader, 'S', none, 0, 0);

    m.count = 0;
    for (int i = 0; i < 2; i++) m.held[i] = 0;
    a = istrolf_lister_finish(m, out, 1);
    same("listed.ended", a.ended, 0);
    same("listed.written", (long long)a.written, 0);
    same_lister(a.next, 41, 0, "", 0);
    same_reader(a.next.reader, 'S', two, 2, 0);
    a = istrolf_lister_finish(m, out, sizeof out);
    same("listed.ended", a.ended, 1);
    same("listed.written", (long long)a.written, 4);
    same("out", out[2], '2');
    same_lister(a.next, 41, 1, "", 0);
    m.ended = 2;
    a = istrolf_lister_feed(m, out, 1, out + 1, 1);
    same("listed.refusal", a.refusal, ISTROLF_BAD_STATE);
    same("listed.ended", a.ended, 2);
    same_lister(a.next, 41, 2, "", 0);
}

static void same_yard(istrolf_yard y, uint8_t format, uint8_t first, uint8_t last, uint8_t count, uint8_t ended) {
    same("yard.format", y.format, format);
    same("yard.first", y.first, first);
    same("yard.last", y.last, last);
    same("yard.count", y.count, count);
    same("yard.ended", y.ended, ended);
}

static void yard(void) {
    istrolf_new_yard n = istrolf_yard_fresh('W');
    same("new_yard.refusal", n.refusal, 0);
    same_yard(n.yard, 'W', 0, 0, 0, 0);
    n = istrolf_yard_fresh('X');
    same("new_yard.refusal", n.refusal, ISTROLF_BAD_LETTER);
    same_yard(n.yard, 'U', 0, 0, 0, 0);

    /* in: the high digit 8 behind the last byte 0 is -128, and else it can be sent; out: the same by their members */
    const istrolf_yard low = {'W', '7', '0', 2, 0}, other = {'W', '7', '1', 2, 0};
    istrolf_judged j = istrolf_yard_step(low, '8');
    same("judged.refusal", j.refusal, 0);
    same("judged.can", j.can, 0);
    same_yard(j.next, 'W', 0, 0, 0, 1);
    j = istrolf_yard_step(j.next, ISTROLF_SILENCE);
    same("judged.can", j.can, 0);
    same_yard(j.next, 'W', 0, 0, 0, 1);
    j = istrolf_yard_step(other, '8');
    same("judged.refusal", j.refusal, 0);
    same("judged.can", j.can, 1);
    same_yard(j.next, 'W', '7', '8', 3, 0);

    /* the sign of S is in the first byte */
    const istrolf_yard minus = {'S', 0x88, 0x88, 1, 0}, plus = {'S', 0x98, 0x98, 1, 0};
    same("judged.can", istrolf_yard_step(minus, 0).can, 0);
    same("judged.can", istrolf_yard_step(plus, 0).can, 1);

    /* a word above 257, a mark of 2 and a last byte that is none are refused, and the check is handed back */
    j = istrolf_yard_step(other, 258);
    same("judged.refusal", j.refusal, ISTROLF_BAD_WORD);
    same_yard(j.next, 'W', '7', '1', 2, 0);
    istrolf_yard y = low;
    y.ended = 2;
    j = istrolf_yard_step(y, '0');
    same("judged.refusal", j.refusal, ISTROLF_BAD_STATE);
    same("judged.can", j.can, 0);
    same_yard(j.next, 'W', '7', '0', 2, 2);
    y.ended = 0, y.last = 'G';
    same("judged.refusal", istrolf_yard_step(y, '0').refusal, ISTROLF_BAD_STATE);

    const uint16_t words[] = {257, 0x94, 5, 3, 256, 0x88, 0, 258};
    istrolf_checked c = istrolf_yard_check('S', words, 6);
    same("checked.refusal", c.refusal, 0);
    same("checked.proper", c.proper, 1);
    same("checked.sendable", (long long)c.sendable, 6);
    c = istrolf_yard_check('S', words, 7);
    same("checked.refusal", c.refusal, 0);
    same("checked.proper", c.proper, 0);
    same("checked.sendable", (long long)c.sendable, 6);
    c = istrolf_yard_check('S', words, 8);
    same("checked.refusal", c.refusal, ISTROLF_BAD_WORD);
    same("checked.proper", c.proper, 0);
    same("checked.sendable", (long long)c.sendable, 0);
    same("checked.refusal", istrolf_yard_check('X', words, 8).refusal, ISTROLF_BAD_LETTER);
}

static void same_bridge(istrolf_bridge b, uint8_t based, uint8_t middle, uint16_t presses, int16_t x, int16_t y) {
    same("bridge.based", b.based, based);
    same("bridge.middle", b.middle, middle);
    same("bridge.presses", b.presses, presses);
    same("bridge.x", b.x, x);
    same("bridge.y", b.y, y);
}

static void bridge(void) {
    const uint8_t none[5] = {0}, four[5] = {80, 129, 0, 130, 0};
    istrolf_new_bridge n = istrolf_bridge_fresh('W');
    same("new_bridge.refusal", n.refusal, 0);
    same_reader(n.bridge.reader, 'W', none, 0, 1);
    same_bridge(n.bridge, 0, 0, 0, 0, 0);
    same("new_bridge.refusal", istrolf_bridge_fresh('X').refusal, ISTROLF_BAD_LETTER);

    /* in: the base and the kept bytes make V reports, and a middle that was down is no press; out: the last position is the base, with one press more */
    istrolf_bridge b = {{'A', {80, 129, 0, 130, 0}, 4, 0}, 1, 1, 700, 201, 302};
    const uint16_t words[] = {0, 72, 129, 0, 130, 0, 0, 258};
    const uint8_t bytes[14] = {102, 1, 63, 102, 55, 63, 96, 0, 46, 64, 0, 0, 79, 80};
    uint8_t out[14];
    for (int i = 0; i < 14; i++) out[i] = (uint8_t)(67 + i);
    istrolf_converted a = istrolf_bridge_convert(b, words, 8, out, 14);
    same("converted.refusal", a.refusal, ISTROLF_BAD_WORD);
    same("converted.taken", (long long)a.taken, 7);
    same("converted.reports", (long long)a.reports, 2);
    same("converted.sent", (long long)a.sent, 4);
    same("converted.dropped", (long long)a.dropped, 1);
    same_reader(a.next.reader, 'A', none, 0, 0);
    same_bridge(a.next, 1, 1, 701, 1, 2);
    for (int i = 0; i < 14; i++) same("out", out[i], bytes[i]);

    /* no room: nothing is written, and the state stands before the word */
    b.middle = 0, b.presses = 40700;
    a = istrolf_bridge_convert(b, words, 8, out, 8);
    same("converted.refusal", a.refusal, 0);
    same("converted.taken", (long long)a.taken, 0);
    same_reader(a.next.reader, 'A', four, 4, 0);
    same_bridge(a.next, 1, 0, 40700, 201, 302);

    /* in T there is no base, and a middle that was down and stays down is no press; the presses go up to 65535 */
    const istrolf_bridge held = {{'T', {0}, 0, 0}, 0, 1, 65534, 0, 0};
    const uint16_t taps[] = {ISTROLF_M, 0, 0, 0, 0, 0, ISTROLF_M, 0, 0};
    a = istrolf_bridge_convert(held, taps, 3, out, 14);
    same("converted.refusal", a.refusal, 0);
    same("converted.reports", (long long)a.reports, 1);
    same_bridge(a.next, 0, 1, 65534, 0, 0);
    same("bridge.presses, the most", istrolf_bridge_convert(held, taps, 9, out, 14).next.presses, 65535);

    /* a mark of 2 in each place is refused, and handed back */
    b.based = 2, b.x = -201, b.y = -302;
    a = istrolf_bridge_convert(b, words, 8, out, 14);
    same("converted.refusal", a.refusal, ISTROLF_BAD_STATE);
    same_bridge(a.next, 2, 0, 40700, -201, -302);
    b.based = 1, b.middle = 2, b.x = 201, b.y = 302;
    a = istrolf_bridge_convert(b, words, 8, out, 14);
    same("converted.refusal", a.refusal, ISTROLF_BAD_STATE);
    same_bridge(a.next, 1, 2, 40700, 201, 302);
}

static void same_readback(istrolf_readback r, uint8_t width, uint8_t ended, uint8_t salvage, uint32_t last, uint32_t lines) {
    same("readback.width", r.width, width);
    same("readback.ended", r.ended, ended);
    same("readback.salvage", r.salvage, salvage);
    same("readback.last", r.last, last);
    same("readback.lines", r.lines, lines);
}

static void readback(void) {
    int32_t out[12];
    const char listing[] = "R\t0042\tL?-\t-5\t300\nH\t2\nX";
    same_readback(istrolf_readback_fresh(), 0, 0, 0, 0, 0);

    /* in: the width, the last line number and the lines passed decide what is taken; out: the same by their members */
    const istrolf_readback made = {4, 0, 1, 41, 17};
    for (int i = 0; i < 12; i++) out[i] = 700 + i;
    istrolf_read_lines a = istrolf_readback_read(made, (const uint8_t *)listing, sizeof listing - 1, out, 12);
    const int32_t numbers[12] = {ISTROLF_ITEM_R, 42, 12, -5, 300, ISTROLF_ITEM_H, 0, 2, 0, 0, 710, 711};
    same("read_lines.refusal", a.refusal, 0);
    same("read_lines.line", a.line, 0);
    same("read_lines.taken", (long long)a.taken, (long long)sizeof listing - 2);
    same("read_lines.items", (long long)a.items, 2);
    for (int i = 0; i < 12; i++) same("out", out[i], numbers[i]);
    same_readback(a.next, 4, 1, 1, 42, 19);
    a = istrolf_readback_finish(a.next, 1);
    same("read_lines.refusal", a.refusal, ISTROLF_BAD_LISTING);
    same("read_lines.line", a.line, 20);
    same_readback(a.next, 4, 1, 1, 42, 19);
    same("read_lines.refusal", istrolf_readback_finish(a.next, 0).refusal, 0);
    istrolf_readback r = made;
    r.last = 42; /* which is no longer below the line's number */
    a = istrolf_readback_read(r, (const uint8_t *)listing, sizeof listing - 1, out, 12);
    same("read_lines.refusal", a.refusal, ISTROLF_BAD_LISTING);
    same("read_lines.line", a.line, 18);
    same("read_lines.taken", (long long)a.taken, 0);
    r.ended = 2;
    a = istrolf_readback_read(r, (const uint8_t *)listing, sizeof listing - 1, out, 12);
    same("read_lines.refusal", a.refusal, ISTROLF_BAD_STATE);
    same_readback(a.next, 4, 2, 1, 42, 17);
    r = made, r.salvage = 2;
    a = istrolf_readback_read(r, (const uint8_t *)listing, sizeof listing - 1, out, 12);
    same("read_lines.refusal", a.refusal, ISTROLF_BAD_STATE);
    same_readback(a.next, 4, 0, 2, 41, 17);
    r = made, r.salvage = 0;
    same("readback.salvage", istrolf_readback_finish(r, 0).next.salvage, 0);
    a = istrolf_readback_read(istrolf_readback_fresh(), (const uint8_t *)"S\t6\nH\t0\n", 8, out, 12);
    same_readback(a.next, 6, 1, 1, 0, 2);

    /* rewritten, with two digits more */
    const char other[] = "R\t000042\tL?-\t-5\t300\nH\t2\n..";
    uint8_t text[sizeof other - 1];
    for (size_t i = 0; i < sizeof text; i++) text[i] = '.';
    istrolf_rewritten w = istrolf_readback_rewrite(made, (const uint8_t *)listing, sizeof listing - 1, text, sizeof text);
    same("rewritten.refusal", w.refusal, 0);
    same("rewritten.line", w.line, 0);
    same("rewritten.taken", (long long)w.taken, (long long)sizeof listing - 2);
    same("rewritten.written", (long long)w.written, (long long)sizeof text - 2);
    for (size_t i = 0; i < sizeof text; i++) same("text", text[i], other[i]);
    same_readback(w.next, 4, 1, 1, 42, 19);
    w = istrolf_readback_rewrite(w.next, (const uint8_t *)"H\t0\n", 4, text, sizeof text);
    same("rewritten.refusal", w.refusal, ISTROLF_BAD_LISTING);
    same("rewritten.line", w.line, 20);
    r = made, r.width = 5;
    same("read_lines.refusal", istrolf_readback_finish(r, 0).refusal, ISTROLF_BAD_STATE);
}

static void same_came(istrolf_came c, uint8_t count, uint8_t first, uint8_t second) {
    same("came.count", c.count, count);
    same("came.first", c.first, first);
    same("came.second", c.second, second);
}

static void same_reply(istrolf_reply r, uint8_t kind, uint8_t format, uint8_t mode, uint8_t buttons) {
    same("reply.kind", r.kind, kind);
    same("reply.format", r.format, format);
    same("reply.mode", r.mode, mode);
    same("reply.buttons", r.buttons, buttons);
}

static void told(void) {
    const uint8_t none[5] = {0}, four[5] = {135, 11, 12, 13, 0};
    istrolf_new_told n = istrolf_told_fresh('T');
    same("new_told.refusal", n.refusal, 0);
    same_reader(n.told.reader, 'T', none, 0, 1);
    same("told.awaited", n.told.awaited, ISTROLF_AWAITS_NOTHING);
    same_came(n.told.came, 0, 0, 0);
    same("new_told.refusal", istrolf_told_fresh('X').refusal, ISTROLF_BAD_LETTER);

    /* in: the first letter that has come and the kind make the reply; out: the same by its members, and the report reader as it was */
    const istrolf_told t = {{'U', {135, 11, 12, 13, 0}, 4, 0}, ISTROLF_AWAITS_LETTERS, {1, 'B', 0}};
    istrolf_heard_word w = istrolf_told_step(t, 'R');
    same("heard_word.refusal", w.refusal, 0);
    same("heard_word.reports", w.reports, 0);
    same("heard_word.dropped", w.dropped, 0);
    same_reply(w.reply, ISTROLF_REPLY_LETTERS, 'B', 'R', 0);
    same_came(w.reply.came, 0, 0, 0);
    same_reader(w.next.reader, 'U', four, 4, 0);
    same("told.awaited", w.next.awaited, ISTROLF_AWAITS_NOTHING);
    same_came(w.next.came, 0, 0, 0);

    /* no mode: it breaks the reply, and ends the report */
    w = istrolf_told_step(t, 240);
    same_reply(w.reply, ISTROLF_REPLY_BROKEN, 0, 0, 0);
    same_came(w.reply.came, 1, 'B', 0);
    same("heard_word.reports", w.reports, 1);
    same("report.buttons", w.report.buttons, 0);
    same("report.x1", w.report.x1, 11);
    same("report.y1", w.report.y1, 12);
    same("report.x2", w.report.x2, 13);
    same("report.y2", w.report.y2, -16);
    same_reader(w.next.reader, 'U', none, 0, 0);
    w = istrolf_told_step(t, ISTROLF_BREAK);
    same("heard_word.dropped", w.dropped, 4);
    w = istrolf_told_step(t, 258);
    same("heard_word.refusal", w.refusal, ISTROLF_BAD_WORD);
    same_reply(w.reply, ISTROLF_REPLY_NONE, 0, 0, 0);
    same_reader(w.next.reader, 'U', four, 4, 0);
    same("told.awaited", w.next.awaited, ISTROLF_AWAITS_LETTERS);
    same_came(w.next.came, 1, 'B', 0);

    /* three bytes, of which the low bits of the first tell */
    istrolf_told b = {{'S', {0}, 0, 0}, ISTROLF_AWAITS_BUTTONS, {1, 253, 0}};
    w = istrolf_told_step(b, 77);
    same_came(w.next.came, 2, 253, 77);
    same("told.awaited", w.next.awaited, ISTROLF_AWAITS_BUTTONS);
    w = istrolf_told_step(w.next, 99);
    same_reply(w.reply, ISTROLF_REPLY_BUTTONS, 0, 0, 5);
    b.awaited = ISTROLF_AWAITS_CODE, b.came.count = 0, b.came.first = 0;
    same_reply(istrolf_told_step(b, 26).reply, ISTROLF_REPLY_FORMAT, 'S', 0, 0);

    istrolf_told_command_answer c = istrolf_told_command(t, 'f');
    same("told_command.refusal", c.refusal, 0);
    same("told_command.discarded", c.discarded, 1);
    same("told.awaited", c.next.awaited, ISTROLF_AWAITS_CODE);
    same_came(c.next.came, 0, 0, 0);
    same_reader(c.next.reader, 'U', four, 4, 0);
    c = istrolf_told_command(t, 'P');
    same("told_command.refusal", c.refusal, ISTROLF_NO_REPLY);
    same("told_command.discarded", c.discarded, 0);
    same("told.awaited", c.next.awaited, ISTROLF_AWAITS_LETTERS);
    same_came(c.next.came, 1, 'B', 0);
    same("told.awaited", istrolf_told_waking(t).next.awaited, ISTROLF_AWAITS_ACK);
    same_reply(istrolf_told_step(istrolf_told_waking(t).next, 6).reply, ISTROLF_REPLY_ACK, 0, 0, 0);

    const uint16_t words[] = {240, 257, 130, 1, 2, 3, 4, 131, 5, 256, 7};
    int16_t out[12] = {0};
    for (int i = 0; i < 12; i++) out[i] = (int16_t)(700 + i);
    istrolf_heard_words a = istrolf_told_read(t, words, 11, out, 12);
    const int16_t numbers[12] = {0, 11, 12, 13, -16, 5, 1, 2, 3, 4, 710, 711};
    same("heard_words.refusal", a.refusal, 0);
    same("heard_words.taken", (long long)a.taken, 11);
    same("heard_words.reports", (long long)a.reports, 2);
    same("heard_words.dropped", (long long)a.dropped, 3);
    same_reply(a.reply, ISTROLF_REPLY_BROKEN, 0, 0, 0);
    same_came(a.reply.came, 1, 'B', 0);
    same_reader(a.next.reader, 'U', none, 0, 1);
    same("told.awaited", a.next.awaited, ISTROLF_AWAITS_NOTHING);
    for (int i = 0; i < 12; i++) same("out", out[i], numbers[i]);
    b.awaited = 5, b.came.second = 9;
    a = istrolf_told_read(b, words, 11, out, 12);
    same("heard_words.refusal", a.refusal, ISTROLF_BAD_STATE);
    same("heard_words.taken", (long long)a.taken, 0);
    same("told.awaited", a.next.awaited, 5);
    same_came(a.next.came, 0, 0, 9);
}

static void salvage(void) {
    const uint16_t words[] = {9, 1, 2, 3, 4, 5, 6, 7, 256, 0, 0};
    uint16_t places[3] = {71, 72, 73};
    istrolf_picked p = istrolf_salvage_pick('T', words, 11, places, 3);
    same("picked.refusal", p.refusal, 0);
    same("picked.taken", (long long)p.taken, 11);
    same("picked.runs", (long long)p.runs, 2);
    same("picked.left", (long long)p.left, 4);
    same("places", places[0], 1);
    same("places", places[1], 4);
    same("places", places[2], 73);
    same("picked.taken", (long long)istrolf_salvage_pick('T', words, 11, places, 1).taken, 4);
    same("picked.refusal", istrolf_salvage_pick('X', words, 11, places, 3).refusal, ISTROLF_BAD_LETTER);
    same("picked.refusal", istrolf_salvage_pick('S', words, 11, places, 3).refusal, ISTROLF_MARKED);

    const char input[] = "F\tT\nB\t9\nB\t1\nB\t2\nB\t3";
    const char text[] = "S\t6\nD\t000002\t1\nR\t000005\t--R\t2\t3\nH\t0\n";
    uint8_t out[64];
    istrolf_salvaged a = istrolf_salvage_list((const uint8_t *)input, sizeof input - 1, out, sizeof out);
    same("salvaged.whole", a.whole, 1);
    same("salvaged.written", (long long)a.written, (long long)(sizeof text - 1));
    for (size_t i = 0; i < sizeof text - 1; i++) same("out", out[i], (uint8_t)text[i]);
    a = istrolf_salvage_list((const uint8_t *)input, sizeof input - 1, out, 5);
    same("salvaged.whole", a.whole, 0);
    same("salvaged.written", (long long)a.written, 4);
}

static void same_puck(istrolf_puck found, istrolf_puck expected) {
    same_box(found.ball, expected.ball);
    same("test.left", found.test.left, expected.test.left);
    same("test.buttons", found.test.buttons, expected.test.buttons);
    same("revision", found.revision, expected.revision);
    same("maker", found.maker, expected.maker);
}

static istrolf_puck stepped_puck(istrolf_stepped_puck s, uint8_t refusal, uint8_t sent, uint16_t word) {
    same("stepped_puck.refusal", s.refusal, refusal);
    same("stepped_puck.sent", s.sent, sent);
    same("stepped_puck.word", s.word, word);
    return s.next;
}

static void puck(void) {
    const istrolf_puck powered = {{{'S', 'D', 5}, {{0, 0}, {0, 0}, {0, 0}}, {0, 0, {0}}, {{0}, 0, 0}, {{0, 0}, {0, 0}}, 0, 0}, {4, 5}, 9, 6};
    istrolf_puck p = istrolf_puck_made(13, 25, 14), e = powered;
    same_puck(p, e);

    /* the self-test's bytes tell revision, maker, error and buttons; a byte of the host's does nothing, motion and buttons count */
    p = stepped_puck(istrolf_puck_send(p), 0, 1, 0xA9);
    p = stepped_puck(istrolf_puck_host(p, 'R'), 0, 0, 0);
    p = stepped_puck(istrolf_puck_send(p), 0, 1, 0x62);
    p = stepped_puck(istrolf_puck_motion(p, 300, -400), 0, 0, 0);
    p = stepped_puck(istrolf_puck_buttons(p, 3), 0, 0, 0);
    e.ball.track.counter.x = 300, e.ball.track.counter.y = -400, e.ball.track.position.x = 300;
    e.ball.settings.buttons = 3, e.test.left = 2;
    same_puck(p, e);
    p = stepped_puck(istrolf_puck_send(p), 0, 1, ISTROLF_BUTTON_ERROR);
    p = stepped_puck(istrolf_puck_send(p), 0, 1, 5);
    e.test.left = 0, e.test.buttons = 0;
    same_puck(p, e);

    /* R, a change, the interval, a report, and T in its middle */
    p = stepped_puck(istrolf_puck_host(p, 'R'), 0, 0, 0);
    p = stepped_puck(istrolf_puck_buttons(p, 2), 0, 0, 0);
    p = stepped_puck(istrolf_puck_period(p), 0, 0, 0);
    e.ball.settings.mode = 'R', e.ball.settings.buttons = 2, e.ball.memory.states[0] = 2, e.ball.memory.count = 1, e.ball.due = 1;
    same_puck(p, e);
    p = stepped_puck(istrolf_puck_latch(p), 0, 0, 0);
    p = stepped_puck(istrolf_puck_send(p), 0, 1, 0x92);
    same("going.sent", p.ball.going.sent, 1);
    same("sums.limit.x", p.ball.sums.limit.x, 173);
    p = stepped_puck(istrolf_puck_host(p, 'T'), 0, 1, ISTROLF_BREAK);
    e = powered, e.ball.settings.buttons = 2, e.test.buttons = 2;
    same_puck(p, e);

    /* refusals hand it back */
    same_puck(stepped_puck(istrolf_puck_buttons(p, 8), ISTROLF_BAD_BUTTONS, 0, 0), e);
    p.maker = 8, e = p;
    same_puck(stepped_puck(istrolf_puck_send(p), ISTROLF_BAD_STATE, 0, 0), e);
    p.maker = 7, p.ball.dormant = 2, e = p;
    same_puck(stepped_puck(istrolf_puck_send(p), ISTROLF_BAD_STATE, 0, 0), e);
}

static void same_puck_reader(istrolf_puck_reader r, const uint8_t *kept, uint8_t count) {
    for (int i = 0; i < 3; i++) same("puck_reader.kept", r.kept[i], kept[i]);
    same("puck_reader.count", r.count, count);
}

static void puck_reader(void) {
    const uint8_t none[3] = {0}, three[3] = {0xA9, 0x64, 0x21};
    same_puck_reader(istrolf_puck_reader_fresh(), none, 0);
    const istrolf_puck_reader r = {{0xA9, 0x64, 0x21}, 3};
    istrolf_read_puck_word w = istrolf_puck_reader_step(r, 5);
    same("read_puck_word.refusal", w.refusal, 0);
    same("read_puck_word.movements", w.movements, 0);
    same("read_puck_word.tests", w.tests, 1);
    same("read_puck_word.dropped", w.dropped, 0);
    same("self_test.revision", w.test.revision, 9);
    same("self_test.maker", w.test.maker, 6);
    same("self_test.device", w.test.device, 4);
    same("self_test.error", w.test.error, 0x21);
    same("self_test.buttons", w.test.buttons, 5);
    same_puck_reader(w.next, none, 0);
    const istrolf_puck_reader two = {{0x8D, 11, 0}, 2};
    w = istrolf_puck_reader_step(two, 12);
    same("read_puck_word.movements", w.movements, 1);
    same("movement.buttons", w.movement.buttons, 5);
    same("movement.x1", w.movement.x1, -11);
    same("movement.y1", w.movement.y1, 12);
    same("movement.x2", w.movement.x2, 0);
    same("movement.y2", w.movement.y2, 0);
    w = istrolf_puck_reader_step(r, 8);
    same("read_puck_word.dropped", w.dropped, 4);
    w = istrolf_puck_reader_step(r, 258);
    same("read_puck_word.refusal", w.refusal, ISTROLF_BAD_WORD);
    same_puck_reader(w.next, three, 3);

    const uint16_t words[] = {5, 3, 0x98, 1, 2, 0x9F};
    int16_t out[14];
    for (int i = 0; i < 14; i++) out[i] = (int16_t)(700 + i);
    istrolf_puck_reading a = istrolf_puck_reader_read(r, words, 6, out, 14);
    const int16_t numbers[14] = {2, 9, 6, 4, 0x21, 5, 0, 0, 1, 2, 0, 0, 712, 713};
    same("puck_reading.refusal", a.refusal, 0);
    same("puck_reading.taken", (long long)a.taken, 6);
    same("puck_reading.reports", (long long)a.reports, 2);
    same("puck_reading.dropped", (long long)a.dropped, 1);
    same("puck_reading.next.count", a.next.count, 1);
    same("puck_reading.next.kept", a.next.kept[0], 0x9F);
    for (int i = 0; i < 14; i++) same("out", out[i], numbers[i]);
    const istrolf_puck_reader bad = {{0xB0, 0, 0}, 1};
    same("puck_reading.refusal", istrolf_puck_reader_read(bad, words, 6, out, 14).refusal, ISTROLF_BAD_STATE);
}

int main(void) {
    port();
    reader();
    watch();
    encoder();
    box();
    lister();
    yard();
    bridge();
    readback();
    told();
    salvage();
    puck();
    puck_reader();
    printf("%d compared, %d wrong\n", compared, wrong);
    return wrong > 0;
}
