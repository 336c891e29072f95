/* What is run and compared of the base: reader, encoder, box and lister. */
#include "bench.h"
#include <string.h>

static int same_pair(istrolf_pair a, istrolf_pair b) { return a.x == b.x && a.y == b.y; }

static int same_sum(istrolf_sum a, istrolf_sum b) { return a.x == b.x && a.y == b.y; }

static int same_box(const istrolf_box *a, const istrolf_box *b) {
    return a->settings.format == b->settings.format && a->settings.mode == b->settings.mode && a->settings.buttons == b->settings.buttons &&
           same_pair(a->track.counter, b->track.counter) && same_pair(a->track.position, b->track.position) && same_pair(a->track.last, b->track.last) &&
           a->going.length == b->going.length && a->going.sent == b->going.sent && memcmp(a->going.bytes, b->going.bytes, 5) == 0 &&
           memcmp(a->memory.states, b->memory.states, 8) == 0 && a->memory.count == b->memory.count && a->memory.showing == b->memory.showing &&
           same_sum(a->sums.limit, b->sums.limit) && same_sum(a->sums.counter, b->sums.counter) && a->due == b->due && a->dormant == b->dormant;
}

/* Held places behind the count are free, and behind the end all is but the end. */
static int same_lister(const istrolf_lister *a, const istrolf_lister *b) {
    if (a->ended || b->ended) return a->ended == b->ended;
    return a->line == b->line && a->count == b->count && (a->count > 5 || memcmp(a->held, b->held, a->count) == 0) && same_reader(&a->reader, &b->reader);
}

/* ---- What is run */

static size_t our_read(size_t count) { return istrolf_reader_read(istrolf_reader_fresh(letter).reader, words, count, numbers, ROOM).reports; }

static size_t plain_reads(size_t count) {
    istrolf_reader r;
    plain_counts c;
    plain_fresh(&r, letter);
    plain_read(&r, words, count, other_numbers, ROOM, &c);
    return c.reports;
}

static size_t our_steps(size_t count) {
    istrolf_reader r = istrolf_reader_fresh(letter).reader;
    size_t sum = 0;
    for (size_t i = 0; i < count; i++) {
        istrolf_read_word a = istrolf_reader_step(r, words[i]);
        r = a.next;
        if (a.reports) sum += (size_t)a.report.x1;
        sum += a.dropped;
    }
    return sum;
}

static size_t plain_steps(size_t count) {
    istrolf_reader r;
    size_t sum = 0;
    plain_fresh(&r, letter);
    for (size_t i = 0; i < count; i++) {
        plain_answer a;
        plain_step(&r, words[i], &a);
        if (a.reports) sum += (size_t)a.report.x1;
        sum += a.dropped;
    }
    return sum;
}

static istrolf_report reports[WORDS];

static size_t our_encodings(size_t count) {
    uint8_t buffer[5];
    size_t sum = 0;
    for (size_t i = 0; i < count; i++) sum += istrolf_encode(letter, reports[i], buffer, 5).length + buffer[2];
    return sum;
}

static size_t plain_encodings(size_t count) {
    uint8_t buffer[5];
    size_t sum = 0, length;
    for (size_t i = 0; i < count; i++) plain_encode(letter, &reports[i], buffer, 5, &length), sum += length + buffer[2];
    return sum;
}

typedef struct {
    enum { MOTION, BUTTONS, HOST, LATCH, SEND, PERIOD } kind;
    int16_t x, y;
} event;

static event events[WORDS];

static istrolf_stepped our_event(istrolf_box b, event e) {
    switch (e.kind) {
    case MOTION: return istrolf_box_motion(b, e.x, e.y);
    case BUTTONS: return istrolf_box_buttons(b, (uint8_t)e.x);
    case HOST: return istrolf_box_host(b, (uint8_t)e.x);
    case LATCH: return istrolf_box_latch(b);
    case SEND: return istrolf_box_send(b);
    default: return istrolf_box_period(b);
    }
}

static uint8_t plain_event(istrolf_box *b, event e, uint16_t *word) {
    *word = PLAIN_NO_WORD;
    switch (e.kind) {
    case MOTION: return plain_motion(b, e.x, e.y);
    case BUTTONS: return plain_buttons(b, (uint8_t)e.x);
    case HOST: return plain_host(b, (uint8_t)e.x, word);
    case LATCH: return plain_latch(b);
    case SEND: return plain_send(b, word);
    default: return plain_period(b);
    }
}

static size_t our_events(size_t count) {
    istrolf_box b = istrolf_box_host(istrolf_box_fresh(), letter).next;
    size_t sum = 0;
    for (size_t i = 0; i < count; i++) {
        istrolf_stepped s = our_event(b, events[i]);
        b = s.next;
        if (s.sent) sum += s.word;
    }
    return sum;
}

static size_t plain_events(size_t count) {
    istrolf_box b;
    size_t sum = 0;
    uint16_t word;
    plain_box(&b);
    plain_host(&b, letter, &word);
    for (size_t i = 0; i < count; i++) {
        plain_event(&b, events[i], &word);
        if (word != PLAIN_NO_WORD) sum += word;
    }
    return sum;
}

static size_t our_listing(size_t count) {
    istrolf_listed a = istrolf_lister_feed(istrolf_lister_fresh(), text, ends[count - 1], listing, ROOM);
    return a.written + istrolf_lister_finish(a.next, listing + a.written, ROOM - a.written).written;
}

static size_t plain_listing(size_t count) {
    istrolf_lister m;
    size_t taken, written, last;
    plain_lister(&m);
    plain_feed(&m, text, ends[count - 1], other_listing, ROOM, &taken, &written);
    plain_finish(&m, other_listing + written, ROOM - written, &last);
    return written + last;
}

/* ---- The other streams */

static void make_reports(void) {
    seed = letter;
    for (size_t i = 0; i < WORDS; i++) reports[i] = any_report(letter);
}

/* A moving box: a motion and a period for each report, now and then a button, and a Latch before each Send. */
static void make_moves(void) {
    seed = letter;
    for (size_t i = 0; i < WORDS; i++) {
        event e = {i % 16 == 0 ? MOTION : i % 16 == 1 ? PERIOD : i % 64 == 2 ? BUTTONS : i % 2 == 0 ? LATCH : SEND, 0, 0};
        if (e.kind == MOTION) e.x = drawn_between(-200, 200), e.y = drawn_between(-200, 200);
        if (e.kind == BUTTONS) e.x = drawn_between(0, 7);
        events[i] = e;
    }
}

static void make_idle(void) {
    for (size_t i = 0; i < WORDS; i++) {
        event e = {i % 2 == 0 ? LATCH : SEND, 0, 0};
        events[i] = e;
    }
}

/* Events of all kinds, and bytes of the host's that leave the format as it is. */
static void make_busy(void) {
    seed = letter;
    for (size_t i = 0; i < WORDS; i++) {
        event e = {MOTION, 0, 0};
        e.kind = drawn(32) == 0 ? HOST : drawn(8) == 0 ? BUTTONS : drawn(4) == 0 ? MOTION : drawn(8) == 0 ? PERIOD : drawn(2) == 0 ? LATCH : SEND;
        if (e.kind == MOTION) e.x = drawn_between(-32768, 32767), e.y = drawn_between(-300, 300);
        if (e.kind == BUTTONS) e.x = drawn_between(0, 7);
        if (e.kind == HOST) e.x = "JKLRMQNODPORO ftd\5xORO"[drawn(22)];
        events[i] = e;
    }
}

/* ---- Comparing */

/* The stream word by word, as a whole, and in pieces with little room, each with words above 257 in it too. */
static void check_words(void) {
    istrolf_reader r, ours;
    plain_counts c;
    ours = istrolf_reader_fresh(letter).reader;
    plain_fresh(&r, letter);
    for (size_t i = 0; i < WORDS; i++) {
        uint16_t word = drawn(64) == 0 ? (uint16_t)(258 + drawn(65278)) : words[i];
        plain_answer p;
        istrolf_read_word a = istrolf_reader_step(ours, word);
        uint8_t refusal = plain_step(&r, word, &p);
        istrolf_report none = {0, 0, 0, 0, 0};
        same(a.refusal == refusal && a.reports == p.reports && a.dropped == p.dropped, "answer of step", i);
        same(same_report(&a.report, p.reports ? &p.report : &none), "report of step", i);
        same(same_reader(&a.next, &r), "reader after step", i);
        ours = a.next;
    }
    for (size_t i = 0; i < ROOM; i++) numbers[i] = other_numbers[i] = 7777;
    plain_fresh(&r, letter);
    istrolf_reading a = istrolf_reader_read(istrolf_reader_fresh(letter).reader, words, WORDS, numbers, ROOM);
    uint8_t refusal = plain_read(&r, words, WORDS, other_numbers, ROOM, &c);
    same(a.refusal == refusal && a.taken == c.taken && a.reports == c.reports && a.dropped == c.dropped, "counts of read", 0);
    same(same_reader(&a.next, &r), "reader after read", 0);
    same(memcmp(numbers, other_numbers, sizeof numbers) == 0, "number of read", 0);
    ours = istrolf_reader_fresh(letter).reader;
    plain_fresh(&r, letter);
    for (size_t at = 0; at < WORDS;) {
        size_t piece = drawn(40), room = drawn(21), bad = drawn(200);
        if (piece > WORDS - at) piece = WORDS - at;
        uint16_t was = words[at];
        if (bad == 0) words[at] = (uint16_t)(258 + drawn(65278));
        for (size_t i = 0; i < 20; i++) numbers[i] = other_numbers[i] = 7777;
        a = istrolf_reader_read(ours, words + at, piece, numbers, room);
        refusal = plain_read(&r, words + at, piece, other_numbers, room, &c);
        words[at] = was;
        same(a.refusal == refusal && a.taken == c.taken && a.reports == c.reports && a.dropped == c.dropped, "counts of a piece", at);
        same(same_reader(&a.next, &r), "reader after a piece", at);
        same(memcmp(numbers, other_numbers, 20 * sizeof *numbers) == 0, "number of a piece", at);
        ours = a.next;
        at += a.taken;
        if (different) return;
    }
}

/* The recording behind so many lines, in pieces with little room, and longer ones with room for some lines. */
static void check_recording(uint32_t line, size_t length) {
    enum { SOME = 1600 };
    istrolf_lister m, ours = istrolf_lister_fresh();
    size_t taken, written;
    plain_lister(&m);
    ours.line = m.line = line;
    for (size_t at = 0; at < length;) {
        size_t longer = drawn(2), piece = drawn(longer ? 400 : 64), room = drawn(longer ? SOME : 60);
        if (piece > length - at) piece = length - at;
        memset(listing, '.', SOME), memset(other_listing, '.', SOME);
        istrolf_listed a = istrolf_lister_feed(ours, text + at, piece, listing, room);
        uint8_t refusal = plain_feed(&m, text + at, piece, other_listing, room, &taken, &written);
        same(a.refusal == refusal && a.ended == m.ended && a.taken == taken && a.written == written, "counts of feed", at);
        same(memcmp(listing, other_listing, SOME) == 0, "text of feed", at);
        same(same_lister(&a.next, &m), "lister after feed", at);
        if (drawn(4) == 0 || at + piece == length) {
            istrolf_lister last = m;
            room = drawn(60);
            memset(listing, '.', 60), memset(other_listing, '.', 60);
            istrolf_listed e = istrolf_lister_finish(a.next, listing, room);
            refusal = plain_finish(&last, other_listing, room, &written);
            same(e.refusal == refusal && e.ended == last.ended && e.written == written && memcmp(listing, other_listing, 60) == 0, "text of finish", at);
            same(same_lister(&e.next, &last), "lister after finish", at);
        }
        ours = a.next;
        at += a.taken;
        if (different) return;
    }
    memset(listing, '.', ROOM), memset(other_listing, '.', ROOM);
    istrolf_listed whole = istrolf_lister_feed(istrolf_lister_fresh(), text, length, listing, ROOM);
    plain_lister(&m);
    plain_feed(&m, text, length, other_listing, ROOM, &taken, &written);
    same(whole.taken == taken && whole.written == written && memcmp(listing, other_listing, ROOM) == 0, "listing", 0);
}

static void check_events(void) {
    istrolf_box b, ours = istrolf_box_host(istrolf_box_fresh(), letter).next;
    uint16_t word;
    plain_box(&b);
    plain_host(&b, letter, &word);
    for (size_t i = 0; i < WORDS; i++) {
        istrolf_stepped s = our_event(ours, events[i]);
        uint8_t refusal = plain_event(&b, events[i], &word);
        same(s.refusal == refusal && s.sent == (word != PLAIN_NO_WORD) && s.word == (s.sent ? word : 0), "answer of the box", i);
        same(same_box(&s.next, &b), "box", i);
        ours = s.next;
    }
}

/* Reports of every kind, also such as no format holds, and buffers of every length. */
static void check_encodings(void) {
    static const int16_t edges[] = {0, 1, -1, 126, 127, 128, -127, -128, -129, 2047, 2048, -2048, -2049, 4095, 4096, 32767, -32768};
    for (size_t i = 0; i < 50 * WORDS; i++) {
        uint8_t l = drawn(16) == 0 ? (uint8_t)drawn(256) : (uint8_t)letters[drawn(7)], one[8], other[8];
        istrolf_report p = any_report(l);
        if (drawn(4) == 0) p.buttons = (uint8_t)drawn(10);
        if (drawn(4) == 0) p.x1 = edges[drawn(17)];
        if (drawn(4) == 0) p.y1 = edges[drawn(17)];
        if (drawn(8) == 0) p.x2 = edges[drawn(17)];
        if (drawn(8) == 0) p.y2 = edges[drawn(17)];
        size_t room = drawn(4) == 0 ? drawn(9) : 8, length;
        memset(one, '.', 8), memset(other, '.', 8);
        istrolf_encoding e = istrolf_encode(l, p, one, room);
        uint8_t refusal = plain_encode(l, &p, other, room, &length);
        same(e.refusal == refusal && e.length == length && memcmp(one, other, 8) == 0, "answer of the encoder", i);
    }
}

/* States with a member or two that something else was written to, which mostly makes them bad. */
static void check_states(void) {
    istrolf_box last = istrolf_box_fresh();
    make_busy();
    for (size_t i = 0; i < 50 * WORDS; i++) {
        istrolf_reader r = istrolf_reader_fresh((uint8_t)(drawn(32) == 0 ? drawn(256) : (uint8_t)letters[drawn(7)])).reader, ours;
        uint8_t bytes[5];
        size_t length = istrolf_encode(r.format, any_report(r.format), bytes, 5).length;
        if (drawn(4) != 0) r.awaiting = (uint8_t)drawn(3), r.count = (uint8_t)drawn(length), memcpy(r.kept, bytes, r.count);
        if (drawn(8) == 0) r.kept[drawn(5)] = (uint8_t)drawn(256);
        if (drawn(16) == 0) r.count = (uint8_t)drawn(8);
        if (drawn(16) == 0) r.format = (uint8_t)drawn(256);
        uint16_t word = (uint16_t)(drawn(2) == 0 ? bytes[r.count % 5] : drawn(260));
        ours = r;
        plain_answer p;
        istrolf_read_word a = istrolf_reader_step(ours, word);
        uint8_t refusal = plain_step(&r, word, &p);
        same(a.refusal == refusal && a.reports == p.reports && a.dropped == p.dropped && (!p.reports || same_report(&a.report, &p.report)), "answer to a state", i);
        same(same_reader(&a.next, &r), "reader after a state", i);

        istrolf_box b = last;
        uint8_t *parts[] = {&b.settings.format, &b.settings.mode,  &b.settings.buttons, &b.going.length, &b.going.sent, &b.going.bytes[drawn(5)], &b.memory.states[drawn(8)],
                            &b.memory.count,    &b.memory.showing, &b.due,              &b.dormant};
        if (drawn(2) == 0) *parts[drawn(11)] = (uint8_t)(drawn(2) == 0 ? drawn(9) : (uint8_t)"SVABUTWJKLRMQNODP"[drawn(17)]);
        if (drawn(16) == 0) b.track.position.x = drawn_between(-1, 4096), b.track.last.y = drawn_between(-1, 4096);
        if (drawn(16) == 0) b.sums.limit.x = INT64_MAX - (int64_t)drawn(300), b.sums.counter.x = INT64_MIN + (int64_t)drawn(300);
        event e = events[i % WORDS];
        if (e.kind == BUTTONS && drawn(8) == 0) e.x = 8;
        if (e.kind == HOST && drawn(2) == 0) e.x = letters[drawn(7)];
        istrolf_stepped s = our_event(b, e);
        refusal = plain_event(&b, e, &word);
        same(s.refusal == refusal && s.sent == (word != PLAIN_NO_WORD) && s.word == (s.sent ? word : 0) && same_box(&s.next, &b), "answer to a box", i);
        last = s.refusal ? istrolf_box_fresh() : s.next;

        istrolf_lister m = {(uint32_t)(drawn(4) == 0 ? 9990 + drawn(20) : drawn(3)), (uint8_t)(drawn(16) == 0 ? drawn(3) : 0), {'B', '\t', '1', '2', '3'}, drawn(8), ours};
        size_t taken, written, room = drawn(60);
        memset(listing, '.', 60), memset(other_listing, '.', 60);
        istrolf_listed f = istrolf_lister_feed(m, (const uint8_t *)"5\nQ\n", 4, listing, room);
        refusal = plain_feed(&m, (const uint8_t *)"5\nQ\n", 4, other_listing, room, &taken, &written);
        same(f.refusal == refusal && f.ended == m.ended && f.taken == taken && f.written == written && same_lister(&f.next, &m), "answer to a lister", i);
        same(memcmp(listing, other_listing, 60) == 0, "text of a lister", i);
        f = istrolf_lister_finish(f.next, listing, room);
        refusal = plain_finish(&m, other_listing, room, &written);
        same(f.refusal == refusal && f.ended == m.ended && f.written == written && same_lister(&f.next, &m), "end of a lister", i);
        same(memcmp(listing, other_listing, 60) == 0, "last text of a lister", i);
        if (different) return;
    }
}

static int is_digit(uint8_t c) { return c >= '0' && c <= '9'; }

/* Recordings of a few lines of which one is damaged, with numbers around 255, or that are too long by a line. */
static void check_bad_recordings(void) {
    for (size_t i = 0; i < WORDS && !different; i++) {
        letter = (uint8_t)letters[drawn(7)];
        make_words(letter, DAMAGED, 0);
        seed = i;
        make_recording();
        size_t length = ends[drawn(20)];
        size_t at = drawn(length);
        if (is_digit(text[at]) && is_digit(text[at + 1]) && is_digit(text[at + 2])) text[at] = '2', text[at + 1] = '5', text[at + 2] = (uint8_t)('4' + drawn(4));
        if (drawn(2) == 0) text[drawn(length)] = (uint8_t)"\n\tBXQF0126 \r"[drawn(12)];
        if (drawn(4) == 0) length--;
        check_recording(0, length);
        if (i % 100 != 0) continue;
        for (size_t at = 0; at < 24; at += 2) text[at] = 'Q', text[at + 1] = '\n';
        check_recording(999992 + (uint32_t)drawn(8), 2 * drawn(12) + drawn(2));
    }
}

/* ---- Streams and parts */

static void each_words(act *act) {
    for (int s = CLEAN; s <= AWAITING; s++)
        for (int f = 0; f < 8; f++) {
            static const char *const formats[] = {"S", "V", "V, bit 7 set", "A", "B", "U", "T", "W"};
            if (s == AWAITING && f < 5) continue;
            letter = (uint8_t)formats[f][0];
            make_words(letter, (stream)s, f == 2);
            act(formats[f], stream_names[s]);
        }
}

static void each_format(act *act, const char *name, void (*make)(void)) {
    for (int f = 0; f < 7; f++) {
        char format[2] = {letters[f], 0};
        letter = (uint8_t)letters[f];
        make();
        act(format, name);
    }
}

static void each_reports(act *act) { each_format(act, "reports", make_reports); }

static void each_events(act *act) {
    each_format(act, "moving", make_moves);
    each_format(act, "idle", make_idle);
    each_format(act, "all kinds of events", make_busy);
}

const part base[] = {
    {"read", each_words, NULL, our_read, plain_reads},
    {"step", each_words, NULL, our_steps, plain_steps},
    {"encode", each_reports, NULL, our_encodings, plain_encodings},
    {"box", each_events, NULL, our_events, plain_events},
    {"list", each_words, make_recording, our_listing, plain_listing},
    {NULL, NULL, NULL, NULL, NULL},
};

static void check_line(const char *format, const char *stream) {
    (void)format, now = stream;
    check_words();
    make_recording();
    check_recording(0, ends[WORDS - 1]);
}

static void check_run(const char *format, const char *stream) {
    (void)format, now = stream;
    check_events();
}

void check_base(void) {
    each_words(check_line);
    each_events(check_run);
    now = "reports", check_encodings();
    now = "states", letter = 'U', check_states();
    now = "damaged recordings", check_bad_recordings();
}
