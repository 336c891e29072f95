/* What is run and compared of the change requests: told reader, bridge, reader of listings, puck reader, yard check and
 * salvage. */
#include "bench.h"
#include "text.h"
#include <string.h>

/* A word above 257 now and then, and else this one. */
static uint16_t or_bad(uint16_t word, size_t seldom) { return drawn(seldom) == 0 ? (uint16_t)(258 + drawn(65278)) : word; }

static void each_of(act *act, const stream *streams, size_t count, const char *formats) {
    for (size_t s = 0; s < count; s++)
        for (const char *f = formats; *f; f++) {
            char format[2] = {*f, 0};
            letter = (uint8_t)*f;
            make_words(letter, streams[s], 0);
            act(format, stream_names[streams[s]]);
        }
}

/* ---- The told reader. Before some words a command is told: their places, and behind the last WORDS. */

static size_t told_at[WORDS + 1];
static uint8_t commands[WORDS];

static size_t put_reply(size_t at, uint8_t command) {
    static const char *const codes = "UTWB SAV";
    uint8_t code = 0, reply[3] = {0, 0, 0};
    size_t length = command == 't' ? 2 : command == 5 ? 3 : 1;
    while ((uint8_t)codes[code] != letter) code++;
    reply[0] = command == ' ' ? 0x06 : command == 'f' ? (uint8_t)(0x10 + 2 * code) : command == 't' ? letter : (uint8_t)drawn(8);
    if (command == 't') reply[1] = 'O';
    for (size_t i = 0; i < length && at < WORDS; i++) words[at++] = reply[i];
    return at;
}

static void tell_nothing(void) { told_at[0] = 0, commands[0] = 0, told_at[1] = WORDS; }

static void make_replies(void) {
    size_t at = 1, told = 0;
    seed = letter;
    words[0] = ISTROLF_SILENCE;
    tell_nothing();
    for (size_t report = 0; at < WORDS; report++) {
        uint8_t bytes[5];
        size_t length = istrolf_encode(letter, any_report(letter), bytes, 5).length;
        if (report % 8 == 0) {
            told_at[++told] = at;
            commands[told] = (uint8_t)" ft\5"[drawn(4)];
            at = put_reply(at, commands[told]);
        }
        for (size_t i = 0; i < length && at < WORDS; i++) words[at++] = bytes[i];
    }
    told_at[told + 1] = WORDS;
}

static size_t our_told_steps(size_t count) {
    istrolf_told t = istrolf_told_fresh(letter).told;
    size_t sum = 0;
    for (size_t told = 0, at = 0; at < count; told++) {
        size_t end = told_at[told + 1] < count ? told_at[told + 1] : count;
        if (commands[told]) t = istrolf_told_command(t, commands[told]).next;
        for (; at < end; at++) {
            istrolf_heard_word a = istrolf_told_step(t, words[at]);
            t = a.next;
            if (a.reports) sum += (size_t)a.report.x1;
            sum += a.dropped + a.reply.kind;
        }
    }
    return sum;
}

static size_t plain_told_steps(size_t count) {
    istrolf_told t;
    istrolf_reply reply;
    plain_answer a;
    uint8_t discarded;
    size_t sum = 0;
    plain_told(&t, letter);
    for (size_t told = 0, at = 0; at < count; told++) {
        size_t end = told_at[told + 1] < count ? told_at[told + 1] : count;
        if (commands[told]) plain_command(&t, commands[told], &discarded);
        for (; at < end; at++) {
            plain_told_step(&t, words[at], &a, &reply);
            if (a.reports) sum += (size_t)a.report.x1;
            sum += a.dropped + reply.kind;
        }
    }
    return sum;
}

static size_t our_told_reads(size_t count) {
    istrolf_told t = istrolf_told_fresh(letter).told;
    size_t sum = 0;
    for (size_t told = 0, at = 0; at < count; told++) {
        size_t end = told_at[told + 1] < count ? told_at[told + 1] : count;
        if (commands[told]) t = istrolf_told_command(t, commands[told]).next;
        istrolf_heard_words a = istrolf_told_read(t, words + at, end - at, numbers, ROOM);
        t = a.next;
        sum += a.reports + a.dropped + a.reply.kind;
        at = end;
    }
    return sum;
}

static size_t plain_told_reads(size_t count) {
    istrolf_told t;
    istrolf_reply reply;
    plain_counts c;
    uint8_t discarded;
    size_t sum = 0;
    plain_told(&t, letter);
    for (size_t told = 0, at = 0; at < count; told++) {
        size_t end = told_at[told + 1] < count ? told_at[told + 1] : count;
        if (commands[told]) plain_command(&t, commands[told], &discarded);
        plain_told_read(&t, words + at, end - at, other_numbers, ROOM, &c, &reply);
        sum += c.reports + c.dropped + reply.kind;
        at = end;
    }
    return sum;
}

static void each_told(act *act) {
    static const stream streams[] = {CLEAN, DAMAGED, RANDOM};
    tell_nothing();
    each_of(act, streams, 3, letters);
    for (int f = 0; f < 7; f++) {
        char format[2] = {letters[f], 0};
        letter = (uint8_t)letters[f];
        make_replies();
        act(format, "a reply before every eighth report");
    }
}

static int same_came(istrolf_came a, istrolf_came b) { return a.count == b.count && a.first == b.first && a.second == b.second; }

static int same_told(const istrolf_told *a, const istrolf_told *b) {
    return same_reader(&a->reader, &b->reader) && a->awaited == b->awaited && same_came(a->came, b->came);
}

static int same_reply(const istrolf_reply *a, const istrolf_reply *b) {
    return a->kind == b->kind && a->format == b->format && a->mode == b->mode && a->buttons == b->buttons && same_came(a->came, b->came);
}

/* A command, any, or a waking. */
static void check_command(istrolf_told *ours, istrolf_told *t, size_t place) {
    uint8_t byte = (uint8_t)(drawn(8) == 0 ? drawn(256) : (uint8_t)" ft\5"[drawn(4)]), discarded, waking = drawn(8) == 0;
    istrolf_told_command_answer a = waking ? istrolf_told_waking(*ours) : istrolf_told_command(*ours, byte);
    uint8_t refusal = waking ? plain_waking(t, &discarded) : plain_command(t, byte, &discarded);
    same(a.refusal == refusal && a.discarded == discarded && same_told(&a.next, t), "answer to a command", place);
    *ours = a.next;
}

static void check_told_word(istrolf_told *ours, istrolf_told *t, uint16_t word, size_t place) {
    static const istrolf_report none = {0, 0, 0, 0, 0};
    istrolf_reply reply;
    plain_answer p;
    istrolf_heard_word a = istrolf_told_step(*ours, word);
    uint8_t refusal = plain_told_step(t, word, &p, &reply);
    same(a.refusal == refusal && a.reports == p.reports && a.dropped == p.dropped, "answer of a told step", place);
    same(same_report(&a.report, p.reports ? &p.report : &none), "report of a told step", place);
    same(same_reply(&a.reply, &reply), "reply of a told step", place);
    same(same_told(&a.next, t), "told reader after a step", place);
    *ours = a.next;
}

static size_t check_told_piece(istrolf_told *ours, istrolf_told *t, const uint16_t *from, size_t count, size_t room, size_t place) {
    istrolf_reply reply;
    plain_counts c;
    for (size_t i = 0; i < room + 5; i++) numbers[i] = other_numbers[i] = 7777;
    istrolf_heard_words a = istrolf_told_read(*ours, from, count, numbers, room);
    uint8_t refusal = plain_told_read(t, from, count, other_numbers, room, &c, &reply);
    same(a.refusal == refusal && a.taken == c.taken && a.reports == c.reports && a.dropped == c.dropped, "counts of a told read", place);
    same(same_reply(&a.reply, &reply), "reply of a told read", place);
    same(same_told(&a.next, t), "told reader after a read", place);
    same(memcmp(numbers, other_numbers, (room + 5) * sizeof *numbers) == 0, "number of a told read", place);
    *ours = a.next;
    return a.taken;
}

static void check_told(const char *format, const char *name) {
    istrolf_told ours = istrolf_told_fresh(letter).told, t;
    (void)format, now = name;
    plain_told(&t, letter);
    for (size_t i = 0, told = 1; i < WORDS; i++) {
        if (i == told_at[told]) ours = istrolf_told_command(ours, commands[told]).next, t = ours, told++;
        else if (drawn(32) == 0) check_command(&ours, &t, i);
        check_told_word(&ours, &t, or_bad(words[i], 64), i);
    }
    check_told_piece(&ours, &t, words, WORDS, ROOM - 5, 0);
    for (size_t at = 0; at < WORDS && !different;) {
        size_t piece = drawn(40);
        if (piece > WORDS - at) piece = WORDS - at;
        if (drawn(4) == 0) check_command(&ours, &t, at);
        uint16_t was = words[at];
        words[at] = or_bad(was, 200);
        size_t taken = check_told_piece(&ours, &t, words + at, piece, drawn(21), at);
        words[at] = was;
        at += taken;
    }
}

/* ---- The bridge */

static size_t our_conversion(size_t count) { return istrolf_bridge_convert(istrolf_bridge_fresh(letter).bridge, words, count, listing, ROOM).sent; }

static size_t plain_conversion(size_t count) {
    istrolf_bridge b;
    plain_counts c;
    size_t sent;
    plain_bridge(&b, letter);
    plain_convert(&b, words, count, other_listing, ROOM, &c, &sent);
    return sent;
}

static void each_bridged(act *act) {
    static const stream streams[] = {CLEAN, NINE, DAMAGED, RANDOM};
    each_of(act, streams, 4, letters);
}

static int same_bridge(const istrolf_bridge *a, const istrolf_bridge *b) {
    return same_reader(&a->reader, &b->reader) && a->based == b->based && a->middle == b->middle && a->presses == b->presses && a->x == b->x && a->y == b->y;
}

static size_t check_converted(istrolf_bridge *ours, istrolf_bridge *b, const uint16_t *from, size_t count, size_t room, size_t place) {
    plain_counts c;
    size_t sent;
    memset(listing, '.', room + 99), memset(other_listing, '.', room + 99);
    istrolf_converted a = istrolf_bridge_convert(*ours, from, count, listing, room);
    uint8_t refusal = plain_convert(b, from, count, other_listing, room, &c, &sent);
    same(a.refusal == refusal && a.taken == c.taken && a.reports == c.reports && a.dropped == c.dropped && a.sent == sent, "counts of convert", place);
    same(same_bridge(&a.next, b), "bridge", place);
    same(memcmp(listing, other_listing, room + 99) == 0, "byte of convert", place);
    *ours = a.next;
    return a.taken;
}

static void check_bridge(const char *format, const char *name) {
    istrolf_bridge ours = istrolf_bridge_fresh(letter).bridge, b;
    (void)format, now = name;
    plain_bridge(&b, letter);
    check_converted(&ours, &b, words, WORDS, ROOM - 99, 0);
    for (size_t at = 0; at < WORDS && !different;) {
        size_t piece = drawn(40);
        if (piece > WORDS - at) piece = WORDS - at;
        uint16_t was = words[at];
        words[at] = or_bad(was, 200);
        size_t taken = check_converted(&ours, &b, words + at, piece, drawn(300), at);
        words[at] = was;
        at += taken;
    }
}

/* ---- The reader of listings, over listings of drawn lines */

static int32_t items[5 * WORDS], other_items[5 * WORDS];

static uint8_t *put_item(uint8_t *to, int reported, int line, int width) {
    *to++ = reported ? 'R' : 'D', *to++ = '\t';
    to = put_number(to, line, width);
    *to++ = '\t';
    if (reported) {
        *to++ = (uint8_t)"L-"[drawn(2)], *to++ = (uint8_t)"M?-"[drawn(3)], *to++ = (uint8_t)"R-"[drawn(2)], *to++ = '\t';
        to = put_number(to, drawn_between(-255, 255), 1);
        *to++ = '\t';
        to = put_number(to, drawn_between(-255, 255), 1);
    } else {
        to = put_number(to, drawn_between(1, 5), 1);
    }
    *to++ = '\n';
    return to;
}

/* Of ten lines so many are reports. The last line is an H. */
static void make_listing(int width, size_t reports) {
    uint8_t *to = text;
    seed = (uint64_t)width + reports;
    *to++ = 'L', *to++ = '\t', *to++ = (uint8_t)('0' + width), *to++ = '\n';
    ends[0] = 4;
    for (size_t i = 1; i < WORDS; i++) {
        if (i + 1 < WORDS) to = put_item(to, drawn(10) < reports, (int)i + 1, width);
        else *to++ = 'H', *to++ = '\t', *to++ = '0', *to++ = '\n';
        ends[i] = (size_t)(to - text);
    }
}

static size_t our_items(size_t count) { return istrolf_readback_read(istrolf_readback_fresh(), text, ends[count - 1], items, 5 * WORDS).items; }

static size_t plain_items(size_t count) {
    istrolf_readback r;
    plain_lines told;
    plain_readback(&r);
    plain_readback_read(&r, text, ends[count - 1], other_items, 5 * WORDS, &told);
    return told.given;
}

static size_t our_rewriting(size_t count) { return istrolf_readback_rewrite(istrolf_readback_fresh(), text, ends[count - 1], listing, ROOM).written; }

static size_t plain_rewriting(size_t count) {
    istrolf_readback r;
    plain_lines told;
    plain_readback(&r);
    plain_readback_rewrite(&r, text, ends[count - 1], other_listing, ROOM, &told);
    return told.given;
}

static void each_listing(act *act) {
    for (int width = 6; width >= 4; width -= 2) {
        const char *format = width == 6 ? "width 6" : "width 4";
        make_listing(width, 10), act(format, "reports");
        make_listing(width, 5), act(format, "reports and bytes dropped");
        make_listing(width, 0), act(format, "bytes dropped");
    }
}

static int same_readback(const istrolf_readback *a, const istrolf_readback *b) {
    return a->width == b->width && a->ended == b->ended && a->salvage == b->salvage && a->last == b->last && a->lines == b->lines;
}

static size_t check_items(istrolf_readback *ours, istrolf_readback *r, const uint8_t *from, size_t count, size_t room, size_t place) {
    plain_lines told;
    size_t looked_at = room + 5 < 5 * WORDS ? room + 5 : 5 * WORDS;
    for (size_t i = 0; i < looked_at; i++) items[i] = other_items[i] = 7777;
    istrolf_read_lines a = istrolf_readback_read(*ours, from, count, items, room);
    uint8_t refusal = plain_readback_read(r, from, count, other_items, room, &told);
    same(a.refusal == refusal && a.line == told.line && a.taken == told.taken && a.items == told.given, "counts of reading back", place);
    same(same_readback(&a.next, r), "reader of listings", place);
    same(memcmp(items, other_items, looked_at * sizeof *items) == 0, "number of an item", place);
    *ours = a.next;
    return a.taken;
}

static size_t check_rewritten(istrolf_readback *ours, istrolf_readback *r, const uint8_t *from, size_t count, size_t room, size_t place) {
    plain_lines told;
    memset(listing, '.', room + 40), memset(other_listing, '.', room + 40);
    istrolf_rewritten a = istrolf_readback_rewrite(*ours, from, count, listing, room);
    uint8_t refusal = plain_readback_rewrite(r, from, count, other_listing, room, &told);
    same(a.refusal == refusal && a.line == told.line && a.taken == told.taken && a.written == told.given, "counts of rewriting", place);
    same(same_readback(&a.next, r), "reader that rewrites", place);
    same(memcmp(listing, other_listing, room + 40) == 0, "byte of rewriting", place);
    *ours = a.next;
    return a.taken;
}

static void check_end(const istrolf_readback *r, size_t left, size_t place) {
    uint32_t line;
    istrolf_read_lines a = istrolf_readback_finish(*r, left);
    uint8_t refusal = plain_readback_finish(r, left, &line);
    same(a.refusal == refusal && a.line == line && a.taken == 0 && a.items == 0 && same_readback(&a.next, r), "end of a listing", place);
}

/* Over pieces with little room, by either function. */
static void check_pieces(size_t length) {
    for (int rewrites = 0; rewrites < 2; rewrites++) {
        istrolf_readback ours = istrolf_readback_fresh(), r;
        plain_readback(&r);
        for (size_t at = 0, turns = 0; at < length && turns < 2 * length && !different; turns++) {
            size_t piece = drawn(400), room = drawn(rewrites ? 200 : 40);
            if (piece > length - at) piece = length - at;
            size_t taken = rewrites ? check_rewritten(&ours, &r, text + at, piece, room, at) : check_items(&ours, &r, text + at, piece, room, at);
            if (drawn(16) == 0) check_end(&r, drawn(2), at);
            if (taken == 0 && piece == length - at && drawn(4) == 0) break;
            at += taken;
        }
    }
}

static void check_listing(const char *format, const char *name) {
    istrolf_readback ours = istrolf_readback_fresh(), r;
    (void)format, now = name;
    plain_readback(&r);
    check_items(&ours, &r, text, ends[WORDS - 1], 5 * WORDS, 0);
    check_end(&r, 0, 0);
    ours = istrolf_readback_fresh();
    plain_readback(&r);
    check_rewritten(&ours, &r, text, ends[WORDS - 1], ROOM - 40, 0);
    check_pieces(ends[WORDS - 1]);
}

/* Listings of a few lines with a byte or two that something else was written to, or with another last line. */
static void check_bad_listings(void) {
    static const char *const last[] = {
        "E\tover\n", "E\t000900\n", "E\t0900\n", "H\t5\n", "H\t-0\n", "H\t-1\n", "D\t009999\t1\n", "D\t010000\t1\n", "D\t999999\t32767\n", "\n",
        "R\t000700\t---\t-32768\t32767\n", "R\t000700\t---\t32768\t0\n", "R\t0700\tL?-\t-32769\t7\n", "R\t000700\tLMR\t-32768\t-32768\t-32768\t-32768\n",
    };
    for (size_t i = 0; i < 10 * WORDS && !different; i++) {
        if (i % 100 == 0) make_listing(i % 200 == 0 ? 4 : 6, drawn(11)), seed = i;
        uint8_t was[1600];
        size_t length = ends[drawn(40)], at = drawn(length), more = 0;
        memcpy(was, text, sizeof was);
        if (drawn(4) == 0) text[0] = 'S';
        if (drawn(2) == 0) text[at] = (uint8_t)"\n\tRDHELS0123456789-+LMR?over \r"[drawn(30)];
        if (drawn(4) == 0) {
            const char *line = last[drawn(sizeof last / sizeof *last)];
            while (line[more]) text[length + more] = (uint8_t)line[more], more++;
        }
        if (drawn(8) == 0) length -= drawn(3);
        check_pieces(length + more);
        memcpy(text, was, sizeof was);
    }
}

/* ---- The puck's reader */

static void make_puck_words(stream s) {
    size_t count = 0;
    seed = s;
    words[count++] = ISTROLF_SILENCE;
    for (size_t report = 0; count < WORDS; report++) {
        uint8_t bytes[5];
        size_t length = istrolf_encode('S', any_report('S'), bytes, 5).length;
        if (report % 16 == 0) {
            length = 4;
            bytes[0] = (uint8_t)(0xA0 + drawn(16)), bytes[1] = (uint8_t)drawn(128), bytes[2] = (uint8_t)drawn(128), bytes[3] = (uint8_t)drawn(8);
        }
        size_t damage = s == DAMAGED && report % 3 == 2 ? drawn(length) : length;
        size_t silences = s == SILENCE || damage < length ? 1 : s == NINE ? 9 : s == RANDOM && drawn(4) == 0;
        for (size_t i = 0; i < length && count < WORDS; i++) {
            uint8_t byte = s == RANDOM ? (uint8_t)drawn(256) : bytes[i];
            words[count++] = i == damage ? ISTROLF_BREAK : byte;
        }
        while (silences-- > 0 && count < WORDS) words[count++] = ISTROLF_SILENCE;
    }
}

static size_t our_puck_steps(size_t count) {
    istrolf_puck_reader r = istrolf_puck_reader_fresh();
    size_t sum = 0;
    for (size_t i = 0; i < count; i++) {
        istrolf_read_puck_word a = istrolf_puck_reader_step(r, words[i]);
        r = a.next;
        if (a.movements) sum += (size_t)a.movement.x1;
        if (a.tests) sum += a.test.error;
        sum += a.dropped;
    }
    return sum;
}

static size_t plain_puck_steps(size_t count) {
    istrolf_puck_reader r;
    plain_puck_answer a;
    size_t sum = 0;
    plain_puck_reader(&r);
    for (size_t i = 0; i < count; i++) {
        plain_puck_step(&r, words[i], &a);
        if (a.movements) sum += (size_t)a.movement.x1;
        if (a.tests) sum += a.test.error;
        sum += a.dropped;
    }
    return sum;
}

static size_t our_puck_read(size_t count) { return istrolf_puck_reader_read(istrolf_puck_reader_fresh(), words, count, numbers, ROOM).reports; }

static size_t plain_puck_reads(size_t count) {
    istrolf_puck_reader r;
    plain_counts c;
    plain_puck_reader(&r);
    plain_puck_read(&r, words, count, other_numbers, ROOM, &c);
    return c.reports;
}

static void each_puck(act *act) {
    for (int s = CLEAN; s <= RANDOM; s++) make_puck_words((stream)s), act("VSXXX", stream_names[s]);
}

static int same_puck(const istrolf_puck_reader *a, const istrolf_puck_reader *b) { return memcmp(a->kept, b->kept, 3) == 0 && a->count == b->count; }

static int same_test(const istrolf_self_test *a, const istrolf_self_test *b) {
    return a->revision == b->revision && a->maker == b->maker && a->device == b->device && a->error == b->error && a->buttons == b->buttons;
}

static void check_puck_word(istrolf_puck_reader *ours, istrolf_puck_reader *r, uint16_t word, size_t place) {
    static const istrolf_report none = {0, 0, 0, 0, 0};
    static const istrolf_self_test untested = {0, 0, 0, 0, 0};
    plain_puck_answer p;
    istrolf_read_puck_word a = istrolf_puck_reader_step(*ours, word);
    uint8_t refusal = plain_puck_step(r, word, &p);
    same(a.refusal == refusal && a.movements == p.movements && a.tests == p.tests && a.dropped == p.dropped, "answer of a puck's step", place);
    same(same_report(&a.movement, p.movements ? &p.movement : &none) && same_test(&a.test, p.tests ? &p.test : &untested), "report of a puck's step", place);
    same(same_puck(&a.next, r), "puck's reader after a step", place);
    *ours = a.next;
}

static size_t check_puck_piece(istrolf_puck_reader *ours, istrolf_puck_reader *r, const uint16_t *from, size_t count, size_t room, size_t place) {
    plain_counts c;
    for (size_t i = 0; i < room + 6; i++) numbers[i] = other_numbers[i] = 7777;
    istrolf_puck_reading a = istrolf_puck_reader_read(*ours, from, count, numbers, room);
    uint8_t refusal = plain_puck_read(r, from, count, other_numbers, room, &c);
    same(a.refusal == refusal && a.taken == c.taken && a.reports == c.reports && a.dropped == c.dropped, "counts of a puck's read", place);
    same(same_puck(&a.next, r), "puck's reader after a read", place);
    same(memcmp(numbers, other_numbers, (room + 6) * sizeof *numbers) == 0, "number of a puck's read", place);
    *ours = a.next;
    return a.taken;
}

static void check_puck(const char *format, const char *name) {
    istrolf_puck_reader ours = istrolf_puck_reader_fresh(), r;
    (void)format, now = name;
    plain_puck_reader(&r);
    for (size_t i = 0; i < WORDS; i++) check_puck_word(&ours, &r, or_bad(words[i], 64), i);
    check_puck_piece(&ours, &r, words, WORDS, ROOM - 6, 0);
    for (size_t at = 0; at < WORDS && !different;) {
        size_t piece = drawn(40);
        if (piece > WORDS - at) piece = WORDS - at;
        uint16_t was = words[at];
        words[at] = or_bad(was, 200);
        size_t taken = check_puck_piece(&ours, &r, words + at, piece, drawn(21), at);
        words[at] = was;
        at += taken;
    }
}

/* ---- The yard check */

static size_t our_judgements(size_t count) {
    istrolf_yard y = istrolf_yard_fresh(letter).yard;
    size_t sum = 0;
    for (size_t i = 0; i < count; i++) {
        istrolf_judged a = istrolf_yard_step(y, words[i]);
        y = a.next;
        sum += a.can;
    }
    return sum;
}

static size_t plain_judgements(size_t count) {
    istrolf_yard y;
    size_t sum = 0;
    plain_yard(&y, letter);
    for (size_t i = 0; i < count; i++) {
        uint8_t can;
        plain_yard_step(&y, words[i], &can);
        sum += can;
    }
    return sum;
}

static size_t our_check(size_t count) { return istrolf_yard_check(letter, words, count).sendable; }

static size_t plain_check(size_t count) {
    uint8_t proper;
    size_t sendable;
    plain_yard_check(letter, words, count, &proper, &sendable);
    return sendable;
}

static void each_log(act *act) {
    static const stream streams[] = {CLEAN, SILENCE, NINE, BROKEN, RANDOM};
    each_of(act, streams, 5, letters);
}

static int same_yard(const istrolf_yard *a, const istrolf_yard *b) {
    return a->format == b->format && a->first == b->first && a->last == b->last && a->count == b->count && a->ended == b->ended;
}

static void check_judged(istrolf_yard *ours, istrolf_yard *y, uint16_t word, size_t place) {
    uint8_t can;
    istrolf_judged a = istrolf_yard_step(*ours, word);
    uint8_t refusal = plain_yard_step(y, word, &can);
    same(a.refusal == refusal && a.can == can && same_yard(&a.next, y), "answer of the yard check", place);
    *ours = a.next;
}

static void check_whole_log(uint8_t letter, const uint16_t *from, size_t count, size_t place) {
    uint8_t proper;
    size_t sendable;
    istrolf_checked a = istrolf_yard_check(letter, from, count);
    uint8_t refusal = plain_yard_check(letter, from, count, &proper, &sendable);
    same(a.refusal == refusal && a.proper == proper && a.sendable == sendable, "answer to a log", place);
}

static void check_yard(const char *format, const char *name) {
    istrolf_yard ours = istrolf_yard_fresh(letter).yard, y;
    (void)format, now = name;
    plain_yard(&y, letter);
    for (size_t i = 0; i < WORDS; i++) {
        if (ours.ended && drawn(4) == 0) ours = istrolf_yard_fresh(letter).yard, plain_yard(&y, letter);
        check_judged(&ours, &y, or_bad(drawn(16) == 0 ? (uint16_t)"\0\x80\x7F\x30\x38"[drawn(5)] & 255 : words[i], 64), i);
    }
    check_whole_log(letter, words, WORDS, 0);
    for (size_t at = 0; at < WORDS; at += 8) {
        size_t piece = drawn(40), bad = drawn(40);
        if (piece > WORDS - at) piece = WORDS - at;
        if (bad > WORDS - at - 1) bad = 0;
        uint16_t was = words[at + bad];
        words[at + bad] = drawn(4) == 0 ? (uint16_t)drawn(260) : was;
        check_whole_log(drawn(16) == 0 ? (uint8_t)drawn(256) : letter, words + at, piece, at);
        words[at + bad] = was;
    }
}

/* ---- Salvage: logs of half the words, and their recordings */

static uint16_t places[WORDS], other_places[WORDS];

static size_t our_picks(size_t count) {
    size_t sum = 0;
    for (size_t at = 0; at < count; at += WORDS / 2) sum += istrolf_salvage_pick(letter, words + at, WORDS / 2, places, WORDS).runs;
    return sum;
}

static size_t plain_picks(size_t count) {
    size_t sum = 0;
    for (size_t at = 0; at < count; at += WORDS / 2) {
        plain_picked told;
        plain_pick(letter, words + at, WORDS / 2, other_places, WORDS, &told);
        sum += told.runs;
    }
    return sum;
}

static size_t our_salvage(size_t count) {
    size_t sum = 0;
    for (size_t at = 0; at < count; at += WORDS / 2) sum += istrolf_salvage_list(text, ends[WORDS / 2 - 1], listing, ROOM).written;
    return sum;
}

static size_t plain_salvages(size_t count) {
    size_t sum = 0, written;
    for (size_t at = 0; at < count; at += WORDS / 2) plain_salvage(text, ends[WORDS / 2 - 1], other_listing, ROOM, &written), sum += written;
    return sum;
}

static void each_scarred(act *act) {
    static const stream streams[] = {CLEAN, DAMAGED, RANDOM};
    each_of(act, streams, 3, "UTW");
}

static void check_pick(uint8_t letter, const uint16_t *from, size_t count, size_t room, size_t place) {
    plain_picked told;
    for (size_t i = 0; i < WORDS; i++) places[i] = other_places[i] = 7777;
    istrolf_picked a = istrolf_salvage_pick(letter, from, count, places, room);
    uint8_t refusal = plain_pick(letter, from, count, other_places, room, &told);
    same(a.refusal == refusal && a.taken == told.taken && a.runs == told.runs && a.left == told.left, "counts of salvage", place);
    same(memcmp(places, other_places, sizeof places) == 0, "place of salvage", place);
}

static void check_salvaged(size_t length, size_t room, size_t place) {
    size_t written;
    memset(listing, '.', room + 40), memset(other_listing, '.', room + 40);
    istrolf_salvaged a = istrolf_salvage_list(text, length, listing, room);
    uint8_t whole = plain_salvage(text, length, other_listing, room, &written);
    same(a.whole == whole && a.written == written, "counts of a salvage's listing", place);
    same(memcmp(listing, other_listing, room + 40) == 0, "byte of a salvage's listing", place);
}

static void check_salvage(const char *format, const char *name) {
    (void)format, now = name;
    check_pick(letter, words, ISTROLF_SALVAGE_WORDS, WORDS, 0);
    check_pick(letter, words, ISTROLF_SALVAGE_WORDS + drawn(3), WORDS, 0);
    for (size_t i = 0; i < 2000; i++) {
        size_t at = drawn(WORDS - 60), bad = at + drawn(60);
        uint16_t was = words[bad];
        words[bad] = or_bad((uint16_t)(drawn(2) == 0 ? drawn(258) : was), 8);
        check_pick(drawn(16) == 0 ? (uint8_t)(drawn(2) == 0 ? drawn(256) : (uint8_t)letters[drawn(7)]) : letter, words + at, drawn(60), drawn(24), at);
        words[bad] = was;
    }
    make_recording();
    for (size_t lines = ISTROLF_SALVAGE_WORDS - 1; lines < ISTROLF_SALVAGE_WORDS + 3; lines++) check_salvaged(ends[lines], ROOM - 40, lines);
    check_salvaged(ends[ISTROLF_SALVAGE_WORDS], 20000, 0);
    for (size_t i = 0; i < 4000; i++) {
        size_t length = ends[drawn(60)], at = drawn(length);
        uint8_t was = text[at], first = text[2];
        if (drawn(2) == 0) text[at] = (uint8_t)"\n\tBXQF0126 \r"[drawn(12)];
        if (drawn(16) == 0) text[2] = (uint8_t)letters[drawn(7)];
        check_salvaged(length - drawn(2), drawn(2) == 0 ? drawn(200) : 4000, i);
        text[2] = first, text[at] = was;
    }
}

/* ---- States with a member or two that something else was written to, which mostly makes them bad */

static void check_told_state(const istrolf_reader *reader, uint16_t word, size_t place) {
    istrolf_told t, ours;
    t.reader = *reader;
    t.awaited = (uint8_t)drawn(6);
    t.came.count = (uint8_t)drawn(drawn(4) == 0 ? 4 : 2);
    t.came.first = (uint8_t)(t.came.count > 0 || drawn(16) == 0 ? (drawn(4) == 0 ? (uint8_t)drawn(256) : (uint8_t)letters[drawn(7)]) : 0);
    t.came.second = (uint8_t)(t.came.count > 1 || drawn(16) == 0 ? drawn(256) : 0);
    if (drawn(4) == 0) word = (uint16_t)"\6\20\22\24\26\30\32\34\36\37JKLRMQNODP"[drawn(20)];
    ours = t;
    check_told_word(&ours, &t, word, place);
    ours.awaited = t.awaited = (uint8_t)drawn(5);
    check_command(&ours, &t, place);
    if (drawn(2) == 0) ours.came.first = t.came.first = (uint8_t)drawn(2);
    check_told_piece(&ours, &t, words + drawn(WORDS - 20), drawn(20), drawn(16), place);
}

static void check_bridge_state(const istrolf_reader *reader, size_t place) {
    istrolf_bridge b = {*reader, (uint8_t)(drawn(2) == 0 ? reader->format == 'A' : drawn(3)), (uint8_t)drawn(drawn(16) == 0 ? 3 : 2),
                        (uint16_t)(drawn(2) == 0 ? 65530 + drawn(6) : drawn(10)), 0, 0}, ours;
    if (b.based) b.x = drawn_between(-1, 4096), b.y = drawn_between(0, 4095);
    else if (drawn(16) == 0) b.y = 1;
    ours = b;
    check_converted(&ours, &b, words + drawn(WORDS - 40), drawn(40), drawn(200), place);
}

static void check_readback_state(size_t place) {
    static const uint8_t widths[] = {4, 6, 4, 6, 4, 6, 0, 5};
    istrolf_readback r, ours;
    r.width = widths[drawn(8)];
    r.ended = (uint8_t)(drawn(8) == 0 ? drawn(3) : 0);
    r.salvage = (uint8_t)(drawn(8) == 0 ? drawn(3) : 0);
    r.last = (uint32_t)(drawn(4) == 0 ? 9990 + drawn(20) : drawn(90));
    r.lines = (uint32_t)(drawn(4) == 0 ? drawn(3) : drawn(80));
    if (drawn(16) == 0) r.lines = r.last + 1 + (uint32_t)drawn(3);
    if (drawn(16) == 0) r.last = 999990 + (uint32_t)drawn(20);
    ours = r;
    size_t line = drawn(WORDS - 10), count = ends[line + drawn(10)] - ends[line];
    check_end(&r, drawn(2), place);
    if (drawn(2) == 0) check_items(&ours, &r, text + ends[line], count, drawn(30), place);
    else check_rewritten(&ours, &r, text + ends[line], count, drawn(200), place);
}

static void check_puck_state(uint16_t word, size_t place) {
    istrolf_puck_reader r = {{0, 0, 0}, (uint8_t)drawn(drawn(4) == 0 ? 5 : 4)}, ours;
    if (r.count > 0) r.kept[0] = (uint8_t)(0x80 + drawn(64));
    if (r.count > 1) r.kept[1] = (uint8_t)drawn(drawn(8) == 0 ? 256 : 128);
    if (r.count > 2) r.kept[2] = (uint8_t)drawn(drawn(8) == 0 ? 256 : 128);
    if (drawn(8) == 0) r.kept[drawn(3)] = (uint8_t)drawn(256);
    ours = r;
    check_puck_word(&ours, &r, drawn(2) == 0 ? (uint16_t)drawn(8) : word, place);
    check_puck_piece(&ours, &r, words + drawn(WORDS - 20), drawn(20), drawn(16), place);
}

static void check_yard_state(uint16_t word, size_t place) {
    istrolf_yard y = {(uint8_t)(drawn(32) == 0 ? drawn(256) : (uint8_t)letters[drawn(7)]), 0, 0, (uint8_t)drawn(6), (uint8_t)(drawn(8) == 0 ? drawn(3) : 0)}, ours;
    uint8_t bytes[5] = {0, 0, 0, 0, 0};
    size_t length = istrolf_encode(y.format, any_report(y.format), bytes, 5).length; /* 0 of a letter that is none */
    if (y.count > 0 && length > 0) y.first = bytes[0], y.last = bytes[(y.count - 1) % 5];
    if (drawn(4) == 0) y.first = (uint8_t)drawn(256);
    if (drawn(4) == 0) y.last = (uint8_t)(drawn(2) == 0 ? drawn(256) : (uint8_t)"\0\x80\x30\x38"[drawn(4)]);
    ours = y;
    check_judged(&ours, &y, drawn(2) == 0 ? (uint16_t)"\0\x80\x30\x38"[drawn(4)] & 255 : word, place);
}

static void check_request_states(void) {
    for (size_t i = 0; i < 50 * WORDS && !different; i++) {
        uint8_t bytes[5] = {0, 0, 0, 0, 0};
        if (i % 1000 == 0) {
            letter = (uint8_t)letters[drawn(7)];
            make_words(letter, DAMAGED, 0);
            make_listing(i % 2000 == 0 ? 4 : 6, 5);
            seed = i;
        }
        istrolf_reader r = istrolf_reader_fresh(drawn(8) == 0 ? (uint8_t)letters[drawn(7)] : letter).reader;
        size_t length = istrolf_encode(r.format, any_report(r.format), bytes, 5).length;
        if (drawn(4) != 0) r.awaiting = (uint8_t)(drawn(8) == 0), r.count = (uint8_t)drawn(length), memcpy(r.kept, bytes, r.count);
        if (drawn(16) == 0) r.kept[drawn(5)] = (uint8_t)drawn(256);
        if (drawn(32) == 0) r.format = (uint8_t)drawn(256);
        uint16_t word = (uint16_t)(drawn(2) == 0 ? bytes[r.count % 5] : drawn(260));
        check_told_state(&r, word, i);
        check_bridge_state(&r, i);
        check_readback_state(i);
        check_puck_state(word, i);
        check_yard_state(word, i);
    }
}

/* ---- Parts */

const part requests[] = {
    {"told-step", each_told, NULL, our_told_steps, plain_told_steps},
    {"told-read", each_told, NULL, our_told_reads, plain_told_reads},
    {"bridge", each_bridged, NULL, our_conversion, plain_conversion},
    {"readback", each_listing, NULL, our_items, plain_items},
    {"rewrite", each_listing, NULL, our_rewriting, plain_rewriting},
    {"puck-step", each_puck, NULL, our_puck_steps, plain_puck_steps},
    {"puck-read", each_puck, NULL, our_puck_read, plain_puck_reads},
    {"yard-step", each_log, NULL, our_judgements, plain_judgements},
    {"yard", each_log, NULL, our_check, plain_check},
    {"pick", each_scarred, NULL, our_picks, plain_picks},
    {"salvage", each_scarred, make_recording, our_salvage, plain_salvages},
    {NULL, NULL, NULL, NULL, NULL},
};

void check_requests(void) {
    each_told(check_told);
    each_bridged(check_bridge);
    each_listing(check_listing);
    now = "damaged listings", check_bad_listings();
    each_puck(check_puck);
    each_log(check_yard);
    each_scarred(check_salvage);
    now = "states of the requests", check_request_states();
}
