/* What istrolf.h says beside the archive: the names of refusals, a report's five numbers, and null where a count is 0. */
#include "istrolf.h"
#include <stdio.h>

static int tried, wrong;

static void is(const char *what, int holds) {
    tried++;
    if (holds) return;
    wrong++;
    printf("it does not hold that %s\n", what);
}

#define IS(fact) is(#fact, fact)

static int named(istrolf_refusal refusal, const char *name) {
    const char *given = istrolf_refusal_name(refusal);
    while (*given == *name && *name != 0) given++, name++;
    return *given == *name;
}

#define NAMED(number) IS(named(number, #number))

static void names(void) {
    NAMED(ISTROLF_OK), NAMED(ISTROLF_BAD_LETTER), NAMED(ISTROLF_BAD_BUTTONS), NAMED(ISTROLF_BAD_WORD);
    NAMED(ISTROLF_SHORT_BUFFER), NAMED(ISTROLF_BAD_STATE), NAMED(ISTROLF_BAD_LISTING), NAMED(ISTROLF_BAD_X1);
    NAMED(ISTROLF_BAD_Y1), NAMED(ISTROLF_BAD_X2), NAMED(ISTROLF_BAD_Y2), NAMED(ISTROLF_NO_REPLY);
    NAMED(ISTROLF_MARKED), NAMED(ISTROLF_LONG_LOG), NAMED(ISTROLF_TOO_WIDE);
    IS(named(2, "unknown"));
    for (int number = 16; number < 256; number++) IS(named((istrolf_refusal)number, "unknown"));
}

static int is_report(istrolf_report r, uint8_t buttons, int16_t x1, int16_t y1, int16_t x2, int16_t y2) {
    return r.buttons == buttons && r.x1 == x1 && r.y1 == y1 && r.x2 == x2 && r.y2 == y2;
}

static void reports(void) {
    const uint16_t words[] = {257, 0x85, 5, 0xFD, 0x85, 0, 0x80, 0x80, 0x7F, 1, 2};
    int16_t out[10];
    const istrolf_reading r = istrolf_reader_read(istrolf_reader_fresh('U').reader, words, 11, out, 10);
    IS(r.reports == 2);
    IS(is_report(istrolf_report_at(out, 0), 2, 5, -3, -123, 0));
    IS(is_report(istrolf_report_at(out, 1), 7, -128, 127, 1, 2));
}

/* Nothing is lent, by null: all is as it was. Words and no room: all is taken up to the first that needs room. */
static void empty(void) {
    const uint16_t words[] = {257, 148, 5, 3};
    const uint8_t recording[] = "F\tU\n", listing[] = "L\t6\nR\t000002\tL--\t1\t2\n";
    const istrolf_report report = {0, 0, 0, 0, 0};
    uint16_t places[1];

    const istrolf_port_words heard = istrolf_port_bytes(istrolf_port_fresh(3), NULL, 0, NULL, 0);
    IS(heard.taken == 0 && heard.written == 0 && heard.next.left == 3);
    IS(istrolf_port_bytes(istrolf_port_fresh(3), recording, 1, NULL, 0).taken == 0);

    const istrolf_reader reader = istrolf_reader_fresh('S').reader;
    istrolf_reading read = istrolf_reader_read(reader, NULL, 0, NULL, 0);
    IS(read.refusal == ISTROLF_OK && read.taken == 0 && read.reports == 0 && read.dropped == 0 && read.next.format == 'S');
    read = istrolf_reader_read(reader, words, 4, NULL, 0);
    IS(read.refusal == ISTROLF_OK && read.taken == 3 && read.reports == 0 && read.next.count == 2);

    const istrolf_told told = istrolf_told_fresh('S').told;
    istrolf_heard_words answered = istrolf_told_read(told, NULL, 0, NULL, 0);
    IS(answered.refusal == ISTROLF_OK && answered.taken == 0 && answered.reply.kind == ISTROLF_REPLY_NONE);
    answered = istrolf_told_read(told, words, 4, NULL, 0);
    IS(answered.refusal == ISTROLF_OK && answered.taken == 3 && answered.next.reader.count == 2);

    const istrolf_watched watched = istrolf_watch_over(istrolf_watch_knowing(2), NULL, 0);
    IS(watched.left == 0 && watched.middle == 0 && watched.right == 0 && watched.next.last == 2);

    IS(istrolf_encode('S', report, NULL, 0).refusal == ISTROLF_SHORT_BUFFER);

    const istrolf_listed listed = istrolf_lister_feed(istrolf_lister_fresh(), NULL, 0, NULL, 0);
    IS(listed.refusal == ISTROLF_OK && listed.taken == 0 && listed.written == 0 && listed.ended == 0);
    IS(istrolf_lister_feed(istrolf_lister_fresh(), recording, 4, NULL, 0).written == 0);
    IS(istrolf_lister_finish(istrolf_lister_fresh(), NULL, 0).ended == 0);

    const istrolf_checked checked = istrolf_yard_check('S', NULL, 0);
    IS(checked.refusal == ISTROLF_OK && checked.proper == 1 && checked.sendable == 0);

    const istrolf_bridge bridge = istrolf_bridge_fresh('S').bridge;
    istrolf_converted converted = istrolf_bridge_convert(bridge, NULL, 0, NULL, 0);
    IS(converted.refusal == ISTROLF_OK && converted.taken == 0 && converted.sent == 0);
    converted = istrolf_bridge_convert(bridge, words, 4, NULL, 0);
    IS(converted.refusal == ISTROLF_OK && converted.taken == 3 && converted.sent == 0);

    istrolf_read_lines lines = istrolf_readback_read(istrolf_readback_fresh(), NULL, 0, NULL, 0);
    IS(lines.refusal == ISTROLF_OK && lines.taken == 0 && lines.items == 0);
    lines = istrolf_readback_read(istrolf_readback_fresh(), listing, sizeof listing - 1, NULL, 0);
    IS(lines.refusal == ISTROLF_OK && lines.taken == 4 && lines.items == 0);
    const istrolf_rewritten rewritten = istrolf_readback_rewrite(istrolf_readback_fresh(), NULL, 0, NULL, 0);
    IS(rewritten.refusal == ISTROLF_OK && rewritten.taken == 0 && rewritten.written == 0);
    IS(istrolf_readback_rewrite(istrolf_readback_fresh(), listing, 4, NULL, 0).taken == 0);

    istrolf_picked picked = istrolf_salvage_pick('T', NULL, 0, NULL, 0);
    IS(picked.refusal == ISTROLF_OK && picked.taken == 0 && picked.runs == 0 && picked.left == 0);
    picked = istrolf_salvage_pick('T', NULL, 0, places, 1);
    IS(picked.refusal == ISTROLF_OK && picked.taken == 0 && picked.runs == 0);
    IS(istrolf_salvage_list(NULL, 0, NULL, 0).written == 0);

    const istrolf_puck_reading puck = istrolf_puck_reader_read(istrolf_puck_reader_fresh(), NULL, 0, NULL, 0);
    IS(puck.refusal == ISTROLF_OK && puck.taken == 0 && puck.reports == 0);
    IS(istrolf_puck_reader_read(istrolf_puck_reader_fresh(), words, 4, NULL, 0).taken == 3);
}

int main(void) {
    names();
    reports();
    empty();
    printf("%d tried, %d wrong\n", tried, wrong);
    return wrong > 0;
}
