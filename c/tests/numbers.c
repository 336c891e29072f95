/* Every number that istrolf.h names is compared here with what a call gives where it stands for it, so that none can
 * stand for another; and each room with a call that has just enough, and with one that has a place less. */
#include "istrolf.h"
#include <stdio.h>
#include <string.h>

static int compared, wrong;

static void same(const char *name, long long named, long long given) {
    compared++;
    if (named == given) return;
    wrong++;
    printf("%s is %lld, and a call gives %lld\n", name, named, given);
}

#define SAME(name, given) same(#name, name, (long long)(given))

static void version(void) {
    SAME(ISTROLF_VERSION_NUMBER, istrolf_version());
    SAME(10000 * ISTROLF_VERSION_MAJOR + 100 * ISTROLF_VERSION_MINOR + ISTROLF_VERSION_PATCH, istrolf_version());
}

static const uint8_t *text(const char *bytes) { return (const uint8_t *)bytes; }

static uint8_t encoded(int16_t x1, int16_t y1, int16_t x2, int16_t y2) {
    const istrolf_report report = {0, x1, y1, x2, y2};
    uint8_t buffer[5];
    return istrolf_encode('U', report, buffer, 5).refusal;
}

static void refusals(void) {
    const istrolf_report eight = {8, 0, 0, 0, 0}, none = {0, 0, 0, 0, 0};
    const istrolf_reader fresh = istrolf_reader_fresh('U').reader;
    istrolf_reader bad = fresh;
    const uint16_t words[1] = {0};
    uint16_t places[1];
    uint8_t bytes[64];
    int32_t items[5];
    bad.count = 9;
    SAME(ISTROLF_OK, istrolf_reader_fresh('U').refusal);
    SAME(ISTROLF_BAD_LETTER, istrolf_reader_fresh('X').refusal);
    SAME(ISTROLF_BAD_BUTTONS, istrolf_encode('U', eight, bytes, 5).refusal);
    SAME(ISTROLF_BAD_BUTTONS, istrolf_box_buttons(istrolf_box_fresh(), 8).refusal);
    SAME(ISTROLF_BAD_WORD, istrolf_reader_step(fresh, 258).refusal);
    SAME(ISTROLF_SHORT_BUFFER, istrolf_encode('U', none, bytes, 4).refusal);
    SAME(ISTROLF_BAD_STATE, istrolf_reader_step(bad, 0).refusal);
    SAME(ISTROLF_BAD_LISTING, istrolf_readback_read(istrolf_readback_fresh(), text("L\t5\n"), 4, items, 5).refusal);
    SAME(ISTROLF_BAD_X1, encoded(128, 128, 128, 128));
    SAME(ISTROLF_BAD_Y1, encoded(0, 128, 128, 128));
    SAME(ISTROLF_BAD_X2, encoded(0, 0, 128, 128));
    SAME(ISTROLF_BAD_Y2, encoded(0, 0, 0, 128));
    SAME(ISTROLF_OK, encoded(127, 127, 127, 127));
    SAME(ISTROLF_NO_REPLY, istrolf_told_command(istrolf_told_fresh('U').told, 'P').refusal);
    SAME(ISTROLF_MARKED, istrolf_salvage_pick('S', words, 1, places, 1).refusal);
    SAME(ISTROLF_TOO_WIDE, istrolf_readback_rewrite(istrolf_readback_fresh(), text("L\t6\nE\t010000\n"), 13, bytes, 64).refusal);
}

static void words(void) {
    istrolf_box box = istrolf_box_fresh();
    SAME(ISTROLF_SILENCE, istrolf_box_send(box).word);
    box = istrolf_box_latch(istrolf_box_motion(box, 1, 1).next).next;
    SAME(ISTROLF_BREAK, istrolf_box_host(box, ' ').word);
}

/* A fresh box behind a byte of the host's. */
static istrolf_box behind(uint8_t byte) { return istrolf_box_host(istrolf_box_fresh(), byte).next; }

/* The reply of a box in S to a byte: its length and its first byte. */
static int reply_to(uint8_t byte) {
    const istrolf_box box = istrolf_box_host(behind('S'), byte).next;
    return 256 * box.going.length + box.going.bytes[0];
}

static void commands(void) {
    SAME(ISTROLF_SET_S, behind('S').settings.format);
    SAME(ISTROLF_SET_V, behind('V').settings.format);
    SAME(ISTROLF_SET_A, behind('A').settings.format);
    SAME(ISTROLF_SET_B, behind('B').settings.format);
    SAME(ISTROLF_SET_U, istrolf_box_host(behind('S'), 'U').next.settings.format);
    SAME(ISTROLF_SET_T, behind('T').settings.format);
    SAME(ISTROLF_SET_W, behind('W').settings.format);
    SAME(ISTROLF_STREAM_J, behind('J').settings.mode);
    SAME(ISTROLF_STREAM_K, behind('K').settings.mode);
    SAME(ISTROLF_STREAM_L, behind('L').settings.mode);
    SAME(ISTROLF_STREAM_R, behind('R').settings.mode);
    SAME(ISTROLF_STREAM_M, behind('M').settings.mode);
    SAME(ISTROLF_STREAM_Q, behind('Q').settings.mode);
    SAME(ISTROLF_STREAM_N, behind('N').settings.mode);
    SAME(ISTROLF_STREAM_O, istrolf_box_host(behind('D'), 'O').next.settings.mode);
    SAME(ISTROLF_PROMPT, behind('D').settings.mode);
    same("no report due behind ISTROLF_PROMPT", behind(ISTROLF_PROMPT).due, 0);
    same("a report due behind ISTROLF_ONE_REPORT", behind(ISTROLF_ONE_REPORT).due, 1);
    same("the reply to ISTROLF_ASK_ACK", reply_to(ISTROLF_ASK_ACK), 256 * 1 + 6);
    same("the reply to ISTROLF_ASK_FORMAT", reply_to(ISTROLF_ASK_FORMAT), 256 * 1 + 0x1A);
    same("the reply to ISTROLF_ASK_LETTERS", reply_to(ISTROLF_ASK_LETTERS), 256 * 2 + 'S');
    same("the reply to ISTROLF_ASK_BUTTONS", reply_to(ISTROLF_ASK_BUTTONS), 256 * 3);
    same("dormant behind ISTROLF_SLEEP", behind(ISTROLF_SLEEP).dormant, 1);
}

/* The letters of a report with these buttons, as the lister prints them. */
static int printed(uint8_t buttons, const char *letters) {
    const istrolf_report report = {buttons, 0, 0, 0, 0};
    uint8_t bytes[5], out[4 * ISTROLF_LISTER_ROOM];
    if (istrolf_encode('T', report, bytes, 5).refusal) return 0;
    const uint8_t line[] = {'F', '\t', 'T', '\n', 'Q', '\n', 'B', '\t', (uint8_t)('0' + bytes[0]), '\n', 'B', '\t', '0', '\n', 'B', '\t', '0', '\n'};
    if (istrolf_lister_feed(istrolf_lister_fresh(), line, sizeof line, out, sizeof out).refusal) return 0;
    return memcmp(out + sizeof "L\t6\nR\t000005\t" - 1, letters, 3) == 0;
}

static void buttons(void) {
    same("ISTROLF_L is printed as L--", printed(ISTROLF_L, "L--"), 1);
    same("ISTROLF_M is printed as -M-", printed(ISTROLF_M, "-M-"), 1);
    same("ISTROLF_R is printed as --R", printed(ISTROLF_R, "--R"), 1);
}

/* How many items are read of a listing. */
static long long read(const char *listing, size_t count, int32_t *out, size_t room) {
    return (long long)istrolf_readback_read(istrolf_readback_fresh(), text(listing), count, out, room).items;
}

static void items(void) {
    int32_t out[15] = {0};
    same("items", read("L\t6\nR\t000002\tL--\t1\t2\nD\t000003\t4\nH\t5\n", 38, out, 15), 3);
    SAME(ISTROLF_ITEM_R, out[0]);
    SAME(ISTROLF_ITEM_D, out[5]);
    SAME(ISTROLF_ITEM_H, out[10]);
    same("items", read("L\t6\nE\t000002\n", 13, out, 5), 1);
    SAME(ISTROLF_ITEM_E, out[0]);
    same("items", read("L\t6\nE\tover\n", 11, out, 5), 1);
    SAME(ISTROLF_ITEM_OVER, out[0]);
}

/* What becomes of the reply to a command, by the last of these words. */
static uint8_t reply(uint8_t command, const uint16_t *line, size_t count) {
    istrolf_told told = istrolf_told_command(istrolf_told_fresh('U').told, command).next;
    int16_t out[5];
    return istrolf_told_read(told, line, count, out, 5).reply.kind;
}

static void replies(void) {
    const istrolf_told fresh = istrolf_told_fresh('U').told;
    const uint16_t ack[] = {6}, code[] = {26}, letters[] = {'B', 'R'}, pressed[] = {5, 0, 0};
    SAME(ISTROLF_AWAITS_NOTHING, fresh.awaited);
    SAME(ISTROLF_AWAITS_ACK, istrolf_told_command(fresh, ' ').next.awaited);
    SAME(ISTROLF_AWAITS_ACK, istrolf_told_waking(fresh).next.awaited);
    SAME(ISTROLF_AWAITS_CODE, istrolf_told_command(fresh, 'f').next.awaited);
    SAME(ISTROLF_AWAITS_LETTERS, istrolf_told_command(fresh, 't').next.awaited);
    SAME(ISTROLF_AWAITS_BUTTONS, istrolf_told_command(fresh, 5).next.awaited);
    SAME(ISTROLF_REPLY_NONE, reply('t', letters, 1));
    SAME(ISTROLF_REPLY_ACK, reply(' ', ack, 1));
    SAME(ISTROLF_REPLY_FORMAT, reply('f', code, 1));
    SAME(ISTROLF_REPLY_LETTERS, reply('t', letters, 2));
    SAME(ISTROLF_REPLY_BUTTONS, reply(5, pressed, 3));
    SAME(ISTROLF_REPLY_BROKEN, reply('f', ack, 1));
}

/* The first number that the long read writes of a self-test with this error. */
static int16_t kind(uint16_t error) {
    const uint16_t line[] = {0xA1, 0x32, error, 0};
    int16_t out[6] = {9};
    return istrolf_puck_reader_read(istrolf_puck_reader_fresh(), line, 4, out, 6).reports == 1 ? out[0] : -1;
}

static void self_tests(void) {
    istrolf_puck puck = istrolf_puck_made(ISTROLF_L, 1, 3);
    for (int i = 0; i < 2; i++) puck = istrolf_puck_send(puck).next;
    SAME(ISTROLF_BUTTON_ERROR, istrolf_puck_send(puck).word);
    while (puck.test.left > 0) puck = istrolf_puck_send(puck).next;
    same("bytes of a self-test behind ISTROLF_SELF_TEST", istrolf_puck_host(puck, ISTROLF_SELF_TEST).next.test.left, 4);
    same("an error of ISTROLF_FATAL", kind(ISTROLF_FATAL), 2);
    same("an error below ISTROLF_FATAL", kind(ISTROLF_FATAL - 1), 1);
}

/* The longest text of a byte and of an end: a report of B at the ends of its range, and H behind it. */
static void lister_room(void) {
    static const char recording[] = "F\tB\nB\t92\nB\t0\nB\t160\nB\t0\nB\t160\n";
    const uint8_t *line = text(recording);
    const size_t count = sizeof recording - 1;
    uint8_t out[(sizeof recording - 1) * ISTROLF_LISTER_ROOM];
    const istrolf_listed all = istrolf_lister_feed(istrolf_lister_fresh(), line, count, out, sizeof out);
    same("bytes taken with ISTROLF_LISTER_ROOM for each", (long long)all.taken, (long long)count);
    const istrolf_lister before = istrolf_lister_feed(istrolf_lister_fresh(), line, count - 1, out, sizeof out).next;
    const istrolf_listed byte = istrolf_lister_feed(before, line + count - 1, 1, out, ISTROLF_LISTER_ROOM);
    same("a byte taken with ISTROLF_LISTER_ROOM", (long long)byte.taken, 1);
    same("the text of that byte", (long long)byte.written, 25);
    same("with a place less", (long long)istrolf_lister_feed(before, line + count - 1, 1, out, byte.written - 1).taken, 0);
    const istrolf_listed end = istrolf_lister_finish(before, out, ISTROLF_LISTER_ROOM);
    same("an end with ISTROLF_LISTER_ROOM", end.ended, 1);
    same("the text of that end", (long long)end.written, 29);
    same("with a place less", istrolf_lister_finish(before, out, end.written - 1).ended, 0);
}

/* From one corner of A to the other: as many V reports as a report can become. */
static void bridge_room(void) {
    const uint16_t line[] = {0xC0, 0, 0, 0, 0, 0xC0, 0x3F, 0x3F, 0x3F, 0x3F};
    uint8_t out[3 + ISTROLF_BRIDGE_ROOM];
    const istrolf_bridge before = istrolf_bridge_convert(istrolf_bridge_fresh('A').bridge, line, 9, out, 3).next;
    istrolf_converted a = istrolf_bridge_convert(before, line + 9, 1, out, ISTROLF_BRIDGE_ROOM);
    same("a report taken with ISTROLF_BRIDGE_ROOM", (long long)a.taken, 1);
    SAME(ISTROLF_BRIDGE_ROOM, 3 * a.sent);
    same("with a place less", (long long)istrolf_bridge_convert(before, line + 9, 1, out, ISTROLF_BRIDGE_ROOM - 1).taken, 0);
}

/* The longest salvage: of T, and between two reports a byte that is left out. */
static void salvage_room(void) {
    static const char four[] = "B\t7\nB\t128\nB\t128\nB\t9\n";
    static uint16_t log[ISTROLF_SALVAGE_WORDS + 1];
    static uint8_t input[4 + (sizeof four - 1) * (ISTROLF_SALVAGE_WORDS / 4)], out[ISTROLF_SALVAGE_ROOM];
    uint16_t places[1];
    SAME(ISTROLF_OK, istrolf_salvage_pick('T', log, ISTROLF_SALVAGE_WORDS, places, 1).refusal);
    SAME(ISTROLF_LONG_LOG, istrolf_salvage_pick('T', log, ISTROLF_SALVAGE_WORDS + 1, places, 1).refusal);
    memcpy(input, "F\tT\n", 4);
    for (size_t i = 4; i < sizeof input; i += sizeof four - 1) memcpy(input + i, four, sizeof four - 1);
    istrolf_salvaged a = istrolf_salvage_list(input, sizeof input, out, ISTROLF_SALVAGE_ROOM);
    same("a whole salvage with ISTROLF_SALVAGE_ROOM", a.whole, 1);
    same("its bytes", (long long)a.written, 4 + 1024 * (23 + 11) + 4);
    same("with so many", istrolf_salvage_list(input, sizeof input, out, a.written).whole, 1);
    same("with a place less", istrolf_salvage_list(input, sizeof input, out, a.written - 1).whole, 0);
    SAME(ISTROLF_SALVAGE_ROOM, ISTROLF_LISTER_ROOM * (ISTROLF_SALVAGE_WORDS + 2)); /* a line for each word, the first and the last */
}

int main(void) {
    version();
    refusals();
    words();
    commands();
    buttons();
    items();
    replies();
    self_tests();
    lister_room();
    bridge_room();
    salvage_room();
    printf("%d compared, %d wrong\n", compared, wrong);
    return wrong > 0;
}
