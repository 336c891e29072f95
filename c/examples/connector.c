/* What is on the connector? A VSXXX puck answers T with a self-test. A ball box takes T for its three byte format, and
 * one that is being moved goes on sending: its bytes can spell a self-test, as 00 A1 32 00 00 05 do, the moves -95, 50
 * and 0, 5. So D goes out first, which puts either into prompt mode; twice, since the first only wakes a dormant box.
 * When the line has been silent for as long as a device has to obey, T; and at the end what D and T changed is set
 * again. They throw away what was moved and pressed before: look when the port is opened, and not in the middle of the
 * work. */
#include "istrolf.h"
#include <stdio.h>

/* The manual's times, in characters at 4800 baud: 50 ms for D, half a second for T. */
enum { OBEYS = 22, TESTED = 220 };

/* The far end of the line: a puck or a ball box, which somebody moves all the time, or something that sends four bytes
 * when it hears a T. */
static enum { PUCK, BOX, OTHER } far_end;
static istrolf_puck puck;
static istrolf_box box;
static const uint8_t *four;
static int left, turn, rest, broke;

/* The port: a byte to the far end, and the next word that comes from it. */
static void say(uint8_t byte) {
    if (far_end == PUCK) {
        istrolf_stepped_puck s = istrolf_puck_host(puck, byte);
        puck = s.next, broke |= s.sent;
    } else if (far_end == BOX) {
        istrolf_stepped s = istrolf_box_host(box, byte);
        box = s.next, broke |= s.sent;
    } else if (byte == 'T') {
        left = 4;
    }
}

static uint16_t hear(void) {
    const int16_t dx = turn % 2 ? 0 : -95, dy = turn % 2 ? 5 : 50;
    if (broke) return broke = 0, ISTROLF_BREAK;
    if (far_end == PUCK) {
        if (puck.ball.going.length == 0) puck = istrolf_puck_motion(puck, dx, dy).next, turn++;
        puck = istrolf_puck_period(puck).next;
        istrolf_stepped_puck s = istrolf_puck_send(istrolf_puck_latch(puck).next);
        return puck = s.next, s.word;
    }
    if (far_end == BOX) {
        if (rest > 0) {
            rest--;
        } else if (box.going.length == 0) {
            box = istrolf_box_motion(box, dx, dy).next, turn++;
        }
        istrolf_stepped s = istrolf_box_send(istrolf_box_latch(box).next);
        return box = s.next, s.word;
    }
    if (left > 0) return four[4 - left--];
    return ISTROLF_SILENCE;
}

/* Whether the line falls silent for so many characters; with a hundred others before that it does not. */
static int falls_silent(int count) {
    int silences = 0, others = 0;
    while (silences < count && others < 100) {
        if (hear() == ISTROLF_SILENCE) {
            silences++;
        } else {
            silences = 0, others++;
        }
    }
    return silences == count;
}

/* T, and the self-test that answers it: whether one came in its time. */
static int tested(istrolf_self_test *test) {
    istrolf_puck_reader reader = istrolf_puck_reader_fresh();
    say('T');
    for (int i = 0; i < TESTED; i++) {
        istrolf_read_puck_word w = istrolf_puck_reader_step(reader, hear());
        reader = w.next;
        if (w.tests) return *test = w.test, 1;
    }
    return 0;
}

static void shown(const char *name, int is_puck, istrolf_self_test t) {
    printf("%-16s", name);
    if (is_puck) {
        const char *device = t.device == 2 ? "puck" : t.device == 4 ? "tablet" : "device";
        printf("a VSXXX %s of revision %d, made at %d", device, t.revision, t.maker);
        if (t.error) printf(", %s error %02X", t.error >= ISTROLF_FATAL ? "fatal" : "slight", t.error);
        if (t.buttons) printf(", buttons %d", t.buttons);
        printf("\n");
    } else {
        printf("no puck\n");
    }
}

/* The search. At its end a puck streams, and a ball box has this format and mode. */
static void found(const char *name, uint8_t format, uint8_t mode) {
    istrolf_self_test test = {0, 0, 0, 0, 0};
    say('D');
    say('D');
    const int is_puck = falls_silent(OBEYS) && tested(&test);
    shown(name, is_puck, test);
    if (is_puck) {
        say('R');
    } else {
        say(format);
        say(mode);
    }
}

/* What comes behind the search, by a reader of the puck or of the box's format: that one is ready, for the line was
 * silent. */
static void moves_of_puck(void) {
    istrolf_puck_reader reader = istrolf_puck_reader_fresh();
    for (int i = 0; i < 7; i++) {
        istrolf_read_puck_word w = istrolf_puck_reader_step(reader, hear());
        reader = w.next;
        if (w.movements) printf("    moved %d, %d\n", w.movement.x1, w.movement.y1);
    }
}

static void moves_of_box(uint8_t format) {
    istrolf_reader reader = istrolf_reader_step(istrolf_reader_fresh(format).reader, ISTROLF_SILENCE).next;
    for (int i = 0; i < 6; i++) {
        istrolf_read_word w = istrolf_reader_step(reader, hear());
        reader = w.next;
        if (w.reports) printf("    moved %d, %d\n", w.report.x1 + w.report.x2, w.report.y1 + w.report.y2);
    }
}

int main(void) {
    static const uint8_t others[3][4] = {{0xA2, 0x14, 0, 0}, {0xA1, 0x32, 0x3E, 0}, {0x32, 0, 0, 0}};
    const char *const names[] = {"a tablet:", "a bad memory:", "its first lost:"};
    istrolf_self_test test = {0, 0, 0, 0, 0};
    far_end = PUCK, puck = istrolf_puck_made(0, 1, 3);
    hear(); /* it was plugged in just now, and is within its first self-test, where it hears nothing */
    found("a puck:", 'U', 'O');
    moves_of_puck();
    found("in the middle:", 'U', 'O');
    puck = istrolf_puck_made(ISTROLF_L, 1, 3);
    found("its left down:", 'U', 'O');
    far_end = OTHER;
    for (int i = 0; i < 3; i++) four = others[i], left = 0, found(names[i], 'U', 'O');
    far_end = BOX, box = istrolf_box_fresh();
    for (int i = 0; i < 7; i++) hear(); /* in the middle of a report */
    found("a ball box:", 'U', 'O');
    moves_of_box('U');
    box = istrolf_box_host(box, 'd').next, rest = 30; /* and is moved again when D has been obeyed */
    found("one that slept:", 'B', 'R');
    box = istrolf_box_fresh(), turn = 0, rest = 0;
    const int is_puck = tested(&test);
    shown("T alone, wrong:", is_puck, test); /* it is the box, moved */
    return 0;
}
