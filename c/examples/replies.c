/* A host that asks a box in the middle of a stream: it tells its reader of each command, behind the break that the command may cause, and reads the answer by name. */
#include "istrolf.h"
#include <stdio.h>

static istrolf_box box;
static istrolf_told told;

static void hear(uint16_t word) {
    istrolf_heard_word h = istrolf_told_step(told, word);
    told = h.next;
    if (h.reply.kind == ISTROLF_REPLY_FORMAT) printf("format %c\n", h.reply.format);
    if (h.reply.kind == ISTROLF_REPLY_LETTERS) printf("format %c, mode %c\n", h.reply.format, h.reply.mode);
    if (h.reply.kind == ISTROLF_REPLY_BUTTONS) printf("buttons %d\n", h.reply.buttons);
    if (h.reply.kind == ISTROLF_REPLY_BROKEN) printf("a reply broken behind %d\n", h.reply.came.count);
    if (h.reports) printf("buttons %d, moved %d, %d\n", h.report.buttons, h.report.x1 + h.report.x2, h.report.y1 + h.report.y2);
}

static void stepped(istrolf_stepped s) {
    box = s.next;
    if (s.sent) hear(s.word);
}

static void characters(int count) {
    while (count-- > 0) stepped(istrolf_box_latch(box)), stepped(istrolf_box_send(box));
}

static void ask(uint8_t command) {
    stepped(istrolf_box_host(box, command));
    told = istrolf_told_command(told, command).next;
}

int main(void) {
    box = istrolf_box_fresh();
    told = istrolf_told_fresh('U').told;
    characters(1); /* a silence */
    stepped(istrolf_box_motion(box, -123, 0));
    characters(5);
    ask('t'); /* in the middle of the stream */
    characters(2);
    stepped(istrolf_box_buttons(box, ISTROLF_L));
    characters(5);
    ask('t'); /* and again; the next command breaks its reply off */
    characters(1);
    ask('f');
    characters(1);
    ask(5);
    characters(4);
    stepped(istrolf_box_buttons(box, 0));
    characters(5);
    return 0;
}
