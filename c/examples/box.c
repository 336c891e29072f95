/* A box driven event by event: set to MM's format, moved far, tapped twice on a busy line, and asked for its letters. */
#include "istrolf.h"
#include <stdio.h>

static istrolf_box box;

static void told(const char *event, istrolf_stepped s) {
    printf("%-14s", event);
    if (s.refusal) printf(" refused %d", s.refusal);
    if (s.sent) printf(" word %d", s.word);
    box = s.next;
    printf(" | going %d of %d, %d remembered, counter %d %d\n", box.going.sent, box.going.length, box.memory.count, box.track.counter.x, box.track.counter.y);
}

static void slots(int count) {
    while (count-- > 0) {
        told("latch", istrolf_box_latch(box));
        told("send", istrolf_box_send(box));
    }
}

int main(void) {
    box = istrolf_box_fresh();
    told("host S", istrolf_box_host(box, 'S'));
    told("motion", istrolf_box_motion(box, 300, -7));
    slots(1);
    told("buttons M", istrolf_box_buttons(box, ISTROLF_M));
    told("buttons none", istrolf_box_buttons(box, 0));
    told("buttons 9", istrolf_box_buttons(box, 9));
    told("motion", istrolf_box_motion(box, 1, 1));
    slots(9);
    told("motion", istrolf_box_motion(box, 5, 5));
    told("latch", istrolf_box_latch(box));
    told("host t", istrolf_box_host(box, 't'));
    slots(3);
    told("motion", istrolf_box_motion(box, 32767, 0));
    told("motion", istrolf_box_motion(box, 1000, 0));
    printf("thrown away by the limit %lld %lld, by the counter %lld %lld\n", (long long)box.sums.limit.x, (long long)box.sums.limit.y,
           (long long)box.sums.counter.x, (long long)box.sums.counter.y);
    return 0;
}
