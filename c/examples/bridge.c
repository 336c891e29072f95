/* A bridge to a recorder that knows only V: words of U in, in pieces and with little room, bytes of V out, and the saves that V cannot tell. */
#include "istrolf.h"
#include <stdio.h>

int main(void) {
    /* a move of 254 to the west and 8 to the north in two pairs, a tap of the middle button, and a report of which a byte arrived damaged */
    const uint16_t line[] = {257, 135, 129, 4, 129, 4, 133, 0, 0, 0, 0, 135, 1, 0, 0, 0, 257, 131, 5, 256, 0, 257, 134, 0, 0, 0, 0};
    const size_t count = sizeof line / sizeof line[0];
    istrolf_bridge bridge = istrolf_bridge_fresh('U').bridge;
    for (size_t at = 0; at < count;) {
        uint8_t bytes[9];
        size_t piece = count - at < 7 ? count - at : 7;
        istrolf_converted a = istrolf_bridge_convert(bridge, line + at, piece, bytes, sizeof bytes);
        for (size_t i = 0; i < 3 * a.sent; i++) printf("%d%s", bytes[i], i % 3 < 2 ? " " : "\n");
        if (a.dropped) printf("dropped %d\n", (int)a.dropped);
        if (a.refusal) {
            printf("refused %d\n", a.refusal); /* another call would be refused too */
            return 1;
        }
        bridge = a.next;
        at += a.taken;
    }
    printf("pressed %d\n", bridge.presses);
    return 0;
}
