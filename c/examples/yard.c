/* Says whether words of MM's format can be a box's: those of samples/S-mm, in one piece, and word by word. */
#include "istrolf.h"
#include <stdio.h>

int main(void) {
    const uint16_t words[] = {257, 148, 5, 3, 148, 5, 152, 0, 0, 148, 256, 257, 154, 10, 4, 148, 7};
    const size_t count = sizeof words / sizeof *words;
    istrolf_checked all = istrolf_yard_check('S', words, count);
    printf("refusal %d, %s, %zu of %zu words can be sent\n", all.refusal, all.proper ? "proper" : "not proper", all.sendable, count);

    istrolf_judged j = {0, 1, istrolf_yard_fresh('S').yard};
    size_t sent = 0;
    for (; sent < count; sent++) {
        j = istrolf_yard_step(j.next, words[sent]);
        if (!j.can) break;
    }
    printf("word %zu, %d, is the first that cannot\n", sent, words[sent]);
    return 0;
}
