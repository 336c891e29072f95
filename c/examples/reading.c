/* Reads words of MM's format and prints the reports: those of samples/S-mm. */
#include "istrolf.h"
#include <stdio.h>

int main(void) {
    const uint16_t words[] = {257, 148, 5, 3, 148, 5, 152, 0, 0, 148, 256, 257, 154, 10, 4, 148, 7};
    int16_t out[5 * 4];
    istrolf_reader reader = istrolf_reader_fresh('S').reader;
    istrolf_reading r = istrolf_reader_read(reader, words, sizeof words / sizeof *words, out, sizeof out / sizeof *out);
    for (size_t i = 0; i < r.reports; i++) {
        istrolf_report report = istrolf_report_at(out, i);
        printf("buttons %d x %d y %d\n", report.buttons, report.x1, report.y1);
    }
    printf("refusal %d, %zu words taken, %zu bytes dropped, %d kept\n", r.refusal, r.taken, r.dropped, r.next.count);
    return 0;
}
