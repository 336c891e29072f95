/* An event loop with poll: each press of the middle button saves once, beside whatever else the program waits for. Standard
 * input is a tty that was set already; docs/PORT-OTHER.md has its settings, and serial.c sets them.
 *
 *     loop LETTER MS < TTY     MS: how long nothing must come for a silence
 *
 * Build: cc -std=c99 -I c c/examples/loop.c target/staticlib/libistrolf.a -o loop */
#define _POSIX_C_SOURCE 200809L /* poll */
#include "istrolf.h"
#include <errno.h>
#include <poll.h>
#include <stdio.h>
#include <stdlib.h>
#include <unistd.h>

typedef struct {
    istrolf_port port;
    istrolf_reader reader;
    istrolf_watch watch;
    int saves;
} recorder;

/* Words of the line. */
static void heard(recorder *r, const uint16_t *words, size_t count) {
    while (count > 0) {
        int16_t out[5 * 8]; /* room for eight reports: the rest waits for the next turn of this loop */
        const istrolf_reading a = istrolf_reader_read(r->reader, words, count, out, 5 * 8);
        const istrolf_watched w = istrolf_watch_over(r->watch, out, 5 * a.reports);
        if (a.refusal) { /* a port's words and a reader's own states are never refused */
            fprintf(stderr, "loop: %s\n", istrolf_refusal_name(a.refusal));
            exit(1);
        }
        for (size_t i = 0; i < w.middle; i++) printf("save %d\n", ++r->saves);
        r->reader = a.next;
        r->watch = w.next;
        words += a.taken;
        count -= a.taken;
    }
}

/* Bytes of the tty. */
static void came(recorder *r, const uint8_t *raw, size_t count) {
    while (count > 0) {
        uint16_t words[64];
        const istrolf_port_words a = istrolf_port_bytes(r->port, raw, count, words, 64);
        r->port = a.next;
        heard(r, words, a.written);
        raw += a.taken;
        count -= a.taken;
    }
}

/* A wait in which nothing came. */
static void quiet(recorder *r, uint32_t wait) {
    const istrolf_port_word a = istrolf_port_quiet(r->port, wait);
    r->port = a.next;
    if (a.words > 0) heard(r, &a.word, 1);
}

int main(int argc, char **argv) {
    const int ms = argc == 3 ? atoi(argv[2]) : 0;
    if (ms <= 0) return fputs("usage: loop LETTER MS < TTY\n", stderr), 2;
    const istrolf_new_reader fresh = istrolf_reader_fresh((uint8_t)argv[1][0]);
    if (fresh.refusal) return fprintf(stderr, "loop: %s\n", istrolf_refusal_name(fresh.refusal)), 2;
    recorder r = {istrolf_port_fresh((uint32_t)ms), fresh.reader, istrolf_watch_fresh(), 0};
    for (;;) {
        /* Behind a byte it waits for a silence, and behind a silence for ever. What else you wait for goes into the same
         * call: where that comes first the silence is told later, which does no harm. */
        struct pollfd line = {STDIN_FILENO, POLLIN, 0};
        const uint32_t left = r.port.left;
        const int ready = poll(&line, 1, left > 0 ? (int)left : -1);
        if (ready == 0) quiet(&r, left);
        if (ready > 0 && line.revents) {
            uint8_t raw[256];
            const ssize_t count = read(STDIN_FILENO, raw, sizeof raw);
            if (count == 0 || (count < 0 && errno != EINTR && errno != EAGAIN)) break;
            if (count > 0) came(&r, raw, (size_t)count);
        }
        if (ready < 0 && errno != EINTR) break;
        if (fflush(stdout) != 0) break;
    }
    fputs("loop: the line is gone\n", stderr);
    return 1;
}
