/* The port tried on pseudo terminals: a box at one end, a recorder at the other, and what is recorded compared with the
 * library's own answer over the box's words.
 *     ptys SERIAL SAMPLES              the program of serial.c, and the folder of samples
 *     ptys SERIAL SAMPLES PROGRAM ..   the same box, and a recorder whose standard input is the tty: the format and
 *                                      the tenths of a second of a silence come behind its own arguments
 *     ptys SERIAL SAMPLES -s RECORD    the same box, and the script record
 *     ptys wire                        two pseudo terminals wired together, until Ctrl-C: prints their names
 * A pseudo terminal doubles FF and makes no other mark: breaks and damaged bytes are put in by hand, on one that marks
 * nothing. Status: 0 where all went as it must, 1 where something did not, 3 where there are no pseudo terminals. */
#define _GNU_SOURCE /* posix_openpt, ptsname */
#include "istrolf.h"
#include <errno.h>
#include <fcntl.h>
#include <poll.h>
#include <signal.h>
#include <stdarg.h>
#include <stdio.h>
#include <stdlib.h>
#include <string.h>
#include <sys/file.h>
#include <sys/stat.h>
#include <sys/wait.h>
#include <termios.h>
#include <time.h>
#include <unistd.h>

enum { MOST_WORDS = 40000, BURSTS = 8, PATIENCE_MS = 20000 };

static char *serial;    /* the program of serial.c */
static char *samples;   /* the folder of samples */
static char **recorder; /* another recorder, or NULL */
static char *script;    /* the script record, or NULL */
static char letter;     /* the format that is tried */
static const char *trial = "";

__attribute__((format(printf, 1, 2))) static void fail(const char *what, ...) {
    va_list rest;
    va_start(rest, what);
    fprintf(stderr, "ptys: %c, %s: ", letter, trial);
    vfprintf(stderr, what, rest);
    fputc('\n', stderr);
    va_end(rest);
    exit(1);
}

static void must(int holds, const char *what) {
    if (!holds) fail("%s: %s", what, strerror(errno));
}

static void rest(long ms) {
    const struct timespec t = {ms / 1000, ms % 1000 * 1000000};
    must(nanosleep(&t, NULL) == 0, "nanosleep");
}

/* ---- Chance, always the same. */

static uint32_t seed;

static int below(int most) {
    seed ^= seed << 13, seed ^= seed >> 17, seed ^= seed << 5;
    return (int)(seed % (uint32_t)most);
}

/* ---- Words, as they are and as a recording. */

typedef struct {
    uint16_t at[MOST_WORDS];
    size_t count;
} words;

static void add(words *w, unsigned word) {
    if (w->count == MOST_WORDS) fail("too many words");
    w->at[w->count++] = (uint16_t)word;
}

typedef struct {
    char *text;
    size_t length;
} page;

/* The recording of words. */
static page recording(const words *w) {
    page p = {malloc(6 * w->count + 8), 0};
    must(p.text != NULL, "malloc");
    p.length = (size_t)sprintf(p.text, "F\t%c\n", letter);
    for (size_t i = 0; i < w->count; i++) {
        const unsigned word = w->at[i];
        if (word < 256)
            p.length += (size_t)sprintf(p.text + p.length, "B\t%u\n", word);
        else
            p.length += (size_t)sprintf(p.text + p.length, word == ISTROLF_SILENCE ? "Q\n" : "X\n");
    }
    return p;
}

/* The reports of words, five numbers each, and at last the bytes dropped. */
static size_t reports(const words *w, int16_t *out) {
    const istrolf_reading a =
        istrolf_reader_read(istrolf_reader_fresh((uint8_t)letter).reader, w->at, w->count, out, MOST_WORDS);
    if (a.refusal || a.taken != w->count) fail("the reader refused words");
    out[5 * a.reports] = (int16_t)a.dropped;
    return 5 * a.reports + 1;
}

/* ---- Pseudo terminals. */

typedef struct {
    int master, slave; /* both are held, so that nothing hangs up */
    char name[64];
} pty;

static pty opened(void) {
    pty p;
    p.master = posix_openpt(O_RDWR | O_NOCTTY | O_CLOEXEC);
    must(p.master >= 0 && grantpt(p.master) == 0 && unlockpt(p.master) == 0, "a pseudo terminal");
    snprintf(p.name, sizeof p.name, "%s", ptsname(p.master));
    p.slave = open(p.name, O_RDWR | O_NOCTTY | O_CLOEXEC);
    must(p.slave >= 0, p.name);
    return p;
}

static void closed(pty p) { must(close(p.slave) == 0 && close(p.master) == 0, "close"); }

/* Bytes as they are, without echo; marks if asked; an empty read after a tenth of a second. */
static void set(const pty *p, int marks) {
    struct termios t;
    must(tcgetattr(p->slave, &t) == 0, "tcgetattr");
    cfmakeraw(&t);
    if (marks) t.c_iflag |= PARMRK | INPCK;
    t.c_cc[VMIN] = 0;
    t.c_cc[VTIME] = 1;
    must(tcsetattr(p->slave, TCSANOW, &t) == 0, "tcsetattr");
}

/* Bytes to the far end, as it takes them. */
static void give(const pty *p, const uint8_t *bytes, size_t count) {
    while (count > 0) {
        const ssize_t n = write(p->master, bytes, count);
        must(n > 0, "write");
        bytes += n;
        count -= (size_t)n;
    }
}

/* Until the far end has read all: poll looks into the system's own buffers too. */
static void taken(const pty *p) {
    struct pollfd f = {p->slave, POLLIN, 0};
    for (long i = 0; poll(&f, 1, 0) != 0; i++) {
        if (i > 5 * PATIENCE_MS) fail("bytes are not read");
        usleep(i < 100 ? 10 : 200);
    }
}

/* ---- Programs. */

typedef struct {
    pid_t id;
    int in;          /* where it gets its standard input from, or -1 */
    FILE *out, *err; /* what it writes */
} program;

/* Starts a program with a tty, a pipe (-1) or a file as its standard input. */
static program started(char **argv, int input) {
    program p = {0, -1, tmpfile(), tmpfile()};
    int ends[2] = {input, -1};
    must(p.out != NULL && p.err != NULL, "tmpfile");
    if (input < 0) must(pipe2(ends, O_CLOEXEC) == 0, "pipe");
    p.in = ends[1];
    p.id = fork();
    must(p.id >= 0, "fork");
    if (p.id > 0) {
        if (input < 0) must(close(ends[0]) == 0, "close");
        return p;
    }
    if (dup2(ends[0], 0) < 0 || dup2(fileno(p.out), 1) < 0 || dup2(fileno(p.err), 2) < 0) _exit(126);
    signal(SIGINT, SIG_DFL);
    execv(argv[0], argv);
    _exit(127);
}

static page written(FILE *f) {
    struct stat s;
    must(fstat(fileno(f), &s) == 0, "fstat");
    page p = {malloc((size_t)s.st_size + 1), 0};
    must(p.text != NULL, "malloc");
    const ssize_t n = pread(fileno(f), p.text, (size_t)s.st_size, 0);
    must(n >= 0, "pread");
    p.length = (size_t)n;
    p.text[n] = 0;
    return p;
}

/* Until a program has written so many bytes. */
static void waited(const program *p, size_t length) {
    struct stat s;
    for (int i = 0; i < PATIENCE_MS; i++) {
        must(fstat(fileno(p->out), &s) == 0, "fstat");
        if ((size_t)s.st_size >= length) return;
        rest(1);
    }
    const page e = written(p->err);
    fail("%zu bytes were written, not %zu; %s", (size_t)s.st_size, length, e.text);
}

/* The status of a program that ends by itself, or by a signal: 128 and its number. */
static int ended(const program *p) {
    int status;
    for (int i = 0; i < PATIENCE_MS; i++) {
        const pid_t id = waitpid(p->id, &status, WNOHANG);
        must(id >= 0, "waitpid");
        if (id == p->id) return WIFSIGNALED(status) ? 128 + WTERMSIG(status) : WEXITSTATUS(status);
        rest(1);
    }
    kill(p->id, SIGKILL);
    fail("it does not end");
    return -1;
}

/* Ctrl-C, and what is then the whole of what was written. */
static void is_whole(const program *p, page expected) {
    must(kill(p->id, SIGINT) == 0, "kill");
    const int status = ended(p);
    const page got = written(p->out), said = written(p->err);
    if (status != (recorder == NULL || script != NULL ? 0 : 128 + SIGINT)) fail("status %d; %s", status, said.text);
    size_t i = 0;
    while (i < got.length && i < expected.length && got.text[i] == expected.text[i]) i++;
    if (got.length != expected.length || i < got.length) {
        fail("%zu bytes written, %zu expected, different at byte %zu: '%.12s'", got.length, expected.length, i,
             got.text + i);
    }
    free(got.text), free(said.text), free(expected.text);
    must(fclose(p->out) == 0 && fclose(p->err) == 0, "fclose");
}

/* A recorder on a pseudo terminal that marks FF and tells silences, or marks nothing and tells none. */
static program recorded(pty *p, int plain) {
    static char name[2], tenths[4];
    char *own[] = {serial, "record", "-b", "9600", p->name, name, NULL};
    char *own_script[] = {script, "-b", "9600", p->name, name, NULL};
    char *as_is[] = {serial, "record", "-aq0", p->name, name, NULL};
    char *other[32];
    size_t n = 0;
    name[0] = letter;
    if (script != NULL) return started(own_script, p->slave);
    if (plain || recorder != NULL) set(p, !plain); /* else it is as the system makes it, with echo */
    if (recorder == NULL) return started(plain ? as_is : own, p->slave);
    while (recorder[n] != NULL && n < 29) other[n] = recorder[n], n++;
    snprintf(tenths, sizeof tenths, "%d", plain ? 99 : 1);
    other[n] = name, other[n + 1] = tenths, other[n + 2] = NULL;
    return started(other, p->slave);
}

/* ---- From a box to a recorder. */

typedef struct {
    FILE *events;
    istrolf_box box;
    words own;                 /* all that the box puts on the line */
    words told;                /* what a recorder makes of it: a silence for each rest */
    uint8_t sent[BURSTS][400]; /* the bytes between two rests */
    size_t counts[BURSTS];
} play;

static void sent(play *p, int burst) {
    const istrolf_stepped s = istrolf_box_send(p->box);
    p->box = s.next;
    add(&p->own, s.word);
    if (s.word > 255) return;
    add(&p->told, s.word);
    p->sent[burst][p->counts[burst]++] = (uint8_t)s.word;
}

static void slots(play *p, int burst, int count) {
    fprintf(p->events, "S\t%d\n", count);
    for (int i = 0; i < count; i++) {
        p->box = istrolf_box_latch(p->box).next;
        sent(p, burst);
    }
}

/* A burst of moves and buttons, and a rest in which the box sends all that it remembers. */
static void burst(play *p, int number) {
    for (int i = 0; i < 8; i++) {
        if (below(3) > 0) {
            const int x = below(2) ? below(400) - 200 : below(7) - 3, y = below(2) ? below(400) - 200 : below(7) - 3;
            fprintf(p->events, "M\t%d\t%d\n", x, y);
            p->box = istrolf_box_motion(p->box, (int16_t)x, (int16_t)y).next;
        } else {
            const int buttons = below(8);
            fprintf(p->events, "N\t%d\n", buttons);
            p->box = istrolf_box_buttons(p->box, (uint8_t)buttons).next;
        }
        if (below(3) == 0) fputs("S\n", p->events), sent(p, number); /* nothing is latched by this */
        slots(p, number, below(9));
    }
    slots(p, number, 60);
    add(&p->told, ISTROLF_SILENCE);
}

static void played(play *p) {
    memset(p, 0, sizeof *p);
    p->events = tmpfile();
    must(p->events != NULL, "tmpfile");
    p->box = istrolf_box_host(istrolf_box_fresh(), (uint8_t)letter).next;
    fprintf(p->events, "F\t%c\n", letter);
    slots(p, 0, 3);
    add(&p->told, ISTROLF_SILENCE);
    for (int i = 0; i < BURSTS; i++) burst(p, i);
    must(fflush(p->events) == 0 && lseek(fileno(p->events), 0, SEEK_SET) == 0, "events");
}

/* The wire: a burst is handed on when all of it has come, and the next when the recorder has told the silence. */
static void wired(const play *p, const pty *from, const pty *to, const program *r) {
    uint8_t bytes[400];
    words so_far = {{0}, 0};
    size_t at = 0;
    for (int i = 0; i <= BURSTS; i++) {
        do add(&so_far, p->told.at[at]);
        while (p->told.at[at++] != ISTROLF_SILENCE);
        const page text = recording(&so_far);
        waited(r, text.length);
        free(text.text);
        if (i == BURSTS) return;
        for (size_t n = 0; n < p->counts[i]; n++) {
            struct pollfd f = {from->master, POLLIN, 0};
            if (poll(&f, 1, PATIENCE_MS) <= 0 || read(from->master, bytes + n, 1) != 1) fail("the box sends no more");
        }
        if (memcmp(bytes, p->sent[i], p->counts[i]) != 0) fail("the box sends other bytes, burst %d", i);
        give(to, bytes, p->counts[i]);
    }
}

static void from_box_to_recorder(void) {
    static play p;
    static int16_t own[MOST_WORDS + 5], told[MOST_WORDS + 5];
    trial = "box to recorder";
    played(&p);
    const size_t n = reports(&p.own, own);
    if (n < 6 * BURSTS || n != reports(&p.told, told) || memcmp(own, told, n * sizeof *own) != 0) {
        fail("the reports differ where silences are told once");
    }
    pty from = opened(), to = opened();
    char *argv[] = {serial, "box", "-b", "9600", from.name, NULL};
    program r = recorded(&to, 0);
    waited(&r, 4);
    program b = started(argv, fileno(p.events));
    wired(&p, &from, &to, &r);
    struct pollfd f = {to.master, POLLIN, 0};
    if (poll(&f, 1, 0) != 0) fail("the recorder sends something");
    is_whole(&r, recording(&p.told));
    const int status = ended(&b);
    const page got = written(b.out), expected = recording(&p.own);
    if (status != 0) fail("the box ended with %d", status);
    if (strcmp(got.text, expected.text) != 0) fail("the box records itself otherwise");
    closed(from), closed(to);
}

/* ---- Marks, put in by hand and cut at every place. */

/* What a tty with marks hands over for a word, and the word: x is a damaged byte, or 0 for a break. */
static size_t marked(uint8_t *raw, words *w, int word, int x) {
    add(w, (unsigned)word);
    if (word < 255) return raw[0] = (uint8_t)word, 1;
    raw[0] = 255;
    if (word == 255) return raw[1] = 255, 2;
    raw[1] = 0, raw[2] = (uint8_t)x;
    return 3;
}

/* A report or two, with every neighbourhood of marks that there is, and others by chance. */
static size_t message(uint8_t *raw, words *w) {
    static const int hard[][2] = {{255, 0}, {255, 0},  {256, 255}, {255, 0}, {256, 0}, {0, 0},
                                  {256, 0}, {256, 65}, {0, 0},     {255, 0}, {0, 0},   {256, 255}};
    size_t n = 0;
    w->count = 0;
    for (size_t i = 0; i < sizeof hard / sizeof *hard; i++) n += marked(raw + n, w, hard[i][0], hard[i][1]);
    for (int i = 0; i < 20; i++) {
        istrolf_report r = {(uint8_t)below(8), (int16_t)(letter == 'A' ? below(4096) : below(255) - 127),
                            (int16_t)below(127), 0, 0};
        uint8_t bytes[5];
        const istrolf_encoding e = istrolf_encode((uint8_t)letter, r, bytes, 5);
        if (e.refusal) fail("a report was refused");
        for (size_t k = 0; k < e.length && i < 3; k++) n += marked(raw + n, w, bytes[k], 0);
        if (below(2)) n += marked(raw + n, w, below(4) ? 256 : 255, below(256));
    }
    return n;
}

static void marks_cut(void) {
    uint8_t raw[400];
    static words one, all;
    trial = "marks cut";
    const size_t n = message(raw, &one);
    all.count = 0;
    pty p = opened();
    program r = recorded(&p, 1);
    waited(&r, 4);
    for (size_t cut = 0; cut <= n; cut++) {
        give(&p, raw, cut), taken(&p);
        give(&p, raw + cut, n - cut), taken(&p);
        for (size_t i = 0; i < one.count; i++) add(&all, one.at[i]);
    }
    for (size_t i = 0; i < n; i++) give(&p, raw + i, 1), taken(&p);
    for (size_t i = 0; i < one.count; i++) add(&all, one.at[i]);
    const page expected = recording(&all);
    waited(&r, expected.length);
    is_whole(&r, expected);
    closed(p);
}

/* ---- The watch. */

/* The line of a report, and how long it is. */
static size_t report_line(char *text, istrolf_report r) {
    const char middle = letter == 'V' ? '?' : r.buttons & 2 ? 'M' : '-';
    return (size_t)sprintf(text, "R\t%c%c%c\t%d\t%d\n", r.buttons & 4 ? 'L' : '-', middle, r.buttons & 1 ? 'R' : '-',
                           r.x1 + r.x2, r.y1 + r.y2);
}

static page watched(const words *w) {
    istrolf_reader reader = istrolf_reader_fresh((uint8_t)letter).reader;
    istrolf_watch watch = istrolf_watch_fresh();
    unsigned presses[3] = {0, 0, 0}, count = 0, dropped = 0;
    page p = {malloc(64 * w->count + 200), 0};
    must(p.text != NULL, "malloc");
    for (size_t i = 0; i < w->count; i++) {
        const istrolf_read_word a = istrolf_reader_step(reader, w->at[i]);
        reader = a.next, dropped += a.dropped, count += a.reports;
        if (a.dropped) p.length += (size_t)sprintf(p.text + p.length, "D\t%d\n", a.dropped);
        if (!a.reports) continue;
        const istrolf_changes c = istrolf_watch_heard(watch, a.report);
        watch = c.next;
        p.length += report_line(p.text + p.length, a.report);
        for (int k = 0; k < 3; k++) {
            if (c.down & 4 >> k) presses[k]++, p.length += (size_t)sprintf(p.text + p.length, "P\t%c\n", "LMR"[k]);
        }
    }
    p.length += (size_t)sprintf(p.text + p.length, "reports\t%u\npresses\tL\t%u\tM\t%u\tR\t%u\ndropped\t%u\n", count,
                                presses[0], presses[1], presses[2], dropped);
    return p;
}

/* The box's words, and behind them four bytes that begin no report. */
static void watch(void) {
    static play p;
    static words w;
    uint8_t bytes[BURSTS * 400];
    trial = "watch";
    played(&p);
    w.count = 0, add(&w, ISTROLF_SILENCE);
    for (int i = 0; i < BURSTS; i++)
        for (size_t n = 0; n < p.counts[i]; n++) add(&w, p.sent[i][n]);
    for (int i = 0; i < 4; i++) add(&w, 32);
    for (size_t i = 1; i < w.count; i++) bytes[i - 1] = (uint8_t)w.at[i];
    pty t = opened();
    char name[] = {letter, 0};
    char *argv[] = {serial, "watch", "-q", "50", t.name, name, NULL};
    program r = started(argv, t.slave);
    rest(1500); /* the first silence */
    give(&t, bytes, w.count - 1), taken(&t);
    rest(200);
    is_whole(&r, watched(&w));
    closed(t);
}

/* ---- A box and its host. */

/* A byte of the host comes when a report is latched and none of it has gone: X. A question in a rest is answered. */
static void host(void) {
    trial = "host";
    pty t = opened();
    char *argv[] = {serial, "box", "-b", "9600", t.name, NULL};
    program b = started(argv, -1);
    struct pollfd f = {t.slave, POLLIN, 0};
    words w = {{0}, 0};
    char first[] = "F\tU\nM\t5\t-3\nT\n";
    first[2] = letter;
    must(write(b.in, first, sizeof first - 1) == sizeof first - 1, "write");
    waited(&b, 4);
    give(&t, (const uint8_t *)"D", 1); /* prompt mode: no report comes by itself */
    must(poll(&f, 1, PATIENCE_MS) == 1, "poll");
    must(write(b.in, "S\t1\n", 4) == 4, "write");
    taken(&t);
    waited(&b, 8);
    give(&t, (const uint8_t *)"t", 1); /* format and mode */
    must(poll(&f, 1, PATIENCE_MS) == 1, "poll");
    must(write(b.in, "S\t3\n", 4) == 4 && close(b.in) == 0, "write");
    if (ended(&b) != 0) fail("the box did not end well");
    add(&w, ISTROLF_BREAK), add(&w, ISTROLF_SILENCE), add(&w, (uint8_t)letter), add(&w, 'D'), add(&w, ISTROLF_SILENCE);
    const page got = written(b.out), expected = recording(&w);
    if (strcmp(got.text, expected.text) != 0) fail("a box that is asked records %s", got.text);
    closed(t);
}

/* ---- The files of events among the samples: a box on a tty records itself as mbox does. */

static FILE *sample(const char *name, const char *kind) {
    char path[1000];
    snprintf(path, sizeof path, "%s/%s.%s", samples, name, kind);
    FILE *f = fopen(path, "re");
    must(f != NULL, path);
    return f;
}

static void as_sampled(const char *name) {
    FILE *events = sample(name, "events"), *stored = sample(name, "recording");
    trial = name;
    pty t = opened();
    char *argv[] = {serial, "box", "-b", "9600", t.name, NULL};
    program b = started(argv, fileno(events));
    if (ended(&b) != 0) fail("the box did not end well");
    const page got = written(b.out), expected = written(stored);
    if (strcmp(got.text, expected.text) != 0) fail("the box does not record itself as the sample is");
    must(fclose(events) == 0 && fclose(stored) == 0, "fclose");
    closed(t);
}

/* ---- A port that was set before: nothing is left to be set, which a pseudo terminal tells as an error. */

static FILE *short_events(const char *text) {
    FILE *f = tmpfile();
    must(f != NULL && fputs(text, f) >= 0 && fflush(f) == 0 && lseek(fileno(f), 0, SEEK_SET) == 0, "tmpfile");
    return f;
}

static void set_again(void) {
    char text[] = "F\tU\nS\t1\n";
    trial = "set again";
    text[2] = letter;
    pty t = opened();
    char *argv[] = {serial, "box", t.name, NULL};
    for (int i = 0; i < 2; i++) {
        program b = started(argv, fileno(short_events(text)));
        if (ended(&b) != 0) fail("%s", written(b.err).text);
    }
    closed(t);
}

/* ---- Seven bits on a port of eight. */

static void eighth_bit(void) {
    static play p;
    uint8_t bytes[BURSTS * 400];
    trial = "eighth bit";
    played(&p);
    pty from = opened(), to = opened();
    char *box[] = {serial, "box", "-8", "-b", "9600", from.name, NULL},
         *record[] = {serial, "record", "-8", "-q", "0", to.name, "V", NULL};
    program r = started(record, to.slave), b = started(box, fileno(p.events));
    words w = {{0}, 0};
    size_t n = 0;
    waited(&r, 4);
    for (int i = 0; i < BURSTS; i++)
        for (size_t k = 0; k < p.counts[i]; k++) add(&w, p.sent[i][k]);
    while (n < w.count) {
        const ssize_t k = read(from.master, bytes + n, w.count - n);
        must(k > 0, "read");
        n += (size_t)k;
    }
    for (size_t i = 0; i < n; i++)
        if (bytes[i] < 128) fail("the eighth bit is not sent");
    give(&to, bytes, n), taken(&to);
    const page expected = recording(&w);
    waited(&r, expected.length);
    is_whole(&r, expected);
    if (ended(&b) != 0) fail("the box did not end well");
    closed(from), closed(to);
}

/* ---- What ends a recording. */

static void said(const program *p, int status, const char *what) {
    const int got = ended(p);
    const page e = written(p->err);
    if (got != status || strstr(e.text, what) == NULL)
        fail("status %d and not %d, or not '%s': %s", got, status, what, e.text);
    free(e.text);
}

static void hung_up(void) {
    trial = "hung up";
    pty p = opened();
    char *argv[] = {serial, "record", p.name, "U", NULL};
    program r = started(argv, STDIN_FILENO);
    waited(&r, 4);
    program second = started(argv, STDIN_FILENO);
    said(&second, 2, "somebody else uses it");
    closed(p);
    said(&r, 1, p.name);
}

/* So many bytes, then a silence, then so many more, then silence. The recording has so many lines. */
static void full(size_t first, size_t then, size_t lines) {
    uint8_t bytes[4096];
    trial = "full";
    memset(bytes, 7, sizeof bytes);
    pty p = opened();
    char *argv[] = {serial, "record", "-q", "60", p.name, "T", NULL};
    program r = started(argv, STDIN_FILENO);
    waited(&r, 6); /* F and Q */
    for (size_t n; first > 0; first -= n) n = first < 4096 ? first : 4096, give(&p, bytes, n), taken(&p);
    rest(500);
    if (then > 0) give(&p, bytes, then);
    said(&r, 3, "full");
    const page got = written(r.out);
    size_t count = 0;
    for (size_t i = 0; i < got.length; i++) count += got.text[i] == '\n';
    if (count != lines) fail("%zu lines and not %zu", count, lines);
    free(got.text);
    closed(p);
}

/* ---- Bad calls. */

static void refused(const char *what, const char *input, char **argv) {
    trial = what;
    FILE *f = short_events(input);
    program p = started(argv, fileno(f));
    said(&p, 2, what);
    must(fclose(f) == 0, "fclose");
}

#define REFUSED(what, input, ...) refused(what, input, (char *[]){serial, __VA_ARGS__, NULL})

static void bad_calls(void) {
    pty p = opened();
    refused("which?", "", (char *[]){serial, NULL});
    REFUSED("no such task: 'list'", "", "list");
    REFUSED("no tty is named", "", "record");
    REFUSED("no format is named", "", "record", p.name);
    REFUSED("no such format: 'X'", "", "record", p.name, "X");
    REFUSED("no such format: 'UU'", "", "watch", p.name, "UU");
    REFUSED("this is too much: 'more'", "", "record", p.name, "U", "more");
    REFUSED("no such baud: '1201'", "", "record", "-b", "1201", p.name, "U");
    REFUSED("no such time: '-1'", "", "record", "-q", "-1", p.name, "U");
    REFUSED("a silence of less than two characters", "", "record", "-q", "18", p.name, "U");
    REFUSED("nothing stands behind the option 'b'", "", "record", "-b");
    REFUSED("no such option: 'x'", "", "record", "-x", p.name, "U");
    REFUSED("no such option: 'q'", "F\tU\n", "box", "-q", "5", p.name);
    REFUSED("-8 is for V alone", "", "record", "-8", p.name, "U");
    REFUSED("it is no tty", "", "record", "/dev/null", "U");
    REFUSED("it cannot be opened: No such file", "", "record", "/dev/no-such-tty", "U");
    REFUSED("the first line of the events", "", "box", p.name);
    REFUSED("the first line of the events", "F\tX\n", "box", p.name);
    REFUSED("line 2 of standard input is no event", "F\tU\nM\t5\n", "box", p.name);
    REFUSED("line 3 of standard input is no event", "F\tU\nN\t7\nN\t8\n", "box", p.name);
    REFUSED("line 2 of standard input is no event", "F\tU\nM\t05\t1\n", "box", p.name);
    REFUSED("line 2 of standard input is no event", "F\tU\nS 5\n", "box", p.name);
    REFUSED("line 2 of standard input is no event", "F\tU\nM\t-32768\t-32768                    \n", "box", p.name);
    closed(p);
}

#define SCRIPT_REFUSED(what, ...) refused(what, "", (char *[]){script, __VA_ARGS__, NULL})

static void script_calls(void) {
    pty p = opened();
    refused("no tty is named", "", (char *[]){script, NULL});
    SCRIPT_REFUSED("no format is named", p.name);
    SCRIPT_REFUSED("there is no format 'X'", p.name, "X");
    SCRIPT_REFUSED("there is no format ''", p.name, "");
    SCRIPT_REFUSED("4 names are given, and it takes 3 at most", p.name, "U", "a", "b");
    SCRIPT_REFUSED("there is no baud '1201'", "-b", "1201", p.name, "U");
    SCRIPT_REFUSED("nothing stands behind the option -b", "-b");
    SCRIPT_REFUSED("there is no option -x", "-x", p.name, "U");
    SCRIPT_REFUSED("-8 is for V alone", "-8", p.name, "U");
    SCRIPT_REFUSED("there is no tty '/dev/no-such-tty'", "/dev/no-such-tty", "U");
    SCRIPT_REFUSED("'/dev/null' is no tty", "/dev/null", "U");
    SCRIPT_REFUSED("is no tty", samples, "U");
    SCRIPT_REFUSED("is there already, and is not written over", p.name, "U", serial);
    must(flock(p.slave, LOCK_EX) == 0, "flock");
    SCRIPT_REFUSED("is used by another program", p.name, "U");
    closed(p);
}

/* ---- All of them, a format beside the other. */

static void tried(char format) {
    letter = format;
    seed = 2463534242u + (uint32_t)format;
    from_box_to_recorder();
    if (script != NULL && format == 'S') script_calls();
    if (script != NULL) exit(0);
    marks_cut();
    if (recorder != NULL) exit(0);
    watch();
    host();
    set_again();
    if (format == 'V') eighth_bit();
    if (format == 'U') hung_up();
    if (format == 'B') full(998997, 0, 999000);
    if (format == 'T') full(998996, 1, 999001);
    if (format == 'W') full(999997, 0, 999999);
    if (format == 'S') bad_calls();
    if (format == 'A')
        as_sampled("slow"), as_sampled("tap"), as_sampled("disaster"), as_sampled("break"), as_sampled("latch");
    exit(0);
}

/* ---- A wire between two, for trials by hand. */

static void passed_on(const pty *from, const pty *to) {
    uint8_t bytes[256];
    const ssize_t n = read(from->master, bytes, sizeof bytes);
    must(n > 0, "read");
    give(to, bytes, (size_t)n);
}

static void wire(void) {
    pty a = opened(), b = opened();
    set(&a, 0), set(&b, 0); /* no echo, before a program sets them */
    printf("%s\n%s\n", a.name, b.name);
    must(fflush(stdout) == 0, "standard output");
    for (;;) {
        struct pollfd f[2] = {{a.master, POLLIN, 0}, {b.master, POLLIN, 0}};
        must(poll(f, 2, -1) > 0, "poll");
        if (f[0].revents) passed_on(&a, &b);
        if (f[1].revents) passed_on(&b, &a);
    }
}

int main(int argc, char **argv) {
    if (argc == 2 && strcmp(argv[1], "wire") == 0) wire();
    int failed = 0, status;
    if (argc < 3) return fputs("usage: ptys SERIAL SAMPLES [PROGRAM .. | -s RECORD]\n       ptys wire\n", stderr), 2;
    serial = argv[1], samples = argv[2];
    recorder = argc > 3 ? argv + 3 : NULL;
    script = argc == 5 && strcmp(argv[3], "-s") == 0 ? argv[4] : NULL;
    const int master = posix_openpt(O_RDWR | O_NOCTTY);
    if (master < 0 || grantpt(master) < 0 || unlockpt(master) < 0 || ptsname(master) == NULL)
        return perror("ptys: no pseudo terminals"), 3;
    must(close(master) == 0, "close");
    for (const char *f = "SVABUTW"; *f; f++) {
        const pid_t id = fork();
        must(id >= 0, "fork");
        if (id == 0) tried(*f);
    }
    while (wait(&status) > 0) failed += status != 0;
    if (failed == 0) printf("ptys: box and recorder agree in all seven formats\n");
    return failed > 0;
}
