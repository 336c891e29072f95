/* A serial port and Istrolf: record a line, watch it, or be a box on it. All that touches the system stands here; what
 * becomes of the bytes is the library's. It is for Linux.
 *
 *     serial record [-b BAUD] [-8] [-q MS] [-a] TTY LETTER     a recording on standard output, until Ctrl-C
 *     serial watch  [-b BAUD] [-8] [-q MS] [-a] TTY LETTER     reports, presses and bytes dropped as they come
 *     serial box    [-b BAUD] [-8] [-a] TTY < EVENTS           a box on the line in real time, and its own recording
 *
 * Build: cc -std=c99 -I c c/examples/serial.c target/staticlib/libistrolf.a -o serial
 * Status: 0 ended by Ctrl-C or by the end of the events; 1 the line hung up or something failed; 2 called wrongly,
 * or the port is not to be had with these settings; 3 the recording is full. docs/PORT-OTHER.md tells the rest. */
#ifndef _GNU_SOURCE
#define _GNU_SOURCE /* ppoll */
#endif
#include "istrolf.h"
#include <errno.h>
#include <fcntl.h>
#include <linux/serial.h>
#include <poll.h>
#include <signal.h>
#include <stdio.h>
#include <stdlib.h>
#include <string.h>
#include <sys/file.h>
#include <sys/ioctl.h>
#include <sys/stat.h>
#include <sys/sysmacros.h>
#include <termios.h>
#include <time.h>
#include <unistd.h>

enum { WELL = 0, FAILED = 1, MISUSED = 2, FULL = 3 };

static const char usage[] =
    "usage: serial record [-b BAUD] [-8] [-q MS] [-a] TTY LETTER     a recording on standard output, until Ctrl-C\n"
    "       serial watch  [-b BAUD] [-8] [-q MS] [-a] TTY LETTER     reports, presses and bytes dropped as they come\n"
    "       serial box    [-b BAUD] [-8] [-a] TTY < EVENTS           a box on the line, and its own recording\n"
    "LETTER  the format: S, V, A, B, U, T or W; that of EVENTS stands in its first line\n"
    "-b      300, 1200, 2400, 4800 or 9600; without it 4800 in S, and else 1200\n"
    "-8      in V: eight data bits, for a port that cannot do seven\n"
    "-q      how long nothing must come for a silence, in milliseconds; 0: none is ever told\n"
    "-a      leave the settings of the port as they are\n"
    "An example, for a ball box in its five byte format on the second port:\n"
    "        serial record /dev/ttyS1 U > monday\n";

static volatile sig_atomic_t stopped;

static void stop(int number) {
    (void)number;
    stopped = 1;
}

static const char *tty = "";

/* Says what is wrong with the port, with the system's reason if there is one, and gives the status back. */
static int wrong(int status, const char *what, int error) {
    fprintf(stderr, "serial: %s: %s%s%s\n", tty, what, error ? ": " : "", error ? strerror(error) : "");
    return status;
}

static int misused(const char *what, const char *about) {
    fprintf(stderr, "serial: %s%s%s%s\n%s", what, *about ? " '" : "", about, *about ? "'" : "", usage);
    return MISUSED;
}

static int not_so(const char *what, const char *about) { return misused(what, about), 0; }

/* A number as a recording has it: no plus, no leading zero, no minus zero, nothing behind it. */
static int is_number(const char *text, long least, long most, long *number) {
    char again[24];
    char *end;
    errno = 0;
    *number = strtol(text, &end, 10);
    if (errno || *end || *number < least || *number > most) return 0;
    snprintf(again, sizeof again, "%ld", *number);
    return strcmp(text, again) == 0;
}

/* ---- The line. */

typedef struct {
    char letter;
    long baud;
    int bits;   /* data bits */
    int odd;    /* 1: a bit of odd parity behind them */
    int clears; /* 1: V on eight data bits */
    int as_is;  /* 1: the settings are left as they are */
    int is_box; /* 1: this end sends two stop bits; a recorder takes one stop bit, and so two as well */
    long quiet; /* a silence in milliseconds, or -1 */
} line;

static speed_t speed(long baud) {
    switch (baud) {
    case 300: return B300;
    case 1200: return B1200;
    case 2400: return B2400;
    case 4800: return B4800;
    case 9600: return B9600;
    default: return B0;
    }
}

/* What the format says of the line, where no option has said it. */
static void settle(line *l) {
    if (l->baud == 0) l->baud = l->letter == 'S' ? 4800 : 1200;
    l->bits = l->letter == 'V' && !l->clears ? 7 : 8;
    l->odd = l->letter == 'S';
}

/* A character's time in microseconds, the longest: start bit, data, parity, two stop bits. */
static uint32_t character(const line *l) {
    const long bits = 1 + l->bits + l->odd + 2;
    return (uint32_t)((bits * 1000000 + l->baud - 1) / l->baud);
}

static struct termios wanted(const line *l, struct termios t) {
    cfmakeraw(&t); /* no echo: a box takes its own bytes for commands */
    t.c_iflag &=
        ~(tcflag_t)(IGNBRK | BRKINT | IGNPAR | PARMRK | INPCK | ISTRIP | IUCLC | IXON | IXOFF | IXANY | IMAXBEL);
    /* INPCK in every format: without it a byte with a wrong stop bit comes as a sound one. A box looks at no parity. */
    t.c_iflag |= l->is_box ? IGNBRK : PARMRK | INPCK;
    t.c_cflag &= ~(tcflag_t)(CSIZE | PARENB | PARODD | CSTOPB | CRTSCTS | HUPCL);
    t.c_cflag |= (tcflag_t)(CREAD | CLOCAL | (l->bits == 7 ? CS7 : CS8));
    if (l->odd) t.c_cflag |= PARENB | PARODD;
    if (l->is_box) t.c_cflag |= CSTOPB;
    t.c_cc[VMIN] = 1;
    t.c_cc[VTIME] = 0;
    return t;
}

/* A pseudo terminal: its major numbers are 136 to 143. */
static int is_pseudo(int fd) {
    struct stat s;
    return fstat(fd, &s) == 0 && major(s.st_rdev) >= 136 && major(s.st_rdev) <= 143;
}

/* What the port has kept of its own, though tcsetattr went well: that says only that something was set. */
static int compared(int fd, const struct termios *t, const struct termios *got) {
    const tcflag_t shape = CSIZE | PARENB, rest = PARODD | CSTOPB | CRTSCTS | HUPCL | CREAD | CLOCAL;
    if (got->c_iflag != t->c_iflag || got->c_lflag != t->c_lflag || got->c_oflag != t->c_oflag)
        return wrong(0, "it would not be set to marks without echo", 0);
    if (cfgetispeed(got) != cfgetispeed(t) || cfgetospeed(got) != cfgetospeed(t))
        return wrong(0, "it would not take this baud", 0);
    if ((got->c_cflag ^ t->c_cflag) & rest) return wrong(0, "it keeps other stop bits or lines than asked", 0);
    if (((got->c_cflag ^ t->c_cflag) & shape) == 0) return 1;
    if (is_pseudo(fd)) return wrong(1, "a pseudo terminal has eight data bits and no parity, whatever is asked", 0);
    return wrong(0, "it keeps other data bits or another parity than asked (for V see -8)", 0);
}

static int is_set(int fd, const line *l) {
    struct termios now, got;
    if (tcgetattr(fd, &now) < 0) return wrong(0, "its settings cannot be read", errno);
    struct termios t = wanted(l, now);
    if (cfsetspeed(&t, speed(l->baud)) < 0) return wrong(0, "it has no such baud", errno);
    /* EINVAL only says that nothing more could be set: what it has now is read back in any case */
    if (tcsetattr(fd, TCSANOW, &t) < 0 && errno != EINVAL) return wrong(0, "it cannot be set", errno);
    if (tcgetattr(fd, &got) < 0) return wrong(0, "its settings cannot be read back", errno);
    if (!compared(fd, &t, &got)) return 0;
    if (tcflush(fd, TCIOFLUSH) < 0) return wrong(0, "it cannot be emptied", errno);
    return 1;
}

/* The timer of an FTDI falls from 16 ms to 1; others do not mind. Where there is no such setting nothing is lost. */
static void hurry(int fd) {
    struct serial_struct s;
    if (ioctl(fd, TIOCGSERIAL, &s) < 0) return;
    s.flags |= (int)ASYNC_LOW_LATENCY;
    if (ioctl(fd, TIOCSSERIAL, &s) < 0)
        wrong(0, "it would not be set to low latency; that is slower and no worse", errno);
}

/* The port, open, ours alone and set; -1 where it is not, and what is wrong was said. */
static int opened(const line *l) {
    int fd = open(tty, O_RDWR | O_NOCTTY | O_NONBLOCK | O_CLOEXEC);
    if (fd < 0) return wrong(-1, "it cannot be opened", errno);
    if (!isatty(fd)) return wrong(-1, "it is no tty", 0);
    if (flock(fd, LOCK_EX | LOCK_NB) < 0) return wrong(-1, "somebody else uses it", errno == EWOULDBLOCK ? 0 : errno);
    if (ioctl(fd, TIOCEXCL) < 0) return wrong(-1, "it cannot be had alone", errno);
    if (!l->as_is && !is_set(fd, l)) return -1;
    if (!l->as_is) hurry(fd);
    return fd;
}

/* ---- Silences. */

/* The number in a file of the system's, or 0. */
static long number_in(const char *path) {
    char text[16];
    long number = 0;
    FILE *f = fopen(path, "re");
    if (f == NULL) return 0;
    if (fgets(text, sizeof text, f) != NULL) {
        text[strcspn(text, "\n")] = 0;
        if (!is_number(text, 1, 255, &number)) number = 0;
    }
    fclose(f);
    return number;
}

/* How many characters the receiver may hold back: one where that may be set, else what it says, else the most. */
static uint32_t held_back(void) {
    char path[300];
    char *name = realpath(tty, NULL); /* a name that udev made leads to the port's own */
    const char *slash = name == NULL ? NULL : strrchr(name, '/');
    snprintf(path, sizeof path, "/sys/class/tty/%.200s/rx_trig_bytes", slash == NULL ? tty : slash + 1);
    free(name);
    FILE *f = fopen(path, "we");
    if (f != NULL) {
        fputs("1\n", f);
        fclose(f); /* what came of it is read back */
    }
    const long trigger = number_in(path);
    return trigger > 0 ? (uint32_t)trigger : 14;
}

/* A silence in microseconds: longer than a receiver holds bytes back, and 50 ms for an adapter and the system. */
static int silence_of(const line *l, uint32_t *silence) {
    const uint32_t time = character(l), sure = (held_back() + 2) * time + 50000;
    char text[100];
    *silence = l->quiet < 0 ? sure : (uint32_t)l->quiet * 1000;
    if (*silence > 0 && *silence < 2 * time) return wrong(0, "a silence of less than two characters is none (-q)", 0);
    if (*silence == 0 || *silence >= sure) return 1;
    snprintf(text, sizeof text, "below %u ms (-q) a silence may be told that was none", sure / 1000 + 1);
    return wrong(1, text, 0);
}

/* ---- Words from the line. */

enum { ROOM = 256, DOUBT_MS = 1 };

typedef struct {
    int fd;
    istrolf_port port;
    int counts;       /* 1: the driver counts the bytes that it loses */
    long lost;        /* how many it has lost */
    int doubt;        /* 1: bytes were lost among those that are still to be read */
    sigset_t waiting; /* the signals that are blocked while it waits: fewer */
} ear;

/* Bytes that are lost in the receiver leave no mark in what is read: they are counted beside it. */
static int is_counted(int fd, long *lost) {
    struct serial_icounter_struct c;
    if (ioctl(fd, TIOCGICOUNT, &c) < 0) return 0;
    *lost = (long)c.overrun + c.buf_overrun;
    return 1;
}

/* Nothing came in all of the time that poll was asked to wait; it has looked once more at its end. */
static int waited(ear *e, uint32_t wait, uint16_t *words) {
    const istrolf_port_word w = istrolf_port_quiet(e->port, wait);
    e->port = w.next;
    e->doubt = 0;
    if (w.words) words[0] = w.word;
    return w.words;
}

/* Bytes are missing here or in what is still to be read: a break for each lot, until nothing more is there. */
static int missed(ear *e, long lost, uint16_t *words) {
    struct pollfd p = {e->fd, POLLIN, 0};
    const istrolf_port_word w = istrolf_port_lost(e->port);
    e->port = w.next;
    e->lost = lost;
    e->doubt = poll(&p, 1, DOUBT_MS) != 0;
    words[0] = w.word;
    return w.words;
}

/* What is there to be read: how many words, or -1 where the line is gone. */
static int read_words(ear *e, uint16_t *words) {
    uint8_t raw[ROOM];
    long lost = e->lost;
    const ssize_t n = read(e->fd, raw, ROOM);
    if (n < 0 && (errno == EAGAIN || errno == EINTR)) return 0;
    if (n < 0) return wrong(-1, "it cannot be read", errno);
    if (n == 0) return wrong(-1, "the line hung up", 0);
    const istrolf_port_words w = istrolf_port_bytes(e->port, raw, (size_t)n, words, ROOM);
    e->port = w.next;
    if (e->counts && !is_counted(e->fd, &lost)) return wrong(-1, "its count of lost bytes cannot be read", errno);
    if (lost != e->lost || e->doubt) return missed(e, lost, words);
    return (int)w.written;
}

/* The next words: how many, 0 where it is to stop, or -1 where the line is gone. There is room for ROOM. */
static int heard(ear *e, uint16_t *words) {
    int count = 0;
    while (count == 0 && !stopped) {
        const uint32_t left = e->port.left;
        const struct timespec time = {(time_t)(left / 1000000), (long)(left % 1000000) * 1000};
        struct pollfd p = {e->fd, POLLIN, 0};
        const int ready = ppoll(&p, 1, left > 0 ? &time : NULL, &e->waiting);
        if (ready < 0 && errno != EINTR) return wrong(-1, "it cannot be waited for", errno);
        if (ready == 0) count = waited(e, left, words);
        if (ready > 0) count = read_words(e, words);
    }
    return count;
}

/* ---- What is done with them. */

enum { LINES = 999999, SOON = LINES - 999 };

/* All of a text, at once if the system lets it: Ctrl-C cuts no line. */
static int put(const char *text, size_t length) {
    while (length > 0) {
        const ssize_t n = write(STDOUT_FILENO, text, length);
        if (n < 0 && errno == EINTR) continue;
        if (n < 0) return wrong(0, "the recording cannot be written", errno);
        text += n;
        length -= (size_t)n;
    }
    return 1;
}

/* The line of a word in a recording, and how long it is. */
static size_t line_of(char *text, uint16_t word) {
    if (word > 255) return (size_t)sprintf(text, word == ISTROLF_SILENCE ? "Q\n" : "X\n");
    return (size_t)sprintf(text, "B\t%u\n", word);
}

/* A recording ends before it is full: at a silence among its last thousand lines, and at its last line in any case. */
static int record(ear *e, char letter) {
    uint16_t words[ROOM];
    char text[ROOM * 6 + 1];
    long lines = 1;
    int count;
    if (!put(text, (size_t)sprintf(text, "F\t%c\n", letter))) return FAILED;
    while ((count = heard(e, words)) > 0) {
        size_t length = 0;
        int is_full = 0;
        for (int i = 0; i < count && !is_full; i++) {
            length += line_of(text + length, words[i]);
            lines++;
            is_full = lines == LINES || (lines >= SOON && words[i] == ISTROLF_SILENCE);
        }
        if (!put(text, length)) return FAILED;
        if (is_full) return wrong(FULL, "the recording is full", 0);
    }
    return count < 0 ? FAILED : WELL;
}

typedef struct {
    istrolf_reader reader;
    istrolf_watch watch;
    unsigned long reports, dropped, presses[3]; /* of L, M and R */
} watcher;

static void shown(watcher *w, istrolf_report r) {
    const istrolf_changes c = istrolf_watch_heard(w->watch, r);
    const char middle = w->reader.format == 'V' ? '?' : r.buttons & ISTROLF_M ? 'M' : '-';
    w->watch = c.next;
    w->reports++;
    printf("R\t%c%c%c\t%d\t%d\n", r.buttons & ISTROLF_L ? 'L' : '-', middle, r.buttons & ISTROLF_R ? 'R' : '-',
           r.x1 + r.x2, r.y1 + r.y2);
    for (int i = 0; i < 3; i++) {
        if ((c.down & ISTROLF_L >> i) == 0) continue;
        w->presses[i]++;
        printf("P\t%c\n", "LMR"[i]);
    }
}

static int watch(ear *e, char letter) {
    watcher w = {istrolf_reader_fresh((uint8_t)letter).reader, istrolf_watch_fresh(), 0, 0, {0, 0, 0}};
    uint16_t words[ROOM];
    int count;
    while ((count = heard(e, words)) > 0) {
        for (int i = 0; i < count; i++) {
            const istrolf_read_word a = istrolf_reader_step(w.reader, words[i]);
            w.reader = a.next;
            w.dropped += a.dropped;
            if (a.reports) shown(&w, a.report);
            if (a.dropped) printf("D\t%d\n", a.dropped);
        }
        if (fflush(stdout) != 0) return wrong(FAILED, "what was seen cannot be written", errno);
    }
    printf("reports\t%lu\npresses\tL\t%lu\tM\t%lu\tR\t%lu\ndropped\t%lu\n", w.reports, w.presses[0], w.presses[1],
           w.presses[2], w.dropped);
    if (fflush(stdout) != 0) return wrong(FAILED, "what was seen cannot be written", errno);
    return count < 0 ? FAILED : WELL;
}

/* ---- A box on the line. */

typedef struct {
    int fd;
    istrolf_box box;
    uint8_t eighth;       /* bit 7 of V on eight data bits, which is the first stop bit of seven; else 0 */
    uint32_t time;        /* a character's */
    struct timespec next; /* when the next character is due */
} sender;

static void from_now(sender *s) {
    if (clock_gettime(CLOCK_MONOTONIC, &s->next) < 0) abort(); /* this clock is always there */
}

/* Sleeps until one character's time more is over. */
static void pass(sender *s) {
    s->next.tv_nsec += (long)s->time * 1000;
    s->next.tv_sec += s->next.tv_nsec / 1000000000;
    s->next.tv_nsec %= 1000000000;
    while (!stopped && clock_nanosleep(CLOCK_MONOTONIC, TIMER_ABSTIME, &s->next, NULL) == EINTR) continue;
}

static int put_byte(const sender *s, uint8_t byte) {
    struct pollfd p = {s->fd, POLLOUT, 0};
    byte |= s->eighth;
    while (write(s->fd, &byte, 1) != 1) {
        if (errno != EAGAIN && errno != EINTR) return wrong(0, "it cannot be written", errno);
        if (poll(&p, 1, -1) < 0 && errno != EINTR) return wrong(0, "it cannot be waited for", errno);
        if (stopped) return 1;
    }
    return 1;
}

/* A break: the line is held for two characters, when all before it has gone. A pseudo terminal passes over it. */
static int put_break(sender *s) {
    if (tcdrain(s->fd) < 0 && errno != EINTR) return wrong(0, "it does not send", errno);
    if (ioctl(s->fd, TIOCSBRK) < 0) return wrong(0, "it cannot send a break", errno);
    from_now(s);
    pass(s);
    pass(s);
    if (ioctl(s->fd, TIOCCBRK) < 0) return wrong(0, "it cannot end a break", errno);
    return 1;
}

/* What a step gave: the box, and its word, if any, to the recording and onto the line. */
static int is_sent(sender *s, istrolf_stepped step) {
    char text[8];
    s->box = step.next;
    if (!step.sent) return 1;
    line_of(text, step.word);
    fputs(text, stdout);
    if (step.word == ISTROLF_BREAK) return put_break(s);
    if (step.word != ISTROLF_SILENCE) return put_byte(s, (uint8_t)step.word);
    if (tcdrain(s->fd) < 0 && errno != EINTR) return wrong(0, "it does not send", errno);
    from_now(s); /* a silence is not made shorter because a byte was late */
    return 1;
}

/* The bytes of the host that have come. */
static int obeyed(sender *s) {
    uint8_t byte;
    ssize_t n;
    while ((n = read(s->fd, &byte, 1)) == 1) {
        if (!is_sent(s, istrolf_box_host(s->box, byte))) return 0;
    }
    if (n == 0) return wrong(0, "the line hung up", 0);
    return errno == EAGAIN || errno == EINTR ? 1 : wrong(0, "it cannot be read", errno);
}

/* A character's time: what the host has said, a report latched if that is wanted, a byte or a silence. */
static int slot(sender *s, int latches) {
    if (!obeyed(s)) return 0;
    if (latches) s->box = istrolf_box_latch(s->box).next;
    if (!is_sent(s, istrolf_box_send(s->box))) return 0;
    pass(s);
    return 1;
}

static int slots(sender *s, long count) {
    for (long i = 0; i < count && !stopped; i++) {
        if (!slot(s, 1)) return 0;
    }
    return 1;
}

/* A line of events, without its end: WELL; FAILED, where that was said; or MISUSED, for a line that is none. */
static int event(sender *s, char *text) {
    long x, y;
    if (strcmp(text, "P") == 0) return is_sent(s, istrolf_box_period(s->box)) ? WELL : FAILED;
    if (strcmp(text, "T") == 0) return is_sent(s, istrolf_box_latch(s->box)) ? WELL : FAILED;
    if (strcmp(text, "S") == 0) return slot(s, 0) ? WELL : FAILED;
    if (text[0] == 0 || text[1] != '\t') return MISUSED;
    char *const field = text + 2, *const tab = strchr(field, '\t');
    if (text[0] == 'M' && tab != NULL) {
        *tab = 0;
        if (!is_number(field, -32768, 32767, &x) || !is_number(tab + 1, -32768, 32767, &y)) return MISUSED;
        return is_sent(s, istrolf_box_motion(s->box, (int16_t)x, (int16_t)y)) ? WELL : FAILED;
    }
    if (text[0] == 'N' && is_number(field, 0, 7, &x)) {
        return is_sent(s, istrolf_box_buttons(s->box, (uint8_t)x)) ? WELL : FAILED;
    }
    if (text[0] == 'C' && is_number(field, 0, 255, &x)) {
        return is_sent(s, istrolf_box_host(s->box, (uint8_t)x)) ? WELL : FAILED;
    }
    if (text[0] == 'S' && is_number(field, 0, LINES, &x)) return slots(s, x) ? WELL : FAILED;
    return MISUSED;
}

/* The next line of standard input, without its end; 0 at the end of the input. A line too long becomes empty. */
static int next_line(char *text, int room) {
    if (fgets(text, room, stdin) == NULL) return 0;
    const size_t length = strlen(text);
    if (length > 0 && text[length - 1] == '\n') {
        text[length - 1] = 0;
    } else if (!feof(stdin)) {
        text[0] = 0;
    }
    return 1;
}

/* A line that is no event ends the recording as mbox ends it. */
static int no_event(long number, int status) {
    if (status == MISUSED) {
        fprintf(stderr, "serial: line %ld of standard input is no event\n", number);
        printf(number > LINES ? "E\tover\n" : "E\t%ld\n", number);
    }
    return fflush(stdout) == 0 ? status : wrong(FAILED, "what was sent cannot be written", errno);
}

static int box(int fd, const line *l) {
    const istrolf_box fresh = istrolf_box_host(istrolf_box_fresh(), (uint8_t)l->letter).next;
    sender s = {fd, fresh, (uint8_t)(l->clears ? 128 : 0), character(l), {0, 0}};
    char text[20];
    long number = 1;
    printf("F\t%c\n", l->letter);
    from_now(&s);
    while (!stopped && next_line(text, sizeof text)) {
        const int status = ++number > LINES ? MISUSED : event(&s, text);
        if (status != WELL) return no_event(number, status);
        if (fflush(stdout) != 0) return wrong(FAILED, "what was sent cannot be written", errno);
    }
    if (ferror(stdin) && !stopped) return wrong(FAILED, "the events cannot be read", errno);
    if (tcdrain(fd) < 0 && !stopped) return wrong(FAILED, "it does not send", errno);
    return WELL;
}

/* ---- How it is called. */

static int is_letter(const char *text) { return text[0] != 0 && text[1] == 0 && strchr("SVABUTW", text[0]) != NULL; }

/* The options. */
static int are_taken(int argc, char **argv, line *l) {
    int c;
    opterr = 0;
    while ((c = getopt(argc, argv, l->is_box ? "+:b:8a" : "+:b:8aq:")) != -1) {
        const char option[] = {(char)optopt, 0};
        if (c == 'b' && (!is_number(optarg, 300, 9600, &l->baud) || speed(l->baud) == B0))
            return not_so("no such baud:", optarg);
        if (c == 'q' && !is_number(optarg, 0, 60000, &l->quiet)) return not_so("no such time:", optarg);
        if (c == '8') l->clears = 1;
        if (c == 'a') l->as_is = 1;
        if (c == ':') return not_so("nothing stands behind the option", option);
        if (c == '?') return not_so("no such option:", option);
    }
    return 1;
}

/* The format: of a recorder its argument, of a box the first line of its events. */
static int is_known(int argc, char **argv, line *l) {
    static char text[20] = "";
    if (argc == 0) return not_so("no tty is named", "");
    tty = argv[0];
    if (argc < 2 && !l->is_box) return not_so("no format is named", "");
    if (argc > (l->is_box ? 1 : 2)) return not_so("this is too much:", argv[l->is_box ? 1 : 2]);
    if (l->is_box && (!next_line(text, sizeof text) || strncmp(text, "F\t", 2) != 0 || !is_letter(text + 2)))
        return not_so("the first line of the events must be the format, as F, a tab and U:", text);
    if (!l->is_box && !is_letter(argv[1])) return not_so("no such format:", argv[1]);
    l->letter = l->is_box ? text[2] : argv[1][0];
    if (l->clears && l->letter != 'V') return not_so("-8 is for V alone", "");
    settle(l);
    return 1;
}

/* Ctrl-C is seen while it waits for the line, and nowhere else; a box sees it everywhere. */
static int is_ready(int is_box, sigset_t *waiting) {
    struct sigaction a;
    sigset_t block;
    memset(&a, 0, sizeof a);
    a.sa_handler = stop;
    if (sigemptyset(&block) < 0 || sigaddset(&block, SIGINT) < 0 || sigaddset(&block, SIGTERM) < 0 ||
        sigprocmask(SIG_BLOCK, is_box ? NULL : &block, waiting) < 0 || sigaction(SIGINT, &a, NULL) < 0 ||
        sigaction(SIGTERM, &a, NULL) < 0)
        return wrong(0, "signals cannot be taken", errno);
    return 1;
}

/* The port is made when the tty was set and emptied. */
static int listened(ear *e, const line *l, int records) {
    uint32_t silence;
    if (!silence_of(l, &silence)) return MISUSED;
    e->port = l->clears ? istrolf_port_clearing(silence) : istrolf_port_fresh(silence);
    e->counts = is_counted(e->fd, &e->lost);
    if (!e->counts) wrong(0, "it does not count the bytes that it loses", 0);
    return records ? record(e, l->letter) : watch(e, l->letter);
}

/* The port is everybody's again. Where the line is gone this fails, and there is nothing to give back. */
static int released(int fd, int status) {
    (void)ioctl(fd, TIOCNXCL);
    (void)close(fd);
    return status;
}

int main(int argc, char **argv) {
    line l = {0, 0, 8, 0, 0, 0, 0, -1};
    ear e = {-1, {0, 0, 0, 0}, 0, 0, 0, {{0}}};
    const char *const what = argc > 1 ? argv[1] : "";
    if (strcmp(what, "-h") == 0) return fputs(usage, stdout) < 0 ? FAILED : WELL;
    l.is_box = strcmp(what, "box") == 0;
    if (*what == 0) return misused("it records, watches, or is a box: which?", "");
    if (!l.is_box && strcmp(what, "record") != 0 && strcmp(what, "watch") != 0) return misused("no such task:", what);
    if (!are_taken(argc - 1, argv + 1, &l) || !is_known(argc - 1 - optind, argv + 1 + optind, &l)) return MISUSED;
    if (!is_ready(l.is_box, &e.waiting)) return FAILED;
    if ((e.fd = opened(&l)) < 0) return MISUSED;
    return released(e.fd, l.is_box ? box(e.fd, &l) : listened(&e, &l, what[0] == 'r'));
}
