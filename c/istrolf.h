/* Istrolf for C99 and C++: a serial trackball and the seven formats of the old mice. Port, reader, watch, encoder,
 * box, lister, yard check, bridge, reader of listings, reader of replies, salvage, and the Digital VSXXX with its
 * reader. Link libistrolf.a.
 *
 * Calls. Every function takes every argument, ends, and has one answer; each is proved, but for the two that stand in
 * this header, which are tested: istrolf_refusal_name and istrolf_report_at. There is no set-up and no error but the
 * refusals below. Nothing is allocated and nothing is kept between calls, so calls from several threads need no lock.
 *
 * States. A reader, a box, a lister and the like are values that you own: a function ending in _fresh,
 * istrolf_port_clearing, istrolf_watch_knowing or istrolf_puck_made gives one; each other function takes one by
 * value and gives the next in its answer. Store the next one over the old one and go on. A copy is a state of its
 * own. Members may be read; leave the writing to the functions: what they give keeps the rules of its kind. Whatever
 * bytes stand in a state, a call is safe: one that breaks its rules is refused with ISTROLF_BAD_STATE and handed
 * back as it was.
 *
 * Refusals. Where an answer has a member refusal, it is the first, and is 0 or one of the numbers below. A refusal
 * hands back the old state, writes nothing to what you lent, and has counts of 0. Only the long calls do all before
 * what they refuse: istrolf_reader_read, istrolf_told_read, istrolf_puck_reader_read and istrolf_bridge_convert
 * before a bad word, istrolf_readback_read and istrolf_readback_rewrite before a line. Behind each function stand
 * its refusals in the order in which they are tested.
 *
 * Look at the refusal of each call. A call that was refused will be refused again if nothing is changed, so a loop
 * that goes on until all is taken does not end by itself. A function ending in _fresh that is given a letter of no
 * format answers BAD_LETTER, and beside it a fresh state of U, since there is no old one: it is a good one, no later
 * call refuses it, and it takes the line for one of U.
 *
 * Pointers. A pointer and the count of elements behind it stand for what you lend for the call alone: it is yours
 * before and after, and nobody keeps the pointer. It must point at that many elements, aligned as C has them. Where
 * the count is 0 any address will do, null too, which is tested and not proved. What is const is only read. What is
 * not const is written from its front and must overlap nothing else that you hand to the same call; words or bytes
 * that are only read may overlap each other. Elements behind what was written keep their values. */
#ifndef ISTROLF_H
#define ISTROLF_H
#include <stddef.h>
#include <stdint.h>
#ifdef __cplusplus
extern "C" {
#endif

/* The version. A call or a number that goes, or a struct that changes, changes the first part; what is added, the
 * second. */
#define ISTROLF_VERSION_MAJOR 1
#define ISTROLF_VERSION_MINOR 0
#define ISTROLF_VERSION_PATCH 0
#define ISTROLF_VERSION "1.0.0"
#define ISTROLF_VERSION_NUMBER 10000 /* 10000 MAJOR + 100 MINOR + PATCH */

/* Nothing is kept between calls, so an answer that is not looked at is a call that was not made: the compiler warns. */
#if defined __cplusplus && __cplusplus >= 201703L
#define ISTROLF_ANSWERS [[nodiscard]]
#elif defined __GNUC__
#define ISTROLF_ANSWERS __attribute__((__warn_unused_result__))
#else
#define ISTROLF_ANSWERS
#endif

/* Of the functions that stand in this header and not in the archive: they are tested, not proved. */
#ifdef __GNUC__
#define ISTROLF_HERE static inline __attribute__((__unused__, __warn_unused_result__))
#else
#define ISTROLF_HERE static inline
#endif

/* The version of the archive, as ISTROLF_VERSION_NUMBER is the header's. A program may compare the two: where they
 * differ, it was compiled with another header than that of the archive it was linked with. */
ISTROLF_ANSWERS uint32_t istrolf_version(void);

/* Refusals. */
typedef uint8_t istrolf_refusal;
enum {
    ISTROLF_OK = 0,
    ISTROLF_BAD_LETTER = 1,   /* a format letter that is not S, V, A, B, U, T or W */
    ISTROLF_BAD_BUTTONS = 3,  /* buttons above 7 */
    ISTROLF_BAD_WORD = 4,     /* a line word above 257 */
    ISTROLF_SHORT_BUFFER = 5, /* a buffer shorter than the report */
    ISTROLF_BAD_STATE = 6,    /* a state that breaks the rules of its kind; no function here gives one */
    ISTROLF_BAD_LISTING = 7,  /* a faulty line of a listing */
    ISTROLF_BAD_X1 = 8,       /* a movement that the format does not hold: the first of x1, y1, x2, y2 */
    ISTROLF_BAD_Y1 = 9,
    ISTROLF_BAD_X2 = 10,
    ISTROLF_BAD_Y2 = 11,
    ISTROLF_NO_REPLY = 12,      /* a command that has no reply */
    ISTROLF_MARKED = 13,        /* a salvage of a marked format */
    ISTROLF_LONG_LOG = 14,      /* a salvage of more than 4,096 words */
    ISTROLF_TOO_WIDE = 15       /* a line number that does not fit the other width */
};

/* The name of a refusal as it stands above, for a message: "ISTROLF_BAD_WORD". Of any other number "unknown". */
ISTROLF_HERE const char *istrolf_refusal_name(istrolf_refusal refusal) {
    switch (refusal) {
    case ISTROLF_OK: return "ISTROLF_OK";
    case ISTROLF_BAD_LETTER: return "ISTROLF_BAD_LETTER";
    case ISTROLF_BAD_BUTTONS: return "ISTROLF_BAD_BUTTONS";
    case ISTROLF_BAD_WORD: return "ISTROLF_BAD_WORD";
    case ISTROLF_SHORT_BUFFER: return "ISTROLF_SHORT_BUFFER";
    case ISTROLF_BAD_STATE: return "ISTROLF_BAD_STATE";
    case ISTROLF_BAD_LISTING: return "ISTROLF_BAD_LISTING";
    case ISTROLF_BAD_X1: return "ISTROLF_BAD_X1";
    case ISTROLF_BAD_Y1: return "ISTROLF_BAD_Y1";
    case ISTROLF_BAD_X2: return "ISTROLF_BAD_X2";
    case ISTROLF_BAD_Y2: return "ISTROLF_BAD_Y2";
    case ISTROLF_NO_REPLY: return "ISTROLF_NO_REPLY";
    case ISTROLF_MARKED: return "ISTROLF_MARKED";
    case ISTROLF_LONG_LOG: return "ISTROLF_LONG_LOG";
    case ISTROLF_TOO_WIDE: return "ISTROLF_TOO_WIDE";
    default: return "unknown";
    }
}

/* A line word is a byte, 0 to 255, or one of these. */
enum {
    ISTROLF_BREAK = 256,  /* a break, or a byte that arrived damaged */
    ISTROLF_SILENCE = 257 /* a silence of one character time */
};

/* Buttons are 4L+2M+R. V's reports do not carry M. */
enum { ISTROLF_R = 1, ISTROLF_M = 2, ISTROLF_L = 4 };

/* Formats are named by their letters: 'S' MM, 'V' Microsoft, 'A' Bit Pad One absolute, 'B' Bit Pad One relative, 'U'
 * five byte, 'T' three byte, 'W' hexadecimal. Movement is positive to the east and to the north. The second pair is
 * a report's second movement in U, and 0 in all others. */
typedef struct {
    uint8_t buttons;
    int16_t x1, y1, x2, y2;
} istrolf_report;

/* The report at place i, from 0, of the numbers that istrolf_reader_read or istrolf_told_read wrote: out has at
 * least 5 (i + 1). */
ISTROLF_HERE istrolf_report istrolf_report_at(const int16_t *out, size_t i) {
    istrolf_report report;
    report.buttons = (uint8_t)out[5 * i];
    report.x1 = out[5 * i + 1];
    report.y1 = out[5 * i + 2];
    report.x2 = out[5 * i + 3];
    report.y2 = out[5 * i + 4];
    return report;
}

/* The bytes that a host sends to a box. Any other does nothing; and each, obeyed or not, breaks off what is going,
 * and wakes a dormant box without being obeyed. */
enum {
    ISTROLF_SET_S = 'S', /* these set the format */
    ISTROLF_SET_V = 'V',
    ISTROLF_SET_A = 'A',
    ISTROLF_SET_B = 'B',
    ISTROLF_SET_U = 'U',
    ISTROLF_SET_T = 'T',
    ISTROLF_SET_W = 'W',
    ISTROLF_STREAM_J = 'J', /* these set a stream of reports: a movement is reported at the end of each interval */
    ISTROLF_STREAM_K = 'K',
    ISTROLF_STREAM_L = 'L',
    ISTROLF_STREAM_R = 'R',
    ISTROLF_STREAM_M = 'M',
    ISTROLF_STREAM_Q = 'Q',
    ISTROLF_STREAM_N = 'N',
    ISTROLF_STREAM_O = 'O',    /* the same without intervals: as fast as the line takes them */
    ISTROLF_PROMPT = 'D',      /* no report unless one is asked for */
    ISTROLF_ONE_REPORT = 'P',  /* prompt mode, and one report */
    ISTROLF_ASK_ACK = ' ',     /* the reply is 06H */
    ISTROLF_ASK_FORMAT = 'f',  /* the reply is one byte, which tells the format */
    ISTROLF_ASK_LETTERS = 't', /* the reply is two letters, of format and mode */
    ISTROLF_ASK_BUTTONS = 5,   /* the reply is three bytes; the first has the buttons */
    ISTROLF_SLEEP = 'd'        /* the box is dormant until the next byte, which it answers by 06H */
};

/* Those that the VSXXX obeys are ISTROLF_STREAM_R, ISTROLF_PROMPT, ISTROLF_ONE_REPORT, and this. */
enum { ISTROLF_SELF_TEST = 'T' };

/* ---- The port: what a tty hands over in, line words out. The tty marks errors (PARMRK and INPCK set; IGNPAR,
 * IGNBRK, BRKINT and ISTRIP clear) and changes, answers and takes no byte (ICANON, ISIG, IEXTEN, IXON, IXOFF, ICRNL,
 * INLCR, IGNCR and ECHO clear): the byte FF comes as FF FF, a break as FF 00 00, a damaged byte x as FF 00 x. A
 * break and a damaged byte are ISTROLF_BREAK; so is FF with any other byte behind it, which no tty sends. Reads may
 * cut a mark at any place.
 *
 * Silences. A false one inside a report of U, T or W makes reports that nobody sent; one that is left out does no
 * harm. Two rules decide everything:
 * - A silence is that poll(), or a read that was to wait, answered that nothing came. It is never the time between
 *   two reads: a program that was not run for a while has seen no silence.
 * - Its length is (t + 2) characters and 50 ms more, where t is the receiver's trigger: how many bytes the receiver
 *   holds back before it tells of them. 14 is the most that an 8250 has. Lengths and waits are in units of your own.
 *   A length of 0 means that no silence is ever told.
 *
 * A silence is told once, when the waits since the last byte make up its length, and again only behind a byte.
 *
 * Every port is a good one, and no call is refused. */

typedef struct {
    uint8_t held;     /* how much of a mark has come: 0 nothing, 1 FF, else FF 00 */
    uint8_t clears;   /* 0, or bit 7 of every byte is cleared */
    uint32_t silence; /* how long nothing must come for a silence; 0: none is ever told */
    uint32_t left;    /* how much of that is left; 0 once the silence was told */
} istrolf_port;

typedef struct {
    uint8_t words; /* how many words this tells: 0 or 1 */
    uint16_t word; /* the word, or 0 */
    istrolf_port next;
} istrolf_port_word;

typedef struct {
    istrolf_port next;
    size_t taken;   /* bytes taken */
    size_t written; /* words written */
} istrolf_port_words;

/* A port on which nothing has come, and the length of its silences. Make it when the tty was set and emptied, and a
 * new one when a format letter goes out. A port that joins a line that is already going may be told
 * istrolf_port_lost first. */
ISTROLF_ANSWERS istrolf_port istrolf_port_fresh(uint32_t silence);

/* The same for a line of V on a card that cannot do seven data bits: set the tty to eight, and the port clears bit 7 of
 * every byte, replies among them. Marks are looked for before it does: FF FF is 7F. */
ISTROLF_ANSWERS istrolf_port istrolf_port_clearing(uint32_t silence);

/* A byte as read() gave it. */
ISTROLF_ANSWERS istrolf_port_word istrolf_port_byte(istrolf_port port, uint8_t byte);

/* Bytes as read() gave them. As many places as bytes are room for all. With taken below count there was no room for the
 * next word: call again with next, raw + taken, count - taken and new room. */
ISTROLF_ANSWERS istrolf_port_words istrolf_port_bytes(istrolf_port port, const uint8_t *raw, size_t count,
    uint16_t *out, size_t room);

/* A wait in which nothing came: hand in the time that poll() was asked to wait, and only where it answered 0. Where
 * it tells a silence, what has come of a mark is dropped: a tty hands over the rest of one without such a wait. */
ISTROLF_ANSWERS istrolf_port_word istrolf_port_quiet(istrolf_port port, uint32_t wait);

/* Bytes are known to be lost, however many: a count of the driver's (TIOCGICOUNT) went up. It tells one
 * ISTROLF_BREAK, and a mark that has come in part goes on. Call it before anything that came behind the loss is
 * handed in, or throw away the words of what came about that time and call it then. */
ISTROLF_ANSWERS istrolf_port_word istrolf_port_lost(istrolf_port port);

/* ---- The reader: line words in, reports out. */

typedef struct {
    uint8_t format;   /* its letter */
    uint8_t kept[5];  /* the bytes kept of an unfinished report, the rest 0 */
    uint8_t count;    /* how many are kept */
    uint8_t awaiting; /* 1 while it waits for a silence, which only U, T and W do, and else 0 */
} istrolf_reader;

typedef struct {
    istrolf_refusal refusal;
    istrolf_reader reader;
} istrolf_new_reader;

typedef struct {
    istrolf_refusal refusal;
    uint8_t reports; /* 1 if this word ended a report, and else 0 */
    uint8_t dropped; /* how many bytes were dropped */
    istrolf_reader next;
    istrolf_report report; /* the report, or zeros */
} istrolf_read_word;

typedef struct {
    istrolf_refusal refusal;
    istrolf_reader next;
    size_t taken;   /* words taken */
    size_t reports; /* reports written */
    size_t dropped; /* bytes dropped */
} istrolf_reading;

/* A fresh reader of a format. In S, V, A and B it takes the first report that begins. In U, T and W, where data can
 * look like a first byte, it drops each byte up to the first ISTROLF_SILENCE, and so it does behind a byte that fits
 * no place and behind an ISTROLF_BREAK: a port that tells no silences gets no report. A reply of the box is read
 * like any bytes: in T, V, A and B it can look like a report, and in T an ACK, which a waking box sends too, begins
 * one with L and M down. A host that asks for replies, or wakes a box, uses istrolf_told_read. Refusal: BAD_LETTER,
 * and then the reader is a fresh one of U; look at the refusal. */
ISTROLF_ANSWERS istrolf_new_reader istrolf_reader_fresh(uint8_t letter);

/* One word. Refusals: BAD_STATE, BAD_WORD. */
ISTROLF_ANSWERS istrolf_read_word istrolf_reader_step(istrolf_reader reader, uint16_t word);

/* Many words. A report is five numbers of out: buttons, x1, y1, x2, y2; room counts numbers, not reports. Refusals:
 * BAD_STATE; BAD_WORD, with next, taken, reports, dropped and out as they stand before the bad word. With 0 and
 * taken below count, fewer than five numbers of out were left for the next report: call again with next, words +
 * taken, count - taken and new room. */
ISTROLF_ANSWERS istrolf_reading istrolf_reader_read(istrolf_reader reader, const uint16_t *words, size_t count,
    int16_t *out, size_t room);

/* ---- The watch: reports in, presses out. A press is a button that is down in a report and was up in the one before
 * it.
 *
 * One watch goes with one reader: hand it every report that this reader gives, in order, and no others. Bytes that
 * the reader dropped, breaks and silences change nothing: a report is laid beside the last one that was seen. Where
 * the report of a release was lost, two presses are one. V's reports do not carry M.
 *
 * The first report of a fresh watch teaches it which buttons are down, and tells nothing: a button that is held when
 * the recorder is switched on is no press. So a fresh watch misses at most one press of each button, and tells none
 * too many where its reader hands out none that was not sent: in S, V, A and B whatever is lost, in U, T and W where
 * each loss leaves an ISTROLF_BREAK. To begin with buttons that are known, send 'D', then 5, and when the reply has
 * come the stream mode again: in prompt mode the box remembers nothing, so no report behind the reply shows an older
 * state. D breaks off a report that is going and drops presses that were remembered and not yet shown; and what is
 * pressed and let go before the mode is set is not seen. Do not ask while the box streams: where a button moves
 * shortly before the 5, a report behind the reply still shows the state before, and the watch may tell a press that
 * was made long ago. Begin a new watch where the format is changed: V's reports show M up, so M held would look like
 * a press behind them.
 *
 * Every watch is a good one, and no call is refused. */

typedef struct {
    uint8_t known; /* 0 while no buttons were seen or told, and else 1 */
    uint8_t last;  /* those that were seen last; bits above the lowest three are not looked at */
} istrolf_watch;

typedef struct {
    istrolf_watch next;
    uint8_t down; /* the buttons that went down, 4L+2M+R */
    uint8_t up;   /* the buttons that went up */
} istrolf_changes;

typedef struct {
    istrolf_watch next;
    size_t left, middle, right; /* how often each went down */
} istrolf_watched;

/* A watch that has seen nothing. */
ISTROLF_ANSWERS istrolf_watch istrolf_watch_fresh(void);

/* A watch that was told the buttons. */
ISTROLF_ANSWERS istrolf_watch istrolf_watch_knowing(uint8_t buttons);

/* A report. */
ISTROLF_ANSWERS istrolf_changes istrolf_watch_heard(istrolf_watch watch, istrolf_report report);

/* The numbers that istrolf_reader_read or istrolf_told_read wrote, five a report: count is five times its reports. What
 * is left behind the last whole five is not looked at. Of buttons the lowest three bits count; below 0 none is down. */
ISTROLF_ANSWERS istrolf_watched istrolf_watch_over(istrolf_watch watch, const int16_t *numbers, size_t count);

/* ---- The encoder: a report in, bytes out. */

typedef struct {
    istrolf_refusal refusal;
    size_t length; /* bytes written to the front of buffer: 3 in S, V and T, else 5 */
} istrolf_encoding;

/* The bytes of a report. Refusals: BAD_LETTER, BAD_BUTTONS, one of BAD_X1, BAD_Y1, BAD_X2 and BAD_Y2, SHORT_BUFFER.
 * The format holds movements of -127 to 127 in S; -128 to 127 in U, T, W and in V, but V's y is -127 to 128; 0 to
 * 4095 in A; -2048 to 2047 in B. */
ISTROLF_ANSWERS istrolf_encoding istrolf_encode(uint8_t letter, istrolf_report report, uint8_t *buffer, size_t room);

/* ---- The box: motion, buttons and bytes of the host in, line words out. */

typedef struct {
    int16_t x, y;
} istrolf_pair;

typedef struct {
    int64_t x, y;
} istrolf_sum;

typedef struct {
    struct {
        uint8_t format;  /* its letter */
        uint8_t mode;    /* its letter: J K L R M Q N O stream, D prompt */
        uint8_t buttons; /* the buttons now */
    } settings;
    struct {
        istrolf_pair counter;  /* moved since the last latch or format command */
        istrolf_pair position; /* 0 to 4095 */
        istrolf_pair last;     /* the position at that moment */
    } track;
    struct {
        uint8_t length;   /* bytes of the report or reply that is going, 0 if none is */
        uint8_t sent;     /* how many of them are sent */
        uint8_t bytes[5]; /* they, and then zeros */
    } going;
    struct {
        uint8_t states[8]; /* button states that no report has shown to its last byte, oldest first, and then zeros */
        uint8_t count;     /* how many they are */
        uint8_t showing;   /* 1 if the report that is going shows the first, and else 0 */
    } memory;
    struct {
        istrolf_sum limit;   /* movement thrown away because a report does not hold it */
        istrolf_sum counter; /* movement thrown away because the counter's 16 bits do not hold it */
    } sums;
    uint8_t due;     /* 1 if a report is due, and else 0 */
    uint8_t dormant; /* 1 if the box is dormant, and else 0 */
} istrolf_box;

typedef struct {
    istrolf_refusal refusal;
    uint8_t sent;  /* how many words the box sends: 0 or 1 */
    uint16_t word; /* the word, or 0 */
    istrolf_box next;
} istrolf_stepped;

/* A fresh box: format U, mode O, awake, nothing pressed, moved, going, remembered, thrown away or due. */
ISTROLF_ANSWERS istrolf_box istrolf_box_fresh(void);

/* One event each. Refusals: BAD_STATE; BAD_BUTTONS, by istrolf_box_buttons alone. Only istrolf_box_send and
 * istrolf_box_host send a word. */
ISTROLF_ANSWERS istrolf_stepped istrolf_box_motion(istrolf_box box, int16_t dx, int16_t dy); /* the ball moved */
ISTROLF_ANSWERS istrolf_stepped istrolf_box_buttons(istrolf_box box, uint8_t buttons); /* the buttons are now so */
/* The host sent a byte. The word is a break where it broke off bytes. */
ISTROLF_ANSWERS istrolf_stepped istrolf_box_host(istrolf_box box, uint8_t byte);
/* A report is latched, if one is wanted and nothing is going. */
ISTROLF_ANSWERS istrolf_stepped istrolf_box_latch(istrolf_box box);
/* The next byte is sent, or a silence when nothing is going. */
ISTROLF_ANSWERS istrolf_stepped istrolf_box_send(istrolf_box box);
ISTROLF_ANSWERS istrolf_stepped istrolf_box_period(istrolf_box box); /* the report interval is over */

/* ---- The lister: a recording in, its listing out, both as text and in pieces of any size. */

typedef struct {
    uint32_t line;   /* lines passed */
    uint8_t ended;   /* 1 once the listing has ended, and else 0 */
    uint8_t held[5]; /* the bytes of the unfinished line */
    size_t count;    /* how many they are */
    istrolf_reader reader;
} istrolf_lister;

typedef struct {
    istrolf_refusal refusal;
    uint8_t ended;  /* as in next: nothing need be read after the end */
    size_t taken;   /* bytes taken */
    size_t written; /* bytes written to the front of out */
    istrolf_lister next;
} istrolf_listed;

/* Room in which a call takes a byte or finishes; so many for each byte, and it takes them all. */
enum { ISTROLF_LISTER_ROOM = 40 };

/* A lister before the first byte. */
ISTROLF_ANSWERS istrolf_lister istrolf_lister_fresh(void);

/* A piece of the recording. Refusal: BAD_STATE. With taken below count there was no room for the text of the next
 * byte: call again with next, the rest of the piece and new room. */
ISTROLF_ANSWERS istrolf_listed istrolf_lister_feed(istrolf_lister lister, const uint8_t *input, size_t count,
    uint8_t *out, size_t room);

/* The end of the recording. Refusal: BAD_STATE. If it has not ended then, there was no room for its text: call again
 * with new room. */
ISTROLF_ANSWERS istrolf_listed istrolf_lister_finish(istrolf_lister lister, uint8_t *out, size_t room);

/* ---- The yard check: can a box, set to a format and then asked only for reports, send the words of a log from
 * there on? */

typedef struct {
    uint8_t format; /* its letter */
    uint8_t first;  /* of the report that is going, the first byte, or 0 */
    uint8_t last;   /* the last byte, or 0 */
    uint8_t count;  /* how many have gone */
    uint8_t ended;  /* 1 once a word has come that cannot be sent, and else 0 */
} istrolf_yard;

typedef struct {
    istrolf_refusal refusal;
    istrolf_yard yard;
} istrolf_new_yard;

typedef struct {
    istrolf_refusal refusal;
    uint8_t can; /* 1 if the word can be sent, with those before it, and else 0 */
    istrolf_yard next;
} istrolf_judged;

typedef struct {
    istrolf_refusal refusal;
    uint8_t proper;  /* 1 if all words can be sent, and else 0 */
    size_t sendable; /* how many words, from the first, can be sent: the place of the first that cannot */
} istrolf_checked;

/* A check of a format that has seen no word. Refusal: BAD_LETTER, and then it is one of U; look at the refusal. */
ISTROLF_ANSWERS istrolf_new_yard istrolf_yard_fresh(uint8_t letter);

/* One word, for a log that comes in pieces. Behind a word that cannot be sent none can. Refusals: BAD_STATE,
 * BAD_WORD. */
ISTROLF_ANSWERS istrolf_judged istrolf_yard_step(istrolf_yard yard, uint16_t word);

/* A whole log. Refusals: BAD_LETTER; BAD_WORD, for a word above 257 anywhere, behind one that cannot be sent too. A
 * refusal tells nothing of the words. */
ISTROLF_ANSWERS istrolf_checked istrolf_yard_check(uint8_t letter, const uint16_t *words, size_t count);

/* ---- The bridge: line words of any format in, bytes of V out, for a recorder that knows only V. */

typedef struct {
    istrolf_reader reader;
    uint8_t based;    /* 1 once a report of A has set the base, and else 0 */
    uint8_t middle;   /* 1 if the middle button was down in the last report, and else 0 */
    uint16_t presses; /* how often it was pressed, up to 65535; V does not carry them */
    int16_t x, y;     /* the base: the position of the last report of A, or zeros */
} istrolf_bridge;

typedef struct {
    istrolf_refusal refusal;
    istrolf_bridge bridge;
} istrolf_new_bridge;

typedef struct {
    istrolf_refusal refusal;
    istrolf_bridge next;
    size_t taken;   /* words taken */
    size_t reports; /* reports that came in */
    size_t sent;    /* V reports written to the front of out, three bytes each */
    size_t dropped; /* bytes dropped */
} istrolf_converted;

/* Room for all V reports that one report becomes; so many for each word, and a call takes them all. */
enum { ISTROLF_BRIDGE_ROOM = 99 };

/* A fresh bridge of the format that comes in, with a fresh reader. Refusal: BAD_LETTER, and then the bridge is a fresh
 * one of U; look at the refusal. */
ISTROLF_ANSWERS istrolf_new_bridge istrolf_bridge_fresh(uint8_t letter);

/* Many words. Each report becomes the fewest V reports of at most 127 on either axis that add up to its movement,
 * U's pairs summed, with its L and R. In A the first report moves nothing and a later one by the difference.
 * Refusals: BAD_STATE; BAD_WORD, with next, the counts and out as they stand before the bad word. With 0 and taken
 * below count, out had no room for all V reports of the next report, and none of them is written: call again with
 * next, words + taken, count - taken and new room. */
ISTROLF_ANSWERS istrolf_converted istrolf_bridge_convert(istrolf_bridge bridge, const uint16_t *words, size_t count,
    uint8_t *out, size_t room);

/* ---- The reader of listings: a listing in, its items out, in pieces of any size. */

typedef struct {
    uint8_t width;   /* of its line numbers; 0 before the first line */
    uint8_t ended;   /* 1 once its last line, an H or an E, has come, and else 0 */
    uint8_t salvage; /* 1 once the first line said that it is a salvage's listing, S, and else 0 */
    uint32_t last;   /* the last line number */
    uint32_t lines;  /* lines passed */
} istrolf_readback;

typedef struct {
    istrolf_refusal refusal;
    uint32_t line; /* with BAD_LISTING the faulty line, counted from 1, or the one that is missing; and else 0 */
    size_t taken;  /* bytes taken, of whole lines */
    size_t items;  /* items written to the front of out, five numbers each */
    istrolf_readback next;
} istrolf_read_lines;

/* An item's five numbers: its kind, its line and three values. R: buttons, with 8 where the middle is not known, x
 * and y. D: bytes dropped. H: bytes kept, and no line. E: none. E over: none, and no line. */
typedef int32_t istrolf_item_kind;
enum { ISTROLF_ITEM_R = 1, ISTROLF_ITEM_D = 2, ISTROLF_ITEM_H = 3, ISTROLF_ITEM_E = 4, ISTROLF_ITEM_OVER = 5 };

/* A reader of listings before the first line. */
ISTROLF_ANSWERS istrolf_readback istrolf_readback_fresh(void);

/* A piece of a listing. Refusals: BAD_STATE; BAD_LISTING, before a faulty line, with all as it stands before it. It
 * takes whole lines: hand what was not taken over again, with what follows it; and where fewer than five places are
 * left, with new room. */
ISTROLF_ANSWERS istrolf_read_lines istrolf_readback_read(istrolf_readback reader, const uint8_t *input, size_t count,
    int32_t *out, size_t room);

/* The end of a listing, of which so many bytes are left that were not taken. Refusals: BAD_STATE; BAD_LISTING where
 * bytes are left or no H or E has come. */
ISTROLF_ANSWERS istrolf_read_lines istrolf_readback_finish(istrolf_readback reader, size_t left);

/* What a piece that is rewritten gives back. */
typedef struct {
    istrolf_refusal refusal;
    uint32_t line;  /* the line that was not rewritten, counted from 1, or 0 */
    size_t taken;   /* bytes taken, of whole lines */
    size_t written; /* bytes written to the front of out */
    istrolf_readback next;
} istrolf_rewritten;

/* A piece of a listing, rewritten with line numbers of the other width, 4 or 6, and the same first letter. Refusals:
 * BAD_STATE; BAD_LISTING, before a faulty line; TOO_WIDE, before a line whose number does not fit; whichever of the
 * two comes first, with all as it stands before it. It takes whole lines, and stops before one that has no room in
 * out: hand what was not taken over again, with what follows it and new room. At the end call
 * istrolf_readback_finish, as after reading. */
ISTROLF_ANSWERS istrolf_rewritten istrolf_readback_rewrite(istrolf_readback reader, const uint8_t *input,
    size_t count, uint8_t *out, size_t room);

/* ---- The reader that is told of replies: it reads the reply to a command just sent, and hands over to the report
 * reader. */

/* The bytes of a reply that have come: how many, and 0 in the places behind them. */
typedef struct {
    uint8_t count; /* at most 2 */
    uint8_t first, second;
} istrolf_came;

/* The reply that is awaited. */
enum {
    ISTROLF_AWAITS_NOTHING = 0,
    ISTROLF_AWAITS_ACK = 1,     /* of a space, or of a byte that woke a dormant box: 06H */
    ISTROLF_AWAITS_CODE = 2,    /* of 'f': one byte */
    ISTROLF_AWAITS_LETTERS = 3, /* of 't': two letters */
    ISTROLF_AWAITS_BUTTONS = 4  /* of 05H: three bytes */
};

typedef struct {
    istrolf_reader reader; /* the report reader; it stays as it is while a reply is read */
    uint8_t awaited;       /* one of the above */
    istrolf_came came;     /* what has come of it */
} istrolf_told;

/* What became of a reply. */
enum {
    ISTROLF_REPLY_NONE = 0,    /* nothing yet */
    ISTROLF_REPLY_ACK = 1,     /* it is whole: ACK */
    ISTROLF_REPLY_FORMAT = 2,  /* it is whole: format */
    ISTROLF_REPLY_LETTERS = 3, /* it is whole: format and mode */
    ISTROLF_REPLY_BUTTONS = 4, /* it is whole: buttons */
    ISTROLF_REPLY_BROKEN = 5   /* a word that is none of its bytes came first, and went to the report reader; came has
                                * those before it */
};

typedef struct {
    uint8_t kind;                  /* one of the above */
    uint8_t format, mode, buttons; /* what it tells, and else 0 */
    istrolf_came came;             /* of a broken one, and else zeros */
} istrolf_reply;

typedef struct {
    istrolf_refusal refusal;
    istrolf_told told;
} istrolf_new_told;

typedef struct {
    istrolf_refusal refusal;
    uint8_t discarded; /* how many bytes of an unfinished reply were discarded */
    istrolf_told next;
} istrolf_told_command_answer;

typedef struct {
    istrolf_refusal refusal;
    uint8_t reports; /* 1 if this word ended a report, and else 0 */
    uint8_t dropped; /* how many bytes were dropped */
    istrolf_reply reply;
    istrolf_told next;
    istrolf_report report; /* the report, or zeros */
} istrolf_heard_word;

typedef struct {
    istrolf_refusal refusal;
    istrolf_reply reply; /* there is at most one in a call */
    istrolf_told next;
    size_t taken;   /* words taken */
    size_t reports; /* reports written */
    size_t dropped; /* bytes dropped; those of replies are not among them */
} istrolf_heard_words;

/* A fresh one of a format, which awaits no reply, with a fresh reader. Refusal: BAD_LETTER, and then it is a fresh one
 * of U; look at the refusal. */
ISTROLF_ANSWERS istrolf_new_told istrolf_told_fresh(uint8_t letter);

/* This command was sent: ' ', 'f', 't' or 5. Call it when the command has left the wire (behind tcdrain, and not
 * behind write), behind the break that it may cause, and before the next word; hand over first what came before.
 * Until it has left, the box goes on with its report, and a byte of that report can look like a reply; of 5 any byte
 * does. Where the break, or a byte that was still on its way, comes only behind the call, the reply is
 * ISTROLF_REPLY_BROKEN with a came.count of 0: nothing of it has come yet. Call again then, for the same command,
 * and do not send it again. It takes the place of an unfinished reply. Refusals: BAD_STATE, NO_REPLY. */
ISTROLF_ANSWERS istrolf_told_command_answer istrolf_told_command(istrolf_told told, uint8_t byte);

/* The byte that was sent, any, woke a dormant box. Call it when that byte has left the wire, and again as above.
 * Refusal: BAD_STATE. */
ISTROLF_ANSWERS istrolf_told_command_answer istrolf_told_waking(istrolf_told told);

/* One word. Refusals: BAD_STATE, BAD_WORD. */
ISTROLF_ANSWERS istrolf_heard_word istrolf_told_step(istrolf_told told, uint16_t word);

/* Many words, as istrolf_reader_read has them, between two commands. It stops before a word that would end a report
 * without room, the reply still awaited. Refusals: BAD_STATE; BAD_WORD, with all as it stands before the bad word. */
ISTROLF_ANSWERS istrolf_heard_words istrolf_told_read(istrolf_told told, const uint16_t *words, size_t count,
    int16_t *out, size_t room);

/* ---- Salvage: a log in U, T or W whose line dropped bytes and had no silence. It picks separate runs of
 * neighbouring bytes, each a valid report, so that the fewest bytes are left out; among equals those whose list of
 * starting places is smallest, compared place by place. */

typedef struct {
    istrolf_refusal refusal;
    size_t taken; /* words taken */
    size_t runs;  /* places written to the front of places */
    size_t left;  /* bytes of the words taken that are in no run */
} istrolf_picked;

typedef struct {
    uint8_t whole;  /* 1 if every line had room, and else 0 */
    size_t written; /* bytes written to the front of out */
} istrolf_salvaged;

/* The most words of a log, and room in which every listing is whole. */
enum { ISTROLF_SALVAGE_WORDS = 4096, ISTROLF_SALVAGE_ROOM = 163920 };

/* The starting places of the runs, the first word being at 0. A third as many places as words have room for all.
 * Refusals: BAD_LETTER, MARKED, LONG_LOG, BAD_WORD. With 0 and taken below count there was no place for the next
 * run: call again with words + taken, count - taken and new room; the places are then counted from there. */
ISTROLF_ANSWERS istrolf_picked istrolf_salvage_pick(uint8_t letter, const uint16_t *words, size_t count,
    uint16_t *places, size_t room);

/* The salvage of a recording, as text: a line S; R for each report and D for each longest run of bytes left out, at
 * the line of its last byte; H 0. A marked format, a log too long or a bad line is an E that stands alone behind S.
 * Only whole lines are written. */
ISTROLF_ANSWERS istrolf_salvaged istrolf_salvage_list(const uint8_t *input, size_t count, uint8_t *out, size_t room);

/* ---- The Digital VSXXX puck: the box in S with the commands R, D, P and T alone, and a self-test; and its reader. */

typedef struct {
    istrolf_box ball; /* a box in S */
    struct {
        uint8_t left;    /* bytes of the self-test that are left to be sent, 0 if none is going */
        uint8_t buttons; /* the buttons at its start */
    } test;
    uint8_t revision; /* 0 to 15 */
    uint8_t maker;    /* 0 to 7 */
} istrolf_puck;

typedef struct {
    istrolf_refusal refusal;
    uint8_t sent;  /* how many words the device sends: 0 or 1 */
    uint16_t word; /* the word, or 0 */
    istrolf_puck next;
} istrolf_stepped_puck;

/* Power-up: buttons modulo 8, revision modulo 16, maker modulo 8. The four bytes of a self-test are to be sent. */
ISTROLF_ANSWERS istrolf_puck istrolf_puck_made(uint8_t buttons, uint8_t revision, uint8_t maker);

/* One event each, as the box's. Refusals: BAD_STATE; BAD_BUTTONS, by istrolf_puck_buttons alone. The host's bytes are
 * R stream, D prompt, P a report, T a self-test; any other only breaks off. While a self-test is going a byte of the
 * host's does nothing. */
ISTROLF_ANSWERS istrolf_stepped_puck istrolf_puck_motion(istrolf_puck puck, int16_t dx, int16_t dy);
ISTROLF_ANSWERS istrolf_stepped_puck istrolf_puck_buttons(istrolf_puck puck, uint8_t buttons);
ISTROLF_ANSWERS istrolf_stepped_puck istrolf_puck_host(istrolf_puck puck, uint8_t byte);
ISTROLF_ANSWERS istrolf_stepped_puck istrolf_puck_latch(istrolf_puck puck);
ISTROLF_ANSWERS istrolf_stepped_puck istrolf_puck_send(istrolf_puck puck);
ISTROLF_ANSWERS istrolf_stepped_puck istrolf_puck_period(istrolf_puck puck);

typedef struct {
    uint8_t revision; /* of the firmware */
    uint8_t maker;    /* the maker's location */
    uint8_t device;   /* 2 a mouse, 4 a tablet */
    uint8_t error;    /* 0 none; ISTROLF_FATAL or more is fatal */
    uint8_t buttons;  /* those that are down or have failed */
} istrolf_self_test;

enum { ISTROLF_FATAL = 0x20, ISTROLF_BUTTON_ERROR = 0x3D };

typedef struct {
    uint8_t kept[3]; /* the bytes kept of an unfinished report, the rest 0 */
    uint8_t count;   /* how many are kept */
} istrolf_puck_reader;

typedef struct {
    istrolf_refusal refusal;
    uint8_t movements; /* 1 if this word ended a movement's report, and else 0 */
    uint8_t tests;     /* 1 if it ended a self-test, and else 0 */
    uint8_t dropped;   /* how many bytes were dropped */
    istrolf_puck_reader next;
    istrolf_report movement; /* the movement, or zeros */
    istrolf_self_test test;  /* the self-test, or zeros */
} istrolf_read_puck_word;

typedef struct {
    istrolf_refusal refusal;
    istrolf_puck_reader next;
    size_t taken;   /* words taken */
    size_t reports; /* reports written, of either kind */
    size_t dropped; /* bytes dropped */
} istrolf_puck_reading;

/* A reader of the device that keeps nothing. */
ISTROLF_ANSWERS istrolf_puck_reader istrolf_puck_reader_fresh(void);

/* One word. Refusals: BAD_STATE, BAD_WORD. */
ISTROLF_ANSWERS istrolf_read_puck_word istrolf_puck_reader_step(istrolf_puck_reader reader, uint16_t word);

/* Many words. A report is six numbers of out: 0, buttons, x, y, 0, 0 for a movement; 1, or 2 if its error is fatal,
 * revision, maker, device, error, buttons for a self-test. Refusals: BAD_STATE; BAD_WORD, with all as it stands
 * before the bad word. With 0 and taken below count, fewer than six numbers of out were left for the next report: go
 * on as with istrolf_reader_read. */
ISTROLF_ANSWERS istrolf_puck_reading istrolf_puck_reader_read(istrolf_puck_reader reader, const uint16_t *words,
    size_t count, int16_t *out, size_t room);

/* ---- The layout of the structs in the archive, byte by byte. Where the language can ask, C11 and C++11, a caller
 * whose compiler lays them out otherwise (packed, or not of 64 bits) does not compile. C99 cannot. */

#if defined __cplusplus && __cplusplus >= 201103L
#define ISTROLF_IS(fact) static_assert(fact, "libistrolf.a has this struct otherwise");
#elif !defined __cplusplus && defined __STDC_VERSION__ && __STDC_VERSION__ >= 201112L
#define ISTROLF_IS(fact) _Static_assert(fact, "libistrolf.a has this struct otherwise");
#endif

#ifdef ISTROLF_IS
#define ISTROLF_SIZE(type, size) ISTROLF_IS(sizeof(istrolf_##type) == size)
#define ISTROLF_AT(type, member, place) ISTROLF_IS(offsetof(istrolf_##type, member) == place)
#define ISTROLF_BYTES(type, member, size) ISTROLF_IS(sizeof(((istrolf_##type *)0)->member) == size)
ISTROLF_SIZE(report, 10) ISTROLF_AT(report, buttons, 0) ISTROLF_AT(report, x1, 2) ISTROLF_AT(report, y1, 4)
    ISTROLF_AT(report, x2, 6) ISTROLF_AT(report, y2, 8)
ISTROLF_SIZE(port, 12) ISTROLF_AT(port, held, 0) ISTROLF_AT(port, clears, 1) ISTROLF_AT(port, silence, 4)
    ISTROLF_AT(port, left, 8)
ISTROLF_SIZE(port_word, 16) ISTROLF_AT(port_word, words, 0) ISTROLF_AT(port_word, word, 2)
    ISTROLF_AT(port_word, next, 4)
ISTROLF_SIZE(port_words, 32) ISTROLF_AT(port_words, next, 0) ISTROLF_AT(port_words, taken, 16)
    ISTROLF_AT(port_words, written, 24)
ISTROLF_SIZE(reader, 8) ISTROLF_AT(reader, format, 0) ISTROLF_AT(reader, kept, 1) ISTROLF_AT(reader, count, 6)
    ISTROLF_AT(reader, awaiting, 7)
ISTROLF_SIZE(new_reader, 9) ISTROLF_AT(new_reader, refusal, 0) ISTROLF_AT(new_reader, reader, 1)
ISTROLF_SIZE(read_word, 22) ISTROLF_AT(read_word, refusal, 0) ISTROLF_AT(read_word, reports, 1)
    ISTROLF_AT(read_word, dropped, 2) ISTROLF_AT(read_word, next, 3) ISTROLF_AT(read_word, report, 12)
ISTROLF_SIZE(reading, 40) ISTROLF_AT(reading, refusal, 0) ISTROLF_AT(reading, next, 1) ISTROLF_AT(reading, taken, 16)
    ISTROLF_AT(reading, reports, 24) ISTROLF_AT(reading, dropped, 32)
ISTROLF_SIZE(watch, 2) ISTROLF_AT(watch, known, 0) ISTROLF_AT(watch, last, 1)
ISTROLF_SIZE(changes, 4) ISTROLF_AT(changes, next, 0) ISTROLF_AT(changes, down, 2) ISTROLF_AT(changes, up, 3)
ISTROLF_SIZE(watched, 32) ISTROLF_AT(watched, next, 0) ISTROLF_AT(watched, left, 8) ISTROLF_AT(watched, middle, 16)
    ISTROLF_AT(watched, right, 24)
ISTROLF_SIZE(encoding, 16) ISTROLF_AT(encoding, refusal, 0) ISTROLF_AT(encoding, length, 8)
ISTROLF_SIZE(pair, 4) ISTROLF_AT(pair, x, 0) ISTROLF_AT(pair, y, 2)
ISTROLF_SIZE(sum, 16) ISTROLF_AT(sum, x, 0) ISTROLF_AT(sum, y, 8)
ISTROLF_SIZE(box, 80) ISTROLF_AT(box, settings.format, 0) ISTROLF_AT(box, settings.mode, 1)
    ISTROLF_AT(box, settings.buttons, 2) ISTROLF_AT(box, track.counter, 4) ISTROLF_AT(box, track.position, 8)
    ISTROLF_AT(box, track.last, 12) ISTROLF_AT(box, going.length, 16) ISTROLF_AT(box, going.sent, 17)
    ISTROLF_AT(box, going.bytes, 18) ISTROLF_AT(box, memory.states, 23) ISTROLF_AT(box, memory.count, 31)
    ISTROLF_AT(box, memory.showing, 32) ISTROLF_AT(box, sums.limit, 40) ISTROLF_AT(box, sums.counter, 56)
    ISTROLF_AT(box, due, 72) ISTROLF_AT(box, dormant, 73)
ISTROLF_SIZE(stepped, 88) ISTROLF_AT(stepped, refusal, 0) ISTROLF_AT(stepped, sent, 1) ISTROLF_AT(stepped, word, 2)
    ISTROLF_AT(stepped, next, 8)
ISTROLF_SIZE(lister, 32) ISTROLF_AT(lister, line, 0) ISTROLF_AT(lister, ended, 4) ISTROLF_AT(lister, held, 5)
    ISTROLF_AT(lister, count, 16) ISTROLF_AT(lister, reader, 24)
ISTROLF_SIZE(listed, 56) ISTROLF_AT(listed, refusal, 0) ISTROLF_AT(listed, ended, 1) ISTROLF_AT(listed, taken, 8)
    ISTROLF_AT(listed, written, 16) ISTROLF_AT(listed, next, 24)
ISTROLF_SIZE(yard, 5) ISTROLF_AT(yard, format, 0) ISTROLF_AT(yard, first, 1) ISTROLF_AT(yard, last, 2)
    ISTROLF_AT(yard, count, 3) ISTROLF_AT(yard, ended, 4)
ISTROLF_SIZE(new_yard, 6) ISTROLF_AT(new_yard, refusal, 0) ISTROLF_AT(new_yard, yard, 1)
ISTROLF_SIZE(judged, 7) ISTROLF_AT(judged, refusal, 0) ISTROLF_AT(judged, can, 1) ISTROLF_AT(judged, next, 2)
ISTROLF_SIZE(checked, 16) ISTROLF_AT(checked, refusal, 0) ISTROLF_AT(checked, proper, 1)
    ISTROLF_AT(checked, sendable, 8)
ISTROLF_SIZE(bridge, 16) ISTROLF_AT(bridge, reader, 0) ISTROLF_AT(bridge, based, 8) ISTROLF_AT(bridge, middle, 9)
    ISTROLF_AT(bridge, presses, 10) ISTROLF_AT(bridge, x, 12) ISTROLF_AT(bridge, y, 14)
ISTROLF_SIZE(new_bridge, 18) ISTROLF_AT(new_bridge, refusal, 0) ISTROLF_AT(new_bridge, bridge, 2)
ISTROLF_SIZE(converted, 56) ISTROLF_AT(converted, refusal, 0) ISTROLF_AT(converted, next, 2)
    ISTROLF_AT(converted, taken, 24) ISTROLF_AT(converted, reports, 32) ISTROLF_AT(converted, sent, 40)
    ISTROLF_AT(converted, dropped, 48)
ISTROLF_SIZE(readback, 12) ISTROLF_AT(readback, width, 0) ISTROLF_AT(readback, ended, 1)
    ISTROLF_AT(readback, salvage, 2) ISTROLF_AT(readback, last, 4) ISTROLF_AT(readback, lines, 8)
ISTROLF_SIZE(read_lines, 40) ISTROLF_AT(read_lines, refusal, 0) ISTROLF_AT(read_lines, line, 4)
    ISTROLF_AT(read_lines, taken, 8) ISTROLF_AT(read_lines, items, 16) ISTROLF_AT(read_lines, next, 24)
ISTROLF_SIZE(rewritten, 40) ISTROLF_AT(rewritten, refusal, 0) ISTROLF_AT(rewritten, line, 4)
    ISTROLF_AT(rewritten, taken, 8) ISTROLF_AT(rewritten, written, 16) ISTROLF_AT(rewritten, next, 24)
ISTROLF_SIZE(came, 3) ISTROLF_AT(came, count, 0) ISTROLF_AT(came, first, 1) ISTROLF_AT(came, second, 2)
ISTROLF_SIZE(told, 12) ISTROLF_AT(told, reader, 0) ISTROLF_AT(told, awaited, 8) ISTROLF_AT(told, came, 9)
ISTROLF_SIZE(reply, 7) ISTROLF_AT(reply, kind, 0) ISTROLF_AT(reply, format, 1) ISTROLF_AT(reply, mode, 2)
    ISTROLF_AT(reply, buttons, 3) ISTROLF_AT(reply, came, 4)
ISTROLF_SIZE(new_told, 13) ISTROLF_AT(new_told, refusal, 0) ISTROLF_AT(new_told, told, 1)
ISTROLF_SIZE(told_command_answer, 14) ISTROLF_AT(told_command_answer, refusal, 0)
    ISTROLF_AT(told_command_answer, discarded, 1) ISTROLF_AT(told_command_answer, next, 2)
ISTROLF_SIZE(heard_word, 32) ISTROLF_AT(heard_word, refusal, 0) ISTROLF_AT(heard_word, reports, 1)
    ISTROLF_AT(heard_word, dropped, 2) ISTROLF_AT(heard_word, reply, 3) ISTROLF_AT(heard_word, next, 10)
    ISTROLF_AT(heard_word, report, 22)
ISTROLF_SIZE(heard_words, 48) ISTROLF_AT(heard_words, refusal, 0) ISTROLF_AT(heard_words, reply, 1)
    ISTROLF_AT(heard_words, next, 8) ISTROLF_AT(heard_words, taken, 24) ISTROLF_AT(heard_words, reports, 32)
    ISTROLF_AT(heard_words, dropped, 40)
ISTROLF_SIZE(picked, 32) ISTROLF_AT(picked, refusal, 0) ISTROLF_AT(picked, taken, 8) ISTROLF_AT(picked, runs, 16)
    ISTROLF_AT(picked, left, 24)
ISTROLF_SIZE(salvaged, 16) ISTROLF_AT(salvaged, whole, 0) ISTROLF_AT(salvaged, written, 8)
ISTROLF_SIZE(puck, 88) ISTROLF_AT(puck, ball, 0) ISTROLF_AT(puck, test.left, 80) ISTROLF_AT(puck, test.buttons, 81)
    ISTROLF_AT(puck, revision, 82) ISTROLF_AT(puck, maker, 83)
ISTROLF_SIZE(stepped_puck, 96) ISTROLF_AT(stepped_puck, refusal, 0) ISTROLF_AT(stepped_puck, sent, 1)
    ISTROLF_AT(stepped_puck, word, 2) ISTROLF_AT(stepped_puck, next, 8)
ISTROLF_SIZE(self_test, 5) ISTROLF_AT(self_test, revision, 0) ISTROLF_AT(self_test, maker, 1)
    ISTROLF_AT(self_test, device, 2) ISTROLF_AT(self_test, error, 3) ISTROLF_AT(self_test, buttons, 4)
ISTROLF_SIZE(puck_reader, 4) ISTROLF_AT(puck_reader, kept, 0) ISTROLF_AT(puck_reader, count, 3)
ISTROLF_SIZE(read_puck_word, 24) ISTROLF_AT(read_puck_word, refusal, 0) ISTROLF_AT(read_puck_word, movements, 1)
    ISTROLF_AT(read_puck_word, tests, 2) ISTROLF_AT(read_puck_word, dropped, 3) ISTROLF_AT(read_puck_word, next, 4)
    ISTROLF_AT(read_puck_word, movement, 8) ISTROLF_AT(read_puck_word, test, 18)
ISTROLF_SIZE(puck_reading, 32) ISTROLF_AT(puck_reading, refusal, 0) ISTROLF_AT(puck_reading, next, 1)
    ISTROLF_AT(puck_reading, taken, 8) ISTROLF_AT(puck_reading, reports, 16) ISTROLF_AT(puck_reading, dropped, 24)
ISTROLF_BYTES(reader, kept, 5) ISTROLF_BYTES(box, going.bytes, 5) ISTROLF_BYTES(box, memory.states, 8)
ISTROLF_BYTES(lister, held, 5) ISTROLF_BYTES(puck_reader, kept, 3)
#undef ISTROLF_BYTES
#undef ISTROLF_AT
#undef ISTROLF_SIZE
#undef ISTROLF_IS
#endif

#ifdef __cplusplus
}
#endif
#endif
