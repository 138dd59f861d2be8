/* A board controller on a serial line. The host sends display lists as bytes; they arrive in pieces, cut anywhere, and are fed
 * as they come. A list that is whole is posted. Between two looks at the line the board is drawn for a budget of steps, and
 * printed when all is drawn.
 *
 * On the wire each list is a header of 4 bytes, then its entries:
 *
 *     bytes 0, 1      the entry of list memory at which the list starts, most significant byte first
 *     bytes 2, 3      the count of its entries, most significant byte first
 *     5 * count       the entries, as docs/FORMAT.md has them
 *
 * Nothing stands between two lists. There is no check sum: a line that changes bytes needs one. After a lost byte the rest of
 * what is sent is misread, until the line is silent for SILENCE milliseconds inside a list: that list is then dropped, and
 * the next byte begins a header. A host that waits so long after a fault is understood again.
 *
 *     cc -Iinclude examples/c/serial.c target/staticlib/libpramolyt.a -o target/serial
 *     stty -F /dev/ttyS0 115200 crtscts && target/serial /dev/ttyS0
 *
 * Without an argument the bytes come from standard input, a file or a pipe. A second argument names a file for the log of all
 * calls, which `pramolyt replay` makes again: what to send in with a fault. Each fault is a line on standard error. The status
 * is 0 where there was none, 1 where there was, 2 where the controller could not begin.
 */
#define _POSIX_C_SOURCE 200809L
#include <errno.h>
#include <fcntl.h>
#include <inttypes.h>
#include <poll.h>
#include <stdio.h>
#include <string.h>
#include <termios.h>
#include <unistd.h>

#include "pramolyt.h"
#include "pramolyt_list.h"
#include "pramolyt_log.h"

enum { WIDTH = 40, HEIGHT = 7, ENTRIES = 48 };
enum { BUDGET = 100, SILENCE = 1000, HEADER = 4, PIECE = 256 };

typedef struct {
    pramolyt_board board;
    uint8_t memory[PRAMOLYT_ENTRY_BYTES * ENTRIES];
    uint8_t display[WIDTH * HEIGHT];
    uint8_t virt[WIDTH * HEIGHT];
    pramolyt_feed_record feed;
    uint8_t header[HEADER]; /* of the list that comes in */
    size_t header_bytes;    /* as many of it as have come */
    size_t bytes_left;      /* of the list's entries; 0 while the header comes */
    size_t start, count;    /* what the header says */
    int dropped;            /* the rest of the list is skipped */
    unsigned long lists;    /* headers that have come */
    unsigned long accepted; /* lists that were posted */
    unsigned long printed;  /* accepted lists when the board was printed last */
    unsigned long faults;
    int terminal; /* the line is a terminal, which has no end but by a fault */
} controller;

/* The list that comes in is not posted; its other bytes are skipped. The place is that of an illegal entry. */
static void drop(controller *c, const char *call, uint32_t answer, uint64_t place)
{
    fprintf(stderr, "serial: list %lu (start %zu, count %zu) is dropped: %s answers %" PRIu32, c->lists, c->start, c->count,
            call, answer);
    if (answer == PRAMOLYT_ILLEGAL_ENTRY)
        fprintf(stderr, " at entry %" PRIu64, place);
    fprintf(stderr, ", %s\n", pramolyt_answer_text(answer));
    c->dropped = 1;
    c->faults++;
}

static void print(controller *c)
{
    const char colours[] = " ~=#";
    printf("board after %lu lists\n", c->accepted);
    for (int y = 0; y < HEIGHT; y++) {
        putchar('|');
        for (int x = 0; x < WIDTH; x++) {
            uint8_t pixel = c->display[y * WIDTH + x];
            putchar(pixel < sizeof colours - 1 ? colours[pixel] : '*');
        }
        puts("|");
    }
    fflush(stdout);
    c->printed = c->accepted;
}

/* Draws for a budget of steps. A run is refused only where the record or list memory was changed by a fault; the board is
 * then made anew, which empties its slots, so that whoever waits for them goes on. */
static void run(controller *c)
{
    uint64_t steps;
    uint32_t answer = pramolyt_run(&c->board, &steps, BUDGET, c->memory, sizeof c->memory, c->display, sizeof c->display,
                                   c->virt, sizeof c->virt);
    if (answer == PRAMOLYT_DONE)
        return;
    fprintf(stderr, "serial: the board is made anew, and its lists are lost: run answers %" PRIu32 ", %s\n", answer,
            pramolyt_answer_text(answer));
    c->faults++;
    pramolyt_make(&c->board, WIDTH, HEIGHT, ENTRIES);
}

/* Feeds a piece. Where a list that is still to be drawn has an entry that the piece completes, nothing of the piece was taken:
 * the board is drawn until the entry is free, and the same piece is fed again. The line's flow control holds back the host
 * for so long. */
static void feed(controller *c, const uint8_t *piece, size_t length)
{
    for (;;) {
        uint32_t answer = pramolyt_feed(&c->board, &c->feed, c->memory, sizeof c->memory, piece, length);
        if (answer == PRAMOLYT_DONE)
            return;
        if (answer != PRAMOLYT_ENTRY_HELD) {
            drop(c, "feed", answer, 0);
            return;
        }
        run(c);
    }
}

/* Posts the list that has come in. While two lists wait, the board is drawn until a slot is free. */
static void post(controller *c)
{
    for (;;) {
        uint64_t place;
        uint32_t answer = pramolyt_post(&c->board, &place, c->memory, sizeof c->memory, c->start, c->count);
        if (answer == PRAMOLYT_DONE) {
            c->accepted++;
            return;
        }
        if (answer != PRAMOLYT_SLOTS_FULL) {
            drop(c, "post", answer, place);
            return;
        }
        run(c);
    }
}

/* The list's last byte has come. */
static void end_list(controller *c)
{
    c->header_bytes = 0;
    c->bytes_left = 0;
    if (!c->dropped)
        post(c);
}

static void begin_list(controller *c)
{
    const uint8_t *h = c->header;
    c->start = (size_t)h[0] << 8 | h[1];
    c->count = (size_t)h[2] << 8 | h[3];
    c->bytes_left = PRAMOLYT_LIST_SIZE(c->count);
    c->dropped = 0;
    c->lists++;
    pramolyt_feed_start(&c->feed, c->start);
    if (c->bytes_left == 0)
        end_list(c);
}

static size_t lesser(size_t a, size_t b)
{
    return a < b ? a : b;
}

/* Bytes of a header, as many as it lacks; answers how many it took. */
static size_t take_header(controller *c, const uint8_t *bytes, size_t length)
{
    size_t taken = lesser(length, HEADER - c->header_bytes);
    memcpy(c->header + c->header_bytes, bytes, taken);
    c->header_bytes += taken;
    if (c->header_bytes == HEADER)
        begin_list(c);
    return taken;
}

/* Bytes of entries, as many as the list lacks; answers how many it took. */
static size_t take_entries(controller *c, const uint8_t *bytes, size_t length)
{
    size_t taken = lesser(length, c->bytes_left);
    if (!c->dropped)
        feed(c, bytes, taken);
    c->bytes_left -= taken;
    if (c->bytes_left == 0)
        end_list(c);
    return taken;
}

/* What has come over the line: parts of headers and of lists, in any number. */
static void take(controller *c, const uint8_t *bytes, size_t length)
{
    while (length > 0) {
        size_t taken = c->bytes_left > 0 ? take_entries(c, bytes, length) : take_header(c, bytes, length);
        bytes += taken;
        length -= taken;
    }
}

/* The line ended, or fell silent: what has come of a header or a list is dropped. */
static void break_off(controller *c, const char *why)
{
    if (c->bytes_left > 0)
        fprintf(stderr, "serial: list %lu is dropped: %s with %zu of its bytes to come\n", c->lists, why, c->bytes_left);
    else if (c->header_bytes > 0)
        fprintf(stderr, "serial: a header is dropped: %s with %zu of its bytes to come\n", why, HEADER - c->header_bytes);
    else
        return;
    c->faults++;
    c->header_bytes = 0;
    c->bytes_left = 0;
}

static void report(controller *c, const char *what)
{
    fprintf(stderr, "serial: %s: %s\n", what, strerror(errno));
    c->faults++;
}

/* Waits for bytes, and while the board has something to draw only looks: 1 where there are some, 0 where there are none yet,
 * -1 where the line cannot be waited for. */
static int wait_for_bytes(controller *c, int line)
{
    struct pollfd waiting = {line, POLLIN, 0};
    int idle = pramolyt_idle(&c->board), timeout = -1, ready;
    if (!idle)
        timeout = 0;
    else if (c->header_bytes > 0)
        timeout = SILENCE;
    ready = poll(&waiting, 1, timeout);
    if (ready < 0 && errno != EINTR) {
        report(c, "the line cannot be waited for");
        return -1;
    }
    if (ready == 0 && idle)
        break_off(c, "the line fell silent");
    return ready > 0;
}

/* Reads what the line has, at most a piece: the bytes read, 0 where there are none yet, -1 where the line has ended. A
 * terminal that is hung up, as an unplugged one is, ends as a file does or with an error. */
static ssize_t read_piece(controller *c, int line, uint8_t *piece)
{
    int ready = wait_for_bytes(c, line);
    if (ready <= 0)
        return ready;
    ssize_t length = read(line, piece, PIECE);
    if (length > 0)
        return length;
    if (length < 0 && (errno == EINTR || errno == EAGAIN))
        return 0;
    if (length < 0) {
        report(c, "the line is gone");
    } else if (c->terminal) {
        fputs("serial: the line is gone: hung up\n", stderr);
        c->faults++;
    }
    return -1;
}

/* Lists are taken and drawn until the line ends, and what was accepted is drawn to its end. */
static void serve(controller *c, int line)
{
    uint8_t piece[PIECE];
    for (;;) {
        ssize_t length = read_piece(c, line, piece);
        if (length < 0)
            break;
        take(c, piece, (size_t)length);
        run(c);
        if (pramolyt_idle(&c->board) && c->printed < c->accepted)
            print(c);
    }
    break_off(c, "the line ended");
    while (!pramolyt_idle(&c->board))
        run(c);
    if (c->printed < c->accepted)
        print(c);
}

/* A terminal is to hand over every byte as it is and at once. Speed and flow control stay as they were set. */
static int make_raw(int line)
{
    struct termios t;
    if (tcgetattr(line, &t) != 0)
        return -1;
    t.c_iflag &= ~(tcflag_t)(IGNBRK | BRKINT | PARMRK | INPCK | ISTRIP | INLCR | IGNCR | ICRNL | IXON | IXOFF);
    t.c_oflag &= ~(tcflag_t)OPOST;
    t.c_lflag &= ~(tcflag_t)(ECHO | ECHONL | ICANON | ISIG | IEXTEN);
    t.c_cflag &= ~(tcflag_t)(CSIZE | PARENB);
    t.c_cflag |= CS8 | CREAD;
    t.c_cc[VMIN] = 1;
    t.c_cc[VTIME] = 0;
    return tcsetattr(line, TCSANOW, &t);
}

/* The line by its path, or standard input; -1 where it cannot be used. The terminal that one types at, which could not be left
 * again, is not taken. */
static int open_line(const char *path)
{
    int line = path != NULL ? open(path, O_RDONLY | O_NOCTTY) : STDIN_FILENO;
    const char *name = path != NULL ? path : "standard input";
    if (line >= 0 && isatty(line) && tcgetpgrp(line) >= 0) {
        fputs("usage: serial [DEVICE]; without DEVICE the bytes come from standard input\n", stderr);
        return -1;
    }
    if (line < 0 || (isatty(line) && make_raw(line) != 0)) {
        fprintf(stderr, "serial: %s: %s\n", name, strerror(errno));
        return -1;
    }
    return line;
}

int main(int argc, char **argv)
{
    controller c;
    int line = open_line(argc > 1 ? argv[1] : NULL);
    if (line < 0)
        return 2;
    if (argc > 2 && (pramolyt_log = fopen(argv[2], "w")) == NULL) {
        fprintf(stderr, "serial: %s: %s\n", argv[2], strerror(errno));
        return 2;
    }
    memset(&c, 0, sizeof c);
    c.terminal = isatty(line);
    if (pramolyt_make(&c.board, WIDTH, HEIGHT, ENTRIES) != PRAMOLYT_DONE) {
        fputs("serial: there is no board of these sizes\n", stderr);
        return 2;
    }
    serve(&c, line);
    if (fflush(stdout) != 0 || ferror(stdout))
        report(&c, "the board cannot be printed");
    return c.faults > 0;
}
