/* The library against an X server: the same shapes at the same places, by one display list and by X's own requests, many shapes to
 * a request where X has that. Nanoseconds a shape, the best of many rounds in turn; of X the time until it has drawn (XSync). Both
 * include handing the shapes over, a post and a run here, a socket there. */
#define _POSIX_C_SOURCE 199309L
#include <X11/Xlib.h>
#include <stdint.h>
#include <stdio.h>
#include <stdlib.h>
#include <string.h>
#include <time.h>

#include "pramolyt.h"
#include "pramolyt_list.h"

enum { WIDTH = 1024, HEIGHT = 768, FIELD = 640, ENTRIES = 4096, MOST = 1000, ROUNDS = 400 };

struct shape {
    int x, y, to_x, to_y; /* a line's ends; a blit's corner and its source's */
};

static uint8_t list[5 * ENTRIES], display[WIDTH * HEIGHT], virt[WIDTH * HEIGHT];
static size_t entries;
static pramolyt_board board;
static Display *server;
static Pixmap drawn, other, tile, bits;
static GC gc;
static struct shape shapes[MOST];
static int count, size;
static uint32_t state = 1;

static void stop(const char *text)
{
    fprintf(stderr, "bench/xserver: %s\n", text);
    exit(2);
}

static int below(int n)
{
    state = state * 1664525u + 1013904223u;
    return (int)((uint64_t)(state >> 8) * (uint64_t)n >> 24);
}

static double now(void)
{
    struct timespec t;
    clock_gettime(CLOCK_MONOTONIC, &t);
    return (double)t.tv_sec * 1e9 + (double)t.tv_nsec;
}

static void put(unsigned reg, uint32_t word)
{
    pramolyt_put_entry(list + 5 * entries++, reg, word);
}

static uint32_t point(int x, int y)
{
    return (uint32_t)(uint16_t)x << 16 | (uint16_t)y;
}

static void begin(uint32_t cmd)
{
    entries = 0;
    put(PRAMOLYT_FORE, 7);
    put(PRAMOLYT_BACK, 9);
    put(PRAMOLYT_CMD, cmd);
}

static void by_library(void)
{
    uint64_t place, steps;
    if (pramolyt_post(&board, &place, list, sizeof list, 0, entries) != PRAMOLYT_DONE ||
        pramolyt_run(&board, &steps, UINT64_MAX, list, sizeof list, display, sizeof display, virt, sizeof virt) != PRAMOLYT_DONE)
        stop("the library refused a list");
}

static void fill_by_x(void)
{
    XRectangle boxes[MOST];
    for (int i = 0; i < count; i++)
        boxes[i] = (XRectangle){(short)shapes[i].x, (short)shapes[i].y, (unsigned short)size, (unsigned short)size};
    XFillRectangles(server, drawn, gc, boxes, count);
}

static void copy_by_x(void)
{
    for (int i = 0; i < count; i++)
        XCopyArea(server, other, drawn, gc, shapes[i].to_x, shapes[i].to_y, (unsigned)size, (unsigned)size, shapes[i].x, shapes[i].y);
}

static void copy_within_by_x(void)
{
    for (int i = 0; i < count; i++)
        XCopyArea(server, drawn, drawn, gc, shapes[i].to_x, shapes[i].to_y, (unsigned)size, (unsigned)size, shapes[i].x, shapes[i].y);
}

static void bits_by_x(void)
{
    for (int i = 0; i < count; i++)
        XCopyPlane(server, bits, drawn, gc, shapes[i].to_x, shapes[i].to_y, 8, 16, shapes[i].x, shapes[i].y, 1);
}

static void lines_by_x(void)
{
    XSegment segments[MOST];
    for (int i = 0; i < count; i++)
        segments[i] = (XSegment){(short)shapes[i].x, (short)shapes[i].y, (short)shapes[i].to_x, (short)shapes[i].to_y};
    XDrawSegments(server, drawn, gc, segments, count);
}

static void measure(const char *name, void (*by_x)(void))
{
    double library = 1e30, x = 1e30;
    for (int round = 0; round < ROUNDS; round++) {
        double began = now();
        by_library();
        double took = (now() - began) / count;
        library = took < library ? took : library;
        XSync(server, False);
        began = now();
        by_x();
        XSync(server, False);
        took = (now() - began) / count;
        x = took < x ? took : x;
    }
    printf("%-34s %5d %10.1f %10.1f %6.2f\n", name, size, library, x, x / library);
}

static void blits(const char *name, uint32_t cmd, int side, void (*by_x)(void))
{
    size = side;
    count = side > 100 ? 40 : MOST;
    begin(cmd);
    put(PRAMOLYT_XY3, 0);
    put(PRAMOLYT_XY2, side == 8 ? point(8, 16) : point(side, side));
    if (cmd & PRAMOLYT_CMD_APAT)
        put(PRAMOLYT_XY0, point(0, 0));
    for (int i = 0; i < count; i++) {
        shapes[i] = (struct shape){below(WIDTH - side), below(HEIGHT - side - 8), below(WIDTH - side), below(HEIGHT - side - 8)};
        if (!(cmd & (PRAMOLYT_CMD_SOLID | PRAMOLYT_CMD_APAT)))
            put(PRAMOLYT_XY0, point(shapes[i].to_x, shapes[i].to_y));
        put(PRAMOLYT_XY1, point(shapes[i].x, shapes[i].y));
    }
    measure(name, by_x);
}

/* Lines of that length: horizontal, vertical, of 45 degrees or of any angle. */
static void lines(const char *name, uint32_t cmd, int length, int kind)
{
    size = length;
    count = length > 100 ? 200 : MOST;
    begin(cmd);
    put(PRAMOLYT_LPAT, 0x00F0F32D);
    put(PRAMOLYT_PCTRL, pramolyt_pattern(24, 1, 0, 0));
    for (int i = 0; i < count;) {
        const int other_way = below(length), x = below(FIELD), y = below(FIELD);
        const int dx = kind == 1 ? 0 : length - 1, dy = kind == 0 ? 0 : kind == 3 ? other_way : length - 1;
        if (x + dx >= FIELD || y + dy >= FIELD)
            continue;
        shapes[i++] = (struct shape){x, y, x + dx, y + dy};
        put(PRAMOLYT_XY0, point(x, y));
        put(PRAMOLYT_XY1, point(x + dx, y + dy));
    }
    measure(name, lines_by_x);
}

static void set_style(int code, int fill, int line)
{
    static const char dashes[] = {5, 1, 2, 1, 1, 2, 2, 2, 4, 4}; /* LPAT 0x00F0F32D, 24 bits from bit 20 on */
    XGCValues v = {.function = code, .foreground = 7, .background = 9, .fill_style = fill, .line_style = line, .graphics_exposures = False};
    XChangeGC(server, gc, GCFunction | GCForeground | GCBackground | GCFillStyle | GCLineStyle | GCGraphicsExposures, &v);
    if (line != LineSolid)
        XSetDashes(server, gc, 4, dashes, sizeof dashes);
}

int main(int argc, char **argv)
{
    if (argc != 2 || !(server = XOpenDisplay(argv[1])))
        stop("no X server");
    const Window root = DefaultRootWindow(server);
    drawn = XCreatePixmap(server, root, WIDTH, HEIGHT, 8);
    other = XCreatePixmap(server, root, WIDTH, HEIGHT, 8);
    tile = XCreatePixmap(server, root, 16, 8, 8);
    bits = XCreatePixmap(server, root, WIDTH, HEIGHT, 1);
    gc = XCreateGC(server, drawn, 0, NULL);
    XSetTile(server, gc, tile);
    if (pramolyt_make(&board, WIDTH, HEIGHT, ENTRIES) != PRAMOLYT_DONE)
        stop("make was refused");
    printf("%-34s %5s %10s %10s %6s\n", "shape", "size", "library", "X server", "ratio");
    for (int k = 0; k < 2; k++) {
        const unsigned code = k == 0 ? 3 : 6;
        char name[64];
        set_style((int)code, FillSolid, LineSolid);
        for (int side = 10; side <= 500; side *= 50) {
            snprintf(name, sizeof name, "fill code %u", code);
            blits(name, pramolyt_command(PRAMOLYT_BITBLT, code, PRAMOLYT_CMD_SOLID), side, fill_by_x);
            snprintf(name, sizeof name, "copy between code %u", code);
            blits(name, pramolyt_command(PRAMOLYT_BITBLT, code, PRAMOLYT_CMD_SOURCE_VIRTUAL), side, copy_by_x);
            snprintf(name, sizeof name, "copy within code %u", code);
            blits(name, pramolyt_command(PRAMOLYT_BITBLT, code, 0), side, copy_within_by_x);
            static const char *const kinds[] = {"horizontal", "vertical", "45 degrees", "any angle"};
            for (int kind = 0; kind < 4; kind++) {
                snprintf(name, sizeof name, "line %s code %u", kinds[kind], code);
                lines(name, pramolyt_command(PRAMOLYT_LINE, code, PRAMOLYT_CMD_SOLID), side, kind);
            }
        }
    }
    set_style(3, FillTiled, LineSolid);
    for (int side = 10; side <= 500; side *= 50)
        blits("tile code 3", pramolyt_command(PRAMOLYT_BITBLT, 3, PRAMOLYT_CMD_SOURCE_VIRTUAL | PRAMOLYT_CMD_APAT), side, fill_by_x);
    set_style(3, FillSolid, LineSolid);
    blits("glyph 8 x 16, opaque", pramolyt_command(PRAMOLYT_BITBLT, 3, PRAMOLYT_CMD_SOURCE_VIRTUAL | PRAMOLYT_CMD_STPL), 8, bits_by_x);
    for (int k = 0; k < 2; k++) {
        set_style(3, FillSolid, k == 0 ? LineDoubleDash : LineOnOffDash);
        const uint32_t flags = PRAMOLYT_CMD_STPL | PRAMOLYT_CMD_PRST | (k == 0 ? 0 : PRAMOLYT_CMD_TRNSP);
        for (int length = 10; length <= 500; length *= 50) {
            lines(k == 0 ? "dashed horizontal opaque" : "dashed horizontal TRNSP", pramolyt_command(PRAMOLYT_LINE, 3, flags), length, 0);
            lines(k == 0 ? "dashed any angle opaque" : "dashed any angle TRNSP", pramolyt_command(PRAMOLYT_LINE, 3, flags), length, 3);
        }
    }
    return 0;
}
