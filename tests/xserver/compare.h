/* What the files of compare share. compare.c says what is drawn. */
#ifndef COMPARE_H
#define COMPARE_H

#include <X11/Xlib.h>
#include <stdbool.h>
#include <stddef.h>
#include <stdint.h>

enum { SIDE = 2048, ENTRIES = 16 };
enum { BITBLT = 1, LINE = 2, PLINE = 5 };
enum { BOTTOM_TO_TOP = 1, RIGHT_TO_LEFT = 2 };
enum { NO_CLIP, INSIDE, PARTLY_OFF, WHOLLY_OFF, REVERSED, FAR };
enum { TILE_WIDTH = 16, TILE_HEIGHT = 8 };

/* how X draws a blit of bits: XCopyPlane, XFillRectangle with the bits as stipple, or with the bits as clip mask */
enum { COPY_PLANE, FILL_STIPPLED, FILL_THROUGH };

/* what X takes the bits for: what they are, those of each byte from the other end, only as many as the buffer has
 * columns, or with zeros around them */
enum { RIGHT_BITS, LEAST_FIRST, NARROW, ZEROS_AROUND };

#define SOLID (1u << 23)
#define TRNSP (1u << 22)
#define STPL (1u << 21)
#define NLST (1u << 19)
#define PRST (1u << 18)
#define CLIP (1u << 17)
#define SOURCE (1u << 16)
#define APAT (1u << 14)

typedef struct point {
    int x, y;
} point;

/* both corners inside; a reversed one is empty */
typedef struct box {
    int left, top, right, bottom;
} box;

/* the pattern of a line, each of its bits being that of `scale` pixels */
typedef struct dashes {
    uint32_t bits; /* bit 0 first */
    int length, scale;
    int phase; /* where in the period of length x scale pixels the line begins */
} dashes;

typedef struct drawing {
    unsigned opcode, code, mask, fore, back;
    bool solid, trnsp, nlst, clipped;
    bool stpl; /* of a blit, for which x of a is then a bit's; a line has STPL where it has no SOLID */
    bool apat; /* of a blit, for which a is then the upper left corner of the tile */
    unsigned unread; /* more bits of CMD, which tell X nothing */
    unsigned source, destination; /* 0 display, 1 virtual */
    box clip;
    point a, b; /* ends of a line; upper left corners of source and destination of a blit */
    unsigned width, height, direction;
    unsigned means, reading; /* in X, of a blit of bits */
    unsigned columns, rows; /* in X, of a tile */
    point origin; /* in X, where the tile lies that all others go by */
    bool backwards; /* X draws the line from B to A */
    dashes dashes; /* of a line without SOLID */
    struct drawing *before; /* the line before it in the same list, from whose end the pattern goes on, or NULL */
} drawing;

typedef struct server {
    Display *display;
    bool biased;
    GC gc, bitmap_gc; /* for pixmaps of depth 8 and, with foreground 0, of depth 1 */
    Pixmap buffers[2];
} server;

typedef struct difference {
    unsigned long pixels;
    unsigned buffer, x, y, engine, server; /* the first of them */
} difference;

typedef struct kind {
    const char *name;
    void (*make)(drawing *);
    void (*dash)(drawing *);
    bool two, biased;
    unsigned long cases, pixels, changed, differences;
} kind;

/* compare.c */
void fail(const char *text);
void count_test(bool passes);
difference compare(const server *s, const drawing *by_engine, const drawing *by_x);

/* drawing.c */
extern unsigned width, height; /* of the board and of the pixmaps */
int least(int a, int b);
int greatest(int a, int b);
bool is_empty(box b);
bool holds(box b, point p);
box board_box(void);
box bitmap_box(void);
box common(box a, box b);
box rectangle(const drawing *d, point corner);
bool is_dashed(const drawing *d);
bool bits_inside(const drawing *d);
bool tile_inside(const drawing *d);
int period(const dashes *p);
int phase_after(const dashes *p, int pixels);
int steps_of(const drawing *d);
int moves(const drawing *d);
bool reads_unwritten(const drawing *d);
bool minor_grows(const drawing *d);
bool has_halfway_point(const drawing *d);

/* random.c */
extern uint64_t random_state;
uint64_t random64(void);
int between(int low, int high);
bool one_in(int n);
void random_bytes(uint8_t *bytes, size_t count);
box random_clip(unsigned style);
void fill(drawing *d);
void copy_between(drawing *d);
void copy_within(drawing *d);
void copy_overlapping(drawing *d);
void fill_stippled(drawing *d);
void stipple_between(drawing *d);
void stipple_within(drawing *d);
void stipple_opaque(drawing *d);
void stipple_transparent(drawing *d);
void stipple_through(drawing *d);
void glyph(drawing *d);
void tile_between(drawing *d);
void tile_within(drawing *d);
void line(drawing *d);
void line_not_last(drawing *d);
void polyline(drawing *d);
void opaque(drawing *d);
void transparent(drawing *d);
void either(drawing *d);
drawing second_line(drawing *first);

/* engine.c */
extern uint8_t start[2][SIDE * SIDE], buffers[2][SIDE * SIDE]; /* before and after the drawing */
extern uint8_t list[5 * ENTRIES]; /* of the last drawing */
extern size_t entries;
void engine_draw(const drawing *d);

/* server.c */
extern char calls[4096]; /* the X calls of the last drawing */
server open_server(const char *name, bool biased);
void close_server(const server *s);
void set_board(server *servers, unsigned w, unsigned h);
void x_draw(const server *s, const drawing *d);

/* wrong.c */
void compare_wrong(server *servers, const kind *kinds, unsigned count);

#endif
