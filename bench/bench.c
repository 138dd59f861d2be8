/* The library against the plain C engine of baseline.c: the same display lists on equal buffers, compared byte for
 * byte and then timed. `bench` times every kind of work, `bench WORD` those with the word in their name or size, `bench
 * tiny` only compares, on tiny sizes and on random lists. Status 1 where a picture differs, 2 where a call is refused. */
#define _POSIX_C_SOURCE 199309L
#include <inttypes.h>
#include <stdarg.h>
#include <stdio.h>
#include <stdlib.h>
#include <string.h>
#include <time.h>

#include "baseline.h"
#include "cut.h"
#include "pramolyt.h"

enum { CMD, FORE, BACK, MASK, KEY, LPAT, PCTRL, CLPTL, CLPBR, XY0, XY2, XY3, XY1 };

#define BITBLT (1u << 28)
#define LINE (2u << 28)
#define PLINE (5u << 28)
#define SOLID (1u << 23)
#define TRNSP (1u << 22)
#define STPL (1u << 21)
#define KEYED (1u << 20)
#define NLST (1u << 19)
#define PRST (1u << 18)
#define CLIP (1u << 17)
#define FROM_VIRTUAL (1u << 16)
#define TO_VIRTUAL (1u << 15)
#define APAT (1u << 14)

enum { SIDE = 2048, ENTRIES = 4096, PIXELS = SIDE * SIDE, MOST_WORKS = 400, KEY_BYTE = 0x5A };

enum shape { FILL, COPY, STIPPLE, TILE, LINES, WRITES };
enum angle { ANY, HORIZONTAL, VERTICAL, DIAGONAL };
enum yardstick { NO_YARDSTICK, BY_MEMSET, BY_MEMCPY };
enum hiding { SHOWN, OFF_THE_BOARD, UNDER_A_CLIP };

/* What is asked of the speed: a least ratio to the baseline, or to memset and memcpy. */
enum goal_number {
    NO_GOAL,
    FILLS,
    COPIES,
    KEYED_COPIES,
    SMEARS, /* copies that read what they wrote */
    SOLID_LINES,
    CLIPPED_LINES,
    LEVEL_LINES, /* horizontal ones */
    SHORT_LINES,
    DASHED_LINES,
    SHORT_DASHES,
    SMALL_FILLS,
    SMALL_COPIES,
    SMALL_KEYED,
    STIPPLES, /* one bit a pixel */
    GLYPHS,
    WIDE_GLYPHS,
    HIDDEN,   /* blits of which 1 % shows */
    TILES,
    SMALL_TILES,
    WRITTEN, /* register writes */
    MEMSET,
    MEMCPY,
    GOALS
};

struct goal {
    const char *name;
    double least;
    int met, missed;
    double lowest, highest;
};

/* One kind of work: what its display list holds, and its goals. */
struct work {
    char name[48], size[16];
    enum shape shape;
    uint32_t code, mask, direction;
    int32_t width, height; /* of a blit */
    enum hiding hiding;    /* of all but a square of it */
    int32_t commands;      /* in the list */
    bool scattered;        /* over the field, not in one place */
    bool from_virtual, keyed, many_hits, clip;
    bool unaligned;         /* a stipple whose first bit does not begin a byte */
    int32_t move_x, move_y; /* of a copy within the display */
    int32_t length;         /* pixels of a line */
    enum angle angle;
    bool dashed, transparent, polyline;
    uint32_t scale;
    enum yardstick yardstick;
    enum goal_number goal, yardstick_goal;
    uint64_t visits; /* the pixels that its list visits, once it has been compared */
};

/* The sizes of everything, and for `tiny` smaller ones. */
struct sizes {
    int32_t board_width, board_height;
    int32_t large_width, large_height, middle_width, middle_height;
    int32_t small, field, glyphs, long_line, short_line;  /* glyphs in the font */
    int32_t small_blits, long_lines, short_lines, writes; /* in a list */
    int32_t within_x, within_y;                           /* how far a copy within the display goes */
    int32_t shown;                                        /* the side of the square that shows of a hidden blit */
};

static const struct sizes full_sizes = {
    .board_width = SIDE, .board_height = SIDE,
    .large_width = 2000, .large_height = 2000, .middle_width = 500, .middle_height = 500,
    .small = 10, .field = 640, .glyphs = 256, .long_line = 500, .short_line = 10,
    .small_blits = 2000, .long_lines = 400, .short_lines = 2000, .writes = 4000,
    .within_x = 1101, .within_y = 700, .shown = 205,
};

static const struct sizes tiny_sizes = {
    .board_width = 160, .board_height = 96,
    .large_width = 100, .large_height = 60, .middle_width = 61, .middle_height = 37,
    .small = 10, .field = 64, .glyphs = 40, .long_line = 50, .short_line = 10,
    .small_blits = 40, .long_lines = 40, .short_lines = 40, .writes = 100,
    .within_x = 87, .within_y = 45, .shown = 15,
};

struct pictures {
    uint8_t display[PIXELS];
    uint8_t gap[1216]; /* so that equal pixels of the two do not share a place in the cache */
    uint8_t virt[PIXELS];
};

static struct pictures of_library, of_baseline;
static uint8_t list[5 * ENTRIES];
static size_t entries;
static pramolyt_board board;
static struct baseline engine;
static struct sizes sizes;
static struct work works[MOST_WORKS];
static size_t works_count;

/* Numbers */

static uint64_t random_state;

static uint32_t random_word(void)
{
    random_state ^= random_state << 13;
    random_state ^= random_state >> 7;
    random_state ^= random_state << 17;
    return (uint32_t)(random_state >> 16);
}

static void seed_random(uint64_t seed)
{
    random_state = (seed + 1) * 0x9E3779B97F4A7C15u;
    for (int i = 0; i < 8; i++)
        random_word();
}

static int32_t random_between(int32_t low, int32_t high)
{
    return low + (int32_t)(random_word() % (uint32_t)(high - low + 1));
}

static bool random_chance(uint32_t percent)
{
    return random_word() % 100 < percent;
}

static double now(void)
{
    struct timespec t;
    clock_gettime(CLOCK_MONOTONIC, &t);
    return (double)t.tv_sec + (double)t.tv_nsec * 1e-9;
}

static uint32_t word_of(int32_t x, int32_t y)
{
    return (uint32_t)(uint16_t)x << 16 | (uint16_t)y;
}

static void stop(const char *why)
{
    fprintf(stderr, "%s\n", why);
    exit(2);
}

/* Display lists */

static void put(uint32_t number, uint32_t word)
{
    uint8_t *entry = list + 5 * entries++;
    if (entries > ENTRIES)
        stop("the list is too long");
    entry[0] = (uint8_t)(number << 3);
    for (int i = 0; i < 4; i++)
        entry[1 + i] = (uint8_t)(word >> (24 - 8 * i));
}

static void put_clip(int32_t left, int32_t top, int32_t right, int32_t bottom)
{
    put(CLPTL, word_of(left, top));
    put(CLPBR, word_of(right, bottom));
}

static uint32_t flags_of(const struct work *w)
{
    uint32_t flags = w->code << 24;
    flags |= w->clip ? CLIP : 0;
    flags |= w->keyed ? KEYED : 0;
    flags |= w->from_virtual ? FROM_VIRTUAL : 0;
    flags |= w->transparent ? TRNSP : 0;
    return flags;
}

/* A corner of XY0 or XY1, from the upper left corner of the rectangle. */
static uint32_t corner_of(const struct work *w, int32_t left, int32_t top)
{
    return word_of(w->direction & 2 ? left + w->width - 1 : left, w->direction & 1 ? top + w->height - 1 : top);
}

static void scattered_place(const struct work *w, int32_t *x, int32_t *y)
{
    *x = random_between(2, sizes.field - w->width - 2);
    *y = random_between(2, sizes.field - w->height - 2);
}

/* Where a rectangle lies that is drawn in one place. */
static void source_place(const struct work *w, int32_t *x, int32_t *y)
{
    *x = w->move_x < 0 ? -w->move_x + 2 : 3;
    *y = w->move_y < 0 ? -w->move_y + 4 : 5;
}

static void target_place(const struct work *w, int32_t *x, int32_t *y)
{
    source_place(w, x, y);
    *x += w->from_virtual || w->shape == FILL ? 14 : w->move_x;
    *y += w->from_virtual || w->shape == FILL ? 4 : w->move_y;
}

/* Where a hidden blit lies: past the upper left corner of the board, or over all of it, and its source beside it. */
static void hidden_places(const struct work *w, int32_t *from_x, int32_t *from_y, int32_t *to_x, int32_t *to_y)
{
    *to_x = w->hiding == OFF_THE_BOARD ? sizes.shown - w->width : 0;
    *to_y = w->hiding == OFF_THE_BOARD ? sizes.shown - w->height : 0;
    *from_x = *to_x + 3;
    *from_y = *to_y + 5;
}

/* The upper left bit of a stipple: of any glyph in a font beside the field, or of one that is drawn in one place. */
static void bit_place(const struct work *w, int32_t *x, int32_t *y)
{
    source_place(w, x, y);
    *x *= 8;
    if (w->scattered)
        *x = 8 * (sizes.field + 8) + w->width * random_between(0, sizes.glyphs - 1);
    if (w->unaligned)
        *x += random_between(1, 7);
}

/* The upper left corner of a tile: any of some side by side. */
static void tile_place(int32_t *x, int32_t *y)
{
    *x = 3 + 16 * random_between(0, 3);
    *y = 5;
}

static void put_blit(const struct work *w)
{
    int32_t from_x, from_y, to_x, to_y;
    source_place(w, &from_x, &from_y);
    target_place(w, &to_x, &to_y);
    if (w->scattered) {
        scattered_place(w, &from_x, &from_y);
        scattered_place(w, &to_x, &to_y);
    }
    if (w->scattered && (w->move_x != 0 || w->move_y != 0)) {
        to_x = from_x + w->move_x;
        to_y = from_y + w->move_y;
    }
    if (w->hiding != SHOWN)
        hidden_places(w, &from_x, &from_y, &to_x, &to_y);
    if (w->shape == STIPPLE)
        bit_place(w, &from_x, &from_y);
    if (w->shape == TILE)
        tile_place(&from_x, &from_y);
    if (w->shape == FILL)
        put(FORE, random_word() & 0xFF);
    else
        put(XY0, corner_of(w, from_x, from_y));
    put(XY1, corner_of(w, to_x, to_y));
}

/* A clip that hides the right third, or all but a square. */
static void put_blit_clip(const struct work *w)
{
    int32_t x, y;
    target_place(w, &x, &y);
    if (w->hiding != SHOWN) {
        x = sizes.board_width / 2;
        y = sizes.board_height / 2;
        put_clip(x, y, x + sizes.shown - 1, y + sizes.shown - 1);
        return;
    }
    if (w->scattered)
        put_clip(0, 0, sizes.field * 2 / 3, sizes.board_height - 1);
    else
        put_clip(x, y, x + w->width * 2 / 3, y + w->height);
}

static void put_pens(void)
{
    put(FORE, 0xC3);
    put(BACK, 0x3A);
}

static void build_blits(const struct work *w)
{
    static const uint32_t styles[] = {[FILL] = SOLID, [COPY] = 0, [STIPPLE] = STPL, [TILE] = APAT};
    put(CMD, BITBLT | flags_of(w) | styles[w->shape]);
    if (w->shape == STIPPLE)
        put_pens();
    put(MASK, w->mask);
    put(KEY, KEY_BYTE);
    put(XY2, word_of(w->width, w->height));
    put(XY3, w->direction);
    put_blit_clip(w);
    for (int32_t i = 0; i < w->commands; i++)
        put_blit(w);
}

/* The difference from A to B. */
static void random_direction(const struct work *w, int32_t *dx, int32_t *dy)
{
    const int32_t n = w->length - 1;
    const int32_t sign_x = random_chance(50) ? 1 : -1, sign_y = random_chance(50) ? 1 : -1;
    int32_t major = n, minor = n;
    if (w->angle != DIAGONAL)
        minor = w->angle == ANY ? random_between(0, n) : 0;
    const bool steep = w->angle == VERTICAL || (w->angle == ANY && random_chance(50));
    *dx = sign_x * (steep ? minor : major);
    *dy = sign_y * (steep ? major : minor);
}

static bool in_field(int32_t x, int32_t y)
{
    return 0 <= x && x < sizes.field && 0 <= y && y < sizes.field;
}

/* Lines from anywhere in the field, or each from the end of the one before; all end in the field. */
static void put_lines(const struct work *w)
{
    int32_t x = 3, y = 3, dx, dy;
    for (int32_t drawn = 0; drawn < w->commands;) {
        random_direction(w, &dx, &dy);
        if (!w->polyline) {
            x = random_between(0, sizes.field - 1);
            y = random_between(0, sizes.field - 1);
        }
        if (!in_field(x + dx, y + dy))
            continue;
        if (!w->polyline)
            put(XY0, word_of(x, y));
        x += dx;
        y += dy;
        put(XY1, word_of(x, y));
        drawn++;
    }
}

static void build_lines(const struct work *w)
{
    const uint32_t flags = flags_of(w) | (w->dashed ? STPL : SOLID);
    put_pens();
    put(MASK, w->mask);
    put(LPAT, 0x00F0F32D);
    put(PCTRL, (w->dashed ? w->scale - 1 : 0) << 5 | 24);
    put_clip(0, 0, sizes.field / 2 - 1, sizes.field - 1);
    put(CMD, LINE | flags);
    if (w->polyline) {
        put(XY0, word_of(3, 3));
        put(XY1, word_of(3, 3));
        put(CMD, PLINE | flags);
    }
    put_lines(w);
}

static void build_writes(const struct work *w)
{
    static const uint32_t data[] = {BITBLT | SOLID | 3u << 24, 7, 9, 0xFF, 3, 0x12345678, 0x2123, 0, 0x07FF07FF,
                                    0x00100020, 0x00050005, 2};
    for (int32_t i = 0; i < w->commands; i++)
        put((uint32_t)i % 12, data[i % 12]);
}

static void build_list(const struct work *w)
{
    entries = 0;
    seed_random(1);
    if (w->shape == LINES)
        build_lines(w);
    else if (w->shape == WRITES)
        build_writes(w);
    else
        build_blits(w);
}

/* Comparison */

static size_t board_pixels(void)
{
    return (size_t)board.width * board.height;
}

static void seed_pictures(bool many_hits)
{
    seed_random(2);
    for (size_t i = 0; i < board_pixels(); i++) {
        const uint32_t word = random_word();
        const bool hit = many_hits && (word >> 8 & 3) != 0;
        of_library.display[i] = hit ? KEY_BYTE : (uint8_t)word;
        of_library.virt[i] = hit ? KEY_BYTE : (uint8_t)(word >> 16);
    }
    memcpy(of_baseline.display, of_library.display, board_pixels());
    memcpy(of_baseline.virt, of_library.virt, board_pixels());
}

static void make_engines(int32_t width, int32_t height)
{
    if (pramolyt_make(&board, (size_t)width, (size_t)height, ENTRIES) != PRAMOLYT_DONE)
        stop("make was refused");
    baseline_make(&engine, width, height);
}

static void post(void)
{
    uint64_t place;
    if (pramolyt_post(&board, &place, list, sizeof list, 0, entries) != PRAMOLYT_DONE)
        stop("post was refused");
}

static uint64_t run(uint64_t budget)
{
    uint64_t steps;
    const size_t pixels = board_pixels();
    const uint32_t answer = pramolyt_run(&board, &steps, budget, list, sizeof list, of_library.display, pixels,
                                         of_library.virt, pixels);
    if (answer != PRAMOLYT_DONE)
        stop("run was refused");
    return steps;
}

static uint64_t run_baseline(struct pictures *pictures)
{
    return baseline_run(&engine, list, entries, pictures->display, pictures->virt);
}

static bool same_bytes(const char *name, const char *buffer, const uint8_t *library, const uint8_t *baseline)
{
    if (memcmp(library, baseline, board_pixels()) == 0)
        return true;
    size_t i = 0;
    while (library[i] == baseline[i])
        i++;
    printf("DIFFERS: %s: %s (%zu, %zu): library %02X, baseline %02X\n", name, buffer, i % board.width, i / board.width,
           library[i], baseline[i]);
    return false;
}

static bool same_number(const char *name, const char *what, uint64_t library, uint64_t baseline)
{
    if (library != baseline)
        printf("DIFFERS: %s: %s: library %" PRIu64 ", baseline %" PRIu64 "\n", name, what, library, baseline);
    return library == baseline;
}

/* Whether the steps are equal; where blits are hidden, an engine that visits hidden pixels may have more. */
static bool same_steps(const char *name, bool hides, uint64_t library, uint64_t baseline)
{
    return (engine.visits_hidden && hides && library < baseline) || same_number(name, "steps", library, baseline);
}

/* The list once through both engines, from equal buffers. */
static bool draws_the_same(const char *name, bool hides, uint64_t budget, uint64_t *steps)
{
    *steps = 0;
    post();
    while (board.active_taken)
        *steps += run(budget);
    baseline_post(&engine, list, entries);
    const uint64_t baseline_steps = run_baseline(&of_baseline);
    const uint32_t scale = (board.pctrl >> 5 & 7) + 1;
    return same_steps(name, hides, *steps, baseline_steps)
        & same_number(name, "pattern state", board.pattern_place * scale + board.pattern_repeat, engine.phase)
        & same_number(name, "last point", board.last, engine.last)
        & same_bytes(name, "display", of_library.display, of_baseline.display)
        & same_bytes(name, "virtual", of_library.virt, of_baseline.virt);
}

static bool compare_work(struct work *w, uint64_t budget)
{
    uint64_t steps;
    char name[sizeof w->name + sizeof w->size + 2];
    snprintf(name, sizeof name, "%.47s, %.15s", w->name, w->size);
    make_engines(sizes.board_width, sizes.board_height);
    build_list(w);
    seed_pictures(w->many_hits);
    const bool hides = w->shape != LINES && (w->clip || w->hiding != SHOWN);
    const bool same = draws_the_same(name, hides, budget, &steps);
    w->visits = steps - entries;
    return same;
}

/* Random lists, for the comparison alone */

static uint32_t random_style(void)
{
    if (random_chance(15))
        return APAT;
    if (random_chance(40))
        return STPL | (random_chance(10) ? SOLID : 0) | (random_chance(40) ? TRNSP : 0);
    if (random_chance(30))
        return SOLID | (random_chance(20) ? TRNSP : 0);
    return random_chance(40) ? KEYED : 0;
}

static uint32_t random_command(void)
{
    const uint32_t code = (random_chance(25) ? 3 : random_word() % 16) << 24;
    uint32_t flags = code | (random_chance(40) ? CLIP : 0) | (random_chance(30) ? TO_VIRTUAL : 0);
    if (random_chance(3))
        return 0;
    if (random_chance(50))
        return flags | BITBLT | (random_chance(40) ? FROM_VIRTUAL : 0) | random_style();
    flags |= random_chance(50) ? LINE : PLINE;
    flags |= random_chance(30) ? SOLID : STPL;
    flags |= random_chance(30) ? TRNSP : 0;
    flags |= random_chance(30) ? NLST : 0;
    return flags | (random_chance(30) ? PRST : 0);
}

/* Often in one row of the board, so that source and target of a blit share theirs. */
static uint32_t random_point(int32_t columns)
{
    if (random_chance(2))
        return random_word();
    const int32_t height = (int32_t)board.height;
    const int32_t y = random_chance(40) ? height / 3 : random_between(-20, height + 20);
    return word_of(random_between(-20, columns + 20), y);
}

static uint32_t random_pctrl(void)
{
    const uint32_t plen = random_word() % 32, pscl = random_word() % 8;
    return plen | pscl << 5 | random_word() % (plen ? plen : 32) << 8 | random_word() % (pscl + 1) << 13;
}

/* Often KEY_BYTE, or one that leaves raster codes little to do. */
static uint32_t random_byte(void)
{
    static const uint8_t bytes[] = {0, 0xFF, KEY_BYTE, KEY_BYTE};
    return random_chance(60) ? bytes[random_word() % 4] : random_word() & 0xFF;
}

static uint32_t random_data(uint32_t number)
{
    switch (number) {
    case CMD:
        return random_command();
    case MASK:
        return random_chance(50) ? 0xFF : random_word() & 0xFF;
    case FORE:
    case BACK:
    case KEY:
        return random_byte();
    case LPAT:
        return random_word();
    case PCTRL:
        return random_pctrl();
    case XY2:
        return word_of(random_between(0, (int32_t)board.width + 10), random_between(0, (int32_t)board.height + 10));
    case XY3:
        return random_word() % 4;
    case XY0:
        return random_point((int32_t)board.width * (random_chance(40) ? 8 : 1));
    default:
        return random_point((int32_t)board.width);
    }
}

/* Every third list is run a few steps at a time. */
static bool compare_random(uint64_t seed)
{
    uint64_t steps;
    char name[40];
    snprintf(name, sizeof name, "random list %" PRIu64, seed);
    seed_random(seed);
    make_engines(random_between(1, 120), random_between(1, 60));
    seed_pictures(seed % 2 == 0);
    seed_random(seed);
    for (entries = 0; entries < 250;) {
        const uint32_t number = random_chance(30) ? XY1 : random_word() % 13;
        put(number, random_data(number));
    }
    return draws_the_same(name, true, seed % 3 == 0 ? seed : UINT64_MAX, &steps);
}

/* The kinds of work */

static struct work *add(enum shape shape, const char *format, ...)
{
    if (works_count == MOST_WORKS)
        stop("too many kinds");
    struct work *w = &works[works_count++];
    va_list rest;
    va_start(rest, format);
    vsnprintf(w->name, sizeof w->name, format, rest);
    va_end(rest);
    w->shape = shape;
    w->code = 3;
    w->mask = 0xFF;
    w->commands = 1;
    return w;
}

enum extent { LARGE, MIDDLE, SMALL, GLYPH, WIDE_GLYPH };

static void set_extent(struct work *w, enum extent extent)
{
    const int32_t widths[] = {sizes.large_width, sizes.middle_width, sizes.small, 8, 16};
    const int32_t heights[] = {sizes.large_height, sizes.middle_height, sizes.small, 16, 16};
    w->width = widths[extent];
    w->height = heights[extent];
    w->commands = extent >= SMALL ? sizes.small_blits : 1;
    w->scattered = extent >= SMALL;
    w->goal = extent == SMALL ? SMALL_FILLS : FILLS;
    snprintf(w->size, sizeof w->size, "%" PRId32 " x %" PRId32, w->width, w->height);
}

static void add_fills(enum extent extent)
{
    static const uint32_t codes[] = {3, 6, 12, 1};
    for (size_t i = 0; i < 4; i++) {
        for (int masked = 0; masked <= 1; masked++) {
            struct work *w = add(FILL, "fill code %u%s", (unsigned)codes[i], masked ? " mask 0x0F" : "");
            set_extent(w, extent);
            w->code = codes[i];
            w->mask = masked ? 0x0F : 0xFF;
            if (codes[i] == 3 && !masked) {
                w->yardstick = BY_MEMSET;
                w->yardstick_goal = extent == LARGE ? MEMSET : NO_GOAL;
            }
        }
    }
    for (uint32_t code = 3; code <= 6; code += 3) {
        struct work *w = add(FILL, "fill code %u clip", (unsigned)code);
        set_extent(w, extent);
        w->code = code;
        w->clip = true;
    }
}

/* Where a copy goes. */
struct move {
    const char *name;
    bool from_virtual;
    int32_t x, y;
    uint32_t direction;
};

enum { CODE_3, CODE_6, MASKED, FEW_HITS, MANY_HITS, CLIPPED, VARIANTS };

/* A visit reads what an earlier one wrote in the same row. */
static bool smears(const struct move *move)
{
    return move->y == 0 && (move->direction & 2 ? move->x < 0 : move->x > 0);
}

static void add_copy(const struct move *move, enum extent extent, int variant)
{
    static const char *const names[VARIANTS] = {"code 3",       "code 6",        "mask 0x0F",
                                                "KEY few hits", "KEY many hits", "code 3 clip"};
    struct work *w = add(COPY, "copy %s %s", move->name, names[variant]);
    set_extent(w, extent);
    w->from_virtual = move->from_virtual;
    w->move_x = move->x;
    w->move_y = move->y;
    w->direction = move->direction;
    w->code = variant == CODE_6 ? 6 : 3;
    w->mask = variant == MASKED ? 0x0F : 0xFF;
    w->keyed = variant == FEW_HITS || variant == MANY_HITS;
    w->many_hits = variant == MANY_HITS;
    w->clip = variant == CLIPPED;
    if (extent != SMALL)
        w->goal = smears(move) ? SMEARS : w->keyed ? KEYED_COPIES : COPIES;
    else
        w->goal = smears(move) ? SMEARS : w->keyed ? SMALL_KEYED : SMALL_COPIES;
    if (variant == CODE_3 && (move->from_virtual || move->y != 0)) {
        w->yardstick = BY_MEMCPY;
        w->yardstick_goal = extent == LARGE ? MEMCPY : NO_GOAL;
    }
}

static void add_copies(const struct move *move, enum extent extent, int variants)
{
    for (int variant = 0; variant < variants; variant++)
        add_copy(move, extent, variant);
}

static void add_all_copies(void)
{
    const struct move between = {"between", true, 0, 0, 0};
    const struct move within = {"within", false, sizes.within_x, sizes.within_y, 0};
    const struct move scattered = {"within", false, 0, 0, 0};
    const struct move rows[] = {{"up 1", false, 0, -1, 0}, {"down 1", false, 0, 1, 1}, {"down 1 XY3 0", false, 0, 1, 0}};
    const struct move columns[] = {
        {"left 1", false, -1, 0, 0},        {"left 40", false, -40, 0, 0},        {"right 1 XY3 2", false, 1, 0, 2},
        {"right 40 XY3 2", false, 40, 0, 2}, {"left 1 XY3 2", false, -1, 0, 2},   {"left 40 XY3 2", false, -40, 0, 2},
        {"right 1", false, 1, 0, 0},        {"right 40", false, 40, 0, 0},
    };
    add_copies(&between, MIDDLE, VARIANTS);
    add_copies(&between, LARGE, VARIANTS);
    add_copies(&between, SMALL, VARIANTS);
    add_copies(&within, MIDDLE, VARIANTS);
    add_copies(&scattered, SMALL, VARIANTS);
    for (size_t i = 0; i < sizeof rows / sizeof *rows; i++) {
        add_copies(&rows[i], MIDDLE, VARIANTS);
        add_copies(&rows[i], LARGE, VARIANTS);
        add_copies(&rows[i], SMALL, CODE_6 + 1);
    }
    for (size_t i = 0; i < sizeof columns / sizeof *columns; i++) {
        add_copies(&columns[i], MIDDLE, VARIANTS);
        add_copies(&columns[i], LARGE, CODE_6 + 1);
        if (columns[i].x == 1 || columns[i].x == -1)
            add_copies(&columns[i], SMALL, CODE_6 + 1);
    }
}

/* Where the bits of a stipple lie and how it is drawn: plainly, or in one way otherwise. */
enum { PLAINLY, UNALIGNED, UNDER_CLIP, LEFTWARDS, WITHIN };

static void add_stipple(enum extent extent, uint32_t code, bool transparent, int way)
{
    static const char *const names[] = {"", " unaligned", " clip", " XY3 2", " within"};
    struct work *w = add(STIPPLE, "stipple %s code %u%s", transparent ? "TRNSP" : "opaque", (unsigned)code, names[way]);
    set_extent(w, extent);
    w->code = code;
    w->transparent = transparent;
    w->from_virtual = way != WITHIN;
    w->unaligned = way == UNALIGNED;
    w->clip = way == UNDER_CLIP;
    w->direction = way == LEFTWARDS ? 2 : 0;
    w->goal = extent < SMALL ? STIPPLES : w->width == 8 ? GLYPHS : WIDE_GLYPHS;
}

static void add_plain_stipples(enum extent extent)
{
    for (int transparent = 0; transparent <= 1; transparent++)
        for (uint32_t code = 3; code <= 6; code += 3)
            add_stipple(extent, code, transparent, PLAINLY);
}

static void add_other_stipples(enum extent extent)
{
    for (int way = UNALIGNED; way <= LEFTWARDS; way++)
        add_stipple(extent, 3, false, way);
}

static void add_all_stipples(void)
{
    add_plain_stipples(MIDDLE);
    add_other_stipples(MIDDLE);
    add_plain_stipples(GLYPH);
    add_other_stipples(GLYPH);
    add_stipple(GLYPH, 3, true, UNALIGNED);
    add_stipple(GLYPH, 3, false, WITHIN);
    add_stipple(GLYPH, 3, true, WITHIN);
    add_plain_stipples(WIDE_GLYPH);
}

static void add_tile(enum extent extent, uint32_t code, uint32_t mask, bool clip)
{
    struct work *w = add(TILE, "tile code %u%s%s", (unsigned)code, mask == 0xFF ? "" : " mask 0x0F", clip ? " clip" : "");
    set_extent(w, extent);
    w->code = code;
    w->mask = mask;
    w->clip = clip;
    w->from_virtual = true;
    w->goal = extent == SMALL ? SMALL_TILES : TILES;
}

static void add_tiles(enum extent extent)
{
    for (uint32_t code = 3; code <= 6; code += 3) {
        add_tile(extent, code, 0xFF, false);
        add_tile(extent, code, 0xFF, true);
    }
    add_tile(extent, 3, 0x0F, false);
}

static struct work *add_line(const char *name, enum angle angle, bool is_long)
{
    static const char *const names[] = {"any angle", "horizontal", "vertical", "45 degrees"};
    struct work *w = add(LINES, name, names[angle]);
    w->angle = angle;
    w->length = is_long ? sizes.long_line : sizes.short_line;
    w->commands = is_long ? sizes.long_lines : sizes.short_lines;
    snprintf(w->size, sizeof w->size, "%" PRId32, w->length);
    return w;
}

static void add_solid_lines(bool is_long)
{
    for (enum angle angle = ANY; angle <= DIAGONAL; angle++) {
        struct work *w = add_line("line %s code 3", angle, is_long);
        w->goal = !is_long ? SHORT_LINES : angle == HORIZONTAL ? LEVEL_LINES : SOLID_LINES;
        w = add_line("line %s code 6", angle, is_long);
        w->code = 6;
        w->goal = !is_long ? SHORT_LINES : angle == HORIZONTAL ? LEVEL_LINES : SOLID_LINES;
        w = add_line("line %s code 3 clip", angle, is_long);
        w->clip = true;
        w->goal = !is_long ? SHORT_LINES : angle == HORIZONTAL ? LEVEL_LINES : CLIPPED_LINES;
        w = add_line("line %s code 6 clip", angle, is_long);
        w->code = 6;
        w->clip = true;
        w->goal = !is_long ? SHORT_LINES : angle == HORIZONTAL ? LEVEL_LINES : CLIPPED_LINES;
    }
    struct work *w = add_line("PLINE %s code 3", ANY, is_long);
    w->polyline = true;
    w->goal = is_long ? SOLID_LINES : SHORT_LINES;
}

static void add_dashed(enum angle angle, bool is_long, uint32_t scale, bool transparent, bool clip)
{
    char name[48];
    snprintf(name, sizeof name, "dashed %%s %s scale %u%s", transparent ? "TRNSP" : "opaque", (unsigned)scale,
             clip ? " clip" : "");
    struct work *w = add_line(name, angle, is_long);
    w->dashed = true;
    w->scale = scale;
    w->transparent = transparent;
    w->clip = clip;
    w->goal = is_long ? DASHED_LINES : SHORT_DASHES;
}

static void add_dashed_lines(bool is_long)
{
    for (uint32_t scale = 1; scale <= 4; scale += 3) {
        for (int transparent = 0; transparent <= 1; transparent++) {
            add_dashed(ANY, is_long, scale, transparent, false);
            add_dashed(ANY, is_long, scale, transparent, true);
            add_dashed(HORIZONTAL, is_long, scale, transparent, false);
        }
    }
}

/* Blits as large as can be, of which 1 % shows. */
static void add_hidden(enum shape shape, const char *name, uint32_t code, bool from_virtual)
{
    for (enum hiding hiding = OFF_THE_BOARD; hiding <= UNDER_A_CLIP; hiding++) {
        struct work *w = add(shape, "%s code %u %s", name, (unsigned)code,
                             hiding == OFF_THE_BOARD ? "1 % on the board" : "1 % in the clip");
        w->code = code;
        w->width = w->height = SIDE;
        w->from_virtual = from_virtual;
        w->hiding = hiding;
        w->clip = hiding == UNDER_A_CLIP;
        w->goal = HIDDEN;
        snprintf(w->size, sizeof w->size, "%d x %d", SIDE, SIDE);
    }
}

static void add_all_hidden(void)
{
    for (uint32_t code = 3; code <= 6; code += 3) {
        add_hidden(FILL, "fill", code, false);
        add_hidden(COPY, "copy between", code, true);
        add_hidden(COPY, "copy within", code, false);
    }
}

static void add_works(void)
{
    add_fills(MIDDLE);
    add_fills(LARGE);
    add_fills(SMALL);
    add_all_copies();
    add_all_stipples();
    add_all_hidden();
    if (!engine.lacks_tiles) {
        add_tiles(MIDDLE);
        add_tiles(SMALL);
    }
    add_solid_lines(true);
    add_solid_lines(false);
    add_dashed_lines(true);
    add_dashed_lines(false);
    struct work *w = add(WRITES, "register writes (Mentries/s)");
    w->goal = WRITTEN;
    w->commands = sizes.writes;
    snprintf(w->size, sizeof w->size, "%" PRId32, w->commands);
}

/* Time */

/* Best seconds of one list. */
struct timing {
    double run, post_and_run, baseline, yardstick;
};

static const double ROUND_SECONDS = 0.0003, KIND_SECONDS = 0.1;
enum { LEAST_ROUNDS = 4, PASSES = 3 };

static void keep_best(double *best, double took)
{
    if (took < *best)
        *best = took;
}

static void library_round(int repeats, struct timing *best)
{
    double runs = 0;
    const double began = now();
    for (int i = 0; i < repeats; i++) {
        post();
        const double posted = now();
        run(UINT64_MAX);
        runs += now() - posted;
    }
    keep_best(&best->run, runs / repeats);
    keep_best(&best->post_and_run, (now() - began) / repeats);
}

/* On the same memory as the library, so that neither has the better place. */
static void baseline_round(int repeats, struct timing *best)
{
    double runs = 0;
    for (int i = 0; i < repeats; i++) {
        baseline_post(&engine, list, entries);
        const double began = now();
        run_baseline(&of_library);
        runs += now() - began;
    }
    keep_best(&best->baseline, runs / repeats);
}

static void yardstick_once(const struct work *w)
{
    int32_t from_x, from_y, to_x, to_y;
    source_place(w, &from_x, &from_y);
    target_place(w, &to_x, &to_y);
    const uint8_t *source = w->from_virtual ? of_library.virt : of_library.display;
    for (int32_t i = 0; i < w->height; i++) {
        const int32_t row = w->direction & 1 ? w->height - 1 - i : i;
        uint8_t *to = of_library.display + (to_y + row) * sizes.board_width + to_x;
        if (w->yardstick == BY_MEMSET)
            memset(to, (int)(random_state & 0xFF), (size_t)w->width);
        else
            memcpy(to, source + (from_y + row) * sizes.board_width + from_x, (size_t)w->width);
    }
}

static void yardstick_round(const struct work *w, int repeats, struct timing *best)
{
    double runs = 0;
    for (int i = 0; i < repeats; i++) {
        const double began = now();
        yardstick_once(w);
        runs += now() - began;
    }
    keep_best(&best->yardstick, runs / repeats);
}

static int repeats_for(double seconds)
{
    const double repeats = ROUND_SECONDS / seconds;
    return repeats < 1 ? 1 : repeats > 1000 ? 1000 : (int)repeats;
}

/* Rounds of the engines in turn, on the list and the pictures as they stand. */
static void time_work(const struct work *w, struct timing *best)
{
    const bool yardstick = w->yardstick != NO_YARDSTICK && !w->scattered;
    library_round(2, best);
    baseline_round(2, best);
    const int library_repeats = repeats_for(best->post_and_run), baseline_repeats = repeats_for(best->baseline);
    const double began = now();
    for (int round = 0; round < LEAST_ROUNDS || now() - began < KIND_SECONDS; round++) {
        library_round(library_repeats, best);
        baseline_round(baseline_repeats, best);
        if (yardstick)
            yardstick_round(w, baseline_repeats, best);
    }
}

/* The table */

static struct goal goals[GOALS] = {
    [FILLS] = {"fills, 500 x 500 and larger", 0.8, 0, 0, 1e9, 0},
    [COPIES] = {"copies, 500 x 500 and larger", 0.8, 0, 0, 1e9, 0},
    [KEYED_COPIES] = {"copies with KEY, 500 x 500 and larger", 0.8, 0, 0, 1e9, 0},
    [SMEARS] = {"copies that read what they wrote", 0.8, 0, 0, 1e9, 0},
    [SOLID_LINES] = {"solid lines of 500", 0.85, 0, 0, 1e9, 0},
    [CLIPPED_LINES] = {"solid lines of 500 under a clip", 0.8, 0, 0, 1e9, 0},
    [LEVEL_LINES] = {"horizontal lines of 500", 0.8, 0, 0, 1e9, 0},
    [SHORT_LINES] = {"solid lines of 10", 0.75, 0, 0, 1e9, 0},
    [DASHED_LINES] = {"dashed lines of 500", 0.7, 0, 0, 1e9, 0},
    [SHORT_DASHES] = {"dashed lines of 10", 0.7, 0, 0, 1e9, 0},
    [SMALL_FILLS] = {"fills, 10 x 10", 0.9, 0, 0, 1e9, 0},
    [SMALL_COPIES] = {"copies, 10 x 10", 0.8, 0, 0, 1e9, 0},
    [SMALL_KEYED] = {"copies with KEY, 10 x 10", 0.7, 0, 0, 1e9, 0},
    [STIPPLES] = {"stipples, 500 x 500", 0.7, 0, 0, 1e9, 0},
    [GLYPHS] = {"glyphs, 8 x 16", 0.85, 0, 0, 1e9, 0},
    [WIDE_GLYPHS] = {"glyphs, 16 x 16", 0.8, 0, 0, 1e9, 0},
    [HIDDEN] = {"2048 x 2048 of which 1 % shows", 1.0, 0, 0, 1e9, 0},
    [TILES] = {"tiles, 500 x 500", 0.8, 0, 0, 1e9, 0},
    [SMALL_TILES] = {"tiles, 10 x 10", 0.8, 0, 0, 1e9, 0},
    [WRITTEN] = {"register writes", 0.5, 0, 0, 1e9, 0},
    [MEMSET] = {"fills of 2000 x 2000, to memset", 0.7, 0, 0, 1e9, 0},
    [MEMCPY] = {"copies of 2000 x 2000, to memcpy", 0.7, 0, 0, 1e9, 0},
};

static char misses[2 * MOST_WORKS][128];
static int misses_count;

static double units_of(const struct work *w)
{
    return w->shape == WRITES ? w->commands : (double)w->visits;
}

static bool is_small(const struct work *w)
{
    return w->scattered || w->shape == WRITES || (w->shape == LINES && w->length == sizes.short_line);
}

static void note_miss(const struct work *w, const char *against, double ratio, double least)
{
    snprintf(misses[misses_count++], sizeof misses[0], "%-38s %-11s %.3f of %s, %.3f short", w->name, w->size, ratio,
             against, least - ratio);
}

/* Whether a ratio reaches its goal, as the table prints it. */
static const char *judged(const struct work *w, enum goal_number number, const char *against, double ratio)
{
    struct goal *goal = &goals[number];
    if (number == NO_GOAL)
        return "";
    if (ratio < goal->lowest)
        goal->lowest = ratio;
    if (ratio > goal->highest)
        goal->highest = ratio;
    if (ratio >= goal->least) {
        goal->met++;
        return "met";
    }
    goal->missed++;
    note_miss(w, against, ratio, goal->least);
    return "MISSED";
}

static void print_head(void)
{
    printf("%-38s %-11s %8s %8s %6s %4s %-6s %8s %6s %8s %6s\n", "kind", "size", "library", "baseline", "ratio", "goal",
           "", "w. post", "ratio", "libc", "ratio");
}

/* A number, or as many blanks. */
static void print_number(int width, int decimals, double value, bool shown)
{
    if (shown)
        printf(" %*.*f", width, decimals, value);
    else
        printf(" %*s", width, "");
}

static void print_row(const struct work *w, const struct timing *t)
{
    const double millions = units_of(w) / 1e6;
    const double ratio = t->baseline / t->run, libc_ratio = t->yardstick / t->run;
    const bool yardstick = w->yardstick != NO_YARDSTICK && !w->scattered;
    printf("%-38s %-11s %8.0f %8.0f %6.2f", w->name, w->size, millions / t->run, millions / t->baseline, ratio);
    print_number(4, 2, goals[w->goal].least, w->goal != NO_GOAL);
    printf(" %-6s", judged(w, w->goal, "the baseline", ratio));
    print_number(8, 0, millions / t->post_and_run, is_small(w));
    print_number(6, 2, t->baseline / t->post_and_run, is_small(w));
    print_number(8, 0, millions / t->yardstick, yardstick);
    print_number(6, 2, libc_ratio, yardstick);
    printf(" %s\n", judged(w, w->yardstick_goal, w->yardstick == BY_MEMSET ? "memset" : "memcpy", libc_ratio));
}

static void print_goals(void)
{
    printf("\n%-38s %4s %4s %6s %6s %7s\n", "goals", "goal", "met", "missed", "lowest", "highest");
    for (int i = 0; i < GOALS; i++)
        if (goals[i].met + goals[i].missed > 0)
            printf("%-38s %4.2f %4d %6d %6.2f %7.2f\n", goals[i].name, goals[i].least, goals[i].met, goals[i].missed,
                   goals[i].lowest, goals[i].highest);
    if (misses_count > 0)
        printf("\nmissed\n");
    for (int i = 0; i < misses_count; i++)
        printf("%s\n", misses[i]);
}

/* Cut runs */

enum { BUDGET = 1000 };

static double cut_once(uint64_t budget, int *calls)
{
    post();
    const double began = now();
    for (*calls = 0; board.active_taken; ++*calls)
        run(budget);
    return now() - began;
}

/* The same by the plain C run, on the baseline's pictures, with the board's record. */
static double cut_once_in_c(uint64_t budget)
{
    const size_t pixels = board_pixels();
    uint64_t steps;
    post();
    const double began = now();
    while (board.active_taken)
        if (cut_run(&board, &steps, budget, list, sizeof list, of_baseline.display, pixels, of_baseline.virt, pixels) != PRAMOLYT_DONE)
            stop("the plain C run was refused");
    return now() - began;
}

static bool print_cut(const struct work *w)
{
    double whole = 1e9, cut = 1e9, plain = 1e9;
    int calls = 0, ignored;
    bool same = true;
    const double began = now();
    if (w->hiding != SHOWN) {
        cut_once(BUDGET, &calls);
        cut_once_in_c(BUDGET);
        same = same_bytes(w->name, "display", of_library.display, of_baseline.display)
             & same_bytes(w->name, "virtual", of_library.virt, of_baseline.virt);
    }
    while (now() - began < PASSES * KIND_SECONDS) {
        keep_best(&whole, cut_once(UINT64_MAX, &ignored));
        keep_best(&cut, cut_once(BUDGET, &calls));
        if (w->hiding != SHOWN)
            keep_best(&plain, cut_once_in_c(BUDGET));
    }
    printf("%-38s %-11s %8.0f %8.0f %6.2f %8d %8.0f", w->name, w->size, units_of(w) / 1e6 / whole, units_of(w) / 1e6 / cut,
           whole / cut, calls, (cut - whole) / calls * 1e9);
    print_number(8, 0, units_of(w) / 1e6 / plain, w->hiding != SHOWN);
    print_number(6, 2, plain / cut, w->hiding != SHOWN);
    printf("\n");
    return same;
}

static bool is_cut(const struct work *w)
{
    static const char *const names[] = {"fill code 3",           "fill code 6",
                                        "copy between code 3",   "copy within code 6",
                                        "stipple opaque code 3", "tile code 3",
                                        "tile code 6",           "line any angle code 3",
                                        "dashed any angle opaque scale 4"};
    if (w->hiding != SHOWN)
        return w->code == 3;
    for (size_t i = 0; i < sizeof names / sizeof *names; i++)
        if (strcmp(w->name, names[i]) == 0 && !is_small(w) && w->width != sizes.large_width)
            return true;
    return false;
}

static int cut_all(const char *word)
{
    int differences = 0;
    bool headed = false;
    for (size_t i = 0; i < works_count; i++) {
        if (!is_cut(&works[i]) || (word && !strstr("cut", word)))
            continue;
        if (!headed)
            printf("\n%-38s %-11s %8s %8s %6s %8s %8s %8s %6s\n", "cut into budgets of 1000 steps", "size", "whole", "cut",
                   "ratio", "calls", "ns/call", "plain C", "ratio");
        headed = true;
        differences += !compare_work(&works[i], BUDGET);
        differences += !print_cut(&works[i]);
    }
    return differences;
}

/* The two ways to run */

static int compare_all(void)
{
    enum { RANDOM_LISTS = 1000, TINY_BUDGET = 7 };
    int passed = 0, failed = 0;
    for (size_t i = 0; i < works_count; i++)
        compare_work(&works[i], i % 2 ? TINY_BUDGET : UINT64_MAX) ? passed++ : failed++;
    for (uint64_t seed = 1; seed <= RANDOM_LISTS; seed++)
        compare_random(seed) ? passed++ : failed++;
    printf("%d passed, %d failed\n", passed, failed);
    return failed != 0;
}

static bool is_asked_for(const struct work *w, const char *word)
{
    return !word || strstr(w->name, word) || strstr(w->size, word);
}

/* Several passes over all kinds, so that a busy moment of the machine does not spoil all rounds of one kind. */
static int time_all(const char *word)
{
    static struct timing best[MOST_WORKS];
    int differences = 0;
    for (size_t i = 0; i < works_count; i++)
        best[i] = (struct timing){1e9, 1e9, 1e9, 1e9};
    for (int pass = 0; pass < PASSES; pass++) {
        for (size_t i = 0; i < works_count; i++) {
            if (!is_asked_for(&works[i], word))
                continue;
            differences += !compare_work(&works[i], UINT64_MAX);
            time_work(&works[i], &best[i]);
        }
    }
    print_head();
    for (size_t i = 0; i < works_count; i++)
        if (is_asked_for(&works[i], word))
            print_row(&works[i], &best[i]);
    differences += cut_all(word);
    print_goals();
    if (differences > 0)
        printf("%d comparisons found a difference\n", differences);
    return differences != 0;
}

int main(int argc, char **argv)
{
    const bool tiny = argc > 1 && strcmp(argv[1], "tiny") == 0;
    sizes = tiny ? tiny_sizes : full_sizes;
    make_engines(sizes.board_width, sizes.board_height);
    add_works();
    return tiny ? compare_all() : time_all(argc > 1 ? argv[1] : NULL);
}
