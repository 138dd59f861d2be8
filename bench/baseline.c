#include "engine.h"

#include <string.h>

enum { NOOP = 0, BITBLT = 1, LINE = 2, PLINE = 5 };

/* Cold in this file alone: the compiler then lays out the other commands as if these calls were not there. */
__attribute__((cold)) void stipple_box(const struct baseline *engine, uint8_t *target, const uint8_t *source,
                                       struct box box);
__attribute__((cold)) void tile_box(const struct baseline *engine, uint8_t *target, const uint8_t *source, struct box box);

static inline int32_t magnitude(int32_t a)
{
    return a < 0 ? -a : a;
}

static inline bool holds(struct box a, struct point p)
{
    return a.left <= p.x && p.x <= a.right && a.top <= p.y && p.y <= a.bottom;
}

/* The pixels that buffer and clip let through. */
static struct box window_of(const struct baseline *engine)
{
    const struct box board = {0, 0, engine->width - 1, engine->height - 1};
    if (!(engine->registers[CMD] & CLIP))
        return board;
    const struct point first = point_of(engine->registers[CLPTL]);
    const struct point second = point_of(engine->registers[CLPBR]);
    return overlap_of(board, (struct box){first.x, first.y, second.x, second.y});
}

static inline uint8_t mixed(struct mix m, uint8_t old, uint8_t source)
{
    return (uint8_t)((old & ((source & m.a) ^ m.b)) ^ ((source & m.c) ^ m.e));
}

static inline bool draws_nothing(struct pen pen)
{
    return pen.keep == 0xFF && pen.flip == 0;
}

/* Rows. Where a row has a source, the two do not overlap. */

static inline void fill_row(uint8_t *to, size_t count, struct pen pen)
{
    if (pen.keep == 0 && count >= 32) {
        memset(to, pen.flip, count);
        return;
    }
#pragma GCC unroll 4
    for (size_t i = 0; i < count; i++)
        to[i] = (to[i] & pen.keep) ^ pen.flip;
}

static inline void mix_row(uint8_t *restrict to, const uint8_t *restrict from, size_t count, struct mix m)
{
#pragma GCC unroll 4
    for (size_t i = 0; i < count; i++)
        to[i] = mixed(m, to[i], from[i]);
}

static inline void keyed_row(uint8_t *restrict to, const uint8_t *restrict from, size_t count, struct mix m, uint8_t key)
{
#pragma GCC unroll 4
    for (size_t i = 0; i < count; i++)
        to[i] = from[i] == key ? to[i] : mixed(m, to[i], from[i]);
}

/* Blits */

struct copy {
    struct mix mix;
    uint8_t key;
    bool keyed, plain;
    int32_t direction; /* 1 left to right, -1 right to left */
};

static struct copy copy_of(const struct baseline *engine)
{
    const struct mix m = mix_of(engine);
    const bool keyed = engine->registers[CMD] & KEYED;
    return (struct copy){
        .mix = m,
        .key = (uint8_t)engine->registers[KEY],
        .keyed = keyed,
        .plain = !keyed && m.a == 0 && m.b == 0 && m.c == 0xFF && m.e == 0,
        .direction = engine->registers[XY3] & 2 ? -1 : 1,
    };
}

static inline void copy_row(const struct copy *copy, uint8_t *restrict to, const uint8_t *restrict from, size_t count)
{
    if (copy->plain)
        memcpy(to, from, count);
    else if (copy->keyed)
        keyed_row(to, from, count, copy->mix, copy->key);
    else
        mix_row(to, from, count, copy->mix);
}

/* Each visit reads what earlier ones wrote. */
static void copy_bytes(const struct copy *copy, uint8_t *buffer, ptrdiff_t to, ptrdiff_t ahead, size_t count)
{
    const struct copy c = *copy;
    uint8_t *p = c.direction > 0 ? buffer + to : buffer + to + count - 1;
    if (c.plain) {
        for (; count > 0; count--, p += c.direction)
            *p = p[ahead];
    } else if (c.keyed) {
        for (; count > 0; count--, p += c.direction)
            *p = p[ahead] == c.key ? *p : mixed(c.mix, *p, p[ahead]);
    } else {
        for (; count > 0; count--, p += c.direction)
            *p = mixed(c.mix, *p, p[ahead]);
    }
}

/* A row onto itself, its source `ahead` bytes further. */
static void copy_within_row(const struct copy *copy, uint8_t *buffer, ptrdiff_t to, ptrdiff_t ahead, size_t count,
                            uint8_t *saved)
{
    if ((size_t)magnitude((int32_t)ahead) >= count) {
        copy_row(copy, buffer + to, buffer + to + ahead, count);
    } else if (ahead * copy->direction < 0) {
        copy_bytes(copy, buffer, to, ahead, count);
    } else if (copy->plain) {
        memmove(buffer + to, buffer + to + ahead, count);
    } else {
        memcpy(saved, buffer + to + ahead, count);
        copy_row(copy, buffer + to, saved, count);
    }
}

static void fill_box(uint8_t *buffer, ptrdiff_t pitch, struct box box, struct pen pen)
{
    if (draws_nothing(pen))
        return;
    const size_t count = (size_t)(box.right - box.left + 1);
    uint8_t *to = buffer + box.top * pitch + box.left;
    for (int32_t rows = box.bottom - box.top + 1; rows > 0; rows--, to += pitch)
        fill_row(to, count, pen);
}

static void copy_box(struct baseline *engine, uint8_t *target, const uint8_t *source, struct box box,
                     struct point ahead)
{
    const ptrdiff_t pitch = engine->width;
    const struct copy copy = copy_of(engine);
    const bool upwards = engine->registers[XY3] & 1;
    const ptrdiff_t step = upwards ? -pitch : pitch;
    const size_t count = (size_t)(box.right - box.left + 1);
    ptrdiff_t to = (upwards ? box.bottom : box.top) * pitch + box.left;
    const bool same_rows = target == source && ahead.y == 0;
    for (int32_t rows = box.bottom - box.top + 1; rows > 0; rows--, to += step) {
        if (same_rows)
            copy_within_row(&copy, target, to, ahead.x, count, engine->saved);
        else
            copy_row(&copy, target + to, source + to + ahead.y * pitch + ahead.x, count);
    }
}

static uint64_t blit(struct baseline *engine, uint8_t *const buffers[2])
{
    const uint32_t cmd = engine->registers[CMD];
    const int32_t width = (int32_t)(engine->registers[XY2] >> 16);
    const int32_t height = (int32_t)(engine->registers[XY2] & 0xFFFF);
    const struct point to = point_of(engine->registers[XY1]);
    const int32_t left = engine->registers[XY3] & 2 ? to.x - width + 1 : to.x;
    const int32_t top = engine->registers[XY3] & 1 ? to.y - height + 1 : to.y;
    const struct box drawn = {left, top, left + width - 1, top + height - 1};
    struct box box = overlap_of(window_of(engine), drawn);
    const uint64_t visited = pixels_of(box);
    uint8_t *target = buffers[cmd & TO_VIRTUAL ? 1 : 0];
    if (cmd & SOLID) {
        if (!is_empty(box))
            fill_box(target, engine->width, box, pen_of(mix_of(engine), engine->registers[FORE]));
    } else if (cmd & (STPL | APAT)) {
        const uint8_t *source = buffers[cmd & FROM_VIRTUAL ? 1 : 0];
        if (cmd & STPL)
            stipple_box(engine, target, source, box);
        else
            tile_box(engine, target, source, box);
    } else {
        const struct point from = point_of(engine->registers[XY0]);
        const struct point ahead = {from.x - to.x, from.y - to.y};
        const struct box readable = {-ahead.x, -ahead.y, engine->width - 1 - ahead.x, engine->height - 1 - ahead.y};
        box = overlap_of(box, readable);
        if (!is_empty(box))
            copy_box(engine, target, buffers[cmd & FROM_VIRTUAL ? 1 : 0], box, ahead);
    }
    return visited;
}

/* Lines. Pixel i has the major coordinate A's + i * direction and the minor one A's + floor((2 i slope + n - 1) / 2n). */

struct line {
    int32_t n, slope; /* pixels after the first; signed minor difference */
    int32_t major, minor, direction;
    bool steep;       /* y is the major axis */
};

/* The visible part of a line, ready to be drawn: while rest + rise < 0 the minor coordinate stays. */
struct stroke {
    uint8_t *start;
    uint32_t count;
    ptrdiff_t along, across;
    int32_t rest, rise, wrap;
};

static inline struct line line_of(struct point a, struct point b)
{
    const int32_t dx = b.x - a.x, dy = b.y - a.y;
    if (magnitude(dx) >= magnitude(dy))
        return (struct line){magnitude(dx), dy, a.x, a.y, dx < 0 ? -1 : 1, false};
    return (struct line){magnitude(dy), dx, a.y, a.x, dy < 0 ? -1 : 1, true};
}

static int64_t floor_of(int64_t a, int64_t b)
{
    return a / b - (a % b < 0);
}

struct range {
    int64_t first, last;
};

/* The pixels of the line whose minor coordinate lies in low to high. */
static struct range minor_range(const struct line *line, int32_t low, int32_t high)
{
    const int64_t n = line->n, slope = line->slope;
    const int64_t below = 2 * n * (low - line->minor) - n + 1;
    const int64_t above = 2 * n * (high + 1 - line->minor) - n + 1;
    if (slope == 0)
        return low <= line->minor && line->minor <= high ? (struct range){0, n} : (struct range){1, 0};
    if (slope > 0)
        return (struct range){-floor_of(-below, 2 * slope), -floor_of(-above, 2 * slope) - 1};
    return (struct range){floor_of(-above, -2 * slope) + 1, floor_of(-below, -2 * slope)};
}

static struct range major_range(const struct line *line, int32_t low, int32_t high)
{
    if (line->direction > 0)
        return (struct range){low - line->major, high - line->major};
    return (struct range){line->major - high, line->major - low};
}

static struct range visible_range(const struct line *line, struct box window, int64_t last)
{
    const struct range major = line->steep ? major_range(line, window.top, window.bottom)
                                           : major_range(line, window.left, window.right);
    const struct range minor = line->steep ? minor_range(line, window.left, window.right)
                                           : minor_range(line, window.top, window.bottom);
    struct range seen = {0, last};
    if (major.first > seen.first)
        seen.first = major.first;
    if (minor.first > seen.first)
        seen.first = minor.first;
    if (major.last < seen.last)
        seen.last = major.last;
    if (minor.last < seen.last)
        seen.last = minor.last;
    return seen;
}

static struct stroke stroke_of(const struct line *line, struct range seen, uint8_t *buffer, ptrdiff_t pitch)
{
    int32_t minor = line->minor, past = line->n - 1; /* past: how far above the minor coordinate, in 2n-ths */
    if (seen.first > 0) {
        const int64_t raised = 2 * seen.first * line->slope + line->n - 1;
        const int64_t quotient = floor_of(raised, 2 * (int64_t)line->n);
        minor += (int32_t)quotient;
        past = (int32_t)(raised - quotient * 2 * line->n);
    }
    const int32_t major = line->major + line->direction * (int32_t)seen.first;
    const ptrdiff_t across = line->steep ? 1 : pitch;
    return (struct stroke){
        .start = buffer + (line->steep ? major * pitch + minor : minor * pitch + major),
        .count = (uint32_t)(seen.last - seen.first + 1),
        .along = line->steep ? line->direction * pitch : line->direction,
        .across = line->slope < 0 ? -across : across,
        .rest = line->slope < 0 ? -1 - past : past - 2 * line->n,
        .rise = 2 * magnitude(line->slope),
        .wrap = 2 * line->n,
    };
}

static inline uint8_t *next_pixel(const struct stroke *stroke, uint8_t *p, int32_t *rest)
{
    const int32_t risen = *rest + stroke->rise;
    *rest = risen >= 0 ? risen - stroke->wrap : risen;
    return p + stroke->along + (risen >= 0 ? stroke->across : 0);
}

/* Horizontal, vertical and diagonal lines. */
static void draw_even(uint8_t *p, uint32_t count, ptrdiff_t step, struct pen pen)
{
    if (pen.keep == 0) {
        for (; count > 0; count--, p += step)
            *p = pen.flip;
    } else {
        for (; count > 0; count--, p += step)
            *p = (*p & pen.keep) ^ pen.flip;
    }
}

static void draw_solid(struct stroke stroke, struct pen pen)
{
    uint8_t *p = stroke.start;
    int32_t rest = stroke.rest;
    if (draws_nothing(pen))
        return;
    if (stroke.rise == 0 && (stroke.along == 1 || stroke.along == -1)) {
        fill_row(stroke.along < 0 ? p - (stroke.count - 1) : p, stroke.count, pen);
    } else if (stroke.rise == 0 || stroke.rise == stroke.wrap) {
        draw_even(p, stroke.count, stroke.along + (stroke.rise == 0 ? 0 : stroke.across), pen);
    } else if (pen.keep == 0) {
        for (uint32_t left = stroke.count; left > 0; left--, p = next_pixel(&stroke, p, &rest))
            *p = pen.flip;
    } else {
        for (uint32_t left = stroke.count; left > 0; left--, p = next_pixel(&stroke, p, &rest))
            *p = (*p & pen.keep) ^ pen.flip;
    }
}

static void refresh_dots(struct baseline *engine)
{
    const uint32_t pctrl = engine->registers[PCTRL], lpat = engine->registers[LPAT];
    const uint32_t length = pctrl & 31 ? pctrl & 31 : 32;
    const uint32_t scale = (pctrl >> 5 & 7) + 1;
    for (uint32_t place = 0; place < length; place++)
        memset(engine->dots + place * scale, lpat >> place & 1, scale);
    engine->period = length * scale;
    engine->stale = false;
}

static void draw_dashed(struct baseline *engine, struct stroke stroke, struct pen fore, struct pen back)
{
    const struct pen pens[2] = {back, fore};
    const uint32_t period = engine->period;
    uint32_t phase = engine->phase;
    uint8_t *p = stroke.start;
    int32_t rest = stroke.rest;
    for (uint32_t left = stroke.count; left > 0; left--, p = next_pixel(&stroke, p, &rest)) {
        const struct pen pen = pens[engine->dots[phase]];
        *p = (*p & pen.keep) ^ pen.flip;
        phase = phase + 1 == period ? 0 : phase + 1;
    }
    engine->phase = phase;
}

/* Hidden pixels move the pattern too. */
static void pass_over(struct baseline *engine, int64_t pixels)
{
    if (!(engine->registers[CMD] & SOLID) && pixels > 0)
        engine->phase = (engine->phase + (uint32_t)pixels) % engine->period;
}

static void start_pattern(struct baseline *engine)
{
    const uint32_t pctrl = engine->registers[PCTRL];
    engine->phase = (pctrl >> 8 & 31) * ((pctrl >> 5 & 7) + 1) + (pctrl >> 13 & 7);
}

static void draw_line(struct baseline *engine, struct stroke stroke)
{
    const struct mix m = mix_of(engine);
    const struct pen fore = pen_of(m, engine->registers[FORE]);
    const struct pen nothing = {0xFF, 0};
    if (engine->registers[CMD] & SOLID) {
        draw_solid(stroke, fore);
        return;
    }
    draw_dashed(engine, stroke, fore,
                engine->registers[CMD] & TRNSP ? nothing : pen_of(m, engine->registers[BACK]));
}

static uint64_t line(struct baseline *engine, uint8_t *const buffers[2])
{
    const uint32_t cmd = engine->registers[CMD];
    const struct point a = point_of(cmd >> 28 == PLINE ? engine->last : engine->registers[XY0]);
    const struct point b = point_of(engine->registers[XY1]);
    const struct line line = line_of(a, b);
    const struct box window = window_of(engine);
    const int64_t last = cmd & NLST ? line.n - 1 : line.n;
    if (cmd & PRST)
        start_pattern(engine);
    if (engine->stale && !(cmd & SOLID))
        refresh_dots(engine);
    struct range seen = {0, last};
    if (is_empty(window))
        seen.last = -1;
    else if (!holds(window, a) || !holds(window, b))
        seen = visible_range(&line, window, last);
    if (seen.first > seen.last) {
        pass_over(engine, last + 1);
    } else {
        uint8_t *target = buffers[cmd & TO_VIRTUAL ? 1 : 0];
        pass_over(engine, seen.first);
        draw_line(engine, stroke_of(&line, seen, target, engine->width));
        pass_over(engine, last - seen.last);
    }
    return (uint64_t)last + 1;
}

/* Lists */

static uint64_t trigger(struct baseline *engine, uint8_t *const buffers[2])
{
    uint64_t visited;
    switch (engine->registers[CMD] >> 28) {
    case BITBLT:
        visited = blit(engine, buffers);
        break;
    case LINE:
    case PLINE:
        visited = line(engine, buffers);
        break;
    default:
        return 0;
    }
    engine->last = engine->registers[XY1];
    return visited;
}

static inline uint32_t word_at(const uint8_t *bytes)
{
    return (uint32_t)bytes[0] << 24 | (uint32_t)bytes[1] << 16 | (uint32_t)bytes[2] << 8 | bytes[3];
}

void baseline_make(struct baseline *engine, int32_t width, int32_t height)
{
    memset(engine, 0, sizeof *engine);
    engine->width = width;
    engine->height = height;
    engine->registers[MASK] = 0xFF;
    engine->stale = true;
}

void baseline_post(struct baseline *engine, const uint8_t *list, size_t entries)
{
    (void)engine;
    (void)list;
    (void)entries;
}

uint64_t baseline_run(struct baseline *engine, const uint8_t *list, size_t entries, uint8_t *display, uint8_t *virt)
{
    uint8_t *const buffers[2] = {display, virt};
    uint64_t steps = entries;
    for (const uint8_t *entry = list, *end = list + 5 * entries; entry < end; entry += 5) {
        const uint32_t number = entry[0] >> 3;
        engine->registers[number] = word_at(entry + 1);
        if (number == XY1) {
            steps += trigger(engine, buffers);
        } else if (number == LPAT || number == PCTRL) {
            engine->stale = true;
            if (number == PCTRL)
                start_pattern(engine);
        }
    }
    return steps;
}
