#include "engine.h"

#include <string.h>

enum {
    GROUP = 8, /* pixels drawn at once */
    WIDE = 64, /* the least width of a row that is drawn by whole bytes of its source */
};

/* The visible part of a stippled blit, ready to be drawn. */
struct stipple {
    uint8_t *to;         /* the leftmost pixel of the first row */
    const uint8_t *from; /* the byte with that pixel's bit */
    uint32_t skipped;    /* bits before it in the byte */
    size_t width, height;
    ptrdiff_t step;      /* bytes from row to row */
    int32_t direction;   /* 1 left to right, -1 right to left */
    bool within_row;     /* a row may read what it wrote */
    struct pen pens[2];  /* for a 0, for a 1 */
};

/* What a 0 does to the pixels of a group, and in which bits a 1 does otherwise. */
struct pens {
    uint64_t keep, flip;
    uint64_t other_keep, other_flip;
};

static inline uint64_t in_each_byte(uint8_t byte)
{
    return byte * UINT64_C(0x0101010101010101);
}

/* The bits of a byte as bytes, 0 or 1, in memory from the most significant bit on. */
static inline uint64_t spread(uint8_t bits)
{
    static const uint8_t places[GROUP] = {0x80, 0x40, 0x20, 0x10, 0x08, 0x04, 0x02, 0x01};
    uint64_t place;
    memcpy(&place, places, sizeof place);
    return ((in_each_byte(bits) & place) + in_each_byte(0x7F)) >> 7 & in_each_byte(1);
}

/* Opaque pens keep nothing, so the old pixels need not be read. */
static inline void draw_group(uint8_t *to, uint8_t bits, struct pens pens, bool opaque)
{
    const uint64_t ones = spread(bits);
    uint64_t pixels = 0;
    if (!opaque) {
        memcpy(&pixels, to, sizeof pixels);
        pixels &= pens.keep ^ ones * pens.other_keep;
    }
    pixels ^= pens.flip ^ ones * pens.other_flip;
    memcpy(to, &pixels, sizeof pixels);
}

static inline void draw_groups(uint8_t *to, const uint8_t *from, size_t groups, struct pens pens, bool opaque)
{
#pragma GCC unroll 4
    for (; groups > 0; groups--, to += GROUP, from++)
        draw_group(to, *from, pens, opaque);
}

/* Fewer pixels than a group has. */
static inline void draw_few(uint8_t *to, uint32_t bits, size_t count, const struct pen pens[2])
{
    for (; count > 0; count--, to++, bits <<= 1) {
        const struct pen pen = pens[bits >> 7 & 1];
        *to = (*to & pen.keep) ^ pen.flip;
    }
}

/* The next bits from a place in a byte on; the byte after it is read only where some of `count` lie there. */
static inline uint32_t bits_at(const uint8_t *from, uint32_t skipped, size_t count)
{
    const uint32_t bits = (uint32_t)from[0] << skipped;
    return skipped + count > 8 ? bits | from[1] >> (8 - skipped) : bits;
}

/* Groups from the first pixel on, wherever their bits begin. The old pixels are always read: stores alone to lines that
 * are not in the cache are slower. */
static inline void draw_narrow(const struct stipple *s, struct pens pens)
{
    const size_t groups = s->width / GROUP, few = s->width % GROUP;
    const uint32_t skipped = s->skipped;
    const ptrdiff_t step = s->step;
    uint8_t *to = s->to;
    const uint8_t *from = s->from;
    for (size_t rows = s->height; rows > 0; rows--, to += step, from += step) {
        for (size_t i = 0; i < groups; i++)
            draw_group(to + i * GROUP, (uint8_t)bits_at(from + i, skipped, GROUP), pens, false);
        if (few > 0)
            draw_few(to + groups * GROUP, bits_at(from + groups, skipped, few), few, s->pens);
    }
}

/* The bits of a first partial byte, whole bytes, and the bits of a last partial byte. */
static inline void draw_wide(const struct stipple *s, struct pens pens, bool opaque)
{
    const size_t first = s->skipped > 0 ? 8 - s->skipped : 0;
    const size_t groups = (s->width - first) / GROUP, last = (s->width - first) % GROUP;
    const ptrdiff_t step = s->step;
    uint8_t *to = s->to;
    const uint8_t *from = s->from;
    for (size_t rows = s->height; rows > 0; rows--, to += step, from += step) {
        const uint8_t *whole = first > 0 ? from + 1 : from;
        draw_few(to, (uint32_t)*from << s->skipped, first, s->pens);
        draw_groups(to + first, whole, groups, pens, opaque);
        if (last > 0)
            draw_few(to + first + groups * GROUP, whole[groups], last, s->pens);
    }
}

/* Each visit reads what earlier ones wrote. */
static void draw_bits(const struct stipple *s)
{
    uint8_t *to = s->to;
    const uint8_t *from = s->from;
    for (size_t rows = s->height; rows > 0; rows--, to += s->step, from += s->step) {
        size_t place = s->direction > 0 ? 0 : s->width - 1;
        for (size_t count = s->width; count > 0; count--, place += (size_t)s->direction) {
            const size_t bit = s->skipped + place;
            const struct pen pen = s->pens[from[bit / 8] >> (7 - bit % 8) & 1];
            to[place] = (to[place] & pen.keep) ^ pen.flip;
        }
    }
}

static void draw(const struct stipple *s)
{
    const struct pen zero = s->pens[0], one = s->pens[1];
    const struct pens pens = {in_each_byte(zero.keep), in_each_byte(zero.flip), zero.keep ^ one.keep,
                              zero.flip ^ one.flip};
    if (s->within_row)
        draw_bits(s);
    else if (s->width < WIDE)
        draw_narrow(s, pens);
    else if (zero.keep == 0 && one.keep == 0)
        draw_wide(s, pens, true);
    else
        draw_wide(s, pens, false);
}

/* A box that is not empty, whose bits lie in the source. */
static struct stipple stipple_of(const struct baseline *engine, uint8_t *target, const uint8_t *source, struct box box,
                                 struct point ahead)
{
    const struct mix m = mix_of(engine);
    const struct pen nothing = {0xFF, 0};
    const struct pen fore = pen_of(m, engine->registers[FORE]), back = pen_of(m, engine->registers[BACK]);
    const bool upwards = engine->registers[XY3] & 1;
    const ptrdiff_t pitch = engine->width, y = upwards ? box.bottom : box.top;
    const uint32_t first = (uint32_t)(box.left + ahead.x), last = (uint32_t)(box.right + ahead.x); /* bits */
    return (struct stipple){
        .to = target + y * pitch + box.left,
        .from = source + (y + ahead.y) * pitch + first / 8,
        .skipped = first % 8,
        .width = (size_t)(box.right - box.left + 1),
        .height = (size_t)(box.bottom - box.top + 1),
        .step = upwards ? -pitch : pitch,
        .direction = engine->registers[XY3] & 2 ? -1 : 1,
        .within_row = target == source && ahead.y == 0 && first / 8 <= (uint32_t)box.right
                      && (uint32_t)box.left <= last / 8,
        .pens = {engine->registers[CMD] & TRNSP ? nothing : back, fore},
    };
}

void stipple_box(const struct baseline *engine, uint8_t *target, const uint8_t *source, struct box box)
{
    const struct point to = point_of(engine->registers[XY1]), from = point_of(engine->registers[XY0]);
    const struct point ahead = {from.x - to.x, from.y - to.y};
    const struct box readable = {-ahead.x, -ahead.y, 8 * engine->width - 1 - ahead.x, engine->height - 1 - ahead.y};
    box = overlap_of(box, readable);
    if (is_empty(box))
        return;
    const struct stipple stipple = stipple_of(engine, target, source, box, ahead);
    draw(&stipple);
}
