/* What the files of the plain C engine share. */
#ifndef ENGINE_H
#define ENGINE_H

#include "baseline.h"

enum { CMD, FORE, BACK, MASK, KEY, LPAT, PCTRL, CLPTL, CLPBR, XY0, XY2, XY3, XY1 };

#define SOLID (1u << 23)
#define TRNSP (1u << 22)
#define STPL (1u << 21)
#define KEYED (1u << 20)
#define NLST (1u << 19)
#define PRST (1u << 18)
#define CLIP (1u << 17)
#define FROM_VIRTUAL (1u << 16)
#define TO_VIRTUAL (1u << 15)
#define APAT (1u << 14)

struct point {
    int32_t x, y;
};

/* Both corners inside; empty where right < left or bottom < top. */
struct box {
    int32_t left, top, right, bottom;
};

/* new = (old & ((source & a) ^ b)) ^ ((source & c) ^ e) */
struct mix {
    uint8_t a, b, c, e;
};

/* The same with the source fixed: new = (old & keep) ^ flip */
struct pen {
    uint8_t keep, flip;
};

static inline int32_t lesser(int32_t a, int32_t b)
{
    return a < b ? a : b;
}

static inline int32_t greater(int32_t a, int32_t b)
{
    return a > b ? a : b;
}

static inline struct point point_of(uint32_t word)
{
    return (struct point){(int16_t)(word >> 16), (int16_t)word};
}

static inline struct box overlap_of(struct box a, struct box b)
{
    return (struct box){greater(a.left, b.left), greater(a.top, b.top), lesser(a.right, b.right),
                        lesser(a.bottom, b.bottom)};
}

static inline bool is_empty(struct box a)
{
    return a.right < a.left || a.bottom < a.top;
}

static inline uint64_t pixels_of(struct box a)
{
    return is_empty(a) ? 0 : (uint64_t)(a.right - a.left + 1) * (uint64_t)(a.bottom - a.top + 1);
}

static inline struct mix mix_of(const struct baseline *engine)
{
    const uint32_t code = engine->registers[CMD] >> 24;
    const uint8_t mask = (uint8_t)engine->registers[MASK];
    const uint8_t new_00 = (uint8_t)-(code >> 3 & 1); /* the new bit for source 0, old 0, in all eight places */
    const uint8_t new_01 = (uint8_t)-(code >> 2 & 1);
    const uint8_t new_10 = (uint8_t)-(code >> 1 & 1);
    const uint8_t new_11 = (uint8_t)-(code & 1);
    return (struct mix){
        .a = (new_00 ^ new_01 ^ new_10 ^ new_11) & mask,
        .b = ((new_00 ^ new_01) & mask) | (uint8_t)~mask,
        .c = (new_00 ^ new_10) & mask,
        .e = new_00 & mask,
    };
}

static inline struct pen pen_of(struct mix m, uint32_t source)
{
    const uint8_t byte = (uint8_t)source;
    return (struct pen){(byte & m.a) ^ m.b, (byte & m.c) ^ m.e};
}

/* A stippled blit, and one from a tile; the box is its visible part. */
void stipple_box(const struct baseline *engine, uint8_t *target, const uint8_t *source, struct box box);
void tile_box(const struct baseline *engine, uint8_t *target, const uint8_t *source, struct box box);

#endif
