#include "engine.h"

#include <string.h>

enum {
    COLUMNS = 16,
    ROWS = 8,
    ROOM = 2 * COLUMNS, /* a row of the tile twice, so that its pixels from any column on lie in one piece */
};

static inline void copy_row(uint8_t *to, const uint8_t *row, size_t count)
{
#pragma GCC unroll 4
    for (; count >= COLUMNS; count -= COLUMNS, to += COLUMNS)
        memcpy(to, row, COLUMNS);
    memcpy(to, row, count);
}

/* The source stays in each column, so a pixel is drawn as by a pen. */
static inline void mix_row(uint8_t *to, const uint8_t *row, size_t count, struct mix m)
{
    struct {
        uint8_t keep[COLUMNS], flip[COLUMNS];
    } pens;
    for (size_t k = 0; k < COLUMNS; k++) {
        pens.keep[k] = (row[k] & m.a) ^ m.b;
        pens.flip[k] = (row[k] & m.c) ^ m.e;
    }
#pragma GCC unroll 4
    for (; count >= COLUMNS; count -= COLUMNS, to += COLUMNS)
        for (size_t k = 0; k < COLUMNS; k++)
            to[k] = (to[k] & pens.keep[k]) ^ pens.flip[k];
    for (size_t k = 0; k < count; k++)
        to[k] = (to[k] & pens.keep[k]) ^ pens.flip[k];
}

void tile_box(const struct baseline *engine, uint8_t *target, const uint8_t *source, struct box box)
{
    const struct point corner = point_of(engine->registers[XY0]);
    const ptrdiff_t pitch = engine->width;
    uint8_t rows[ROWS][ROOM];
    if (is_empty(box) || corner.x < 0 || corner.x > engine->width - COLUMNS || corner.y < 0
        || corner.y > engine->height - ROWS)
        return;
    const uint8_t *from = source + corner.y * pitch + corner.x;
    for (int32_t k = 0; k < ROWS; k++, from += pitch) {
        memcpy(rows[k], from, COLUMNS);
        memcpy(rows[k] + COLUMNS, from, COLUMNS);
    }
    const struct mix m = mix_of(engine);
    const bool plain = m.a == 0 && m.b == 0 && m.c == 0xFF && m.e == 0;
    const size_t count = (size_t)(box.right - box.left + 1), turned = (size_t)box.left % COLUMNS;
    uint8_t *to = target + box.top * pitch + box.left;
    for (int32_t y = box.top; y <= box.bottom; y++, to += pitch) {
        if (plain)
            copy_row(to, rows[y % ROWS] + turned, count);
        else
            mix_row(to, rows[y % ROWS] + turned, count, m);
    }
}
