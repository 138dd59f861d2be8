/* A run with a budget in plain C: what cut runs are measured against. It keeps the same record, judges all of it at every call
 * and draws what the budget allows; written for speed, and for fills and copies in raster code 3 with MASK 0xFF, without KEY
 * and from the upper left corner, alone. Anything else answers 255. */
#include "cut.h"

#include "engine.h"
#include "legal.h"

#include <string.h>

static uint32_t lesser_of(uint64_t a, uint64_t b)
{
    return (uint32_t)(a < b ? a : b);
}

static struct box shown_box(const pramolyt_board *b)
{
    const struct point to = point_of(b->xy1), low = point_of(b->clptl), high = point_of(b->clpbr);
    const struct box board = {0, 0, (int32_t)b->width - 1, (int32_t)b->height - 1};
    const struct box blit = {to.x, to.y, to.x + (int32_t)(b->xy2 >> 16) - 1, to.y + (int32_t)(b->xy2 & 65535) - 1};
    const struct box shown = overlap_of(blit, board);
    return b->cmd & CLIP ? overlap_of(shown, (struct box){low.x, low.y, high.x, high.y}) : shown;
}

static bool is_plain(const pramolyt_board *b)
{
    return b->cmd >> 28 == 1 && (b->cmd >> 24 & 15) == 3 && b->mask == 255 && b->xy3 == 0 && !(b->cmd & (STPL | KEYED | APAT));
}

static bool registers_legal(const pramolyt_board *b)
{
    const uint32_t *word = &b->cmd;
    bool all = true;
    for (uint32_t reg = 0; reg < 13; reg++)
        all &= legal(reg, word[reg]);
    return all;
}

static bool span_fits(uint32_t start, uint32_t count, uint32_t entries)
{
    return count >= 1 && (uint64_t)start + count <= entries;
}

static bool slots_sound(const pramolyt_board *b)
{
    const uint32_t end = b->active_start + b->active_count;
    if (b->active_taken > 1 || b->pending_taken > 1 || b->under_way > 1)
        return false;
    if (!b->active_taken)
        return !(b->active_start | b->active_count | b->next | b->pending_taken | b->pending_start | b->pending_count | b->under_way);
    if (b->pending_taken ? !span_fits(b->pending_start, b->pending_count, b->entries) : (b->pending_start | b->pending_count) != 0)
        return false;
    if (!span_fits(b->active_start, b->active_count, b->entries))
        return false;
    return b->under_way ? b->active_start < b->next && b->next <= end : b->active_start <= b->next && b->next < end;
}

static bool is_sound(const pramolyt_board *b)
{
    static const uint8_t none[sizeof b->tile];
    const uint32_t length = b->pctrl % 32 ? b->pctrl % 32 : 32;
    if (b->width - 1 >= 2048 || b->height - 1 >= 2048 || b->entries - 1 >= 4096 || !slots_sound(b) || !registers_legal(b))
        return false;
    if (b->pattern_place >= length || b->pattern_repeat > (b->pctrl >> 5 & 7))
        return false;
    if (b->tile_whole != 0 || memcmp(b->tile, none, sizeof none) != 0)
        return false;
    return b->under_way ? b->visited < pixels_of(shown_box(b)) : b->visited == 0;
}

/* n pixels of a row, `at` being its place in the buffer that is drawn on. */
static void draw_some(const pramolyt_board *b, uint8_t *own, const uint8_t *source, ptrdiff_t away, size_t at, size_t n)
{
    if (b->cmd & SOLID)
        memset(own + at, (int)b->fore, n);
    else
        memmove(own + at, source + ((ptrdiff_t)at + away), n);
}

static uint32_t visit_some(pramolyt_board *b, uint64_t budget, uint8_t *display, uint8_t *virt)
{
    const struct box box = shown_box(b);
    const struct point to = point_of(b->xy1), from = point_of(b->xy0);
    const uint32_t across = (uint32_t)(box.right - box.left + 1), count = (uint32_t)pixels_of(box);
    const uint32_t n = lesser_of(budget, count - b->visited), width = b->width;
    uint8_t *own = b->cmd & TO_VIRTUAL ? virt : display;
    const uint8_t *source = b->cmd & FROM_VIRTUAL ? virt : display;
    const ptrdiff_t away = (ptrdiff_t)(from.y - to.y) * (ptrdiff_t)width + (from.x - to.x);
    uint32_t column = b->visited % across, left = n;
    size_t row = (size_t)box.top + b->visited / across;
    while (left > 0) {
        const uint32_t m = lesser_of(left, across - column);
        draw_some(b, own, source, away, row * width + (size_t)box.left + column, m);
        left -= m;
        column = 0;
        row++;
    }
    b->visited += n;
    if (b->visited == count) {
        b->under_way = b->visited = 0;
        b->last = b->xy1;
    }
    return n;
}

static void settle(pramolyt_board *b)
{
    if (b->under_way || b->next < b->active_start + b->active_count)
        return;
    b->active_taken = b->pending_taken;
    b->active_start = b->next = b->pending_start;
    b->active_count = b->pending_count;
    b->pending_taken = b->pending_start = b->pending_count = 0;
}

uint32_t cut_run(pramolyt_board *b, uint64_t *steps, uint64_t budget, const uint8_t *list, size_t list_len, uint8_t *display,
                 size_t display_len, uint8_t *virt, size_t virt_len)
{
    const size_t pixels = (size_t)b->width * b->height;
    *steps = 0;
    if (!is_sound(b))
        return PRAMOLYT_MALFORMED;
    if (list_len != 5 * (size_t)b->entries || display_len != pixels || virt_len != pixels)
        return PRAMOLYT_WRONG_SIZE;
    while (*steps < budget && b->active_taken) {
        if (b->under_way) {
            *steps += visit_some(b, budget - *steps, display, virt);
        } else {
            const uint8_t *entry = list + 5 * (size_t)b->next;
            const uint32_t reg = entry[0] >> 3;
            const uint32_t word = (uint32_t)entry[1] << 24 | (uint32_t)entry[2] << 16 | (uint32_t)entry[3] << 8 | entry[4];
            if (entry[0] & 7 || reg > 12 || !legal(reg, word))
                return PRAMOLYT_ILLEGAL_FETCH;
            (&b->cmd)[reg] = word;
            b->next++;
            ++*steps;
            if (reg == XY1 && !is_plain(b))
                return 255;
            if (reg == XY1 && pixels_of(shown_box(b)) > 0)
                b->under_way = 1;
        }
        settle(b);
    }
    return PRAMOLYT_DONE;
}
