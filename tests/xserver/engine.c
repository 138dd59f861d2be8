/* Draws with the engine. */
#include "pramolyt.h"

#include "compare.h"

enum { CMD, FORE, BACK, MASK, KEY, LPAT, PCTRL, CLPTL, CLPBR, XY0, XY2, XY3, XY1 };

uint8_t start[2][SIDE * SIDE], buffers[2][SIDE * SIDE];
uint8_t list[5 * ENTRIES];
size_t entries;

static void entry(unsigned number, uint32_t data)
{
    uint8_t *e = list + 5 * entries++;
    e[0] = (uint8_t)(number << 3);
    e[1] = (uint8_t)(data >> 24);
    e[2] = (uint8_t)(data >> 16);
    e[3] = (uint8_t)(data >> 8);
    e[4] = (uint8_t)data;
}

static uint32_t word(int high, int low)
{
    return (uint32_t)(uint16_t)high << 16 | (uint16_t)low;
}

/* the corner that a blit's direction asks for, of the rectangle with that upper left corner */
static uint32_t corner(const drawing *d, point p)
{
    if (d->direction & RIGHT_TO_LEFT)
        p.x += (int)d->width - 1;
    if (d->direction & BOTTOM_TO_TOP)
        p.y += (int)d->height - 1;
    return word(p.x, p.y);
}

static uint32_t cmd(const drawing *d)
{
    return d->opcode << 28 | d->code << 24 | (d->solid ? SOLID : 0) | (d->trnsp ? TRNSP : 0) |
           (d->stpl || is_dashed(d) ? STPL : 0) | (d->nlst ? NLST : 0) | (d->clipped ? CLIP : 0) | d->unread |
           d->source << 16 | d->destination << 15 | (d->apat ? APAT : 0);
}

/* a blit of no pixels, which leaves the last point at its XY1 */
static void last_point(point p)
{
    entry(XY2, 0);
    entry(CMD, (uint32_t)BITBLT << 28 | SOLID);
    entry(XY1, word(p.x, p.y));
}

static void blit_entries(const drawing *d)
{
    if (d->stpl)
        entry(BACK, d->back);
    entry(XY0, d->apat ? word(d->a.x, d->a.y) : corner(d, d->a));
    entry(XY2, word((int)d->width, (int)d->height));
    entry(XY3, d->direction);
    entry(CMD, cmd(d));
    entry(XY1, corner(d, d->b));
}

static void line_entries(const drawing *d)
{
    if (d->opcode == LINE)
        entry(XY0, word(d->a.x, d->a.y));
    else if (!d->before)
        last_point(d->a);
    entry(CMD, cmd(d));
    entry(XY1, word(d->b.x, d->b.y));
}

static void dash_entries(const drawing *d)
{
    const dashes *p = d->before ? &d->before->dashes : &d->dashes;
    const int place = p->phase / p->scale, repeat = p->phase % p->scale;
    entry(BACK, d->back);
    entry(LPAT, p->bits);
    entry(PCTRL, (uint32_t)(p->length % 32 | (p->scale - 1) << 5 | place << 8 | repeat << 13));
}

static void display_list(const drawing *d)
{
    entries = 0;
    entry(FORE, d->fore);
    entry(MASK, d->mask);
    entry(CLPTL, word(d->clip.left, d->clip.top));
    entry(CLPBR, word(d->clip.right, d->clip.bottom));
    if (is_dashed(d))
        dash_entries(d);
    if (d->before)
        line_entries(d->before);
    if (d->opcode == BITBLT)
        blit_entries(d);
    else
        line_entries(d);
}

void engine_draw(const drawing *d)
{
    static uint8_t memory[5 * ENTRIES];
    const size_t area = (size_t)width * height;
    pramolyt_board board;
    uint64_t place, steps;
    unsigned answer = pramolyt_make(&board, width, height, ENTRIES);
    display_list(d);
    for (unsigned k = 0; k < 2; k++)
        answer |= pramolyt_window_write(&board, k, 0, start[k], area, buffers[k], area);
    answer |= pramolyt_store(&board, memory, sizeof memory, 0, list, 5 * entries);
    answer |= pramolyt_post(&board, &place, memory, sizeof memory, 0, entries);
    answer |= pramolyt_run(&board, &steps, UINT64_MAX, memory, sizeof memory, buffers[0], area, buffers[1], area);
    if (answer != PRAMOLYT_DONE || board.active_taken)
        fail("the engine refused a call or did not finish a list");
}
