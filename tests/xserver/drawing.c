/* What follows from a drawing. */
#include <stdlib.h>

#include "compare.h"

unsigned width, height;

int least(int a, int b)
{
    return a < b ? a : b;
}

int greatest(int a, int b)
{
    return a > b ? a : b;
}

bool is_empty(box b)
{
    return b.left > b.right || b.top > b.bottom;
}

bool holds(box b, point p)
{
    return b.left <= p.x && p.x <= b.right && b.top <= p.y && p.y <= b.bottom;
}

box board_box(void)
{
    return (box){0, 0, (int)width - 1, (int)height - 1};
}

/* of the bits of a buffer, eight columns a byte */
box bitmap_box(void)
{
    return (box){0, 0, 8 * (int)width - 1, (int)height - 1};
}

box common(box a, box b)
{
    return (box){greatest(a.left, b.left), greatest(a.top, b.top), least(a.right, b.right), least(a.bottom, b.bottom)};
}

/* the source or destination of a blit, which has that upper left corner */
box rectangle(const drawing *d, point corner)
{
    return (box){corner.x, corner.y, corner.x + (int)d->width - 1, corner.y + (int)d->height - 1};
}

/* whether a blit of bits reads none outside the source buffer */
bool bits_inside(const drawing *d)
{
    const box b = rectangle(d, d->a), all = bitmap_box();
    return holds(all, (point){b.left, b.top}) && holds(all, (point){b.right, b.bottom});
}

/* whether the tile lies wholly inside the source buffer */
bool tile_inside(const drawing *d)
{
    const box all = board_box();
    return holds(all, d->a) && holds(all, (point){d->a.x + TILE_WIDTH - 1, d->a.y + TILE_HEIGHT - 1});
}

bool is_dashed(const drawing *d)
{
    return d->opcode != BITBLT && !d->solid;
}

int period(const dashes *p)
{
    return p->length * p->scale;
}

/* the phase so many pixels later, or earlier where they are below zero */
int phase_after(const dashes *p, int pixels)
{
    return ((p->phase + pixels) % period(p) + period(p)) % period(p);
}

/* n of a line of n + 1 pixels */
int steps_of(const drawing *d)
{
    return greatest(abs(d->b.x - d->a.x), abs(d->b.y - d->a.y));
}

/* by how many pixels the line moves the pattern */
int moves(const drawing *d)
{
    return is_dashed(d) ? steps_of(d) + !d->nlst : 0;
}

/* the column of the buffer that a blit reads for its own column i; for bits left of the buffer -1 */
static int column_read(const drawing *d, int i)
{
    const int x = d->a.x + i;
    if (!d->stpl)
        return x;
    return x < 0 ? -1 : x / 8;
}

static bool overlaps(const drawing *d)
{
    const int w = (int)d->width;
    return d->source == d->destination && column_read(d, 0) < d->b.x + w && d->b.x <= column_read(d, w - 1) &&
           abs(d->a.y - d->b.y) < (int)d->height;
}

/* Whether no visit reads what an earlier one wrote. The engine reads pixels and bits as they stand at a visit, X as they
 * stood before the copy; there the two are the same. */
bool reads_unwritten(const drawing *d)
{
    const int w = (int)d->width;
    if (!overlaps(d))
        return true;
    if (d->a.y != d->b.y)
        return (d->direction & BOTTOM_TO_TOP) == (d->b.y > d->a.y ? BOTTOM_TO_TOP : 0);
    for (int i = 0; i < w; i++) {
        const int writer = column_read(d, i) - d->b.x; /* the column of the blit that writes what column i reads */
        if (0 <= writer && writer < w && (d->direction & RIGHT_TO_LEFT ? writer > i : writer < i))
            return false;
    }
    return true;
}

bool minor_grows(const drawing *d)
{
    const int dx = d->b.x - d->a.x, dy = d->b.y - d->a.y;
    return abs(dx) >= abs(dy) ? dy > 0 : dx > 0;
}

/* whether the exact line passes halfway between two pixels at one of its major coordinates */
bool has_halfway_point(const drawing *d)
{
    const int64_t x = abs(d->b.x - d->a.x), y = abs(d->b.y - d->a.y);
    const int64_t major = x >= y ? x : y, minor = x >= y ? y : x;
    for (int64_t i = 1; i < major; i++)
        if (2 * i * minor % (2 * major) == major)
            return true;
    return false;
}
