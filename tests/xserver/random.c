/* Random drawings. The numbers are splitmix64's. */
#include "compare.h"

uint64_t random_state;

uint64_t random64(void)
{
    uint64_t z = random_state += 0x9E3779B97F4A7C15;
    z = (z ^ z >> 30) * 0xBF58476D1CE4E5B9;
    z = (z ^ z >> 27) * 0x94D049BB133111EB;
    return z ^ z >> 31;
}

int between(int low, int high)
{
    return low + (int)(random64() % (uint64_t)((int64_t)high - low + 1));
}

bool one_in(int n)
{
    return between(1, n) == 1;
}

void random_bytes(uint8_t *bytes, size_t count)
{
    uint64_t r = 0;
    for (size_t k = 0; k < count; k++, r >>= 8) {
        if (k % 8 == 0)
            r = random64();
        bytes[k] = (uint8_t)r;
    }
}

static box random_box(box limits)
{
    box b;
    b.left = between(limits.left, limits.right);
    b.top = between(limits.top, limits.bottom);
    b.right = between(b.left, limits.right);
    b.bottom = between(b.top, limits.bottom);
    return b;
}

static box partly_off(void)
{
    box b = random_box(board_box());
    switch (between(0, 3)) {
    case 0: b.left = -between(1, 9); break;
    case 1: b.top = -between(1, 9); break;
    case 2: b.right = (int)width - 1 + between(1, 9); break;
    default: b.bottom = (int)height - 1 + between(1, 9); break;
    }
    return b;
}

static box wholly_off(void)
{
    const int w = (int)width, h = (int)height;
    switch (between(0, 3)) {
    case 0: return random_box((box){-20, -20, -1, h + 20});
    case 1: return random_box((box){-20, -20, w + 20, -1});
    case 2: return random_box((box){w, -20, w + 20, h + 20});
    default: return random_box((box){-20, h, w + 20, h + 20});
    }
}

static box reversed(void)
{
    box b = random_box((box){-9, -9, (int)width + 9, (int)height + 9});
    if (one_in(2))
        b.left = b.right + between(1, 9);
    else
        b.top = b.bottom + between(1, 9);
    return b;
}

static box far_around(void)
{
    const box b = random_box(board_box());
    return (box){between(-32768, b.left), between(-32768, b.top), between(b.right, 32767), between(b.bottom, 32767)};
}

box random_clip(unsigned style)
{
    switch (style) {
    case INSIDE: return random_box(board_box());
    case PARTLY_OFF: return partly_off();
    case WHOLLY_OFF: return wholly_off();
    case REVERSED: return reversed();
    default: return far_around();
    }
}

static void random_size(drawing *d)
{
    const int shape = between(0, 7);
    int w = between(0, 16), h = between(0, 16);
    if (shape < 2) {
        w = between(0, least((int)width + 8, SIDE));
        h = between(0, least((int)height + 8, SIDE));
    } else if (shape == 2)
        w = between(0, SIDE);
    else if (shape == 3)
        h = between(0, SIDE);
    d->width = (unsigned)w;
    d->height = (unsigned)h;
}

/* an upper left corner from which the rectangle mostly meets the buffer, or the bits of it */
static point random_corner(const drawing *d, box buffer)
{
    if (one_in(32))
        return (point){between(-30000, 30000), between(-30000, 30000)};
    return (point){between(-(int)d->width - 1, buffer.right + 2), between(-(int)d->height - 1, buffer.bottom + 2)};
}

static void random_places(drawing *d)
{
    d->a = random_corner(d, d->stpl ? bitmap_box() : board_box());
    d->b = random_corner(d, board_box());
    d->direction = (unsigned)between(0, 3);
}

static void random_blit(drawing *d)
{
    d->opcode = BITBLT;
    random_size(d);
    random_places(d);
}

void fill(drawing *d)
{
    random_blit(d);
    d->solid = true;
    d->unread = (uint32_t)random64() & (TRNSP | SOURCE);
}

static void safe_direction(drawing *d)
{
    do
        d->direction = (unsigned)between(0, 3);
    while (!reads_unwritten(d));
}

void copy_between(drawing *d)
{
    random_blit(d);
    d->source = 1 - d->destination;
}

void copy_within(drawing *d)
{
    random_blit(d);
    d->source = d->destination;
    safe_direction(d);
}

void copy_overlapping(drawing *d)
{
    random_blit(d);
    d->source = d->destination;
    d->width += d->width == 0;
    d->height += d->height == 0;
    const int x = least((int)d->width - 1, 8), y = least((int)d->height - 1, 8);
    d->b = (point){d->a.x + between(-x, x), d->a.y + between(-y, y)};
    safe_direction(d);
}

void fill_stippled(drawing *d)
{
    d->stpl = true;
    fill(d);
}

void stipple_between(drawing *d)
{
    d->stpl = true;
    copy_between(d);
}

static void stipple_either(drawing *d)
{
    d->trnsp = one_in(2);
    if (d->trnsp)
        d->means = bits_inside(d) ? FILL_STIPPLED : FILL_THROUGH;
}

/* bits of the buffer that is drawn to, half of them near the pixels drawn */
void stipple_within(drawing *d)
{
    d->stpl = true;
    do {
        random_blit(d);
        d->source = d->destination;
        if (one_in(2))
            d->b = (point){d->a.x / 8 + between(-8, 8), d->a.y + between(-8, 8)};
    } while (!reads_unwritten(d));
    stipple_either(d);
}

/* bits inside the buffer, as X repeats a stipple */
void stipple_opaque(drawing *d)
{
    stipple_between(d);
    d->width = (unsigned)least((int)d->width, 8 * (int)width);
    d->height = (unsigned)least((int)d->height, (int)height);
    d->a = (point){between(0, 8 * (int)width - (int)d->width), between(0, (int)height - (int)d->height)};
    d->means = FILL_STIPPLED;
}

void stipple_transparent(drawing *d)
{
    stipple_opaque(d);
    d->trnsp = true;
}

void stipple_through(drawing *d)
{
    stipple_between(d);
    d->trnsp = true;
    d->means = FILL_THROUGH;
}

/* a glyph one or two bytes wide, which mostly begins with a byte */
void glyph(drawing *d)
{
    d->opcode = BITBLT;
    d->stpl = true;
    d->source = 1 - d->destination;
    d->width = one_in(2) ? 8 : 16;
    d->height = 16;
    random_places(d);
    if (!one_in(4))
        d->a.x = d->a.x / 8 * 8;
    stipple_either(d);
}

static int tile_edge(int last)
{
    if (last < 0 || one_in(8))
        return between(least(last, 0) - 2, greatest(last, 0) + 2);
    return between(0, last);
}

/* a blit from a tile that mostly lies inside, where there is room for it */
static void random_tile(drawing *d)
{
    random_blit(d);
    d->apat = true;
    d->a = (point){tile_edge((int)width - TILE_WIDTH), tile_edge((int)height - TILE_HEIGHT)};
    d->columns = TILE_WIDTH;
    d->rows = TILE_HEIGHT;
}

void tile_between(drawing *d)
{
    random_tile(d);
    d->source = 1 - d->destination;
}

/* a tile of the buffer that is drawn to, half of them near the pixels drawn */
void tile_within(drawing *d)
{
    random_tile(d);
    d->source = d->destination;
    if (one_in(2))
        d->b = (point){d->a.x + between(-(int)d->width, TILE_WIDTH), d->a.y + between(-(int)d->height, TILE_HEIGHT)};
}

static point random_end(void)
{
    const int w = (int)width, h = (int)height, far = between(0, 23);
    if (far == 0)
        return (point){between(-32768, 32767), between(-32768, 32767)};
    if (far == 1)
        return (point){between(-3000, 3000), between(-3000, 3000)};
    if (far < 8)
        return (point){between(-w / 2 - 1, w * 3 / 2), between(-h / 2 - 1, h * 3 / 2)};
    return (point){between(0, w - 1), between(0, h - 1)};
}

static int within_16_bits(int c)
{
    return least(greatest(c, -32768), 32767);
}

static void random_ends(drawing *d)
{
    d->a = random_end();
    d->b = random_end();
    if (one_in(2)) {
        d->b.x = within_16_bits(d->a.x + between(-12, 12));
        d->b.y = within_16_bits(d->a.y + between(-12, 12));
    } else if (one_in(16)) {
        d->a = (point){between(-32768, 32767), between(-32768, 32767)};
        d->b.x = within_16_bits(between(0, 2 * (int)width - 1) - d->a.x);
        d->b.y = within_16_bits(between(0, 2 * (int)height - 1) - d->a.y);
    }
}

void line(drawing *d)
{
    d->opcode = LINE;
    d->solid = true;
    d->unread = (uint32_t)random64() & (TRNSP | STPL | PRST);
    random_ends(d);
}

void line_not_last(drawing *d)
{
    line(d);
    d->nlst = true;
}

void polyline(drawing *d)
{
    line(d);
    d->opcode = PLINE;
    d->nlst = one_in(2);
}

static dashes random_dashes(void)
{
    dashes p = {(uint32_t)random64(), between(1, 32), between(1, 8), 0};
    if (one_in(4))
        p.bits = 1u << between(0, 31);
    if (one_in(4))
        p.bits = ~p.bits;
    p.phase = between(0, period(&p) - 1);
    return p;
}

/* makes a line dashed */
void opaque(drawing *d)
{
    d->solid = false;
    d->unread = (uint32_t)random64() & PRST;
    d->dashes = random_dashes();
}

void transparent(drawing *d)
{
    opaque(d);
    d->trnsp = true;
}

void either(drawing *d)
{
    opaque(d);
    d->trnsp = one_in(2);
}

/* A line after a first one, with the same registers but CMD and ends. It goes on with the pattern or, with PRST, begins
 * it again. */
drawing second_line(drawing *first)
{
    drawing d = *first;
    random_ends(&d);
    d.opcode = one_in(2) ? LINE : PLINE;
    if (d.opcode == PLINE)
        d.a = first->b;
    d.solid = false;
    d.trnsp = one_in(2);
    d.nlst = one_in(2);
    d.clipped = first->clipped && one_in(2);
    d.unread = one_in(8) ? PRST : 0;
    if (!d.unread)
        d.dashes.phase = phase_after(&first->dashes, moves(first));
    d.before = first;
    return d;
}
