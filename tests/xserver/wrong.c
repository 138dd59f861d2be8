/* Wrong drawings, which must be seen as different. */
#include <stdio.h>
#include <stdlib.h>

#include "compare.h"

typedef struct tally {
    const char *name;
    unsigned long cases, met;
} tally;

static void expect(tally *t, bool met)
{
    t->cases++;
    t->met += met;
    count_test(met);
}

static void must_differ(const server *s, tally *t, const drawing *by_engine, const drawing *by_x)
{
    expect(t, compare(s, by_engine, by_x).pixels > 0);
}

/* Gives the line a pattern of a one and zeros and begins it with the one; a line before it begins earlier by as much as
 * it moves the pattern. The bits above the length are random. */
static void begin_with_one(drawing *d, int length, int scale)
{
    d->dashes = (dashes){(uint32_t)(random64() << length | 1), length, scale, 0};
    if (d->before) {
        d->before->dashes = d->dashes;
        d->before->dashes.phase = phase_after(&d->dashes, -moves(d->before));
    }
}

/* a drawing of the kind whose pixels reach every side of its clip */
static drawing sample(const kind *k)
{
    drawing d = {0};
    k->make(&d);
    if (k->dash) {
        k->dash(&d);
        d.unread = 0;
    }
    d.code = GXxor;
    d.mask = 0xFF;
    d.fore = 0x55;
    d.back = 0xAA;
    d.nlst = k->make == line_not_last;
    d.source = k->make == copy_between || k->make == tile_between || (d.stpl && k->make != stipple_within);
    d.destination = 0;
    d.clip = (box){10, 10, 30, 30};
    d.width = d.height = 31;
    d.direction = 0;
    d.b = (point){1, 1};
    d.a = k->make == copy_overlapping ? (point){4, 3} : d.stpl ? (point){8 * 32 + 5, 1} : (point){32, 1};
    if (d.opcode != BITBLT) {
        d.a = (point){0, 0};
        d.b = (point){46, 46};
    }
    return d;
}

/* every bit of every code */
static void wrong_codes(const server *s, tally *t, drawing d)
{
    for (unsigned k = 0; k < 64; k++) {
        drawing e = d;
        d.code = k / 4;
        e.code = d.code ^ 1u << k % 4;
        must_differ(s, t, &d, &e);
    }
}

static void wrong_masks(const server *s, tally *t, drawing d)
{
    d.code = GXinvert;
    for (unsigned k = 0; k < 8; k++) {
        drawing e = d;
        e.mask = 0xFFu ^ 1u << k;
        must_differ(s, t, &d, &e);
    }
}

static void wrong_clips(const server *s, tally *t, drawing d)
{
    static const box narrower[] = {{1, 0, 0, 0}, {0, 1, 0, 0}, {0, 0, -1, 0}, {0, 0, 0, -1}, {0, 21, 0, 0}};
    d.code = GXinvert;
    d.clipped = true;
    for (unsigned k = 0; k < sizeof narrower / sizeof narrower[0]; k++) {
        drawing e = d;
        e.clip.left += narrower[k].left;
        e.clip.top += narrower[k].top;
        e.clip.right += narrower[k].right;
        e.clip.bottom += narrower[k].bottom;
        must_differ(s, t, &d, &e);
    }
    drawing e = d;
    e.clipped = false;
    must_differ(s, t, &d, &e);
}

/* one off in a coordinate or an extent, the other buffer, another foreground or background, one pixel more or less at
 * B */
static void wrong_places(const server *s, tally *t, const drawing *d)
{
    drawing wrongs[9];
    unsigned count = 0;
    for (unsigned k = 0; k < 9; k++)
        wrongs[k] = *d;
    wrongs[count++].b.x++;
    wrongs[count++].b.y++;
    wrongs[count++].destination ^= 1;
    if (d->opcode == BITBLT) {
        wrongs[count++].width--;
        wrongs[count++].height--;
    } else
        wrongs[count++].nlst ^= true;
    if (d->solid || d->stpl || d->opcode != BITBLT)
        wrongs[count++].fore ^= 1;
    if (d->stpl && !d->solid && !d->trnsp)
        wrongs[count++].back ^= 1;
    if (!d->solid || d->opcode != BITBLT) {
        wrongs[count++].a.x++;
        wrongs[count++].a.y++;
    }
    for (unsigned k = 0; k < count; k++)
        must_differ(s, t, d, &wrongs[k]);
}

/* the pattern one pixel late or early, its bits in the reverse order, another scale, TRNSP more or less, another
 * background */
static void wrong_dashes(const server *s, tally *t, drawing d)
{
    for (int k = 0; k < 31 * 8; k++) {
        drawing wrongs[6];
        unsigned count = 0;
        begin_with_one(&d, 2 + k / 8, 1 + k % 8);
        d.backwards = one_in(2);
        for (unsigned j = 0; j < 6; j++)
            wrongs[j] = d;
        wrongs[count++].dashes.phase = phase_after(&d.dashes, 1);
        wrongs[count++].dashes.phase = phase_after(&d.dashes, -1);
        wrongs[count++].dashes.bits = 1u << (d.dashes.length - 1);
        wrongs[count++].dashes.scale = d.dashes.scale % 8 + 1;
        wrongs[count++].trnsp ^= true;
        if (!d.trnsp)
            wrongs[count++].back ^= 1;
        for (unsigned j = 0; j < count; j++)
            must_differ(s, t, &d, &wrongs[j]);
    }
}

static void wrong_kind(const server *s, const kind *k, tally *t)
{
    drawing d = sample(k), first = d;
    if (k->two) {
        first.a = (point){-20, -20};
        first.b = d.a;
        d.before = &first;
    }
    if (k->dash)
        begin_with_one(&d, 2, 1); /* every second pixel, those at the sides of the clip among them */
    wrong_codes(s, t, d);
    wrong_masks(s, t, d);
    wrong_clips(s, t, d);
    wrong_places(s, t, &d);
    if (k->dash)
        wrong_dashes(s, t, d);
}

/* copies over their source in the directions that read what was written */
static void wrong_directions(const server *s, tally *t, bool stpl)
{
    drawing d = {.opcode = BITBLT, .code = GXcopy, .mask = 0xFF, .a = {10, 10}, .width = 20, .height = 20};
    if (stpl) {
        d.stpl = true;
        d.fore = 0x55;
        d.back = 0xAA;
        d.a.x = 8 * 10;
    }
    for (int x = -3; x <= 3; x++)
        for (int y = -3; y <= 3; y++)
            for (d.direction = 0; d.direction < 4; d.direction++) {
                d.b = (point){10 + x, 10 + y};
                if (!reads_unwritten(&d))
                    must_differ(s, t, &d, &d);
            }
}

/* Lines drawn the other way: those with a halfway point differ, and no others do. */
static void wrong_ways(const server *s, tally *halfway, tally *others)
{
    for (unsigned k = 0; k < 2000; k++) {
        drawing d = {.opcode = LINE, .code = GXinvert, .mask = 0xFF, .solid = true};
        d.a = (point){between(0, (int)width - 1), between(0, (int)height - 1)};
        d.b = (point){between(0, (int)width - 1), between(0, (int)height - 1)};
        d.backwards = !minor_grows(&d);
        if (has_halfway_point(&d))
            must_differ(s, halfway, &d, &d);
        else
            expect(others, compare(s, &d, &d).pixels == 0);
    }
}

/* Lines that begin hidden, and lines after a hidden one, drawn in X as if no hidden pixel moved the pattern. The one
 * begins at the first pixel in sight, so they agree only where the hidden pixels are whole periods. */
static void hidden_dashes(const server *s, tally *parts, tally *whole)
{
    for (unsigned k = 0; k < 3000; k++) {
        const int hidden = between(1, 40), right = (int)width - 1, bottom = (int)height - 1;
        drawing first = {.opcode = LINE, .code = GXxor, .mask = 0xFF, .fore = 0x55, .back = 0xAA}, d = first;
        d.trnsp = one_in(2);
        d.a.y = between(0, bottom);
        d.b = (point){right, between(0, bottom)};
        if (k % 3 == 0) {
            d.clipped = true;
            d.clip = (box){hidden, 0, right, bottom};
        } else if (k % 3 == 1)
            d.a.x = -hidden;
        else {
            first.a.x = -hidden;
            first.b.x = -1;
            d.before = &first;
        }
        d.backwards = minor_grows(&d);
        begin_with_one(&d, between(2, 32), between(1, 8));
        if (!d.before)
            d.dashes.phase = phase_after(&d.dashes, -hidden);
        drawing e = d;
        e.dashes.phase = phase_after(&d.dashes, -hidden);
        const bool same = hidden % period(&d.dashes) == 0;
        expect(same ? whole : parts, (compare(s, &d, &e).pixels == 0) == same);
    }
}

/* A small blit to inside the board, of bits that lie in the buffer and have x no less than the board's width. Every pixel
 * that FORE or BACK draws changes. */
static drawing small_stipple(void)
{
    drawing d = {.opcode = BITBLT, .stpl = true, .code = GXxor, .mask = 0xFF, .fore = 0x55, .back = 0xAA, .source = 1};
    const int w = between(8, 24), h = between(8, 24);
    d.a = (point){between((int)width, 8 * (int)width - w), between(0, (int)height - h)};
    d.b = (point){between(0, (int)width - w), between(0, (int)height - h)};
    d.width = (unsigned)w;
    d.height = (unsigned)h;
    d.direction = (unsigned)between(0, 3);
    return d;
}

/* the bits of a byte from its other end, only as many as the buffer has columns, a 0 taken for the other of BACK and
 * nothing, and bits for SOLID */
static void misread_bits(const server *s, tally *t)
{
    for (unsigned k = 0; k < 500; k++) {
        const drawing d = small_stipple();
        drawing least_first = d, narrow = d, trnsp = d, solid = d;
        least_first.reading = LEAST_FIRST;
        narrow.reading = NARROW;
        trnsp.trnsp = true;
        trnsp.means = FILL_STIPPLED;
        solid.solid = true;
        must_differ(s, &t[0], &d, &least_first);
        must_differ(s, &t[1], &d, &narrow);
        must_differ(s, &t[2], &d, &trnsp);
        must_differ(s, &t[3], &trnsp, &d);
        must_differ(s, &t[4], &solid, &d);
    }
}

/* Bits at the sides of the buffer, those outside taken for zeros, and for the bits of the buffer once more: they agree
 * only where none is outside. */
static void misread_outside(const server *s, tally *zeros, tally *again, tally *inside)
{
    for (unsigned k = 0; k < 1000; k++) {
        drawing d = small_stipple();
        d.a.x = one_in(2) ? between(-24, 24) : 8 * (int)width - between(0, 48);
        d.a.y = between(-24, (int)height);
        drawing e = d, f = d;
        e.reading = ZEROS_AROUND;
        f.means = FILL_STIPPLED;
        const bool same = bits_inside(&d);
        expect(same ? inside : zeros, (compare(s, &d, &e).pixels == 0) == same);
        expect(same ? inside : again, (compare(s, &d, &f).pixels == 0) == same);
    }
}

/* A blit to inside the board, of all columns and rows of a tile with room for 32 by 32 pixels. It begins with neither the
 * first column nor the first row of the tile. */
static drawing small_tile(void)
{
    drawing d = {.opcode = BITBLT, .apat = true, .code = GXxor, .mask = 0xFF, .columns = TILE_WIDTH, .rows = TILE_HEIGHT};
    d.a = (point){between(0, (int)width - 32), between(0, (int)height - 32)};
    d.b = (point){between(1, 15), between(1, 7)};
    d.width = (unsigned)between(TILE_WIDTH, 40);
    d.height = (unsigned)between(TILE_HEIGHT, 40);
    d.source = (unsigned)between(0, 1);
    d.direction = (unsigned)between(0, 3);
    return d;
}

/* columns and rows counted from the corner of the blit, and from that of the tile; a tile of 8 by 8 and of 32 by 32 pixels;
 * and one that is partly outside drawn as the nearest inside */
static void misread_tiles(const server *s, tally *t)
{
    for (unsigned k = 0; k < 500; k++) {
        drawing d = small_tile();
        drawing corner = d, place = d, small = d, large = d;
        corner.origin = d.b;
        place.origin = d.a;
        small.columns = small.rows = 8;
        large.columns = large.rows = 32;
        must_differ(s, &t[0], &d, &corner);
        if (d.a.x % TILE_WIDTH != 0 || d.a.y % TILE_HEIGHT != 0)
            must_differ(s, &t[1], &d, &place);
        must_differ(s, &t[2], &d, &small);
        must_differ(s, &t[3], &d, &large);
        if (one_in(2))
            d.a.x = one_in(2) ? -1 : (int)width - TILE_WIDTH + 1;
        else
            d.a.y = one_in(2) ? -1 : (int)height - TILE_HEIGHT + 1;
        drawing inside = d;
        inside.a.x = least(greatest(d.a.x, 0), (int)width - TILE_WIDTH);
        inside.a.y = least(greatest(d.a.y, 0), (int)height - TILE_HEIGHT);
        must_differ(s, &t[4], &d, &inside);
    }
}

static void print_tally(const tally *t)
{
    printf("%-57s %8lu %8lu\n", t->name, t->cases, t->met);
}

static void compare_misread(const server *s)
{
    tally t[] = {
        {"BITBLT STPL, least significant bit first: differs", 0, 0},
        {"BITBLT STPL, as many bits as columns: differs", 0, 0},
        {"BITBLT STPL, a 0 draws nothing: differs", 0, 0},
        {"BITBLT STPL TRNSP, a 0 draws BACK: differs", 0, 0},
        {"BITBLT STPL SOLID, bits are read: differs", 0, 0},
        {"BITBLT STPL, a bit outside draws BACK: differs", 0, 0},
        {"BITBLT STPL, bits outside come round again: differs", 0, 0},
        {"BITBLT STPL, both where none is outside: agrees", 0, 0},
        {"BITBLT STPL over its source, the other direction: differs", 0, 0},
        {"BITBLT APAT, counted from the corner of the blit: differs", 0, 0},
        {"BITBLT APAT, counted from the corner of the tile: differs", 0, 0},
        {"BITBLT APAT, a tile of 8 by 8: differs", 0, 0},
        {"BITBLT APAT, a tile of 32 by 32: differs", 0, 0},
        {"BITBLT APAT, a tile partly outside is drawn: differs", 0, 0},
    };
    misread_bits(s, t);
    misread_outside(s, &t[5], &t[6], &t[7]);
    wrong_directions(s, &t[8], true);
    misread_tiles(s, &t[9]);
    for (unsigned k = 0; k < sizeof t / sizeof t[0]; k++)
        print_tally(&t[k]);
}

void compare_wrong(server *servers, const kind *kinds, unsigned count)
{
    tally direction = {"BITBLT over its source, the other direction: differs", 0, 0};
    tally halfway = {"LINE with a halfway point, the other way: differs", 0, 0};
    tally others = {"LINE without a halfway point, the other way: agrees", 0, 0};
    tally parts = {"LINE STPL, pattern not moved by hidden pixels: differs", 0, 0};
    tally whole = {"LINE STPL, the same where they are whole periods: agrees", 0, 0};
    set_board(servers, 64, 48);
    printf("\n%-57s %8s %8s\n", "expectation", "cases", "met");
    for (unsigned k = 0; k < count; k++) {
        char name[64];
        tally t = {name, 0, 0};
        snprintf(name, sizeof name, "%s: a wrong one differs", kinds[k].name);
        wrong_kind(&servers[kinds[k].biased], &kinds[k], &t);
        print_tally(&t);
    }
    wrong_directions(&servers[0], &direction, false);
    wrong_ways(&servers[0], &halfway, &others);
    hidden_dashes(&servers[0], &parts, &whole);
    print_tally(&direction);
    compare_misread(&servers[0]);
    print_tally(&halfway);
    print_tally(&others);
    print_tally(&parts);
    print_tally(&whole);
}
