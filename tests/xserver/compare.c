/* Draws the same things with the engine and with an X server and compares both buffers pixel by pixel.
 *
 *     compare PLAIN BIASED [SEED [ROUNDS]]
 *
 * PLAIN is the display of an 8-bit Xvfb, BIASED that of one with -linebias 27. The last line is 'N passed, M failed'.
 *
 * The rule for thin lines. Where the exact line passes halfway between two pixels, the engine takes the one with the
 * smaller minor coordinate, and Xvfb by default the one that lies in the direction of travel. On PLAIN, lines whose minor
 * coordinate grows from A to B are therefore drawn from B to A and all others from A to B; then every pixel agrees. Drawn
 * the other way, the lines with a halfway point differ and no others do. On BIASED the server takes the smaller minor
 * coordinate too, and both ways agree. Bit k of a line bias keeps the lines of octant k from stepping at a halfway point,
 * where k is 1 if y is major, plus 2 if y shrinks, plus 4 if x shrinks; 27 is the octants whose minor coordinate grows.
 *
 * The rule for dashes. Both move the pattern by one at every pixel of a line, hidden ones too. A line drawn from B to A
 * gets its pattern reversed: pixel j from B is pixel n - j from A.
 *
 * The rule for bits. X has the bits of a source buffer in a bitmap, eight columns a byte, the most significant first. As
 * the source of XCopyPlane it draws both colours, and nothing where the source lies outside it. As a clip mask it draws
 * the ones alone, and nothing outside. As a stipple it draws either way, but X repeats it and nothing is outside.
 *
 * The rule for tiles. X has the tile in a pixmap of 16 by 8 and, with FillTiled and the origin at (0, 0), repeats it from the
 * upper left pixel on, as the engine does. Where the tile lies partly outside its buffer, nothing is drawn in X.
 */
#include <X11/Xutil.h>
#include <stdio.h>
#include <stdlib.h>
#include <string.h>

#include "compare.h"

enum { DEFAULT_SEED = 128, DEFAULT_ROUNDS = 16 };

static unsigned long passed, failed;

void fail(const char *text)
{
    fprintf(stderr, "compare: %s\n", text);
    exit(2);
}

static void compare_buffer(const server *s, unsigned k, difference *found)
{
    XImage *image = XGetImage(s->display, s->buffers[k], 0, 0, width, height, AllPlanes, ZPixmap);
    if (!image || image->bits_per_pixel != 8)
        fail("XGetImage gives no image of 8 bits a pixel");
    for (unsigned y = 0; y < height; y++) {
        const uint8_t *ours = buffers[k] + (size_t)y * width;
        const uint8_t *theirs = (const uint8_t *)image->data + (size_t)y * (size_t)image->bytes_per_line;
        if (memcmp(ours, theirs, width) == 0)
            continue;
        for (unsigned x = 0; x < width; x++)
            if (ours[x] != theirs[x] && found->pixels++ == 0)
                *found = (difference){1, k, x, y, ours[x], theirs[x]};
    }
    XDestroyImage(image);
}

/* the pixels that the engine changed */
static unsigned long changed(void)
{
    unsigned long count = 0;
    for (unsigned k = 0; k < 2; k++)
        for (size_t i = 0; i < (size_t)width * height; i++)
            count += start[k][i] != buffers[k][i];
    return count;
}

/* what differs where engine and X server begin with the same random bytes and draw one drawing each */
difference compare(const server *s, const drawing *by_engine, const drawing *by_x)
{
    difference found = {0};
    for (unsigned k = 0; k < 2; k++)
        random_bytes(start[k], (size_t)width * height);
    engine_draw(by_engine);
    x_draw(s, by_x);
    for (unsigned k = 0; k < 2; k++)
        compare_buffer(s, k, &found);
    return found;
}

static void report(const difference *found)
{
    static bool reported;
    if (reported)
        return;
    reported = true;
    printf("first difference, at (%u, %u) of buffer %u: was 0x%02X, engine 0x%02X, X 0x%02X\n", found->x, found->y,
           found->buffer, start[found->buffer][(size_t)found->y * width + found->x], found->engine, found->server);
    printf("board and pixmaps: %u by %u, depth 8; buffer and pixmap 0 are display, 1 virtual\nentries:\n", width, height);
    for (size_t k = 0; k < entries; k++) {
        const uint8_t *e = list + 5 * k;
        printf("%02X %02X %02X %02X %02X\n", e[0], e[1], e[2], e[3], e[4]);
    }
    printf("X calls, with a GC of line_width 0 and graphics_exposures False, bits and tiles being of the bytes that the "
           "pixmap began with:\n%s\n", calls);
}

void count_test(bool passes)
{
    if (passes)
        passed++;
    else
        failed++;
}

static kind kinds[] = {
    {.name = "BITBLT SOLID, XFillRectangle", .make = fill},
    {.name = "BITBLT between buffers, XCopyArea", .make = copy_between},
    {.name = "BITBLT in one buffer, XCopyArea", .make = copy_within},
    {.name = "BITBLT over its source, XCopyArea", .make = copy_overlapping},
    {.name = "BITBLT STPL SOLID, XFillRectangle", .make = fill_stippled},
    {.name = "BITBLT STPL, XCopyPlane", .make = stipple_between},
    {.name = "BITBLT STPL, one buffer, both styles", .make = stipple_within},
    {.name = "BITBLT STPL, FillOpaqueStippled", .make = stipple_opaque},
    {.name = "BITBLT STPL TRNSP, FillStippled", .make = stipple_transparent},
    {.name = "BITBLT STPL TRNSP, clip mask", .make = stipple_through},
    {.name = "BITBLT STPL, glyphs, both styles", .make = glyph},
    {.name = "BITBLT APAT, FillTiled", .make = tile_between},
    {.name = "BITBLT APAT, one buffer, FillTiled", .make = tile_within},
    {.name = "LINE SOLID, XDrawLine", .make = line},
    {.name = "LINE SOLID NLST, XDrawLine", .make = line_not_last},
    {.name = "PLINE SOLID, XDrawLine", .make = polyline},
    {.name = "LINE SOLID, line bias 27", .make = line, .biased = true},
    {.name = "LINE SOLID NLST, line bias 27", .make = line_not_last, .biased = true},
    {.name = "LINE STPL, LineDoubleDash", .make = line, .dash = opaque},
    {.name = "LINE STPL TRNSP, LineOnOffDash", .make = line, .dash = transparent},
    {.name = "LINE STPL NLST, both styles", .make = line_not_last, .dash = either},
    {.name = "PLINE STPL, both styles", .make = polyline, .dash = either},
    {.name = "two lines STPL, both styles", .make = polyline, .dash = either, .two = true},
    {.name = "LINE STPL, line bias 27", .make = line, .dash = opaque, .biased = true},
    {.name = "LINE STPL TRNSP, line bias 27", .make = line, .dash = transparent, .biased = true},
    {.name = "LINE STPL NLST, line bias 27", .make = line_not_last, .dash = either, .biased = true},
    {.name = "PLINE STPL, line bias 27", .make = polyline, .dash = either, .biased = true},
    {.name = "two lines STPL, line bias 27", .make = polyline, .dash = either, .two = true, .biased = true},
};

enum { KINDS = sizeof kinds / sizeof kinds[0] };

static drawing random_drawing(const kind *k, unsigned code, unsigned mask, unsigned style)
{
    drawing d = {.code = code, .mask = mask, .clipped = style != NO_CLIP};
    d.clip = random_clip(d.clipped ? style : (unsigned)between(INSIDE, FAR));
    d.fore = (unsigned)between(0, 255);
    d.back = (unsigned)between(0, 255);
    d.destination = (unsigned)between(0, 1);
    k->make(&d);
    if (k->dash)
        k->dash(&d);
    return d;
}

static bool in_x_backwards(const server *s, const drawing *d)
{
    return d->opcode != BITBLT && (s->biased ? one_in(2) : minor_grows(d));
}

static void compare_case(const server *s, kind *k, unsigned code, unsigned mask, unsigned style)
{
    drawing d = random_drawing(k, code, mask, style), first;
    d.backwards = in_x_backwards(s, &d);
    if (k->two) {
        first = d;
        first.solid = one_in(8);
        d = second_line(&first);
        d.backwards = in_x_backwards(s, &d);
    }
    const difference found = compare(s, &d, &d);
    k->cases++;
    k->pixels += 2ul * width * height;
    k->changed += changed();
    k->differences += found.pixels;
    count_test(found.pixels == 0);
    if (found.pixels > 0)
        report(&found);
}

/* drawings of the kind under every code, mask and style of clip */
static void compare_kind(const server *s, kind *k)
{
    static const unsigned styles[] = {NO_CLIP, NO_CLIP, INSIDE, INSIDE, PARTLY_OFF, FAR, WHOLLY_OFF, REVERSED};
    const unsigned masks[] = {0xFF, 0x0F, 0xA5, 0x01, 0x00, (unsigned)between(0, 255)};
    for (unsigned code = 0; code < 16; code++)
        for (unsigned m = 0; m < sizeof masks / sizeof masks[0]; m++)
            for (unsigned style = 0; style < sizeof styles / sizeof styles[0]; style++)
                compare_case(s, k, code, masks[m], styles[style]);
}

static void compare_round(server *servers, unsigned long round)
{
    static const unsigned sizes[][2] = {{64, 48}, {1, 1}, {8, 4}, {320, 200}, {SIDE, 3}, {3, SIDE}};
    if (round < sizeof sizes / sizeof sizes[0])
        set_board(servers, sizes[round][0], sizes[round][1]);
    else
        set_board(servers, (unsigned)between(1, 100), (unsigned)between(1, 100));
    for (unsigned k = 0; k < KINDS; k++)
        compare_kind(&servers[kinds[k].biased], &kinds[k]);
}

static void print_kind(const kind *k)
{
    printf("%-36s %8lu %12lu %12lu %12lu\n", k->name, k->cases, k->pixels, k->changed, k->differences);
}

static void print_kinds(void)
{
    kind all = {.name = "all"};
    printf("%-36s %8s %12s %12s %12s\n", "drawing", "cases", "pixels", "changed", "differences");
    for (unsigned k = 0; k < KINDS; k++) {
        print_kind(&kinds[k]);
        all.cases += kinds[k].cases;
        all.pixels += kinds[k].pixels;
        all.changed += kinds[k].changed;
        all.differences += kinds[k].differences;
    }
    print_kind(&all);
}

static unsigned long number(const char *text)
{
    char *end;
    const unsigned long n = strtoul(text, &end, 0);
    if (*text == 0 || *end != 0)
        fail("SEED and ROUNDS are numbers");
    return n;
}

int main(int argc, char **argv)
{
    if (argc < 3 || argc > 5)
        fail("use: compare PLAIN BIASED [SEED [ROUNDS]]");
    const unsigned long seed = argc > 3 ? number(argv[3]) : DEFAULT_SEED;
    const unsigned long rounds = argc > 4 ? number(argv[4]) : DEFAULT_ROUNDS;
    server servers[2] = {open_server(argv[1], false), open_server(argv[2], true)};
    printf("%s, release %d, 8-bit PseudoColor; seed %lu, rounds %lu\n\n", ServerVendor(servers[0].display),
           VendorRelease(servers[0].display), seed, rounds);
    random_state = seed;
    for (unsigned long round = 0; round < rounds; round++)
        compare_round(servers, round);
    print_kinds();
    compare_wrong(servers, kinds, KINDS);
    close_server(&servers[0]);
    close_server(&servers[1]);
    printf("%lu passed, %lu failed\n", passed, failed);
    return failed == 0 ? 0 : 1;
}
