/* Draws with an X server. */
#include <X11/Xutil.h>
#include <stdarg.h>
#include <stdio.h>
#include <string.h>

#include "compare.h"

char calls[4096];

static void note(const char *format, ...)
{
    const size_t used = strlen(calls);
    va_list values;
    va_start(values, format);
    vsnprintf(calls + used, sizeof calls - used, format, values);
    va_end(values);
}

/* Adds the rectangle of a box that is not empty. A rectangle's sides are at most 65,535; where a clip has 65,536 it loses
 * row or column 32,767, which no board has. */
static void add_rectangle(box b, XRectangle *rectangles, int *count)
{
    if (is_empty(b))
        return;
    const int w = least(b.right - b.left + 1, 65535), h = least(b.bottom - b.top + 1, 65535);
    rectangles[(*count)++] = (XRectangle){(short)b.left, (short)b.top, (unsigned short)w, (unsigned short)h};
}

/* the box without a pixel in it, as four rectangles */
static void add_all_but(box b, point p, XRectangle *rectangles, int *count)
{
    add_rectangle((box){b.left, b.top, b.right, p.y - 1}, rectangles, count);
    add_rectangle((box){b.left, p.y, p.x - 1, p.y}, rectangles, count);
    add_rectangle((box){p.x + 1, p.y, b.right, p.y}, rectangles, count);
    add_rectangle((box){b.left, p.y + 1, b.right, b.bottom}, rectangles, count);
}

/* A line drawn backwards has B first, and no cap style leaves out the first pixel: the clip does. */
static void set_clip(const server *s, const drawing *d)
{
    const box clip = d->clipped ? d->clip : board_box();
    const bool without_b = d->nlst && d->backwards && holds(clip, d->b);
    XRectangle rectangles[4];
    int count = 0;
    if (!d->clipped && !without_b) {
        XSetClipMask(s->display, s->gc, None);
        note("XSetClipMask(None)\n");
        return;
    }
    if (without_b)
        add_all_but(clip, d->b, rectangles, &count);
    else
        add_rectangle(clip, rectangles, &count);
    XSetClipRectangles(s->display, s->gc, 0, 0, rectangles, count, Unsorted);
    note("XSetClipRectangles(0, 0, {");
    for (int k = 0; k < count; k++)
        note(" {%d, %d, %u, %u}", rectangles[k].x, rectangles[k].y, rectangles[k].width, rectangles[k].height);
    note(" }, %d, Unsorted)\n", count);
}

static void set_gc(const server *s, const drawing *d)
{
    const bool not_last = d->nlst && !d->backwards;
    XGCValues values = {.function = (int)d->code, .plane_mask = d->mask, .foreground = d->fore};
    values.cap_style = not_last ? CapNotLast : CapButt;
    values.line_style = LineSolid;
    values.fill_style = FillSolid;
    XChangeGC(s->display, s->gc, GCFunction | GCPlaneMask | GCForeground | GCCapStyle | GCLineStyle | GCFillStyle,
              &values);
    note("XChangeGC(function %u, plane_mask 0x%02X, foreground 0x%02X, cap_style %s, line_style LineSolid, fill_style "
         "FillSolid)\n", d->code, d->mask, d->fore, not_last ? "CapNotLast" : "CapButt");
}

/* the pattern's bit at pixel j of the line that X draws */
static bool dash_bit(const drawing *d, int j)
{
    const int place = phase_after(&d->dashes, d->backwards ? steps_of(d) - j : j) / d->dashes.scale;
    return d->dashes.bits >> place & 1;
}

/* The runs of equal bits in a period that begins with a run of ones, and where in it the line begins. There are none
 * where all bits are equal. */
static int dash_list(const drawing *d, uint8_t *runs, int *offset)
{
    const int whole = period(&d->dashes);
    int first = 0, count = 0;
    while (first < whole && (dash_bit(d, first - 1) || !dash_bit(d, first)))
        first++;
    if (first == whole)
        return 0;
    for (int j = first; j < first + whole; j++) {
        if (dash_bit(d, j) != dash_bit(d, j - 1))
            runs[count++] = 0;
        runs[count - 1]++;
    }
    *offset = whole - first;
    return count;
}

/* Gives the GC the dashes of a line, or the colour of equal bits; false where these draw nothing. */
static bool set_dashes(const server *s, const drawing *d)
{
    XGCValues values = {.line_style = d->trnsp ? LineOnOffDash : LineDoubleDash, .background = d->back};
    uint8_t runs[32];
    int offset;
    const int count = dash_list(d, runs, &offset);
    if (count == 0) {
        values.foreground = dash_bit(d, 0) ? d->fore : d->back;
        XChangeGC(s->display, s->gc, GCForeground, &values);
        note("XChangeGC(foreground 0x%02lX)\n", values.foreground);
        return dash_bit(d, 0) || !d->trnsp;
    }
    XChangeGC(s->display, s->gc, GCLineStyle | GCBackground, &values);
    XSetDashes(s->display, s->gc, offset, (const char *)runs, count);
    note("XChangeGC(line_style %s, background 0x%02X)\nXSetDashes(%d, {", d->trnsp ? "LineOnOffDash" : "LineDoubleDash",
         d->back, offset);
    for (int k = 0; k < count; k++)
        note(" %u", runs[k]);
    note(" }, %d)\n", count);
    return true;
}

static void x_fill(const server *s, const drawing *d)
{
    XFillRectangle(s->display, s->buffers[d->destination], s->gc, d->b.x, d->b.y, d->width, d->height);
    note("XFillRectangle(pixmap %u, %d, %d, %u, %u)\n", d->destination, d->b.x, d->b.y, d->width, d->height);
}

static void x_copy(const server *s, const drawing *d)
{
    XCopyArea(s->display, s->buffers[d->source], s->buffers[d->destination], s->gc, d->a.x, d->a.y, d->width,
              d->height, d->b.x, d->b.y);
    note("XCopyArea(pixmap %u, pixmap %u, %d, %d, %u, %u, %d, %d)\n", d->source, d->destination, d->a.x, d->a.y,
         d->width, d->height, d->b.x, d->b.y);
}

static void x_line(const server *s, const drawing *d)
{
    const point p = d->backwards ? d->b : d->a, q = d->backwards ? d->a : d->b;
    if (is_dashed(d) && !set_dashes(s, d))
        return;
    XDrawLine(s->display, s->buffers[d->destination], s->gc, p.x, p.y, q.x, q.y);
    note("XDrawLine(pixmap %u, %d, %d, %d, %d)\n", d->destination, p.x, p.y, q.x, q.y);
}

/* the bytes of a buffer as an image of one pixel or eight a byte */
static XImage *image_of(const server *s, unsigned k, unsigned depth)
{
    XImage *image = XCreateImage(s->display, DefaultVisual(s->display, DefaultScreen(s->display)), depth,
                                 depth == 1 ? XYPixmap : ZPixmap, 0, (char *)start[k], width * 8 / depth, height, 8,
                                 (int)width);
    if (!image)
        fail("XCreateImage gives no image");
    return image;
}

static void destroy_image(XImage *image)
{
    image->data = NULL;
    XDestroyImage(image);
}

static void put(const server *s, unsigned k)
{
    XImage *image = image_of(s, k, 8);
    XPutImage(s->display, s->buffers[k], DefaultGC(s->display, DefaultScreen(s->display)), image, 0, 0, 0, 0, width,
              height);
    destroy_image(image);
}

static int margin(const drawing *d)
{
    return d->reading == ZEROS_AROUND ? 64 : 0;
}

/* A bitmap of the source buffer's bits. The most significant bit of a byte is its leftmost pixel, and the image says so:
 * where the server has bits the other way round, as Xvfb does, XPutImage turns them. It is made anew for each drawing,
 * since a change of a bitmap that a GC has as stipple may or may not be seen. */
static Pixmap make_bitmap(const server *s, const drawing *d)
{
    const unsigned columns = d->reading == NARROW ? width : 8 * width, margins = 2 * (unsigned)margin(d);
    const unsigned w = columns + margins, h = height + margins;
    const Pixmap bitmap = XCreatePixmap(s->display, DefaultRootWindow(s->display), w, h, 1);
    XImage *image = image_of(s, d->source, 1);
    image->bitmap_unit = 8;
    image->byte_order = image->bitmap_bit_order = d->reading == LEAST_FIRST ? LSBFirst : MSBFirst;
    XFillRectangle(s->display, bitmap, s->bitmap_gc, 0, 0, w, h);
    XPutImage(s->display, bitmap, s->bitmap_gc, image, 0, 0, margin(d), margin(d), columns, height);
    destroy_image(image);
    return bitmap;
}

static void x_copy_plane(const server *s, const drawing *d, Pixmap bitmap)
{
    const int x = d->a.x + margin(d), y = d->a.y + margin(d);
    XSetBackground(s->display, s->gc, d->back);
    XCopyPlane(s->display, bitmap, s->buffers[d->destination], s->gc, x, y, d->width, d->height, d->b.x, d->b.y, 1);
    note("XSetBackground(0x%02X)\nXCopyPlane(bits of pixmap %u, pixmap %u, %d, %d, %u, %u, %d, %d, 1)\n", d->back,
         d->source, d->destination, x, y, d->width, d->height, d->b.x, d->b.y);
}

/* The origin lays the bit at A over the pixel at B. It may be whole stipples away from that, as 16 bits must hold it. */
static void x_fill_stippled(const server *s, const drawing *d, Pixmap bitmap)
{
    const int x = (d->b.x - d->a.x) % (8 * (int)width), y = (d->b.y - d->a.y) % (int)height;
    XGCValues values = {.fill_style = d->trnsp ? FillStippled : FillOpaqueStippled, .background = d->back};
    values.stipple = bitmap;
    values.ts_x_origin = x;
    values.ts_y_origin = y;
    XChangeGC(s->display, s->gc, GCFillStyle | GCBackground | GCStipple | GCTileStipXOrigin | GCTileStipYOrigin,
              &values);
    note("XChangeGC(fill_style %s, background 0x%02X, stipple bits of pixmap %u, ts_x_origin %d, ts_y_origin %d)\n",
         d->trnsp ? "FillStippled" : "FillOpaqueStippled", d->back, d->source, x, y);
    x_fill(s, d);
}

/* The bits take the clip's place, so of the rectangle the part in the clip is filled. It is cut to the board too, where
 * 16 bits hold the origin. */
static void x_fill_through(const server *s, const drawing *d, Pixmap bitmap)
{
    const box seen = d->clipped ? common(board_box(), d->clip) : board_box();
    const box part = common(seen, rectangle(d, d->b));
    const int x = d->b.x - d->a.x, y = d->b.y - d->a.y;
    drawing e = *d;
    if (is_empty(part))
        return;
    XSetClipMask(s->display, s->gc, bitmap);
    XSetClipOrigin(s->display, s->gc, x, y);
    note("XSetClipMask(bits of pixmap %u)\nXSetClipOrigin(%d, %d)\n", d->source, x, y);
    e.b = (point){part.left, part.top};
    e.width = (unsigned)(part.right - part.left + 1);
    e.height = (unsigned)(part.bottom - part.top + 1);
    x_fill(s, &e);
}

static void x_stippled(const server *s, const drawing *d)
{
    const Pixmap bitmap = make_bitmap(s, d);
    if (d->means == COPY_PLANE)
        x_copy_plane(s, d, bitmap);
    else if (d->means == FILL_STIPPLED)
        x_fill_stippled(s, d, bitmap);
    else
        x_fill_through(s, d, bitmap);
    XFreePixmap(s->display, bitmap);
}

/* The tile is a pixmap of its own, made before the drawing, for which it is made anew as a bitmap is. */
static void x_fill_tiled(const server *s, const drawing *d)
{
    if (!tile_inside(d))
        return;
    XGCValues values = {.fill_style = FillTiled, .ts_x_origin = d->origin.x, .ts_y_origin = d->origin.y};
    values.tile = XCreatePixmap(s->display, DefaultRootWindow(s->display), d->columns, d->rows, 8);
    XImage *image = image_of(s, d->source, 8);
    XPutImage(s->display, values.tile, DefaultGC(s->display, DefaultScreen(s->display)), image, d->a.x, d->a.y, 0, 0,
              d->columns, d->rows);
    destroy_image(image);
    XChangeGC(s->display, s->gc, GCFillStyle | GCTile | GCTileStipXOrigin | GCTileStipYOrigin, &values);
    note("XChangeGC(fill_style FillTiled, tile %u by %u pixels from (%d, %d) of pixmap %u, ts_x_origin %d, ts_y_origin %d)\n",
         d->columns, d->rows, d->a.x, d->a.y, d->source, d->origin.x, d->origin.y);
    x_fill(s, d);
    XFreePixmap(s->display, values.tile);
}

static void x_one(const server *s, const drawing *d)
{
    set_gc(s, d);
    set_clip(s, d);
    if (d->opcode != BITBLT)
        x_line(s, d);
    else if (d->solid)
        x_fill(s, d);
    else if (d->stpl)
        x_stippled(s, d);
    else if (d->apat)
        x_fill_tiled(s, d);
    else
        x_copy(s, d);
}

void x_draw(const server *s, const drawing *d)
{
    calls[0] = 0;
    for (unsigned k = 0; k < 2; k++)
        put(s, k);
    if (d->before)
        x_one(s, d->before);
    x_one(s, d);
}

void set_board(server *servers, unsigned w, unsigned h)
{
    width = w;
    height = h;
    for (unsigned s = 0; s < 2; s++)
        for (unsigned k = 0; k < 2; k++) {
            Display *display = servers[s].display;
            if (servers[s].buffers[k])
                XFreePixmap(display, servers[s].buffers[k]);
            servers[s].buffers[k] = XCreatePixmap(display, DefaultRootWindow(display), w, h, 8);
        }
}

server open_server(const char *name, bool biased)
{
    server s = {.display = XOpenDisplay(name), .biased = biased};
    if (!s.display)
        fail("no X server answers");
    const int screen = DefaultScreen(s.display);
    if (DefaultDepth(s.display, screen) != 8 || DefaultVisual(s.display, screen)->class != PseudoColor)
        fail("the screen is not 8-bit PseudoColor");
    XGCValues values = {.line_width = 0, .graphics_exposures = False};
    s.gc = XCreateGC(s.display, DefaultRootWindow(s.display), GCLineWidth | GCGraphicsExposures, &values);
    const Pixmap bitmap = XCreatePixmap(s.display, DefaultRootWindow(s.display), 1, 1, 1);
    s.bitmap_gc = XCreateGC(s.display, bitmap, 0, NULL);
    XFreePixmap(s.display, bitmap);
    return s;
}

void close_server(const server *s)
{
    for (unsigned k = 0; k < 2; k++)
        XFreePixmap(s->display, s->buffers[k]);
    XFreeGC(s->display, s->gc);
    XFreeGC(s->display, s->bitmap_gc);
    XCloseDisplay(s->display);
}
