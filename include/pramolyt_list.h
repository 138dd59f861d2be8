/* The format of display lists, for C and C++: names for its numbers, and functions that put an entry together. What each of
 * them means stands in docs/FORMAT.md. All of it is inline and can be used without the library.
 *
 *     uint8_t bytes[4 * PRAMOLYT_ENTRY_BYTES], *at = bytes;
 *     at = pramolyt_put_entry(at, PRAMOLYT_FORE, 7);
 *     at = pramolyt_put_entry(at, PRAMOLYT_CMD, pramolyt_command(PRAMOLYT_LINE, PRAMOLYT_GX_COPY, PRAMOLYT_CMD_SOLID));
 *     at = pramolyt_put_entry(at, PRAMOLYT_XY0, pramolyt_point(0, 0));
 *     at = pramolyt_put_entry(at, PRAMOLYT_XY1, pramolyt_point(4, 2));
 *
 * Whether an entry is legal is for pramolyt_post to say, which refuses a list that has an illegal one.
 */
#ifndef PRAMOLYT_LIST_H
#define PRAMOLYT_LIST_H

#include <stdint.h>

/* Limits. */
#define PRAMOLYT_ENTRY_BYTES 5         /* bytes of an entry */
#define PRAMOLYT_MAX_ENTRIES 4096      /* entries of a list memory, at least 1 */
#define PRAMOLYT_MAX_SIDE 2048         /* width and height of a board, at least 1, and of a blit, which may be 0 */
#define PRAMOLYT_MAX_PATTERN_LENGTH 32 /* bits of a line pattern, at least 1 */
#define PRAMOLYT_MAX_PATTERN_SCALE 8   /* pixels for each of its bits, at least 1 */

/* The registers. XY1 comes last: writing it triggers the command in CMD. */
enum {
    PRAMOLYT_CMD = 0,
    PRAMOLYT_FORE = 1,
    PRAMOLYT_BACK = 2,
    PRAMOLYT_MASK = 3,
    PRAMOLYT_KEY = 4,
    PRAMOLYT_LPAT = 5,
    PRAMOLYT_PCTRL = 6,
    PRAMOLYT_CLPTL = 7,
    PRAMOLYT_CLPBR = 8,
    PRAMOLYT_XY0 = 9,
    PRAMOLYT_XY2 = 10,
    PRAMOLYT_XY3 = 11,
    PRAMOLYT_XY1 = 12
};

/* The opcodes of CMD. */
enum {
    PRAMOLYT_NOOP = 0,
    PRAMOLYT_BITBLT = 1,
    PRAMOLYT_LINE = 2, /* from XY0 to XY1 */
    PRAMOLYT_PLINE = 5 /* from the last point to XY1 */
};

/* The flags of CMD. */
enum {
    PRAMOLYT_CMD_SOLID = 1 << 23,               /* FORE everywhere */
    PRAMOLYT_CMD_TRNSP = 1 << 22,               /* a 0 draws nothing in place of BACK */
    PRAMOLYT_CMD_STPL = 1 << 21,                /* from bits: a blit's source, a line's pattern */
    PRAMOLYT_CMD_KEY = 1 << 20,                 /* a source pixel equal to KEY draws nothing */
    PRAMOLYT_CMD_NLST = 1 << 19,                /* a line without its last pixel */
    PRAMOLYT_CMD_PRST = 1 << 18,                /* a line that sets its pattern back to PCTRL's start */
    PRAMOLYT_CMD_CLIP = 1 << 17,                /* draws only from CLPTL to CLPBR */
    PRAMOLYT_CMD_SOURCE_VIRTUAL = 1 << 16,      /* reads the virtual buffer, else display */
    PRAMOLYT_CMD_DESTINATION_VIRTUAL = 1 << 15, /* draws into the virtual buffer, else display */
    PRAMOLYT_CMD_APAT = 1 << 14                 /* a blit from a tile of 16 by 8 pixels, XY0 being its upper left corner */
};

/* The raster codes of CMD, by their names in X. */
enum {
    PRAMOLYT_GX_CLEAR = 0,
    PRAMOLYT_GX_AND = 1,
    PRAMOLYT_GX_AND_REVERSE = 2,
    PRAMOLYT_GX_COPY = 3,
    PRAMOLYT_GX_AND_INVERTED = 4,
    PRAMOLYT_GX_NOOP = 5,
    PRAMOLYT_GX_XOR = 6,
    PRAMOLYT_GX_OR = 7,
    PRAMOLYT_GX_NOR = 8,
    PRAMOLYT_GX_EQUIV = 9,
    PRAMOLYT_GX_INVERT = 10,
    PRAMOLYT_GX_OR_REVERSE = 11,
    PRAMOLYT_GX_COPY_INVERTED = 12,
    PRAMOLYT_GX_OR_INVERTED = 13,
    PRAMOLYT_GX_NAND = 14,
    PRAMOLYT_GX_SET = 15
};

/* The directions of a blit, for XY3: the corner that it begins at, which XY0 and XY1 then name. */
enum {
    PRAMOLYT_FROM_UPPER_LEFT = 0,
    PRAMOLYT_FROM_LOWER_LEFT = 1,
    PRAMOLYT_FROM_UPPER_RIGHT = 2,
    PRAMOLYT_FROM_LOWER_RIGHT = 3
};

/* The buffers, for pramolyt_window_write. */
enum { PRAMOLYT_DISPLAY = 0, PRAMOLYT_VIRTUAL = 1 };

/* A word that is illegal in CMD, PCTRL and XY2. The functions below answer it where a number is outside its range, so that
 * the entry is refused. */
#define PRAMOLYT_ILLEGAL_WORD 0xFFFFFFFFu

/* Writes an entry of PRAMOLYT_ENTRY_BYTES bytes and answers the place after it. A register above 31, which an entry has no
 * room for, is written as 31, which is illegal. */
static inline uint8_t *pramolyt_put_entry(uint8_t *at, unsigned reg, uint32_t word)
{
    at[0] = (uint8_t)((reg < 31 ? reg : 31) << 3);
    at[1] = (uint8_t)(word >> 24);
    at[2] = (uint8_t)(word >> 16);
    at[3] = (uint8_t)(word >> 8);
    at[4] = (uint8_t)word;
    return at + PRAMOLYT_ENTRY_BYTES;
}

/* A point, for CLPTL, CLPBR, XY0 and XY1. Each number is -32,768 to 32,767; of others the low 16 bits count. */
static inline uint32_t pramolyt_point(int x, int y)
{
    return (uint32_t)x << 16 | ((uint32_t)y & 0xFFFF);
}

/* A size, for XY2. Each number is 0 to PRAMOLYT_MAX_SIDE. */
static inline uint32_t pramolyt_size(unsigned width, unsigned height)
{
    if (width > PRAMOLYT_MAX_SIDE || height > PRAMOLYT_MAX_SIDE)
        return PRAMOLYT_ILLEGAL_WORD;
    return (uint32_t)width << 16 | (uint32_t)height;
}

/* A command, for CMD: an opcode, a raster code, and flags joined by |. */
static inline uint32_t pramolyt_command(unsigned opcode, unsigned raster_code, uint32_t flags)
{
    if (opcode > 15 || raster_code > 15 || flags >> 24 != 0)
        return PRAMOLYT_ILLEGAL_WORD;
    return (uint32_t)opcode << 28 | (uint32_t)raster_code << 24 | flags;
}

/* A line pattern, for PCTRL: so many bits of LPAT, so many pixels for each, and where it starts: a place below the length, a
 * repeat below the scale. */
static inline uint32_t pramolyt_pattern(unsigned length, unsigned scale, unsigned place, unsigned repeat)
{
    if (length > PRAMOLYT_MAX_PATTERN_LENGTH || place >= length || scale > PRAMOLYT_MAX_PATTERN_SCALE || repeat >= scale)
        return PRAMOLYT_ILLEGAL_WORD;
    return (uint32_t)(length % 32 | (scale - 1) << 5 | place << 8 | repeat << 13);
}

#endif
