/* Each member of pramolyt_board is the word that the library takes it for, and a refused call leaves record and memories as
 * they were. The last line is 'N passed, M failed'. */
#include <stdio.h>
#include <string.h>

#include "pramolyt.h"

enum { WIDTH = 64, HEIGHT = 48, ENTRIES = 40, START = 4, COUNT = 13, AREA = WIDTH * HEIGHT, WORDS = PRAMOLYT_WORDS };

typedef struct member {
    const char *name;
    size_t offset;
} member;

#define MEMBER(name) {#name, offsetof(pramolyt_board, name)}

static const member flags[] = {MEMBER(active_taken), MEMBER(pending_taken), MEMBER(under_way), MEMBER(tile_whole)};
enum { FLAGS = sizeof flags / sizeof flags[0] };

static uint8_t list[5 * ENTRIES], display[AREA], virt[AREA], output[PRAMOLYT_PICTURE_MAX(WIDTH, HEIGHT)];
static unsigned passed, failed;

static void check(int fact, const char *call, const char *about)
{
    if (fact) {
        passed++;
    } else {
        failed++;
        printf("FAILED: %s: %s\n", call, about);
    }
}

static void set(pramolyt_board *b, size_t offset, uint32_t value)
{
    memcpy((unsigned char *)b + offset, &value, sizeof value);
}

static uint32_t get(const pramolyt_board *b, size_t offset)
{
    uint32_t value;
    memcpy(&value, (const unsigned char *)b + offset, sizeof value);
    return value;
}

static int same(const pramolyt_board *a, const pramolyt_board *b)
{
    return memcmp(a, b, sizeof *a) == 0;
}

/* entry k of list memory: a register's number and its data */
static void entry(size_t k, unsigned number, uint32_t word)
{
    uint8_t *e = list + 5 * k;
    e[0] = (uint8_t)(number << 3);
    e[1] = (uint8_t)(word >> 24);
    e[2] = (uint8_t)(word >> 16);
    e[3] = (uint8_t)(word >> 8);
    e[4] = (uint8_t)word;
}

static uint32_t run(pramolyt_board *b, uint64_t *steps, uint64_t budget)
{
    return pramolyt_run(b, steps, budget, list, sizeof list, display, sizeof display, virt, sizeof virt);
}

static uint32_t exporting(pramolyt_board *b, uint64_t *written, size_t number)
{
    return pramolyt_export(b, written, number, number == 0 ? display : virt, AREA, output, sizeof output);
}

static uint32_t importing(pramolyt_board *b, size_t number, const uint8_t *picture, size_t length)
{
    return pramolyt_import(b, number, picture, length, number == 0 ? display : virt, AREA);
}

/* what each register holds in the record that `busy` makes, by register number */
static const uint32_t data[13] = {
    0x23220000, /* CMD: LINE, code 3, STPL, CLIP */
    0x51,       /* FORE */
    0x52,       /* BACK */
    0xF3,       /* MASK */
    0x44,       /* KEY */
    0xA5A5A5A5, /* LPAT */
    0x69EC,     /* PCTRL: length 12, scale 8, place 9, repeat 3 */
    0x00000005, /* CLPTL */
    0x003F002F, /* CLPBR */
    0x0001000A, /* XY0 */
    0x0003000B, /* XY2 */
    2,          /* XY3 */
    0x001E000C, /* XY1 */
};

/* A record with both slots taken and a line under way, three of its pixels visited. A first list leaves the last point. No two
 * members before the tile hold the same word, but for the flags. */
static pramolyt_board busy(void)
{
    pramolyt_board b;
    uint64_t place = 77, steps = 77;
    unsigned k;
    memset(list, 0, sizeof list);
    memset(display, 0, sizeof display);
    memset(virt, 0, sizeof virt);
    check(pramolyt_make(&b, WIDTH, HEIGHT, ENTRIES) == PRAMOLYT_DONE, "make", "answer");
    entry(0, 0, 0x23800000);
    entry(1, 12, 0x00020001);
    check(pramolyt_post(&b, &place, list, sizeof list, 0, 2) == PRAMOLYT_DONE && place == 0, "post", "first list");
    check(run(&b, &steps, 100) == PRAMOLYT_DONE && steps == 5, "run", "first list");
    for (k = 0; k < 13; k++)
        entry(START + k, k, data[k]);
    check(pramolyt_post(&b, &place, list, sizeof list, START, COUNT) == PRAMOLYT_DONE, "post", "active list");
    check(b.active_taken == 1 && b.pending_taken == 0 && b.under_way == 0, "post", "active_taken");
    check(pramolyt_post(&b, &place, list, sizeof list, 20, 7) == PRAMOLYT_DONE, "post", "pending list");
    check(b.active_taken == 1 && b.pending_taken == 1 && b.under_way == 0, "post", "pending_taken");
    check(run(&b, &steps, COUNT + 3) == PRAMOLYT_DONE && steps == COUNT + 3, "run", "under way");
    check(b.active_taken == 1 && b.pending_taken == 1 && b.under_way == 1, "run", "under_way");
    return b;
}

/* the members as calls set them */
static void leaves(void)
{
    static const member made[] = {MEMBER(width), MEMBER(height), MEMBER(entries)};
    static const uint32_t sizes[] = {WIDTH, HEIGHT, ENTRIES};
    static const member lists[] = {MEMBER(active_start), MEMBER(active_count), MEMBER(pending_start),
                                   MEMBER(pending_count), MEMBER(next), MEMBER(visited)};
    static const uint32_t spans[] = {START, COUNT, 20, 7, START + COUNT, 3};
    static const member registers[13] = {MEMBER(cmd),  MEMBER(fore),  MEMBER(back),  MEMBER(mask),  MEMBER(key),
                                         MEMBER(lpat), MEMBER(pctrl), MEMBER(clptl), MEMBER(clpbr), MEMBER(xy0),
                                         MEMBER(xy2),  MEMBER(xy3),   MEMBER(xy1)};
    static const member rest[] = {MEMBER(pattern_place), MEMBER(pattern_repeat), MEMBER(last)};
    static const uint32_t ends[] = {9, 6, 0x00020001};
    const pramolyt_board b = busy();
    size_t i, j, equal = 0;
    for (i = 0; i < 3; i++)
        check(get(&b, made[i].offset) == sizes[i], "make leaves", made[i].name);
    for (i = 0; i < 6; i++)
        check(get(&b, lists[i].offset) == spans[i], "post and run leave", lists[i].name);
    for (i = 0; i < 13; i++)
        check(get(&b, registers[i].offset) == data[i], "run leaves", registers[i].name);
    for (i = 0; i < 3; i++)
        check(get(&b, rest[i].offset) == ends[i], "run leaves", rest[i].name);
    for (i = 0; i < offsetof(pramolyt_board, tile_whole) / 4; i++)
        for (j = 0; j < i; j++)
            equal += get(&b, 4 * i) == get(&b, 4 * j);
    check(equal == 3, "busy", "no two members but the flags are equal");
}

/* a call that must answer 1 and leave all as it was */
static void malformed(const pramolyt_board *given, const char *about)
{
    static const uint8_t bytes[5] = {8, 0, 0, 0, 1};
    static uint8_t before[3][AREA];
    pramolyt_board b = *given;
    uint64_t place = 77, steps = 77, written = 77;
    memcpy(before[0], list, sizeof list);
    memcpy(before[1], display, sizeof display);
    memcpy(before[2], virt, sizeof virt);
    check(pramolyt_post(&b, &place, list, sizeof list, 0, 1) == PRAMOLYT_MALFORMED, "post answers 1", about);
    check(same(&b, given) && place == 0, "post leaves the record", about);
    check(pramolyt_store(&b, list, sizeof list, 0, bytes, 5) == PRAMOLYT_MALFORMED, "store answers 1", about);
    check(same(&b, given), "store leaves the record", about);
    check(pramolyt_window_write(&b, 0, 0, bytes, 5, display, sizeof display) == PRAMOLYT_MALFORMED,
          "window write answers 1", about);
    check(same(&b, given), "window write leaves the record", about);
    check(exporting(&b, &written, 0) == PRAMOLYT_MALFORMED, "export answers 1", about);
    check(same(&b, given) && written == 0, "export leaves the record", about);
    check(importing(&b, 1, bytes, 5) == PRAMOLYT_MALFORMED, "import answers 1", about);
    check(same(&b, given), "import leaves the record", about);
    check(run(&b, &steps, 1000) == PRAMOLYT_MALFORMED, "run answers 1", about);
    check(same(&b, given) && steps == 0, "run leaves the record", about);
    check(memcmp(before[0], list, sizeof list) == 0 && memcmp(before[1], display, sizeof display) == 0
              && memcmp(before[2], virt, sizeof virt) == 0,
          "memories stay", about);
}

/* Words of which no two are equal but the flags: with each combination of flags they come back through the record */
static void distinct(void)
{
    pramolyt_board b;
    uint32_t i, f;
    for (i = 0; i < WORDS; i++)
        set(&b, 4 * i, 0x80000001 + 0x01010101 * i);
    malformed(&b, "distinct words");
    for (f = 0; f < 1u << FLAGS; f++) {
        for (i = 0; i < FLAGS; i++)
            set(&b, flags[i].offset, f >> i & 1);
        malformed(&b, "distinct words, flags 0 or 1");
    }
}

/* each flag that is neither 0 nor 1 */
static void bad_flags(void)
{
    static const uint32_t values[] = {2, 0xFFFFFFFF};
    const pramolyt_board good = busy();
    size_t i, j;
    for (i = 0; i < FLAGS; i++)
        for (j = 0; j < 2; j++) {
            pramolyt_board b = good;
            set(&b, flags[i].offset, values[j]);
            malformed(&b, flags[i].name);
        }
}

/* a word in one member that makes a good record malformed */
typedef struct probe {
    member in;
    uint32_t word;
} probe;

static const probe probes[] = {
    {MEMBER(width), 0},
    {MEMBER(height), 2049},
    {MEMBER(entries), 4097},
    {MEMBER(active_taken), 0},
    {MEMBER(active_start), START + COUNT},
    {MEMBER(active_count), ENTRIES},
    {MEMBER(pending_taken), 0},
    {MEMBER(pending_start), ENTRIES},
    {MEMBER(pending_count), 0},
    {MEMBER(next), START},
    {MEMBER(under_way), 0},
    {MEMBER(visited), 30},
    {MEMBER(cmd), 0x33220000},
    {MEMBER(fore), 256},
    {MEMBER(back), 256},
    {MEMBER(mask), 256},
    {MEMBER(key), 256},
    {MEMBER(pctrl), 0x2003},
    {MEMBER(xy0), 0x001E000C},
    {MEMBER(xy2), 0x08010000},
    {MEMBER(xy3), 4},
    {MEMBER(xy1), 0x0001000A},
    {MEMBER(pattern_place), 12},
    {MEMBER(pattern_repeat), 8},
    {MEMBER(tile_whole), 1},
    {MEMBER(tile), 1},
    {MEMBER(tile[7][12]), 0x80000000},
};

static void arrives(void)
{
    const pramolyt_board good = busy();
    pramolyt_board b = good;
    uint64_t steps = 77;
    size_t i;
    check(run(&b, &steps, 0) == PRAMOLYT_DONE && steps == 0 && same(&b, &good), "run of no steps", "good record");
    for (i = 0; i < sizeof probes / sizeof probes[0]; i++) {
        b = good;
        set(&b, probes[i].in.offset, probes[i].word);
        malformed(&b, probes[i].in.name);
    }
    /* the last point counts where the command is PLINE */
    b = good;
    b.cmd = 0x53220000;
    check(run(&b, &steps, 0) == PRAMOLYT_DONE, "run of no steps", "PLINE");
    b.last = b.xy1;
    malformed(&b, "last");
}

/* the pixel that the next step of the busy record draws, with a word of its own in one member */
static uint8_t drawn(size_t offset, uint32_t word)
{
    pramolyt_board b = busy();
    const size_t at = 10 * WIDTH + 4;
    uint64_t steps = 77;
    set(&b, offset, word);
    display[at] = 0;
    check(run(&b, &steps, 1) == PRAMOLYT_DONE && steps == 1, "one step", "answer");
    return display[at];
}

/* members of which every word is legal, and those that a value tells apart */
static void draws(void)
{
    check(drawn(offsetof(pramolyt_board, fore), 0x51) == 0x52, "pixel by back", "lpat bit 9 is 0");
    check(drawn(offsetof(pramolyt_board, back), 0x13) == 0x13, "pixel", "back");
    check(drawn(offsetof(pramolyt_board, mask), 0x02) == 0x02, "pixel", "mask");
    check(drawn(offsetof(pramolyt_board, lpat), 0x200) == 0x51, "pixel by fore", "lpat");
    check(drawn(offsetof(pramolyt_board, pattern_place), 10) == 0x51, "pixel by fore", "pattern_place");
    check(drawn(offsetof(pramolyt_board, clptl), 0x00050001) == 0, "pixel clipped", "clptl");
    check(drawn(offsetof(pramolyt_board, clpbr), 0x0003002F) == 0, "pixel clipped", "clpbr");
}

/* A record with a fill of the whole board under way, five of its pixels visited. Its tile is at (x, 2) of virtual; the one at
 * (3, 2) has the numbers from 1 to 128. */
static pramolyt_board tiling(uint32_t x)
{
    pramolyt_board b;
    uint64_t place = 77, steps = 77;
    unsigned k;
    memset(list, 0, sizeof list);
    memset(display, 0, sizeof display);
    memset(virt, 0, sizeof virt);
    for (k = 0; k < 128; k++)
        virt[(2 + k / 16) * WIDTH + 3 + k % 16] = (uint8_t)(k + 1);
    check(pramolyt_make(&b, WIDTH, HEIGHT, ENTRIES) == PRAMOLYT_DONE, "make", "answer");
    entry(0, 0, 0x13014000); /* CMD: BITBLT, code 3, from virtual, APAT */
    entry(1, 9, x << 16 | 2);
    entry(2, 10, WIDTH << 16 | HEIGHT);
    entry(3, 12, 0);
    check(pramolyt_post(&b, &place, list, sizeof list, 0, 4) == PRAMOLYT_DONE, "post", "tiled fill");
    check(run(&b, &steps, 4 + 5) == PRAMOLYT_DONE && steps == 4 + 5 && b.under_way == 1, "run", "tiled fill");
    return b;
}

static int no_tile(const pramolyt_board *b)
{
    static const uint8_t zeros[sizeof b->tile];
    return b->tile_whole == 0 && memcmp(b->tile, zeros, sizeof zeros) == 0;
}

/* The tile as a run leaves it, row by row, the first byte of a word lowest; the library draws from it, and its bytes are
 * free. */
static void tiles(void)
{
    const pramolyt_board good = tiling(3);
    pramolyt_board b = good;
    uint64_t steps = 77;
    size_t k, equal = 0;
    for (k = 0; k < 128; k++)
        equal += b.tile[k / 16][k % 16] == k + 1;
    check(b.tile_whole == 1 && equal == 128, "run leaves", "tile");
    check(get(&b, 4 * 29) == 0x04030201 && get(&b, 4 * 60) == 0x807F7E7D, "run leaves", "words of the tile");
    memset(virt, 0, sizeof virt);
    b.tile[0][5] = 0xEE;
    check(run(&b, &steps, 1) == PRAMOLYT_DONE && steps == 1 && display[5] == 0xEE, "pixel", "tile[0][5]");
    check(run(&b, &steps, AREA) == PRAMOLYT_DONE && steps == AREA - 6 && no_tile(&b), "run to the end", "no tile");
    check(display[16] == 1 && display[AREA - 1] == 128, "pixels", "tile[0][0] and tile[7][15]");
    b = good;
    memset(b.tile, 0, sizeof b.tile);
    check(run(&b, &steps, 0) == PRAMOLYT_DONE, "run of no steps", "a whole tile of zeros");
}

/* the calls that are no run leave a fill's tile in the record */
static void tile_stays(void)
{
    static const uint8_t bytes[5] = {8, 0, 0, 0, 1};
    const pramolyt_board good = tiling(3);
    pramolyt_board b = good;
    pramolyt_feed_record feed;
    uint64_t place = 77, written = 77;
    pramolyt_feed_start(&feed, 20);
    check(pramolyt_store(&b, list, sizeof list, 9, bytes, 5) == PRAMOLYT_DONE && same(&b, &good), "store", "tile");
    check(pramolyt_feed(&b, &feed, list, sizeof list, bytes, 5) == PRAMOLYT_DONE && same(&b, &good), "feed", "tile");
    check(pramolyt_window_write(&b, 1, 0, bytes, 5, virt, sizeof virt) == PRAMOLYT_BUSY && same(&b, &good), "window write",
          "tile");
    check(exporting(&b, &written, 1) == PRAMOLYT_DONE && same(&b, &good), "export", "tile");
    check(memcmp(output + written - AREA, virt, AREA) == 0, "export", "the buffer as lent");
    check(importing(&b, 0, output, (size_t)written) == PRAMOLYT_BUSY && same(&b, &good), "import", "tile");
    check(pramolyt_post(&b, &place, list, sizeof list, 9, 1) == PRAMOLYT_DONE && b.pending_taken == 1, "post", "pending list");
    check(b.tile_whole == 1 && memcmp(b.tile, good.tile, sizeof b.tile) == 0, "post", "tile");
}

/* a tile that is not as the fill has it */
static void bad_tiles(void)
{
    static const probe of_whole[] = {{MEMBER(tile_whole), 0},      {MEMBER(tile_whole), 2},    {MEMBER(cmd), 0x13010000},
                                     {MEMBER(xy0), 0xFFFF0002},    {MEMBER(xy0), 0x00310002},  {MEMBER(xy0), 0x0003FFFF},
                                     {MEMBER(xy0), 0x00030029},    {MEMBER(width), 18},        {MEMBER(height), 9}};
    static const probe of_other[] = {{MEMBER(tile_whole), 1}, {MEMBER(tile), 1}, {MEMBER(xy0), 0x00300002}};
    const pramolyt_board whole = tiling(3);
    pramolyt_board b = tiling(49);
    const pramolyt_board other = b;
    uint64_t steps = 77;
    size_t i;
    check(no_tile(&b), "run leaves", "no tile that is not whole");
    for (i = 0; i < sizeof of_whole / sizeof of_whole[0]; i++) {
        b = whole;
        set(&b, of_whole[i].in.offset, of_whole[i].word);
        malformed(&b, of_whole[i].in.name);
    }
    for (i = 0; i < sizeof of_other / sizeof of_other[0]; i++) {
        b = other;
        set(&b, of_other[i].in.offset, of_other[i].word);
        malformed(&b, of_other[i].in.name);
    }
    b = other;
    check(run(&b, &steps, AREA) == PRAMOLYT_DONE && steps == AREA - 5 && display[0] == 0, "nothing drawn", "tile not whole");
}

/* no memory at all, place and steps, and a refused make */
static void edges(void)
{
    static const uint8_t bytes[5] = {0x68, 0, 0, 0, 0};
    pramolyt_board b, one;
    uint64_t place = 77, steps = 77;
    memset(list, 0, sizeof list);
    check(pramolyt_make(&one, 1, 1, 1) == PRAMOLYT_DONE, "make", "1 by 1");
    memset(&b, 0xFF, sizeof b);
    check(pramolyt_make(&b, 2049, 1, 1) == PRAMOLYT_WRONG_SIZE && same(&b, &one), "make refused", "1 by 1 board");
    check(pramolyt_make(&b, WIDTH, HEIGHT, ENTRIES) == PRAMOLYT_DONE, "make", "answer");
    check(pramolyt_post(&b, &place, NULL, 0, 0, 1) == PRAMOLYT_WRONG_SIZE && place == 0, "post", "NULL");
    check(pramolyt_store(&b, NULL, 0, 0, NULL, 0) == PRAMOLYT_WRONG_SIZE, "store", "NULL");
    check(pramolyt_store(&b, list, sizeof list, 0, NULL, 0) == PRAMOLYT_DONE, "store of no bytes", "NULL");
    check(pramolyt_window_write(&b, 1, 0, NULL, 0, NULL, 0) == PRAMOLYT_WRONG_SIZE, "window write", "NULL");
    check(pramolyt_window_write(&b, 1, AREA, NULL, 0, virt, sizeof virt) == PRAMOLYT_DONE, "no bytes", "NULL");
    check(pramolyt_run(&b, &steps, 9, NULL, 0, NULL, 0, NULL, 0) == PRAMOLYT_WRONG_SIZE && steps == 0, "run", "NULL");
    check(pramolyt_store(&b, list, sizeof list, 7, bytes, 5) == PRAMOLYT_DONE && memcmp(list + 35, bytes, 5) == 0,
          "store", "bytes from entry 7 on");
    check(pramolyt_post(&b, &place, list, sizeof list, 3, 8) == PRAMOLYT_ILLEGAL_ENTRY && place == 7, "post", "place");
    check(pramolyt_post(&b, &place, list, sizeof list, 0, 7) == PRAMOLYT_DONE && place == 0, "post", "no place");
    list[10] = 0x68;
    check(run(&b, &steps, 9) == PRAMOLYT_ILLEGAL_FETCH && steps == 2 && b.next == 2, "run", "steps before entry 2");
}

int main(void)
{
    leaves();
    distinct();
    bad_flags();
    arrives();
    draws();
    tiles();
    tile_stays();
    bad_tiles();
    edges();
    printf("%u passed, %u failed\n", passed, failed);
    return failed != 0;
}
