/* Feeds against plain C that answers the same and changes nothing in refusals either: a list of 4,096 entries in pieces of one
 * size, on an idle board whose registers a list has set; the best of many runs taken in turn, memory and feed record compared.
 * The last column is the library's speed divided by the plain one's. `feeds tiny` only compares, on random records and pieces
 * too; its last line is 'N passed, M failed'. Status 1 where a feed differs. */
#define _POSIX_C_SOURCE 199309L
#include <stdbool.h>
#include <stdint.h>
#include <stdio.h>
#include <string.h>
#include <time.h>

#include "legal.h"
#include "pramolyt.h"
#include "pramolyt_list.h"

typedef uint32_t feeding(pramolyt_board *, pramolyt_feed_record *, uint8_t *, size_t, const uint8_t *, size_t);

enum { ENTRIES = PRAMOLYT_MAX_ENTRIES, BYTES = 5 * ENTRIES, ROUNDS = 400, FEW = 12, TRIALS = 200000 };

static int32_t distance(int32_t a, int32_t b)
{
    return a < b ? b - a : a - b;
}

static uint32_t line_count(uint32_t from, uint32_t to, bool without_last)
{
    const int32_t dx = distance((int16_t)(from >> 16), (int16_t)(to >> 16));
    const int32_t dy = distance((int16_t)from, (int16_t)to);
    return (uint32_t)(dx < dy ? dy : dx) + !without_last;
}

static int32_t lesser(int32_t a, int32_t b)
{
    return a < b ? a : b;
}

static int32_t greater(int32_t a, int32_t b)
{
    return a > b ? a : b;
}

/* How many of `length` columns or rows from `at` on, or back, lie in low to high. */
static uint32_t shown(int32_t at, bool back, int32_t length, int32_t low, int32_t high)
{
    const int32_t first = greater(back ? at - length + 1 : at, low);
    const int32_t last = lesser(back ? at : at + length - 1, high);
    return last < first ? 0 : (uint32_t)(last - first + 1);
}

/* The pixels of a blit inside the buffer and, with CLIP, inside the clip. */
static uint32_t blit_count(const pramolyt_board *b)
{
    int32_t left = 0, top = 0, right = (int32_t)b->width - 1, bottom = (int32_t)b->height - 1;
    if (bit(b->cmd, 17)) {
        left = greater(left, (int16_t)(b->clptl >> 16));
        top = greater(top, (int16_t)b->clptl);
        right = lesser(right, (int16_t)(b->clpbr >> 16));
        bottom = lesser(bottom, (int16_t)b->clpbr);
    }
    return shown((int16_t)(b->xy1 >> 16), b->xy3 & 2, (int32_t)(b->xy2 >> 16), left, right) *
           shown((int16_t)b->xy1, b->xy3 & 1, (int32_t)(b->xy2 & 65535), top, bottom);
}

/* The pixels that the command in CMD visits. */
static uint32_t visits_of(const pramolyt_board *b)
{
    switch (b->cmd >> 28) {
    case PRAMOLYT_BITBLT:
        return blit_count(b);
    case PRAMOLYT_LINE:
        return line_count(b->xy0, b->xy1, bit(b->cmd, 19));
    case PRAMOLYT_PLINE:
        return line_count(b->last, b->xy1, bit(b->cmd, 19));
    default:
        return 0;
    }
}

static bool registers_ok(const pramolyt_board *b)
{
    return (b->fore | b->back | b->mask | b->key) < 256 && b->xy2 >> 16 <= 2048 && (b->xy2 & 65535) <= 2048 && b->xy3 <= 3 &&
           legal_command(b->cmd) && legal_pattern(b->pctrl) && b->pattern_place < (b->pctrl % 32 ? b->pctrl % 32 : 32) &&
           b->pattern_repeat <= b->pctrl / 32 % 8;
}

static bool span_ok(const pramolyt_board *b, uint32_t start, uint32_t count)
{
    return count >= 1 && count <= b->entries && start <= b->entries - count;
}

static bool slots_ok(const pramolyt_board *b)
{
    const uint32_t past = b->next - b->active_start;
    if (!b->active_taken)
        return !(b->active_start | b->active_count | b->next | b->pending_taken | b->pending_start | b->pending_count |
                 b->under_way | b->visited);
    if (b->pending_taken ? !span_ok(b, b->pending_start, b->pending_count) : b->pending_start | b->pending_count)
        return false;
    if (!span_ok(b, b->active_start, b->active_count) || b->next < b->active_start)
        return false;
    if (b->under_way)
        return past >= 1 && past <= b->active_count && b->visited < visits_of(b);
    return past < b->active_count && b->visited == 0;
}

/* Whether the tile with its upper left corner at XY0 lies inside the buffer. */
static bool tile_fits(const pramolyt_board *b)
{
    const int32_t x = (int16_t)(b->xy0 >> 16), y = (int16_t)b->xy0;
    return x >= 0 && x + 16 <= (int32_t)b->width && y >= 0 && y + 8 <= (int32_t)b->height;
}

static bool tile_ok(const pramolyt_board *b)
{
    uint64_t words[16], any = 0;
    if (b->under_way && bit(b->cmd, 14) && tile_fits(b))
        return b->tile_whole == 1;
    memcpy(words, b->tile, sizeof words);
    for (size_t k = 0; k < 16; k++)
        any |= words[k];
    return b->tile_whole == 0 && any == 0;
}

static bool board_ok(const pramolyt_board *b)
{
    return (b->active_taken | b->pending_taken | b->under_way) < 2 && b->width - 1 < 2048 && b->height - 1 < 2048 &&
           b->entries - 1 < 4096 && registers_ok(b) && slots_ok(b) && tile_ok(b);
}

static bool feed_ok(const pramolyt_feed_record *f, uint32_t entries)
{
    uint32_t held;
    memcpy(&held, f->held, 4);
    return f->next <= entries && f->count <= 4 && (f->count == 4 || held >> 8 * f->count == 0);
}

static bool touches(uint32_t taken, uint32_t start, uint32_t count, size_t first, size_t entries)
{
    return taken && first < start + count && start < first + entries;
}

/* At most four bytes. */
static void put_few(uint8_t *to, const uint8_t *from, size_t length)
{
    for (size_t k = 0; k < length && k < 4; k++)
        to[k] = from[k];
}

__attribute__((noinline)) static uint32_t plain_feed(pramolyt_board *b, pramolyt_feed_record *f, uint8_t *list,
                                                     size_t list_len, const uint8_t *piece, size_t piece_len)
{
    if (!board_ok(b) || !feed_ok(f, b->entries))
        return 1;
    if (list_len != 5 * (size_t)b->entries)
        return 2;
    const size_t first = f->next, count = f->count;
    if (count + piece_len < 5 && piece_len < 5) {
        put_few(f->held + count, piece, piece_len);
        f->count = (uint32_t)(count + piece_len);
        return 0;
    }
    const size_t entries = piece_len / 5 + (count + piece_len % 5) / 5;
    if (entries > b->entries - first)
        return 4;
    if (touches(b->active_taken, b->active_start, b->active_count, first, entries) ||
        touches(b->pending_taken, b->pending_start, b->pending_count, first, entries))
        return 8;
    const size_t stored = 5 * entries - count, over = piece_len - stored;
    uint8_t *const at = list + 5 * first;
    put_few(at, f->held, count);
    memcpy(at + count, piece, stored);
    memset(f->held, 0, 4);
    put_few(f->held, piece + stored, over);
    f->count = (uint32_t)over;
    f->next = first + entries;
    return 0;
}

static uint64_t state = 88172645463325252u;

static uint32_t random_word(void)
{
    state ^= state << 13;
    state ^= state >> 7;
    state ^= state << 17;
    return (uint32_t)(state >> 16);
}

static double seconds(void)
{
    struct timespec now;
    clock_gettime(CLOCK_MONOTONIC, &now);
    return (double)now.tv_sec + (double)now.tv_nsec * 1e-9;
}

static pramolyt_board board;
static pramolyt_feed_record feeds[2];

/* Lists for the plain one and the library; the piece and each of them begin at other places of a page. */
static _Alignas(4096) uint8_t bytes[BYTES];
static _Alignas(4096) uint8_t room[2][BYTES + 4096];
static uint8_t *const lists[2] = {room[0] + 1024, room[1] + 1024};

/* All bytes in pieces of a size; the answers together. */
static uint32_t feed_all(feeding *feed, int which, size_t size)
{
    uint32_t answers = 0;
    pramolyt_feed_start(&feeds[which], 0);
    for (size_t at = 0; at < BYTES; at += size)
        answers |= feed(&board, &feeds[which], lists[which], BYTES, bytes + at, size < BYTES - at ? size : BYTES - at);
    return answers;
}

static double time_of(feeding *feed, int which, size_t size, size_t repeats)
{
    const double begun = seconds();
    for (size_t k = 0; k < repeats; k++) {
        feed_all(feed, which, size);
        __asm__ volatile("" : : "r"(lists[which]) : "memory");
    }
    return (seconds() - begun) / (double)repeats;
}

static feeding *const feedings[2] = {plain_feed, pramolyt_feed};

/* The best times of both for pieces of a size, in seconds for the whole list; false where they differ. */
static bool time_size(size_t size, int rounds, double best[2])
{
    const size_t repeats = size / 200 + 1;
    for (int which = 0; which < 2; which++) {
        memset(lists[which], 0, BYTES);
        if (feed_all(feedings[which], which, size) != 0 || memcmp(lists[which], bytes, BYTES) != 0)
            return false;
    }
    for (int round = 0; round < rounds; round++) {
        for (int which = 0; which < 2; which++) {
            const double took = time_of(feedings[which], which, size, repeats);
            best[which] = took < best[which] ? took : best[which];
        }
    }
    return memcmp(&feeds[0], &feeds[1], sizeof feeds[0]) == 0;
}

/* A board of few entries with random slots, some command perhaps under way, a word of it perhaps changed. Every other one has
 * room for a tile. */
static void random_board(void)
{
    uint64_t place, steps;
    static uint8_t pixels[2][16 * 8];
    const size_t entries = 1 + random_word() % FEW;
    const bool room = random_word() % 2;
    const size_t width = room ? 16 : 2, height = room ? 8 : 2;
    pramolyt_make(&board, width, height, entries);
    for (size_t k = 0; k < entries; k++) {
        static const uint32_t words[][2] = {{PRAMOLYT_CMD, 0x13800000},   {PRAMOLYT_CMD, 0x13820000},   {PRAMOLYT_CMD, 0x23800000},
                                            {PRAMOLYT_CMD, 0x53880000},   {PRAMOLYT_CLPBR, 0x00000001}, {PRAMOLYT_XY2, 0x00070003},
                                            {PRAMOLYT_XY3, 0x00000003},   {PRAMOLYT_XY1, 0x00050009},   {PRAMOLYT_XY1, 0xFFFEFFFF},
                                            {PRAMOLYT_XY1, 0x00040002},   {PRAMOLYT_XY0, 0xFFFE0001},   {PRAMOLYT_PCTRL, 0x2144},
                                            {PRAMOLYT_CMD, 0x13004000},   {PRAMOLYT_XY0, 0x00000000},   {PRAMOLYT_XY1, 0x00000000}};
        const uint32_t *const entry = words[random_word() % 15];
        pramolyt_put_entry(lists[0] + 5 * k, entry[0], entry[1]);
    }
    for (int k = 0; k < 3; k++) {
        pramolyt_post(&board, &place, lists[0], 5 * entries, random_word() % entries, 1 + random_word() % 4);
        pramolyt_run(&board, &steps, random_word() % 9, lists[0], 5 * entries, pixels[0], width * height, pixels[1],
                     width * height);
    }
    if (random_word() % 8 == 0) {
        uint32_t *const word = (uint32_t *)&board + random_word() % PRAMOLYT_WORDS;
        *word = random_word() % 2 ? *word ^ 1u << random_word() % 32 : *word + 1;
    }
}

/* A random feed, of a record that may be bad; false where the two differ, in what they answer or leave. */
static bool same_feed(unsigned answered[9])
{
    pramolyt_board before;
    uint8_t piece[5 * FEW + 10];
    random_board();
    const size_t list_len = 5 * (size_t)(board.entries % 16) + (random_word() % 16 == 0);
    const size_t length = random_word() % 2 ? random_word() % 12 : random_word() % sizeof piece;
    pramolyt_feed_start(&feeds[0], random_word() % 20 ? random_word() % (FEW + 2) : (uint64_t)random_word() << 32);
    feeds[0].count = random_word() % 20 ? random_word() % 5 : random_word();
    for (uint32_t k = 0; k < 4; k++)
        feeds[0].held[k] = k < feeds[0].count || random_word() % 40 == 0 ? (uint8_t)random_word() : 0;
    for (size_t k = 0; k < sizeof piece; k++)
        piece[k] = (uint8_t)random_word();
    feeds[1] = feeds[0];
    memcpy(lists[1], lists[0], BYTES);
    before = board;
    const uint32_t answer = plain_feed(&board, &feeds[0], lists[0], list_len, piece, length);
    answered[answer]++;
    return pramolyt_feed(&board, &feeds[1], lists[1], list_len, piece, length) == answer &&
           memcmp(&board, &before, sizeof board) == 0 && memcmp(&feeds[0], &feeds[1], sizeof feeds[0]) == 0 &&
           memcmp(lists[0], lists[1], BYTES) == 0;
}

/* Random feeds, of which some must have each answer. */
static bool same_feeds(void)
{
    unsigned answered[9] = {0};
    for (int k = 0; k < TRIALS; k++) {
        if (!same_feed(answered)) {
            printf("FAILED: random feed %d differs\n", k);
            return false;
        }
    }
    return answered[0] > 1000 && answered[1] > 1000 && answered[2] > 1000 && answered[4] > 1000 && answered[8] > 1000;
}

/* A board that has drawn a list in which each register is set. */
static void used_board(void)
{
    static const uint32_t words[13] = {0x23A40000, 3, 1, 255, 7, 0xF0F0F0F0, 0x2144, 0, 0x07FF07FF, 0x00030004, 0x00100010, 2,
                                       0x00500040};
    static uint8_t pixels[2][64];
    uint64_t place, steps;
    pramolyt_make(&board, 8, 8, ENTRIES);
    for (unsigned k = 0; k < 13; k++)
        pramolyt_put_entry(lists[0] + 5 * k, k, words[k]);
    pramolyt_post(&board, &place, lists[0], BYTES, 0, 13);
    pramolyt_run(&board, &steps, 1000, lists[0], BYTES, pixels[0], 64, pixels[1], 64);
}

int main(int argc, char **argv)
{
    static const size_t sizes[] = {1, 7, 64, 1024, BYTES};
    const bool tiny = argc == 2 && strcmp(argv[1], "tiny") == 0;
    const size_t rows = sizeof sizes / sizeof sizes[0];
    size_t passed = tiny && same_feeds();
    used_board();
    for (size_t k = 0; k < BYTES; k++)
        bytes[k] = (uint8_t)random_word();
    if (!tiny)
        printf("bytes a piece   a piece: plain, library, ns   the list: plain, library, us   ratio\n");
    for (size_t k = 0; k < rows; k++) {
        double best[2] = {1, 1};
        const bool same = time_size(sizes[k], tiny ? 1 : ROUNDS, best);
        const double pieces = (double)((BYTES + sizes[k] - 1) / sizes[k]);
        passed += same;
        if (!same)
            printf("FAILED: pieces of %zu bytes differ\n", sizes[k]);
        if (!tiny)
            printf("%13zu   %14.1f %13.1f   %15.2f %12.2f   %5.2f\n", sizes[k], best[0] / pieces * 1e9, best[1] / pieces * 1e9,
                   best[0] * 1e6, best[1] * 1e6, best[0] / best[1]);
    }
    if (tiny)
        printf("%zu passed, %zu failed\n", passed, rows + 1 - passed);
    return passed != rows + tiny;
}
