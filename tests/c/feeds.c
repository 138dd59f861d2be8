/* What the header says of pramolyt_feed_start and pramolyt_feed: a list in pieces cut anywhere leaves what it leaves in one
 * piece; each refusal on its ground, their order, and what they leave. The last line is 'N passed, M failed'. */
#include <stdio.h>
#include <string.h>

#include "pramolyt.h"

enum { ENTRIES = 12, LIST = 5 * ENTRIES, ROOM = LIST + 10, OLD = 0xA5 };

/* the list of docs/FORMAT.md, ten entries */
enum { WHOLE = 50 };
static const uint8_t whole[WHOLE] = {
    0x08, 0, 0, 0, 1,    0x00, 0x13, 0x80, 0, 0, 0x50, 0, 12, 0, 3,       0x60, 0, 2, 0, 1, 0x08, 0, 0, 0, 2,
    0x28, 0, 0, 0, 0x05, 0x30, 0, 0, 0, 0x23,    0x00, 0x23, 0x60, 0, 0, 0x48, 0xFF, 0xFE, 0, 0, 0x60, 0, 15, 0, 5,
};

static pramolyt_board board;
static pramolyt_feed_record feed;
static uint8_t memory[ROOM]; /* list memory, with bytes behind it that no call is lent */
static unsigned passed, failed;

static void check(int fact, const char *call, const char *about)
{
    if (fact) {
        passed++;
    } else {
        failed++;
        printf("FAILED: %s: %s\n", call, about);
    }
}

static int same(const pramolyt_feed_record *one, const pramolyt_feed_record *other)
{
    return memcmp(one, other, sizeof *one) == 0;
}

/* a feed record as its members say */
static pramolyt_feed_record record(uint64_t next, const uint8_t *held, uint32_t count)
{
    pramolyt_feed_record made;
    memset(&made, 0, sizeof made);
    made.next = next;
    memcpy(made.held, held, count < 4 ? count : 4);
    made.count = count;
    return made;
}

/* whether the feed record is at an entry with so many bytes held, which are these */
static int stands(uint64_t next, const uint8_t *held, uint32_t count)
{
    const pramolyt_feed_record expected = record(next, held, count);
    return same(&feed, &expected);
}

/* a fresh board, old bytes in memory, a feed from an entry on */
static void fresh(uint64_t entry)
{
    memset(memory, OLD, ROOM);
    memset(&feed, OLD, sizeof feed);
    check(pramolyt_make(&board, 4, 4, ENTRIES) == PRAMOLYT_DONE, "make", "fresh");
    pramolyt_feed_start(&feed, entry);
}

static uint32_t take(const uint8_t *piece, size_t length)
{
    return pramolyt_feed(&board, &feed, memory, LIST, piece, length);
}

/* whether memory has so many bytes of the list from a place on, and old ones elsewhere */
static int has(size_t at, size_t length)
{
    size_t k;
    for (k = 0; k < ROOM; k++) {
        const int expected = k >= at && k < at + length ? (int)whole[k - at] : (int)OLD;
        if (memory[k] != expected)
            return 0;
    }
    return 1;
}

static void starts(void)
{
    static const uint64_t entries[] = {0, 1, ENTRIES, ENTRIES + 1, UINT64_C(1) << 32, UINT64_MAX};
    size_t k;
    for (k = 0; k < sizeof entries / sizeof entries[0]; k++) {
        memset(&feed, OLD, sizeof feed);
        pramolyt_feed_start(&feed, entries[k]);
        check(stands(entries[k], whole, 0), "start", "any number, nothing held");
    }
}

/* the library reads the members where the header has them */
static void layout(void)
{
    static const uint8_t held[4] = {1, 2, 3, 4};
    check(sizeof feed == 16, "record", "size");
    check(offsetof(pramolyt_feed_record, next) == 0, "record", "next");
    check(offsetof(pramolyt_feed_record, held) == 8 && sizeof feed.held == 4, "record", "held");
    check(offsetof(pramolyt_feed_record, count) == 12, "record", "count");
    fresh(0);
    feed = record(2, held, 4);
    check(take(whole, 1) == PRAMOLYT_DONE && stands(3, whole, 0), "record", "taken as its members say");
    check(memcmp(memory + 10, held, 4) == 0 && memory[14] == whole[0], "record", "the entry of held bytes and piece");
}

/* the tables of docs/FORMAT.md */
static void page(void)
{
    static const uint8_t after[2][4] = {{0x08, 0, 0, 0}, {0x00, 0x13, 0, 0}};
    fresh(0);
    check(take(whole, 3) == PRAMOLYT_DONE && stands(0, after[0], 3) && has(0, 0), "page", "first piece");
    check(take(whole + 3, 4) == PRAMOLYT_DONE && stands(1, after[1], 2) && has(0, 5), "page", "second piece");
    check(take(whole + 7, 43) == PRAMOLYT_DONE && stands(10, whole, 0) && has(0, WHOLE), "page", "third piece");
}

/* bytes that complete no entry are held, and an empty piece changes nothing */
static void unfinished(void)
{
    uint32_t count;
    for (count = 0; count <= 4; count++) {
        fresh(3);
        check(take(whole, count) == PRAMOLYT_DONE && stands(3, whole, count) && has(0, 0), "feed", "bytes held");
        check(take(NULL, 0) == PRAMOLYT_DONE && stands(3, whole, count) && has(0, 0), "feed", "NULL");
        check(take(whole, 0) == PRAMOLYT_DONE && stands(3, whole, count) && has(0, 0), "feed", "an empty piece");
    }
}

static void byte_by_byte(void)
{
    uint32_t k;
    fresh(2);
    for (k = 1; k <= WHOLE; k++) {
        check(take(whole + k - 1, 1) == PRAMOLYT_DONE, "byte by byte", "answer");
        check(stands(2 + k / 5, whole + k / 5 * 5, k % 5), "byte by byte", "feed record");
        check(has(10, k / 5 * 5), "byte by byte", "memory");
    }
}

/* whether the list's first bytes, so many, in three pieces leave this feed record and the memory that one piece leaves */
static int cut(size_t length, size_t first, size_t second, const pramolyt_feed_record *expected)
{
    uint32_t answers;
    memset(memory, OLD, ROOM);
    pramolyt_feed_start(&feed, 2);
    answers = take(whole, first);
    answers |= take(whole + first, second);
    answers |= take(whole + first + second, length - first - second);
    return answers == PRAMOLYT_DONE && same(&feed, expected) && has(10, length / 5 * 5);
}

/* so many bytes in one piece and then in every two and three pieces, empty ones too */
static void cuts(size_t length)
{
    size_t first, second, wrong = 0;
    pramolyt_feed_record expected;
    fresh(2);
    check(take(whole, length) == PRAMOLYT_DONE, "cuts", "one piece");
    check(stands(2 + length / 5, whole + length / 5 * 5, (uint32_t)(length % 5)), "cuts", "feed record of one piece");
    check(has(10, length / 5 * 5), "cuts", "memory of one piece");
    expected = feed;
    for (first = 0; first <= length; first++)
        for (second = 0; first + second <= length; second++)
            wrong += !cut(length, first, second, &expected);
    check(wrong == 0, "cuts", "three pieces");
}

/* a refusal: its number, and records and memory as they were */
static void refused(size_t list_length, const uint8_t *piece, size_t length, uint32_t number, const char *about)
{
    const pramolyt_board old_board = board;
    const pramolyt_feed_record old_feed = feed;
    static uint8_t old[ROOM];
    memcpy(old, memory, ROOM);
    check(pramolyt_feed(&board, &feed, memory, list_length, piece, length) == number, "feed", about);
    check(memcmp(&board, &old_board, sizeof board) == 0 && same(&feed, &old_feed), about, "the records stay");
    check(memcmp(memory, old, ROOM) == 0, about, "memory stays");
}

/* bad feed records: each is refused with 1 whatever the piece, and with a wrong memory too */
static void bad_record(uint64_t next, const uint8_t *held, uint32_t count, const char *about)
{
    fresh(0);
    feed = record(next, whole, 0);
    memcpy(feed.held, held, 4);
    feed.count = count;
    refused(LIST, NULL, 0, PRAMOLYT_MALFORMED, about);
    refused(LIST, whole, 1, PRAMOLYT_MALFORMED, about);
    refused(LIST, whole, WHOLE, PRAMOLYT_MALFORMED, about);
    refused(LIST - 1, whole, WHOLE, PRAMOLYT_MALFORMED, "1 before 2");
    refused(0, whole, 1, PRAMOLYT_MALFORMED, "1 before 2");
}

static void bad_records(void)
{
    static const uint8_t none[4] = {0, 0, 0, 0};
    static const uint64_t past[] = {ENTRIES + 1, LIST, UINT64_C(1) << 32, UINT64_C(0x3333333333333333),
                                    UINT64_C(1) << 62, UINT64_C(0xCCCCCCCCCCCCCCCD), UINT64_MAX - 1, UINT64_MAX};
    static const uint32_t counts[] = {5, 6, 256, 65536, 0x80000000, UINT32_MAX};
    uint32_t count;
    size_t k;
    for (k = 0; k < sizeof past / sizeof past[0]; k++)
        bad_record(past[k], none, 0, "starts past the end");
    for (k = 0; k < sizeof counts / sizeof counts[0]; k++) {
        bad_record(0, none, counts[k], "more than four held bytes");
        bad_record(0, whole + 5, counts[k], "more than four held bytes, not zero");
    }
    for (count = 0; count < 4; count++) {
        for (k = count; k < 4; k++) {
            uint8_t held[4] = {0, 0, 0, 0};
            held[k] = 1;
            bad_record(0, held, count, "an unused byte not zero");
            held[k] = 0x80;
            bad_record(ENTRIES, held, count, "an unused byte not zero, at the end");
        }
    }
}

static void bad_board(void)
{
    fresh(0);
    board.width = 0;
    refused(LIST, whole, 5, PRAMOLYT_MALFORMED, "malformed board record");
    refused(LIST + 5, NULL, 0, PRAMOLYT_MALFORMED, "malformed board record, another memory");
    fresh(0);
    board.under_way = 2;
    refused(LIST, whole, 5, PRAMOLYT_MALFORMED, "a flag of 2");
    pramolyt_feed_start(&feed, UINT64_MAX);
    refused(LIST, whole, 5, PRAMOLYT_MALFORMED, "both records");
}

static void wrong_sizes(void)
{
    static const size_t lengths[] = {0, 1, 5, LIST - 5, LIST - 1, LIST + 1, LIST + 5};
    size_t k;
    for (k = 0; k < sizeof lengths / sizeof lengths[0]; k++) {
        fresh(0);
        refused(lengths[k], NULL, 0, PRAMOLYT_WRONG_SIZE, "another memory, an empty piece");
        refused(lengths[k], whole, 5, PRAMOLYT_WRONG_SIZE, "another memory");
        pramolyt_feed_start(&feed, ENTRIES);
        refused(lengths[k], whole, 5, PRAMOLYT_WRONG_SIZE, "2 before 4");
    }
}

/* at the end four bytes are held and the fifth is refused, in one piece or in two */
static void at_the_end(void)
{
    uint32_t count;
    for (count = 0; count <= 4; count++) {
        fresh(ENTRIES);
        check(take(whole, count) == PRAMOLYT_DONE && stands(ENTRIES, whole, count) && has(0, 0), "end", "bytes held");
        refused(LIST, whole + count, 5 - count, PRAMOLYT_PAST_THE_END, "the fifth byte");
        refused(LIST, whole, 50, PRAMOLYT_PAST_THE_END, "more than the fifth");
        check(take(whole + count, 4 - count) == PRAMOLYT_DONE && stands(ENTRIES, whole, 4), "end", "after a refusal");
    }
    fresh(ENTRIES - 1);
    check(take(whole, 9) == PRAMOLYT_DONE && stands(ENTRIES, whole + 5, 4) && has(LIST - 5, 5), "end", "the last entry");
    refused(LIST, whole + 9, 1, PRAMOLYT_PAST_THE_END, "the fifth byte after the last entry");
    fresh(ENTRIES - 1);
    refused(LIST, whole, 10, PRAMOLYT_PAST_THE_END, "a last entry and one more");
    fresh(0);
    check(take(whole, 30) == PRAMOLYT_DONE, "end", "half of the list");
    refused(LIST, whole, 35, PRAMOLYT_PAST_THE_END, "an entry too many");
    check(take(whole, 30) == PRAMOLYT_DONE && stands(ENTRIES, whole, 0), "end", "all of memory");
}

/* the list posted in entries 2 and 3, and a feed from an entry on */
static void posted(uint64_t entry)
{
    uint64_t place;
    fresh(2);
    check(take(whole, 10) == PRAMOLYT_DONE, "held", "fed");
    check(pramolyt_post(&board, &place, memory, LIST, 2, 2) == PRAMOLYT_DONE, "held", "posted");
    pramolyt_feed_start(&feed, entry);
}

static void on_held_entries(void)
{
    uint64_t steps;
    uint8_t pixels[2][16];
    posted(2);
    check(take(whole, 4) == PRAMOLYT_DONE && stands(2, whole, 4) && has(10, 10), "held", "four bytes of its first entry");
    refused(LIST, whole + 4, 1, PRAMOLYT_ENTRY_HELD, "its first entry");
    posted(3);
    refused(LIST, whole, 5, PRAMOLYT_ENTRY_HELD, "its last entry");
    refused(LIST, whole, WHOLE, PRAMOLYT_PAST_THE_END, "4 before 8");
    posted(1);
    refused(LIST, whole, 10, PRAMOLYT_ENTRY_HELD, "an entry before it and its first");
    check(take(whole, 9) == PRAMOLYT_DONE && stands(2, whole + 5, 4), "held", "the entry before it, and four bytes");
    refused(LIST - 5, whole, 5, PRAMOLYT_WRONG_SIZE, "2 before 8");
    posted(4);
    check(take(whole, 40) == PRAMOLYT_DONE && stands(ENTRIES, whole, 0), "held", "the entries after it");
    posted(0);
    refused(LIST, whole, WHOLE, PRAMOLYT_ENTRY_HELD, "all around it");
    memset(pixels, 0, sizeof pixels);
    check(pramolyt_run(&board, &steps, 100, memory, LIST, pixels[0], 16, pixels[1], 16) == PRAMOLYT_DONE, "held", "run");
    check(take(whole, WHOLE) == PRAMOLYT_DONE && stands(10, whole, 0) && has(0, WHOLE), "held", "the same piece, drawn");
}

/* the pending slot holds its entries as the active one does */
static void on_pending_entries(void)
{
    uint64_t place, steps;
    uint8_t pixels[2][16];
    posted(0);
    check(take(whole, 5) == PRAMOLYT_DONE, "pending", "fed");
    check(pramolyt_post(&board, &place, memory, LIST, 0, 1) == PRAMOLYT_DONE, "pending", "posted");
    pramolyt_feed_start(&feed, 0);
    refused(LIST, whole, 5, PRAMOLYT_ENTRY_HELD, "the pending list's entry");
    memset(pixels, 0, sizeof pixels);
    check(pramolyt_run(&board, &steps, 2, memory, LIST, pixels[0], 16, pixels[1], 16) == PRAMOLYT_DONE, "pending", "run");
    refused(LIST, whole, 5, PRAMOLYT_ENTRY_HELD, "the entry of the list that was pending");
    check(pramolyt_run(&board, &steps, 1, memory, LIST, pixels[0], 16, pixels[1], 16) == PRAMOLYT_DONE, "pending", "run");
    check(take(whole, 5) == PRAMOLYT_DONE && stands(1, whole, 0), "pending", "drawn");
}

/* what no post would take is stored all the same, and a board that is being drawn keeps its record */
static void not_judged(void)
{
    static const uint8_t illegal[5] = {0xFF, 0xFF, 0xFF, 0xFF, 0xFF};
    pramolyt_board before;
    uint64_t place = 77;
    posted(4);
    before = board;
    check(take(illegal, 5) == PRAMOLYT_DONE && memcmp(memory + 20, illegal, 5) == 0, "illegal entry", "stored");
    check(memcmp(&board, &before, sizeof board) == 0, "board record", "stays");
    check(pramolyt_post(&board, &place, memory, LIST, 4, 1) == PRAMOLYT_ILLEGAL_ENTRY && place == 4, "illegal entry", "post");
}

/* list memory of the least and of the most entries */
static void sizes(void)
{
    static uint8_t large[5 * 4096], bytes[5 * 4096];
    uint8_t small[5];
    size_t k;
    for (k = 0; k < sizeof bytes; k++)
        bytes[k] = (uint8_t)(k * 7 + k / 256);
    check(pramolyt_make(&board, 2048, 2048, 4096) == PRAMOLYT_DONE, "make", "most entries");
    pramolyt_feed_start(&feed, 0);
    check(pramolyt_feed(&board, &feed, large, sizeof large, bytes, sizeof bytes) == PRAMOLYT_DONE, "4096", "answer");
    check(memcmp(large, bytes, sizeof large) == 0 && stands(4096, bytes, 0), "4096", "memory and feed record");
    check(pramolyt_make(&board, 1, 1, 1) == PRAMOLYT_DONE, "make", "least entries");
    pramolyt_feed_start(&feed, 0);
    check(pramolyt_feed(&board, &feed, small, 5, bytes, 9) == PRAMOLYT_DONE, "1 entry", "answer");
    check(memcmp(small, bytes, 5) == 0 && stands(1, bytes + 5, 4), "1 entry", "memory and feed record");
}

int main(void)
{
    size_t length;
    starts();
    layout();
    page();
    unfinished();
    byte_by_byte();
    for (length = 0; length <= WHOLE; length++)
        cuts(length);
    bad_records();
    bad_board();
    wrong_sizes();
    at_the_end();
    on_held_entries();
    on_pending_entries();
    not_judged();
    sizes();
    printf("%u passed, %u failed\n", passed, failed);
    return failed != 0;
}
