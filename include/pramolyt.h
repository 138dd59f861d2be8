/* The board engine for C and C++: libpramolyt.a, x86-64, System V ABI. C99 or later, C++11 or later. What the entries of a
 * list hold stands in pramolyt_list.h.
 *
 * Every function takes every number, every record and memories of every length, and has one outcome for each of them; no
 * call stops, allocates or keeps a pointer. The library has no state of its own, so separate boards may run on separate
 * threads at once. From outside it needs memcpy, memmove and memset alone. What only the caller can see to:
 *  - board, feed, place, steps and written are not null, are aligned, and point to one value each;
 *  - a length is what its pointer really has behind it; with a length of 0 any pointer will do, NULL too;
 *  - nothing that one pointer of a call lends for writing overlaps what another pointer of that call lends, and no other
 *    thread touches any of it during the call.
 *
 * What the caller gets, proved as one theorem about any sequence of calls (statements/specs/Images.antt, Demand3InC): from
 * pramolyt_make answered 0 on, with each call handed record and memories as the last call left them, no call answers 1 but
 * a feed that is given a bad feed record, no run answers 9, and after each call both pictures are those of the lists run in
 * the order in which they were accepted, as far as the steps reported, each list as it read when it was posted. A feed may
 * be given any feed record. What voids it: a change of the board record, of list memory but by pramolyt_store or
 * pramolyt_feed, or of a buffer but by pramolyt_window_write or pramolyt_import; or a memory of another size, for that call
 * alone, which answers 2 and changes nothing.
 */
#ifndef PRAMOLYT_H
#define PRAMOLYT_H

#include <stddef.h>
#include <stdint.h>

#define PRAMOLYT_VERSION_MAJOR 0
#define PRAMOLYT_VERSION_MINOR 9
#define PRAMOLYT_VERSION_PATCH 1
#define PRAMOLYT_VERSION "0.9.1"

/* The edition of the record and of the calls' arguments. The archive's symbols carry it, so that a program compiled with a
 * header of another edition does not link. In C and C++ one writes the names without it. */
#define PRAMOLYT_EDITION 2
#define pramolyt_make pramolyt_make_r2
#define pramolyt_post pramolyt_post_r2
#define pramolyt_store pramolyt_store_r2
#define pramolyt_feed_start_fields pramolyt_feed_start_fields_r2
#define pramolyt_feed_fields pramolyt_feed_fields_r2
#define pramolyt_window_write pramolyt_window_write_r2
#define pramolyt_export pramolyt_export_r2
#define pramolyt_import pramolyt_import_r2
#define pramolyt_run pramolyt_run_r2
#define pramolyt_pack pramolyt_pack_r2
#define pramolyt_unpack pramolyt_unpack_r2

#ifdef __cplusplus
extern "C" {
#endif

/* What a call answers. In every refusal but PRAMOLYT_ILLEGAL_FETCH, and but for a refused make, records and memories stay
 * as they were. Where several grounds hold, the lowest number is answered. */
enum {
    PRAMOLYT_DONE = 0,
    PRAMOLYT_MALFORMED = 1,       /* the record fails the test of a board record: it was never made, or was changed between
                                     calls. The test looks at the record alone; not every change is seen. Of a feed also: a
                                     bad feed record, which one that starts past the end of list memory is too */
    PRAMOLYT_WRONG_SIZE = 2,      /* a size or a length is wrong, or a buffer number; each call says which */
    PRAMOLYT_NO_ENTRIES = 3,      /* a list of no entries */
    PRAMOLYT_PAST_THE_END = 4,    /* a span passes the end of its memory; of a feed: the entries that the piece completes do;
                                     of pack and unpack: more than 4096 entries; of an export: the output is shorter than
                                     the picture */
    PRAMOLYT_SLOTS_FULL = 5,      /* both slots are taken */
    PRAMOLYT_ILLEGAL_ENTRY = 6,   /* the list has an illegal entry; *place is the first one */
    PRAMOLYT_BUSY = 7,            /* a window write or an import while a slot is taken */
    PRAMOLYT_ENTRY_HELD = 8,      /* a store touches, or a feed's piece completes, an entry of a list in a slot */
    PRAMOLYT_ILLEGAL_FETCH = 9,   /* a run came to an illegal entry; the *steps before it stand */
    PRAMOLYT_MALFORMED_FILE = 10, /* a file is not of edition 2: a zero bit that is set, a 31 where an entry belongs, or data
                                     in a 31 */
    PRAMOLYT_NOT_A_PICTURE = 11   /* the input of an import is not one picture of the board's size, or has bytes after it */
};

/* Bytes of a list of so many entries, which is a file of edition 1 too; and of the same list in edition 2. An argument is
 * evaluated once. Files of either edition have 1 to 4096 entries (PRAMOLYT_MAX_ENTRIES of pramolyt_list.h), so 20480 and
 * 19124 bytes at most. */
#define PRAMOLYT_LIST_SIZE(entries) ((size_t)5 * (entries))
#define PRAMOLYT_PACKED_SIZE(entries) ((size_t)14 * (((size_t)(entries) + 2) / 3))

/* Bytes that a picture of a board of this size needs at most: its header has 17 at most, its pixels a byte each. An argument
 * is evaluated once. */
#define PRAMOLYT_PICTURE_MAX(width, height) ((size_t)17 + (size_t)(width) * (height))

/* The board record. The caller keeps it between calls and need not look into it. A flag is 0 or 1; a record with another
 * value in a flag is malformed. */
typedef struct pramolyt_board {
    uint32_t width;  /* 1 to 2048 */
    uint32_t height; /* 1 to 2048 */
    uint32_t entries; /* entries of list memory, 1 to 4096 */
    uint32_t active_taken; /* flag */
    uint32_t active_start;
    uint32_t active_count;
    uint32_t pending_taken; /* flag */
    uint32_t pending_start;
    uint32_t pending_count;
    uint32_t next;      /* the active list's next entry */
    uint32_t under_way; /* flag: a command has pixels left to visit */
    uint32_t visited;   /* its visited pixels */
    uint32_t cmd;
    uint32_t fore;
    uint32_t back;
    uint32_t mask;
    uint32_t key;
    uint32_t lpat;
    uint32_t pctrl;
    uint32_t clptl;
    uint32_t clpbr;
    uint32_t xy0;
    uint32_t xy2;
    uint32_t xy3;
    uint32_t xy1;
    uint32_t pattern_place;
    uint32_t pattern_repeat;
    uint32_t last; /* the last point: x in the high half, y in the low half, each two's complement */
    uint32_t tile_whole; /* flag: a fill with APAT is under way, and its tile lies wholly inside its source buffer */
    uint8_t tile[8][16]; /* that tile, row by row, else zeros */
} pramolyt_board;

/* The feed record, for a list whose bytes come in pieces, as over a serial line. The caller keeps it between pieces. It is
 * bad where next is above the board's entries, count above 4, or an unused byte of held not 0. */
typedef struct pramolyt_feed_record {
    uint64_t next;   /* the list entry that the next bytes belong to */
    uint8_t held[4]; /* the first bytes of that entry, as far as they have come; the others are 0 */
    uint32_t count;  /* how many of them have come, 0 to 4 */
} pramolyt_feed_record;

/* A fresh board into *board, whatever stood there: 0 or 2. It is 2 where width or height is not 1 to 2048, or entries not
 * 1 to 4096; *board is then the fresh 1 by 1 board with 1 entry. The caller lends each call its memories: list memory of
 * 5 * entries bytes, and two buffers, display and virtual, of width * height bytes each. */
uint32_t pramolyt_make(pramolyt_board *board, size_t width, size_t height, size_t entries);

/* Posts the list of `count` entries from entry `start` on: 0, 1, 2, 3, 4, 5 or 6. It is 2 where list_len is not
 * 5 * entries. *place is the first illegal entry, counted over the whole list memory, where the answer is 6, else 0. */
uint32_t pramolyt_post(pramolyt_board *board, uint64_t *place, const uint8_t *list, size_t list_len, size_t start,
                       size_t count);

/* Stores bytes into list memory from entry `first` on: 0, 1, 2, 4 or 8. It is 2 where list_len is not 5 * entries, or
 * bytes_len no multiple of 5. */
uint32_t pramolyt_store(pramolyt_board *board, uint8_t *list, size_t list_len, size_t first, const uint8_t *bytes,
                        size_t bytes_len);

/* pramolyt_feed_start and pramolyt_feed, below, for callers in other languages: with the fields of the feed record one by
 * one. `held` has 4 bytes. */
void pramolyt_feed_start_fields(uint64_t *next, uint8_t *held, uint32_t *count, uint64_t entry);
uint32_t pramolyt_feed_fields(pramolyt_board *board, uint64_t *next, uint8_t *held, uint32_t *count, uint8_t *list,
                              size_t list_len, const uint8_t *piece, size_t piece_len);

/* A feed record into *feed, whatever stood there, that starts at list entry `entry` and holds no bytes. Any number will do;
 * with one above the board's entries every feed answers 1. */
static inline void pramolyt_feed_start(pramolyt_feed_record *feed, uint64_t entry)
{
    pramolyt_feed_start_fields(&feed->next, feed->held, &feed->count, entry);
}

/* Takes the next piece of a list, of any length, 0 too: 0, 1, 2, 4 or 8. Each entry of 5 bytes that the held bytes and the
 * piece complete goes into list memory, from entry feed->next on, and the bytes left over are held. So it does not matter
 * where the bytes of a list are cut: with no other call between the pieces, all are accepted exactly where their bytes in
 * one piece are, and then leave the same memory and the same feed record. Entries are not judged; pramolyt_post does that.
 *
 * It is 1 where the board record is malformed or the feed record bad; 2 where list_len is not 5 * entries; 4 and then 8
 * where an entry that the piece completes is past the end of list memory, or is of a list in a slot. Bytes that complete no
 * entry are held anywhere, at the end of list memory and on an entry in a slot too. In a refusal nothing of the piece is
 * taken; with 8, run until the list has left its slot and feed the same piece again. */
static inline uint32_t pramolyt_feed(pramolyt_board *board, pramolyt_feed_record *feed, uint8_t *list, size_t list_len,
                                     const uint8_t *piece, size_t piece_len)
{
    return pramolyt_feed_fields(board, &feed->next, feed->held, &feed->count, list, list_len, piece, piece_len);
}

/* Writes bytes from `offset` on into buffer `number`, 0 for display and 1 for virtual, which is the one that is lent: 0,
 * 1, 2, 4 or 7. It is 2 where number is above 1, or buffer_len is not width * height. */
uint32_t pramolyt_window_write(pramolyt_board *board, size_t number, size_t offset, const uint8_t *bytes,
                               size_t bytes_len, uint8_t *buffer, size_t buffer_len);

/* Writes buffer `number`, 0 for display and 1 for virtual, which is the one that is lent, into the output as a picture in
 * binary PGM (Netpbm P5): 0, 1, 2 or 4. The picture is "P5", a newline, the width, a space, the height, a newline, "255", a
 * newline, and then the pixels; for 8 by 4 that is 43 bytes. With 0, *written is the bytes written, from the front of the
 * output on; the bytes past them stay. In a refusal *written is 0 and the whole output stays. It is 2 where number is above
 * 1, or buffer_len is not width * height; 4 exactly where output_len is less than the picture needs, which
 * PRAMOLYT_PICTURE_MAX never is. While a slot is taken it is done all the same, with the buffer as the last run left it. */
uint32_t pramolyt_export(pramolyt_board *board, uint64_t *written, size_t number, const uint8_t *buffer, size_t buffer_len,
                         uint8_t *output, size_t output_len);

/* Reads one picture in binary PGM, of the board's own size and with 255 as its greatest grey, into buffer `number`, 0 for
 * display and 1 for virtual, which is the one that is lent: 0, 1, 2, 7 or 11. docs/FORMAT.md has what a picture may be; what
 * pramolyt_export writes is one, so on an idle board importing an export restores its buffer. It is 2 where number is above
 * 1, or buffer_len is not width * height; 7 while a slot is taken; 11 where the input is not such a picture, or has bytes
 * after it. */
uint32_t pramolyt_import(pramolyt_board *board, size_t number, const uint8_t *picture, size_t picture_len, uint8_t *buffer,
                         size_t buffer_len);

/* Runs the posted lists for at most `budget` steps (an entry fetched or a pixel visited): 0, 1, 2 or 9. It is 2 where
 * list_len is not 5 * entries, or display_len or virt_len not width * height. *steps is the steps done; with 0 it is the
 * lesser of the budget and the steps left in both lists. A blit visits only pixels inside the buffer and its clip, so it takes
 * width * height steps at most, and none where nothing of it shows; a line visits hidden pixels too. A fill with APAT reads its
 * tile when it is triggered, and the record holds it until the fill ends.
 *
 * 9 means that list memory or the record is not as the last call left it. board->next is the illegal entry, its list stays
 * active, and a further run of a step or more answers 9 again. To go on, write a legal entry over its 5 bytes, those from
 * list + 5 * board->next on, and run again (pramolyt_store there is refused with 8); or make the board anew, which empties
 * its slots, sets its registers to their start and leaves the three memories alone. */
uint32_t pramolyt_run(pramolyt_board *board, uint64_t *steps, uint64_t budget, const uint8_t *list, size_t list_len,
                      uint8_t *display, size_t display_len, uint8_t *virt, size_t virt_len);

/* The two editions of the list file (docs/FORMAT.md), for a slow link. No board is needed. Whether an entry is legal is
 * judged as pramolyt_post does, so a file that converts is a list that can be posted. With 0, *written is the bytes written,
 * from the front of the output on; the bytes past them stay. In a refusal *written is 0 and the whole output stays. *place
 * is the first illegal entry where the answer is 6, else 0. Input and output must not overlap.
 *
 * Edition 1 to edition 2: 0, 2, 3, 4 or 6. It is 2 where input_len is no multiple of 5, or output_len is less than
 * PRAMOLYT_PACKED_SIZE of the entries; 3 where input_len is 0; 4 where there are more than 4096 entries. */
uint32_t pramolyt_pack(uint64_t *written, uint64_t *place, const uint8_t *input, size_t input_len, uint8_t *output,
                       size_t output_len);

/* Edition 2 to edition 1: 0, 2, 3, 4, 6 or 10. The input has three entries for each 14 bytes, less the 31s that end its last
 * group. It is 2 where input_len is no multiple of 14, or output_len is less than PRAMOLYT_LIST_SIZE of the entries; 3 where
 * input_len is 0; 4 where there are more than 4096 entries. A 31 is no illegal entry, and *place counts it, three to a
 * group. A file that is accepted is the one that pramolyt_pack makes of its list. The output is not to be a board's list
 * memory, which only pramolyt_store and pramolyt_feed may change. */
uint32_t pramolyt_unpack(uint64_t *written, uint64_t *place, const uint8_t *input, size_t input_len, uint8_t *output,
                         size_t output_len);

#ifdef __cplusplus
}
#endif

/* 1 where no list is left to run, else 0. */
static inline int pramolyt_idle(const pramolyt_board *board)
{
    return board->active_taken == 0;
}

/* An answer in words, for people. */
static inline const char *pramolyt_answer_text(uint32_t answer)
{
    switch (answer) {
    case PRAMOLYT_DONE:
        return "done";
    case PRAMOLYT_MALFORMED:
        return "the board record or the feed record is damaged or was never made, or the feed starts past the end of list "
               "memory; make it anew";
    case PRAMOLYT_WRONG_SIZE:
        return "a size is wrong: the board's, a memory's, the buffer number, an output's, or bytes that are no whole entries";
    case PRAMOLYT_NO_ENTRIES:
        return "the list has no entries";
    case PRAMOLYT_PAST_THE_END:
        return "the span passes the end of its memory, the file has more than 4096 entries, or the output is too short for "
               "the picture";
    case PRAMOLYT_SLOTS_FULL:
        return "two lists are waiting already; run one to its end first";
    case PRAMOLYT_ILLEGAL_ENTRY:
        return "an entry is illegal; the list was not posted or converted";
    case PRAMOLYT_BUSY:
        return "a list is still to be drawn; run it to its end before writing a buffer or importing a picture";
    case PRAMOLYT_ENTRY_HELD:
        return "a list that is still to be drawn has one of these entries";
    case PRAMOLYT_ILLEGAL_FETCH:
        return "an illegal entry stopped the run; list memory or the record was changed since the post";
    case PRAMOLYT_MALFORMED_FILE:
        return "the file is not of edition 2: a zero bit, a missing entry or its data is wrong";
    case PRAMOLYT_NOT_A_PICTURE:
        return "the input is not one binary PGM picture of the board's size with greatest grey 255, or has bytes after it";
    default:
        return "no answer of this library";
    }
}

/* The library reads the record as so many words, in this order; the tile is 32 of them, four bytes a word, the first one
 * lowest. */
#define PRAMOLYT_WORDS 61
#if defined(__cplusplus) && __cplusplus >= 201103L
#define PRAMOLYT_ASSERT(fact, text) static_assert(fact, text);
#elif defined(__STDC_VERSION__) && __STDC_VERSION__ >= 201112L
#define PRAMOLYT_ASSERT(fact, text) _Static_assert(fact, text);
#else
#define PRAMOLYT_ASSERT(fact, text)
#endif
#define PRAMOLYT_WORD(member, word) PRAMOLYT_ASSERT(offsetof(pramolyt_board, member) == 4 * (word), #member " is word " #word)
PRAMOLYT_ASSERT(sizeof(size_t) == 8, "size_t has 64 bits")
PRAMOLYT_ASSERT(sizeof(pramolyt_board) == 4 * PRAMOLYT_WORDS, "pramolyt_board has PRAMOLYT_WORDS words")
PRAMOLYT_WORD(width, 0)
PRAMOLYT_WORD(height, 1)
PRAMOLYT_WORD(entries, 2)
PRAMOLYT_WORD(active_taken, 3)
PRAMOLYT_WORD(active_start, 4)
PRAMOLYT_WORD(active_count, 5)
PRAMOLYT_WORD(pending_taken, 6)
PRAMOLYT_WORD(pending_start, 7)
PRAMOLYT_WORD(pending_count, 8)
PRAMOLYT_WORD(next, 9)
PRAMOLYT_WORD(under_way, 10)
PRAMOLYT_WORD(visited, 11)
PRAMOLYT_WORD(cmd, 12)
PRAMOLYT_WORD(fore, 13)
PRAMOLYT_WORD(back, 14)
PRAMOLYT_WORD(mask, 15)
PRAMOLYT_WORD(key, 16)
PRAMOLYT_WORD(lpat, 17)
PRAMOLYT_WORD(pctrl, 18)
PRAMOLYT_WORD(clptl, 19)
PRAMOLYT_WORD(clpbr, 20)
PRAMOLYT_WORD(xy0, 21)
PRAMOLYT_WORD(xy2, 22)
PRAMOLYT_WORD(xy3, 23)
PRAMOLYT_WORD(xy1, 24)
PRAMOLYT_WORD(pattern_place, 25)
PRAMOLYT_WORD(pattern_repeat, 26)
PRAMOLYT_WORD(last, 27)
PRAMOLYT_WORD(tile_whole, 28)
PRAMOLYT_WORD(tile, 29)
#undef PRAMOLYT_WORD
PRAMOLYT_ASSERT(sizeof(pramolyt_feed_record) == 16, "pramolyt_feed_record has 16 bytes")
PRAMOLYT_ASSERT(offsetof(pramolyt_feed_record, next) == 0, "next comes first")
PRAMOLYT_ASSERT(offsetof(pramolyt_feed_record, held) == 8, "held follows next")
PRAMOLYT_ASSERT(offsetof(pramolyt_feed_record, count) == 12, "count follows held")
#undef PRAMOLYT_ASSERT

#endif
