/* What the header says of single answers: the grounds of answer 2, call by call; how to go on after answer 9; an idle board;
 * answers in words. The last line is 'N passed, M failed'. */
#include <stdio.h>
#include <string.h>

#include "pramolyt.h"

enum { WIDTH = 8, HEIGHT = 4, ENTRIES = 6, AREA = WIDTH * HEIGHT, LIST = 5 * ENTRIES };

/* FORE 7; CMD a solid LINE, raster code copy; XY0 (0, 0); XY1 (4, 2): 4 entries and 5 pixels */
enum { COUNT = 4, STEPS = 9 };
static const uint8_t line[5 * COUNT] = {8, 0, 0, 0, 7, 0, 0x23, 0x80, 0, 0, 0x48, 0, 0, 0, 0, 0x60, 0, 4, 0, 2};
/* register 13, which there is not */
static const uint8_t illegal[5] = {0x68, 0, 0, 0, 0};

/* the memories have room for lengths that are too large */
static uint8_t list[LIST + 5], display[AREA + 1], virt[AREA + 1];
static unsigned passed, failed;

static void check(int fact, const char *call, const char *about)
{
    if (fact) {
        passed++;
    } else {
        failed++;
        printf("FAILED: %s: %s\n", call, about);
    }
}

static uint32_t store(pramolyt_board *b, size_t first, const uint8_t *bytes, size_t length)
{
    return pramolyt_store(b, list, LIST, first, bytes, length);
}

static uint32_t run(pramolyt_board *b, uint64_t *steps, uint64_t budget)
{
    return pramolyt_run(b, steps, budget, list, LIST, display, AREA, virt, AREA);
}

/* a board with empty memories, the line at the front of list memory */
static pramolyt_board fresh(void)
{
    pramolyt_board b;
    memset(list, 0, sizeof list);
    memset(display, 0, sizeof display);
    memset(virt, 0, sizeof virt);
    check(pramolyt_make(&b, WIDTH, HEIGHT, ENTRIES) == PRAMOLYT_DONE, "make", "fresh");
    check(store(&b, 0, line, sizeof line) == PRAMOLYT_DONE, "store", "fresh");
    return b;
}

/* the same with the line posted */
static pramolyt_board posted(void)
{
    pramolyt_board b = fresh();
    uint64_t place;
    check(pramolyt_post(&b, &place, list, LIST, 0, COUNT) == PRAMOLYT_DONE, "post", "posted");
    return b;
}

static void sizes_of_make(void)
{
    static const size_t sizes[][4] = {
        {1, 1, 1, 0},    {2048, 2048, 4096, 0}, {0, 1, 1, 2},           {2049, 1, 1, 2},        {1, 0, 1, 2},
        {1, 2049, 1, 2}, {1, 1, 0, 2},          {1, 1, 4097, 2},        {SIZE_MAX, 1, 1, 2},    {1, 1, SIZE_MAX, 2},
    };
    pramolyt_board b;
    size_t i;
    for (i = 0; i < sizeof sizes / sizeof sizes[0]; i++)
        check(pramolyt_make(&b, sizes[i][0], sizes[i][1], sizes[i][2]) == sizes[i][3], "make", "sizes");
}

/* each length one off, alone */
static void lengths(void)
{
    pramolyt_board b = fresh();
    uint64_t out;
    int off;
    for (off = -1; off <= 1; off++) {
        const size_t l = (size_t)(LIST + off), a = (size_t)(AREA + off), s = (size_t)(5 + off);
        const uint32_t answer = off == 0 ? PRAMOLYT_DONE : PRAMOLYT_WRONG_SIZE;
        check(pramolyt_window_write(&b, 0, 0, line, 5, display, a) == answer, "window write", "display's length");
        check(pramolyt_window_write(&b, 1, 0, line, 5, virt, a) == answer, "window write", "virtual's length");
        check(pramolyt_store(&b, list, l, 0, line, 5) == answer, "store", "list_len");
        check(pramolyt_store(&b, list, LIST, 0, line, s) == answer, "store", "bytes_len");
        check(pramolyt_run(&b, &out, 1, list, l, display, AREA, virt, AREA) == answer, "run", "list_len");
        check(pramolyt_run(&b, &out, 1, list, LIST, display, a, virt, AREA) == answer, "run", "display_len");
        check(pramolyt_run(&b, &out, 1, list, LIST, display, AREA, virt, a) == answer, "run", "virt_len");
    }
    check(pramolyt_post(&b, &out, list, LIST - 1, 0, 1) == PRAMOLYT_WRONG_SIZE, "post", "list_len");
    check(pramolyt_post(&b, &out, list, LIST + 5, 0, 1) == PRAMOLYT_WRONG_SIZE, "post", "list_len of an entry more");
    check(pramolyt_post(&b, &out, list, LIST, 0, 1) == PRAMOLYT_DONE, "post", "right length");
    check(pramolyt_window_write(&b, 2, 0, line, 5, virt, AREA) == PRAMOLYT_WRONG_SIZE, "window write", "number");
}

static void idle(void)
{
    pramolyt_board b = fresh();
    uint64_t out;
    check(pramolyt_idle(&b) == 1, "idle", "made");
    b = posted();
    check(pramolyt_idle(&b) == 0, "idle", "posted");
    check(run(&b, &out, STEPS - 1) == PRAMOLYT_DONE && pramolyt_idle(&b) == 0, "idle", "a step left");
    check(run(&b, &out, 1) == PRAMOLYT_DONE && pramolyt_idle(&b) == 1, "idle", "no step left");
}

/* a posted board whose entry 2 was overwritten, run to that entry */
static pramolyt_board stopped(void)
{
    pramolyt_board b = posted();
    uint64_t steps;
    memcpy(list + 10, illegal, 5);
    check(run(&b, &steps, 100) == PRAMOLYT_ILLEGAL_FETCH && steps == 2, "answer 9", "steps before it");
    check(b.next == 2 && pramolyt_idle(&b) == 0, "answer 9", "next entry, list stays active");
    return b;
}

static void entry_mended(void)
{
    static uint8_t picture[AREA];
    pramolyt_board undisturbed = posted(), b;
    uint64_t steps;
    check(run(&undisturbed, &steps, 100) == PRAMOLYT_DONE && steps == STEPS, "undisturbed", "steps");
    memcpy(picture, display, AREA);
    b = stopped();
    check(run(&b, &steps, 100) == PRAMOLYT_ILLEGAL_FETCH && steps == 0, "after 9", "run again");
    check(store(&b, 2, line + 10, 5) == PRAMOLYT_ENTRY_HELD, "after 9", "store");
    memcpy(list + 5 * b.next, line + 10, 5);
    check(run(&b, &steps, 100) == PRAMOLYT_DONE && steps == STEPS - 2, "after 9", "entry mended");
    check(pramolyt_idle(&b) == 1 && memcmp(&b, &undisturbed, sizeof b) == 0, "after 9", "record");
    check(memcmp(display, picture, AREA) == 0, "after 9", "picture");
}

static void board_made_anew(void)
{
    static uint8_t before[3][AREA];
    pramolyt_board b = stopped(), again;
    uint64_t place, steps;
    memcpy(before[0], list, LIST);
    memcpy(before[1], display, AREA);
    memcpy(before[2], virt, AREA);
    check(pramolyt_make(&b, WIDTH, HEIGHT, ENTRIES) == PRAMOLYT_DONE && pramolyt_idle(&b) == 1, "after 9", "make");
    check(memcmp(before[0], list, LIST) == 0 && memcmp(before[1], display, AREA) == 0 && memcmp(before[2], virt, AREA) == 0,
          "after 9", "make leaves the memories");
    again = fresh();
    check(memcmp(&b, &again, sizeof b) == 0, "after 9", "make leaves a fresh record");
    check(store(&b, 2, line + 10, 5) == PRAMOLYT_DONE, "after 9 and make", "store");
    check(pramolyt_post(&b, &place, list, LIST, 0, COUNT) == PRAMOLYT_DONE, "after 9 and make", "post");
    check(run(&b, &steps, 100) == PRAMOLYT_DONE && steps == STEPS, "after 9 and make", "run");
}

/* a list made longer in the record runs into an entry that no post has judged */
static void record_changed(void)
{
    pramolyt_board b = posted();
    uint64_t steps;
    check(store(&b, COUNT, illegal, 5) == PRAMOLYT_DONE, "store", "behind the list");
    b.active_count = COUNT + 1;
    check(run(&b, &steps, 100) == PRAMOLYT_ILLEGAL_FETCH && steps == STEPS && b.next == COUNT, "answer 9", "record changed");
}

static void texts(void)
{
    const char *other = pramolyt_answer_text(12);
    uint32_t i, j;
    check(strcmp(pramolyt_answer_text(PRAMOLYT_DONE), "done") == 0, "text", "done");
    check(strcmp(pramolyt_answer_text(UINT32_MAX), other) == 0, "text", "any other number");
    for (i = 0; i < 12; i++) {
        check(strcmp(pramolyt_answer_text(i), other) != 0, "text", "an answer");
        for (j = 0; j < i; j++)
            check(strcmp(pramolyt_answer_text(i), pramolyt_answer_text(j)) != 0, "text", "each its own");
    }
}

int main(void)
{
    sizes_of_make();
    lengths();
    idle();
    entry_mended();
    board_made_anew();
    record_changed();
    texts();
    printf("%u passed, %u failed\n", passed, failed);
    return failed != 0;
}
