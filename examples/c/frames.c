/* A ship comes alongside, on a board that is redrawn frame by frame. Three display lists each redraw the whole board, with the
 * ship further on. A frame has a budget of steps; what it does not finish goes on in the next. The program shows
 *  - a list posted while another is being drawn;
 *  - a third list refused while two wait, and posted again in each frame until it is accepted;
 *  - list memory changed by a fault, which stops a run, and two ways to go on.
 * With a file name as its argument it writes a log of its calls into that file, for `pramolyt replay`.
 *
 *     cc -Iinclude examples/c/frames.c target/staticlib/libpramolyt.a -o target/frames
 */
#include <inttypes.h>
#include <stdio.h>
#include <stdlib.h>
#include <string.h>

#include "pramolyt.h"
#include "pramolyt_list.h"
#include "pramolyt_log.h"

enum { WIDTH = 20, HEIGHT = 4, LISTS = 3, COUNT = 12, ENTRIES = LISTS * COUNT, BUDGET = 40 };
enum { WATER = 1, QUAY = 2, SHIP = 3 };
enum { FAULT_FRAME = 6, FAULT_ENTRY = 23, LATER_FAULT_ENTRY = 7 };

static pramolyt_board board;
static uint8_t memory[PRAMOLYT_ENTRY_BYTES * ENTRIES];
static uint8_t display[WIDTH * HEIGHT];
static uint8_t virt[WIDTH * HEIGHT];

/* The program's own copy of the lists, COUNT entries each. */
static uint8_t lists[sizeof memory];

/* Ends the program where a call answers what it should not. */
static void expect(const char *name, uint32_t answer, uint32_t expected)
{
    if (answer != expected) {
        fprintf(stderr, "%s answers %" PRIu32 "\n", name, answer);
        exit(1);
    }
}

/* A filled rectangle, four entries. */
static uint8_t *fill(uint8_t *at, uint32_t colour, uint32_t size, uint32_t corner)
{
    at = pramolyt_put_entry(at, PRAMOLYT_FORE, colour);
    at = pramolyt_put_entry(at, PRAMOLYT_CMD, pramolyt_command(PRAMOLYT_BITBLT, PRAMOLYT_GX_COPY, PRAMOLYT_CMD_SOLID));
    at = pramolyt_put_entry(at, PRAMOLYT_XY2, size);
    return pramolyt_put_entry(at, PRAMOLYT_XY1, corner);
}

/* A line, four entries. */
static uint8_t *line(uint8_t *at, uint32_t colour, uint32_t from, uint32_t to)
{
    at = pramolyt_put_entry(at, PRAMOLYT_FORE, colour);
    at = pramolyt_put_entry(at, PRAMOLYT_CMD, pramolyt_command(PRAMOLYT_LINE, PRAMOLYT_GX_COPY, PRAMOLYT_CMD_SOLID));
    at = pramolyt_put_entry(at, PRAMOLYT_XY0, from);
    return pramolyt_put_entry(at, PRAMOLYT_XY1, to);
}

/* The lists: water, the quay, and the ship, further right in each. */
static void build_lists(void)
{
    uint8_t *at = lists;
    for (int k = 0; k < LISTS; k++) {
        at = fill(at, WATER, pramolyt_size(WIDTH, HEIGHT), pramolyt_point(0, 0));
        at = line(at, QUAY, pramolyt_point(0, HEIGHT - 1), pramolyt_point(WIDTH - 1, HEIGHT - 1));
        at = fill(at, SHIP, pramolyt_size(5, 2), pramolyt_point(1 + 6 * k, 1));
    }
}

static uint32_t store(size_t first, size_t count)
{
    return pramolyt_store(&board, memory, sizeof memory, first, lists + PRAMOLYT_ENTRY_BYTES * first,
                          PRAMOLYT_ENTRY_BYTES * count);
}

static uint32_t post(size_t list, uint64_t *place)
{
    return pramolyt_post(&board, place, memory, sizeof memory, COUNT * list, COUNT);
}

static uint32_t run(uint64_t budget, uint64_t *steps)
{
    return pramolyt_run(&board, steps, budget, memory, sizeof memory, display, sizeof display, virt, sizeof virt);
}

/* What no call does: a bit of an entry changes. The entry now names a register that there is not, so that a run stops there; a
 * change that leaves an entry legal is not noticed. */
static void damage(size_t entry)
{
    uint8_t *changed = memory + PRAMOLYT_ENTRY_BYTES * entry;
    changed[0] ^= 0x80;
    pramolyt_log_overwrite(entry, changed, PRAMOLYT_ENTRY_BYTES);
    printf("  a fault changes entry %zu\n", entry);
}

/* Posts a list and answers whether it was accepted. While two lists wait it is not: the frame goes on without it. */
static int try_post(size_t list)
{
    uint64_t place;
    uint32_t answer = post(list, &place);
    if (answer == PRAMOLYT_SLOTS_FULL) {
        printf("  post of list %zu: answer 5, both slots are taken\n", list + 1);
        return 0;
    }
    expect("post", answer, PRAMOLYT_DONE);
    printf("  post of list %zu: answer 0\n", list + 1);
    return 1;
}

/* A run has come to an illegal entry. Another run would come to it again, and a store is refused, since the list still holds
 * the entry. So the program writes its own copy of the entry over it. The run then goes on where it stopped. */
static void mend(void)
{
    size_t entry = board.next;
    uint64_t steps;
    expect("run", run(BUDGET, &steps), PRAMOLYT_ILLEGAL_FETCH);
    printf("  run again: answer 9 at entry %zu, %" PRIu64 " steps\n", entry, steps);
    expect("store", store(entry, 1), PRAMOLYT_ENTRY_HELD);
    printf("  store of entry %zu: answer 8, a list holds it\n", entry);
    const uint8_t *copy = lists + PRAMOLYT_ENTRY_BYTES * entry;
    memcpy(memory + PRAMOLYT_ENTRY_BYTES * entry, copy, PRAMOLYT_ENTRY_BYTES);
    pramolyt_log_overwrite(entry, copy, PRAMOLYT_ENTRY_BYTES);
    printf("  entry %zu is written back\n", entry);
}

/* Draws for a frame's budget of steps. */
static void run_frame(void)
{
    uint64_t left = BUDGET, steps;
    uint32_t answer = run(left, &steps);
    while (answer == PRAMOLYT_ILLEGAL_FETCH) {
        printf("  run: answer 9 at entry %" PRIu32 ", %" PRIu64 " steps\n", board.next, steps);
        left -= steps;
        mend();
        answer = run(left, &steps);
    }
    expect("run", answer, PRAMOLYT_DONE);
    printf("  run: answer 0, %" PRIu64 " steps\n", steps);
}

static void print(void)
{
    for (int y = 0; y < HEIGHT; y++) {
        putchar('|');
        for (int x = 0; x < WIDTH; x++)
            putchar(" ~=#"[display[y * WIDTH + x]]);
        puts("|");
    }
}

/* Frames until every list is posted and drawn. */
static void run_frames(void)
{
    size_t posted = 0;
    for (int frame = 1; posted < LISTS || board.active_taken; frame++) {
        printf("frame %d\n", frame);
        if (posted < LISTS && try_post(posted))
            posted++;
        if (frame == FAULT_FRAME)
            damage(FAULT_ENTRY);
        run_frame();
        print();
    }
}

/* The other way to go on, which needs no entry to be put right: the board is made anew. No list is posted then, registers are
 * fresh, and the pictures stay as they are. A post finds the damage, and a store is no longer refused. */
static void make_anew(void)
{
    uint64_t place, steps;
    puts("once more");
    expect("post", post(0, &place), PRAMOLYT_DONE);
    damage(LATER_FAULT_ENTRY);
    expect("run", run(1000, &steps), PRAMOLYT_ILLEGAL_FETCH);
    printf("  run: answer 9 at entry %" PRIu32 ", %" PRIu64 " steps\n", board.next, steps);
    expect("make", pramolyt_make(&board, WIDTH, HEIGHT, ENTRIES), PRAMOLYT_DONE);
    puts("  the board is made anew");
    expect("post", post(0, &place), PRAMOLYT_ILLEGAL_ENTRY);
    printf("  post of list 1: answer 6 at entry %" PRIu64 "\n", place);
    expect("store", store(0, COUNT), PRAMOLYT_DONE);
    puts("  store of list 1: answer 0");
    expect("post", post(0, &place), PRAMOLYT_DONE);
    puts("  post of list 1: answer 0");
    expect("run", run(1000, &steps), PRAMOLYT_DONE);
    printf("  run: answer 0, %" PRIu64 " steps\n", steps);
    print();
}

int main(int argc, char **argv)
{
    if (argc > 1 && (pramolyt_log = fopen(argv[1], "w")) == NULL) {
        perror(argv[1]);
        return 1;
    }
    build_lists();
    expect("make", pramolyt_make(&board, WIDTH, HEIGHT, ENTRIES), PRAMOLYT_DONE);
    expect("store", store(0, ENTRIES), PRAMOLYT_DONE);
    printf("%d lists of %d entries, %d steps a frame\n", LISTS, COUNT, BUDGET);
    run_frames();
    make_anew();
    return 0;
}
