/* Two berths of a quay are closed and hatched, and one is opened again. The hatching is a tile of 16 by 8 pixels, which is
 * written into the virtual buffer once; a blit with APAT fills a berth from it. Each pixel has the tile's column and row by its
 * own place on the board, so that the hatching goes on from berth to berth. With raster code 6, exclusive or, the same blit
 * drawn again takes it away. With a file name as its argument it writes a log of its calls into that file, for `pramolyt
 * replay`.
 *
 *     cc -Iinclude examples/c/closed_berth.c target/staticlib/libpramolyt.a -o target/closed_berth
 */
#include <assert.h>
#include <inttypes.h>
#include <stdio.h>
#include <stdlib.h>

#include "pramolyt.h"
#include "pramolyt_list.h"
#include "pramolyt_log.h"

/* Berths are side by side, with a pier between them and the quay below. */
enum { BERTHS = 4, BERTH_WIDTH = 13, BERTH_HEIGHT = 9, WIDTH = BERTHS * (BERTH_WIDTH + 1) + 1, HEIGHT = BERTH_HEIGHT + 1 };
enum { ENTRIES = 64, TILE_WIDTH = 16, TILE_HEIGHT = 8 };

/* Colours: bit 0 is what stands there, bit 1 the hatching. */
enum { BUILT = 1, HATCHED = 2 };

static pramolyt_board board;
static uint8_t memory[PRAMOLYT_ENTRY_BYTES * ENTRIES];
static uint8_t display[WIDTH * HEIGHT];
static uint8_t virt[WIDTH * HEIGHT];

/* A display list while it is built. */
typedef struct {
    uint8_t bytes[PRAMOLYT_ENTRY_BYTES * ENTRIES];
    size_t count;
} display_list;

static void entry(display_list *list, unsigned reg, uint32_t word)
{
    assert(list->count < ENTRIES);
    pramolyt_put_entry(list->bytes + PRAMOLYT_ENTRY_BYTES * list->count++, reg, word);
}

/* Ends the program where a call is refused. */
static void check(const char *name, uint32_t answer)
{
    if (answer != PRAMOLYT_DONE) {
        fprintf(stderr, "%s answers %" PRIu32 "\n", name, answer);
        exit(1);
    }
}

/* Writes the tile to the upper left of the virtual buffer, row by row: slanting lines, four pixels apart. */
static void write_tile(void)
{
    for (int y = 0; y < TILE_HEIGHT; y++) {
        uint8_t row[TILE_WIDTH];
        for (int x = 0; x < TILE_WIDTH; x++)
            row[x] = (x + y) % 4 == 0 ? HATCHED : 0;
        check("window write",
              pramolyt_window_write(&board, PRAMOLYT_VIRTUAL, (size_t)(y * WIDTH), row, sizeof row, virt, sizeof virt));
    }
}

static int left_of(int berth)
{
    return 1 + berth * (BERTH_WIDTH + 1);
}

/* The piers, the quay, and a ship at each berth but the third. */
static display_list quay(void)
{
    display_list list = {{0}, 0};
    entry(&list, PRAMOLYT_FORE, BUILT);
    entry(&list, PRAMOLYT_CMD, pramolyt_command(PRAMOLYT_LINE, PRAMOLYT_GX_COPY, PRAMOLYT_CMD_SOLID));
    entry(&list, PRAMOLYT_XY0, pramolyt_point(0, HEIGHT - 1));
    entry(&list, PRAMOLYT_XY1, pramolyt_point(WIDTH - 1, HEIGHT - 1));
    for (int berth = 0; berth <= BERTHS; berth++) {
        entry(&list, PRAMOLYT_XY0, pramolyt_point(left_of(berth) - 1, 0));
        entry(&list, PRAMOLYT_XY1, pramolyt_point(left_of(berth) - 1, HEIGHT - 2));
    }
    entry(&list, PRAMOLYT_CMD, pramolyt_command(PRAMOLYT_BITBLT, PRAMOLYT_GX_COPY, PRAMOLYT_CMD_SOLID));
    entry(&list, PRAMOLYT_XY2, pramolyt_size(4, 7));
    for (int berth = 0; berth < BERTHS; berth++)
        if (berth != 2)
            entry(&list, PRAMOLYT_XY1, pramolyt_point(left_of(berth) + 5, 2));
    return list;
}

/* Hatches berths, or takes their hatching away. XY0 is the upper left corner of the tile. */
static display_list hatching(int first, int last)
{
    display_list list = {{0}, 0};
    uint32_t flags = PRAMOLYT_CMD_APAT | PRAMOLYT_CMD_SOURCE_VIRTUAL;
    entry(&list, PRAMOLYT_CMD, pramolyt_command(PRAMOLYT_BITBLT, PRAMOLYT_GX_XOR, flags));
    entry(&list, PRAMOLYT_XY0, pramolyt_point(0, 0));
    entry(&list, PRAMOLYT_XY2, pramolyt_size(BERTH_WIDTH, BERTH_HEIGHT));
    for (int berth = first; berth <= last; berth++)
        entry(&list, PRAMOLYT_XY1, pramolyt_point(left_of(berth), 0));
    return list;
}

static uint64_t run(uint64_t budget)
{
    uint64_t steps;
    check("run",
          pramolyt_run(&board, &steps, budget, memory, sizeof memory, display, sizeof display, virt, sizeof virt));
    return steps;
}

/* Stores, posts and runs a list, first for 50 steps. A fill that they cut goes on from the tile that the record holds. */
static void draw(const char *name, const display_list *list)
{
    uint64_t place;
    size_t length = PRAMOLYT_ENTRY_BYTES * list->count;
    check("store", pramolyt_store(&board, memory, sizeof memory, 0, list->bytes, length));
    check("post", pramolyt_post(&board, &place, memory, sizeof memory, 0, list->count));
    uint64_t first = run(50);
    const char *held = board.tile_whole ? ", a tile is held" : "";
    printf("%s: %zu entries, %" PRIu64 " steps%s, ", name, list->count, first, held);
    printf("%" PRIu64 " steps\n", run(10000));
}

static void print(void)
{
    for (int y = 0; y < HEIGHT; y++) {
        putchar('|');
        for (int x = 0; x < WIDTH; x++)
            putchar(" #/%"[display[y * WIDTH + x]]);
        puts("|");
    }
}

int main(int argc, char **argv)
{
    if (argc > 1 && (pramolyt_log = fopen(argv[1], "w")) == NULL) {
        perror(argv[1]);
        return 1;
    }
    display_list built = quay(), closed = hatching(1, 2), opened = hatching(2, 2);
    check("make", pramolyt_make(&board, WIDTH, HEIGHT, ENTRIES));
    write_tile();
    draw("the quay", &built);
    print();
    draw("berths 2 and 3 are closed", &closed);
    print();
    draw("berth 3 is open again", &opened);
    print();
    return 0;
}
