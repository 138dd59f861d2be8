/* A ship's call on a berth board, written in a font of one bit a pixel, and the call cancelled: a bar struck through its
 * lines. It shows all that there is to using the library: make a board, own its three memories, write a font into the
 * virtual buffer, store a display list into list memory, post it, and run it. With a file name as its argument it also writes
 * the cancelled call into that file, as a picture in binary PGM; with a second one, a log of its calls for `pramolyt replay`.
 *
 *     cc -Iinclude examples/c/cancelled_call.c target/staticlib/libpramolyt.a -o target/cancelled_call
 *     target/cancelled_call target/cancelled_call.pgm
 */
#include <assert.h>
#include <inttypes.h>
#include <stdio.h>
#include <stdlib.h>
#include <string.h>

#include "pramolyt.h"
#include "pramolyt_list.h"
#include "pramolyt_log.h"

enum { WIDTH = 75, HEIGHT = 18, ENTRIES = 64 };

/* The font, a character a pixel, its letters in bands of 13. */
enum { CELL_WIDTH = 6, CELL_HEIGHT = 8, BAND_WIDTH = 13 * CELL_WIDTH };
static const char letters[] = "ABCDEFGHIJKLMNOPQRSTUVWXYZ0123456789-:.";
static const char font[] =
#include "../font.inc"
    ;
static_assert(sizeof font - 1 == 3 * BAND_WIDTH * CELL_HEIGHT, "three bands");

/* The lines of the call, and the upper edge of each on the board. */
static const struct {
    const char *text;
    int top;
} lines[] = {{"FAIRWIND", 1}, {"WALL 3 05:10", 10}};
enum { LINES = sizeof lines / sizeof lines[0] };

/* A display list while it is built. */
typedef struct {
    uint8_t bytes[PRAMOLYT_ENTRY_BYTES * ENTRIES];
    size_t count;
} display_list;

static void entry(display_list *list, unsigned reg, uint32_t word)
{
    assert(list->count < ENTRIES);
    pramolyt_put_entry(list->bytes + PRAMOLYT_ENTRY_BYTES * list->count++, reg, word);
}

/* The bit position of a letter's cell in the virtual buffer. A letter that the font lacks, as the space, has the blank cell
 * after the last. */
static uint32_t glyph(char letter)
{
    const char *at = strchr(letters, letter);
    size_t k = at != NULL ? (size_t)(at - letters) : strlen(letters);
    return pramolyt_point((int)(CELL_WIDTH * k), 0);
}

/* A line of text, a blit a letter. Writing XY1, the cell's corner on the board, draws it. */
static void text_line(display_list *list, const char *text, int x, int y)
{
    for (; *text != '\0'; text++) {
        entry(list, PRAMOLYT_XY0, glyph(*text));
        entry(list, PRAMOLYT_XY1, pramolyt_point(x, y));
        x += CELL_WIDTH;
    }
}

/* The lines of the call, in colour 1 on colour 0. With STPL a blit draws from bits, here those of the virtual buffer: a 1
 * draws FORE and a 0 BACK. */
static display_list call(void)
{
    display_list list = {{0}, 0};
    uint32_t flags = PRAMOLYT_CMD_STPL | PRAMOLYT_CMD_SOURCE_VIRTUAL;
    entry(&list, PRAMOLYT_FORE, 1);
    entry(&list, PRAMOLYT_BACK, 0);
    entry(&list, PRAMOLYT_CMD, pramolyt_command(PRAMOLYT_BITBLT, PRAMOLYT_GX_COPY, flags));
    entry(&list, PRAMOLYT_XY2, pramolyt_size(CELL_WIDTH, CELL_HEIGHT));
    for (int k = 0; k < LINES; k++)
        text_line(&list, lines[k].text, 2, lines[k].top);
    return list;
}

/* A bar through each line. Exclusive or with 2 inverts bit 1 of its pixels: colour 0 becomes 2, and the text, 1, becomes
 * 3. */
static display_list bar(void)
{
    display_list list = {{0}, 0};
    entry(&list, PRAMOLYT_FORE, 2);
    entry(&list, PRAMOLYT_CMD, pramolyt_command(PRAMOLYT_LINE, PRAMOLYT_GX_XOR, PRAMOLYT_CMD_SOLID));
    for (int k = 0; k < LINES; k++) {
        entry(&list, PRAMOLYT_XY0, pramolyt_point(0, lines[k].top + 3));
        entry(&list, PRAMOLYT_XY1, pramolyt_point(WIDTH - 1, lines[k].top + 3));
    }
    return list;
}

static pramolyt_board board;
static uint8_t memory[PRAMOLYT_ENTRY_BYTES * ENTRIES];
static uint8_t display[WIDTH * HEIGHT];
static uint8_t virt[WIDTH * HEIGHT];

/* Ends the program where a call is refused. */
static void check(const char *name, uint32_t answer)
{
    if (answer != PRAMOLYT_DONE) {
        fprintf(stderr, "%s answers %" PRIu32 "\n", name, answer);
        exit(1);
    }
}

/* Writes the font into the virtual buffer, its bands side by side, eight pixels a byte, the leftmost in the most significant
 * bit. */
static void write_font(void)
{
    uint8_t bits[WIDTH * CELL_HEIGHT] = {0};
    for (size_t k = 0; k < sizeof font - 1; k++) {
        size_t row = k / BAND_WIDTH;
        size_t x = row / CELL_HEIGHT * BAND_WIDTH + k % BAND_WIDTH;
        if (font[k] == '#')
            bits[row % CELL_HEIGHT * WIDTH + x / 8] |= (uint8_t)(0x80 >> x % 8);
    }
    check("window write", pramolyt_window_write(&board, PRAMOLYT_VIRTUAL, 0, bits, sizeof bits, virt, sizeof virt));
}

/* Stores, posts and runs a list. */
static void draw(const char *name, const display_list *list)
{
    uint64_t place, steps;
    size_t length = PRAMOLYT_ENTRY_BYTES * list->count;
    check("store", pramolyt_store(&board, memory, sizeof memory, 0, list->bytes, length));
    check("post", pramolyt_post(&board, &place, memory, sizeof memory, 0, list->count));
    check("run", pramolyt_run(&board, &steps, 10000, memory, sizeof memory, display, sizeof display, virt, sizeof virt));
    printf("%s: %zu entries, %" PRIu64 " steps\n", name, list->count, steps);
}

static void print(void)
{
    for (int y = 0; y < HEIGHT; y++) {
        putchar('|');
        for (int x = 0; x < WIDTH; x++)
            putchar(" #=%"[display[y * WIDTH + x]]);
        puts("|");
    }
}

/* Writes the display as a picture into a file. */
static void write_picture(const char *name)
{
    static uint8_t picture[PRAMOLYT_PICTURE_MAX(WIDTH, HEIGHT)];
    uint64_t written;
    check("export", pramolyt_export(&board, &written, PRAMOLYT_DISPLAY, display, sizeof display, picture, sizeof picture));
    FILE *file = fopen(name, "wb");
    if (file == NULL || fwrite(picture, 1, (size_t)written, file) != written || fclose(file) != 0) {
        perror(name);
        exit(1);
    }
}

int main(int argc, char **argv)
{
    display_list first = call(), second = bar();
    uint8_t before[sizeof display];
    if (argc > 2 && (pramolyt_log = fopen(argv[2], "w")) == NULL) {
        perror(argv[2]);
        return 1;
    }
    check("make", pramolyt_make(&board, WIDTH, HEIGHT, ENTRIES));
    write_font();
    draw("the call", &first);
    print();
    memcpy(before, display, sizeof display);
    draw("the bar", &second);
    print();
    if (argc > 1)
        write_picture(argv[1]);
    draw("the bar again", &second);
    int same = memcmp(before, display, sizeof display) == 0;
    puts(same ? "the call stands as before" : "the call is not as before");
    return same ? 0 : 1;
}
