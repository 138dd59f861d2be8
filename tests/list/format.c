/* Every constant and function of pramolyt_list.h is what the library takes it for: lists are posted and run, and the record
 * and the pictures looked at. The last line is 'N passed, M failed'. */
#include <stdio.h>
#include <string.h>

#include "pramolyt.h"
#include "pramolyt_list.h"

enum { WIDTH = 8, HEIGHT = 4, ENTRIES = 64, AREA = WIDTH * HEIGHT };

static pramolyt_board board;
static uint8_t memory[5 * ENTRIES], display[AREA], virt[AREA];
static uint8_t *end; /* of the list that is being built at the front of memory */
static unsigned passed, failed;

static void check(int fact, const char *what, const char *about)
{
    if (fact) {
        passed++;
    } else {
        failed++;
        printf("FAILED: %s: %s\n", what, about);
    }
}

/* A call that comes before what is looked at; it counts only where it fails. */
static void need(int fact, const char *what, const char *about)
{
    if (!fact)
        check(fact, what, about);
}

/* A fresh board, pictures of zeros and an empty list. */
static void begin(void)
{
    memset(display, 0, sizeof display);
    memset(virt, 0, sizeof virt);
    memset(memory, 0, sizeof memory);
    end = memory;
    need(pramolyt_make(&board, WIDTH, HEIGHT, ENTRIES) == PRAMOLYT_DONE, "make", "answer");
}

static void put(unsigned reg, uint32_t word)
{
    end = pramolyt_put_entry(end, reg, word);
}

static size_t count(void)
{
    return (size_t)(end - memory) / 5;
}

static uint32_t post(void)
{
    uint64_t place;
    return pramolyt_post(&board, &place, memory, sizeof memory, 0, count());
}

/* Runs at most so many steps of the list and answers the steps done. */
static uint64_t run(uint64_t budget)
{
    uint64_t steps = 77;
    uint32_t answer =
        pramolyt_run(&board, &steps, budget, memory, sizeof memory, display, sizeof display, virt, sizeof virt);
    need(answer == PRAMOLYT_DONE, "run", "answer");
    return steps;
}

/* Posts and runs the list, begins another, and answers the pixels visited. */
static uint64_t draw(void)
{
    uint64_t steps, entries = count();
    need(post() == PRAMOLYT_DONE, "post", "answer");
    steps = run(1000000);
    need(board.active_taken == 0, "run", "the list has ended");
    end = memory;
    return steps - entries;
}

/* What a post of this one entry answers, on a fresh board. */
static uint32_t posted(unsigned reg, uint32_t word)
{
    begin();
    put(reg, word);
    return post();
}

static int legal(unsigned reg, uint32_t word)
{
    return posted(reg, word) == PRAMOLYT_DONE;
}

static int refused(unsigned reg, uint32_t word)
{
    return posted(reg, word) == PRAMOLYT_ILLEGAL_ENTRY;
}

/* Whether a buffer's rows are these, a character a pixel: a digit, or a full stop for 0. */
static int shows(const uint8_t *buffer, const char *rows)
{
    size_t k;
    for (k = 0; k < AREA; k++)
        if (buffer[k] != (rows[k] == '.' ? 0 : rows[k] - '0'))
            return 0;
    return rows[AREA] == '\0';
}

/* Entries of a rectangle and of a line, of raster code copy. */
static void blit(uint32_t flags, uint32_t size, uint32_t at)
{
    put(PRAMOLYT_CMD, pramolyt_command(PRAMOLYT_BITBLT, PRAMOLYT_GX_COPY, flags));
    put(PRAMOLYT_XY2, size);
    put(PRAMOLYT_XY1, at);
}

static void line(unsigned opcode, uint32_t flags, uint32_t from, uint32_t to)
{
    put(PRAMOLYT_CMD, pramolyt_command(opcode, PRAMOLYT_GX_COPY, flags));
    put(PRAMOLYT_XY0, from);
    put(PRAMOLYT_XY1, to);
}

/* A register: its constant, its member of the record, and a word that a fresh board does not hold there. */
typedef struct {
    const char *name;
    unsigned reg;
    size_t offset;
    uint32_t word;
} register_row;

#define REGISTER(NAME, member, word) {#NAME, PRAMOLYT_##NAME, offsetof(pramolyt_board, member), word}

static const register_row registers[] = {
    REGISTER(CMD, cmd, 0x23800000),     REGISTER(FORE, fore, 255),          REGISTER(BACK, back, 255),
    REGISTER(MASK, mask, 0),            REGISTER(KEY, key, 255),            REGISTER(LPAT, lpat, 0xFFFFFFFF),
    REGISTER(PCTRL, pctrl, 0x2123),     REGISTER(CLPTL, clptl, 0xFFFFFFFF), REGISTER(CLPBR, clpbr, 0xFFFFFFFF),
    REGISTER(XY0, xy0, 0xFFFFFFFF),     REGISTER(XY2, xy2, 0x08000800),     REGISTER(XY3, xy3, 3),
    REGISTER(XY1, xy1, 0xFFFFFFFF),
};
enum { REGISTERS = sizeof registers / sizeof registers[0] };

static uint32_t member(const pramolyt_board *b, size_t offset)
{
    uint32_t word;
    memcpy(&word, (const uint8_t *)b + offset, sizeof word);
    return word;
}

/* An entry writes the member with the register's name, and no other register. */
static void registers_are_named(void)
{
    size_t i, j;
    check(REGISTERS == 13, "registers", "there are 13");
    for (i = 0; i < REGISTERS; i++) {
        pramolyt_board fresh;
        size_t changed = 0;
        begin();
        fresh = board;
        put(registers[i].reg, registers[i].word);
        check(draw() == 0, "no pixels", registers[i].name);
        check(member(&board, registers[i].offset) == registers[i].word, "the entry writes", registers[i].name);
        for (j = 0; j < REGISTERS; j++)
            changed += member(&board, registers[j].offset) != member(&fresh, registers[j].offset);
        check(changed == 1, "the entry writes no other register", registers[i].name);
    }
}

static void other_registers_are_illegal(void)
{
    unsigned reg;
    for (reg = 13; reg < 100; reg++)
        check(refused(reg, 0), "an entry is illegal", "register above 12");
    check(refused(256, 0) && refused(0xFFFFFFFF, 0), "an entry is illegal", "register of more than 8 bits");
}

static void words_end_where_they_should(void)
{
    static const unsigned bytes[] = {PRAMOLYT_FORE, PRAMOLYT_BACK, PRAMOLYT_MASK, PRAMOLYT_KEY};
    size_t i;
    for (i = 0; i < 4; i++)
        check(legal(bytes[i], 255) && refused(bytes[i], 256), "a colour is 0 to 255", registers[1 + i].name);
    check(refused(PRAMOLYT_CMD, PRAMOLYT_ILLEGAL_WORD), "the illegal word", "CMD");
    check(refused(PRAMOLYT_PCTRL, PRAMOLYT_ILLEGAL_WORD), "the illegal word", "PCTRL");
    check(refused(PRAMOLYT_XY2, PRAMOLYT_ILLEGAL_WORD), "the illegal word", "XY2");
}

static int made(size_t width, size_t height, size_t entries)
{
    pramolyt_board b;
    return pramolyt_make(&b, width, height, entries) == PRAMOLYT_DONE;
}

static void limits_of_a_board(void)
{
    enum { SIDE = PRAMOLYT_MAX_SIDE, MOST = PRAMOLYT_MAX_ENTRIES };
    check(made(SIDE, SIDE, MOST), "make", "the largest board");
    check(!made(SIDE + 1, SIDE, MOST), "make", "width past MAX_SIDE");
    check(!made(SIDE, SIDE + 1, MOST), "make", "height past MAX_SIDE");
    check(!made(SIDE, SIDE, MOST + 1), "make", "entries past MAX_ENTRIES");
}

/* A list memory of three entries has three times ENTRY_BYTES bytes, and put_entry writes as many. */
static void bytes_of_an_entry(void)
{
    enum { BYTES = PRAMOLYT_ENTRY_BYTES };
    static const uint8_t zeros[2 * BYTES] = {0};
    uint64_t place;
    size_t length;
    check(pramolyt_make(&board, 1, 1, 3) == PRAMOLYT_DONE, "make", "three entries");
    check(pramolyt_put_entry(memory, 0, 0) == memory + BYTES, "put_entry", "the place after the entry");
    for (length = 3 * BYTES - 3; length <= 3 * BYTES + 3; length++) {
        uint32_t answer = pramolyt_post(&board, &place, memory, length, 0, 4);
        check(answer == (length == 3 * BYTES ? PRAMOLYT_PAST_THE_END : PRAMOLYT_WRONG_SIZE), "post", "ENTRY_BYTES");
    }
    for (length = 1; length < 2 * BYTES; length++) {
        uint32_t answer = pramolyt_store(&board, memory, 3 * BYTES, 0, zeros, length);
        check(answer == (length == BYTES ? PRAMOLYT_DONE : PRAMOLYT_WRONG_SIZE), "store", "ENTRY_BYTES");
    }
}

static void entries_have_these_bytes(void)
{
    static const uint8_t expected[5] = {0x60, 0x12, 0x34, 0x56, 0x78};
    uint8_t bytes[6] = {0, 0, 0, 0, 0, 99};
    pramolyt_put_entry(bytes, PRAMOLYT_XY1, 0x12345678);
    check(memcmp(bytes, expected, sizeof expected) == 0 && bytes[5] == 99, "put_entry", "bytes");
}

static int high(uint32_t word)
{
    return (int16_t)(word >> 16);
}

static int low(uint32_t word)
{
    return (int16_t)word;
}

static int holds(uint32_t word, int x, int y)
{
    return high(word) == x && low(word) == y;
}

/* Points come back from the registers that hold them, and from the last point. */
static void points(void)
{
    static const int numbers[] = {-32768, -32767, -256, -2, -1, 0, 1, 2, 255, 256, 32766, 32767};
    enum { NUMBERS = sizeof numbers / sizeof numbers[0] };
    size_t i, j;
    for (i = 0; i < NUMBERS; i++)
        for (j = 0; j < NUMBERS; j++) {
            int x = numbers[i], y = numbers[j];
            begin();
            put(PRAMOLYT_CLPTL, pramolyt_point(x, y));
            put(PRAMOLYT_CLPBR, pramolyt_point(x, y));
            line(PRAMOLYT_LINE, PRAMOLYT_CMD_SOLID, pramolyt_point(x, y), pramolyt_point(x, y));
            need(draw() == 1, "one pixel", "point");
            check(holds(board.clptl, x, y) && holds(board.clpbr, x, y) && holds(board.xy0, x, y)
                      && holds(board.xy1, x, y) && holds(board.last, x, y),
                  "point", "the registers and the last point hold it");
        }
}

/* Points are drawn at: (5, 2), and a line that begins left of and above the picture. */
static void points_are_drawn(void)
{
    begin();
    put(PRAMOLYT_FORE, 7);
    line(PRAMOLYT_LINE, PRAMOLYT_CMD_SOLID, pramolyt_point(5, 2), pramolyt_point(5, 2));
    line(PRAMOLYT_LINE, PRAMOLYT_CMD_SOLID, pramolyt_point(-2, -1), pramolyt_point(2, 3));
    check(draw() == 1 + 5, "pixels", "point");
    check(shows(display, "........" "7......." ".7...7.." "..7....."), "drawn", "negative point");
}

static void sizes(void)
{
    enum { SIDE = PRAMOLYT_MAX_SIDE };
    begin();
    put(PRAMOLYT_FORE, 4);
    blit(PRAMOLYT_CMD_SOLID, pramolyt_size(3, 2), pramolyt_point(1, 1));
    check(draw() == 6, "pixels", "size");
    check(shows(display, "........" ".444...." ".444...." "........"), "drawn", "width, then height");
    blit(PRAMOLYT_CMD_SOLID, pramolyt_size(SIDE, 3), pramolyt_point(0, 0));
    check(draw() == 3 * WIDTH, "pixels", "widest");
    blit(PRAMOLYT_CMD_SOLID, pramolyt_size(SIDE, SIDE), pramolyt_point(WIDTH, 0));
    check(draw() == 0, "pixels", "right of the board");
    blit(PRAMOLYT_CMD_SOLID, pramolyt_size(0, SIDE), pramolyt_point(0, 0));
    check(draw() == 0, "pixels", "width 0");
    check(legal(PRAMOLYT_XY2, pramolyt_size(SIDE, SIDE)), "XY2", "largest");
    check(refused(PRAMOLYT_XY2, pramolyt_size(SIDE + 1, 0)), "size", "width past MAX_SIDE");
    check(refused(PRAMOLYT_XY2, pramolyt_size(0, SIDE + 1)), "size", "height past MAX_SIDE");
    check(refused(PRAMOLYT_XY2, (uint32_t)(SIDE + 1) << 16), "XY2", "width past MAX_SIDE");
    check(refused(PRAMOLYT_XY2, SIDE + 1), "XY2", "height past MAX_SIDE");
    check(refused(PRAMOLYT_XY2, pramolyt_size(0x10000, 0)), "size", "width past 16 bits");
    check(refused(PRAMOLYT_XY2, pramolyt_size(0, 0x10000)), "size", "height past 16 bits");
}

/* The four opcodes: a line of three pixels from XY0, then the same CMD but for the opcode. */
static void opcodes(void)
{
    static const struct {
        const char *name;
        unsigned opcode;
        uint32_t flags;
        unsigned visited;
        const char *rows;
    } rows[] = {
        {"NOOP", PRAMOLYT_NOOP, 0, 0, "555....." "........" "........" "........"},
        {"BITBLT", PRAMOLYT_BITBLT, PRAMOLYT_CMD_SOLID, 2, "555....." "........" "......5." "......5."},
        {"LINE", PRAMOLYT_LINE, PRAMOLYT_CMD_SOLID, 7, "555....." "55......" "..555..." ".....55."},
        {"PLINE", PRAMOLYT_PLINE, PRAMOLYT_CMD_SOLID, 5, "555....." "...55..." ".....5.." "......5."},
    };
    size_t i;
    for (i = 0; i < 4; i++) {
        unsigned code = rows[i].opcode == PRAMOLYT_NOOP ? 0 : PRAMOLYT_GX_COPY;
        begin();
        put(PRAMOLYT_FORE, 5);
        line(PRAMOLYT_LINE, PRAMOLYT_CMD_SOLID, pramolyt_point(0, 0), pramolyt_point(2, 0));
        check(draw() == 3, "pixels", "first line");
        put(PRAMOLYT_CMD, pramolyt_command(rows[i].opcode, code, rows[i].flags));
        put(PRAMOLYT_XY2, pramolyt_size(1, 2));
        put(PRAMOLYT_XY0, pramolyt_point(0, 1));
        put(PRAMOLYT_XY1, rows[i].opcode == PRAMOLYT_BITBLT ? pramolyt_point(6, 2) : pramolyt_point(6, 3));
        check(draw() == rows[i].visited, "pixels", rows[i].name);
        check(shows(display, rows[i].rows), "drawn", rows[i].name);
    }
}

static void other_opcodes_are_illegal(void)
{
    unsigned opcode;
    for (opcode = 0; opcode < 40; opcode++) {
        uint32_t word = pramolyt_command(opcode, PRAMOLYT_GX_COPY, PRAMOLYT_CMD_SOLID);
        int known = opcode == PRAMOLYT_BITBLT || opcode == PRAMOLYT_LINE || opcode == PRAMOLYT_PLINE;
        check(known ? legal(PRAMOLYT_CMD, word) : refused(PRAMOLYT_CMD, word), "opcode", "known or refused");
    }
    check(legal(PRAMOLYT_CMD, pramolyt_command(PRAMOLYT_NOOP, 0, 0)), "opcode", "NOOP");
    check(refused(PRAMOLYT_CMD, pramolyt_command(PRAMOLYT_BITBLT, 16, PRAMOLYT_CMD_SOLID)), "command", "raster code 16");
    check(refused(PRAMOLYT_CMD, pramolyt_command(PRAMOLYT_LINE, 3, 1u << 24 | PRAMOLYT_CMD_SOLID)), "command", "flag 24");
    check(refused(PRAMOLYT_CMD, pramolyt_command(PRAMOLYT_LINE, 3, 1u << 13 | PRAMOLYT_CMD_SOLID)), "command", "flag 13");
}

/* A board whose pictures have something to read: bits and pixels in virtual, 6666 in display. */
static void begin_with_pictures(void)
{
    static const uint8_t of_virtual[WIDTH + 4] = {0xB1, 0, 0, 0, 0, 0, 0, 0, 1, 2, 1, 4};
    static const uint8_t of_display[4] = {6, 6, 6, 6};
    begin();
    check(pramolyt_window_write(&board, PRAMOLYT_VIRTUAL, 0, of_virtual, sizeof of_virtual, virt, sizeof virt) == 0,
          "window write", "VIRTUAL");
    check(pramolyt_window_write(&board, PRAMOLYT_DISPLAY, WIDTH, of_display, sizeof of_display, display, sizeof display)
              == 0,
          "window write", "DISPLAY");
    put(PRAMOLYT_FORE, 5);
    put(PRAMOLYT_BACK, 3);
}

static void buffers(void)
{
    begin();
    check(pramolyt_window_write(&board, PRAMOLYT_DISPLAY, 0, NULL, 0, display, sizeof display) == PRAMOLYT_DONE,
          "window write", "DISPLAY");
    check(pramolyt_window_write(&board, PRAMOLYT_VIRTUAL + 1, 0, NULL, 0, virt, sizeof virt) == PRAMOLYT_WRONG_SIZE,
          "window write", "past VIRTUAL");
    check(PRAMOLYT_DISPLAY == 0 && PRAMOLYT_VIRTUAL == 1, "buffers", "numbers of CMD's source and destination");
}

/* A blit of four pixels, or of eight bits, from the pictures: what each flag makes of it. */
static void flags_of_blits(void)
{
    enum {
        STPL = PRAMOLYT_CMD_STPL,
        FROM_VIRTUAL = PRAMOLYT_CMD_SOURCE_VIRTUAL,
        SOLID = PRAMOLYT_CMD_SOLID
    };
    static const struct {
        const char *name;
        uint32_t flags, width;
        int from_y;
        const char *row;
    } rows[] = {
        {"none", 0, 4, 1, "6666...."},
        {"SOURCE_VIRTUAL", FROM_VIRTUAL, 4, 1, "1214...."},
        {"SOLID", SOLID, 4, 1, "5555...."},
        {"KEY", PRAMOLYT_CMD_KEY | FROM_VIRTUAL, 4, 1, ".2.4...."},
        {"STPL", STPL | FROM_VIRTUAL, 8, 0, "53553335"},
        {"TRNSP", STPL | PRAMOLYT_CMD_TRNSP | FROM_VIRTUAL, 8, 0, "5.55...5"},
    };
    size_t i;
    for (i = 0; i < sizeof rows / sizeof rows[0]; i++) {
        char expected[AREA + 1] = "........" "6666...." "........";
        strcat(expected, rows[i].row);
        begin_with_pictures();
        put(PRAMOLYT_KEY, 1);
        put(PRAMOLYT_XY0, pramolyt_point(0, rows[i].from_y));
        blit(rows[i].flags, pramolyt_size(rows[i].width, 1), pramolyt_point(0, 3));
        check(draw() == rows[i].width, "pixels", rows[i].name);
        check(shows(display, expected), "blit with", rows[i].name);
    }
}

static void flag_of_the_destination(void)
{
    begin();
    put(PRAMOLYT_FORE, 5);
    blit(PRAMOLYT_CMD_SOLID | PRAMOLYT_CMD_DESTINATION_VIRTUAL, pramolyt_size(2, 1), pramolyt_point(3, 1));
    check(draw() == 2, "pixels", "DESTINATION_VIRTUAL");
    check(shows(display, "........" "........" "........" "........"), "display stays", "DESTINATION_VIRTUAL");
    check(shows(virt, "........" "...55..." "........" "........"), "virtual is drawn", "DESTINATION_VIRTUAL");
}

static void flag_of_the_clip(void)
{
    begin();
    put(PRAMOLYT_FORE, 5);
    put(PRAMOLYT_CLPTL, pramolyt_point(1, 1));
    put(PRAMOLYT_CLPBR, pramolyt_point(3, 2));
    blit(PRAMOLYT_CMD_SOLID | PRAMOLYT_CMD_CLIP, pramolyt_size(WIDTH, HEIGHT), pramolyt_point(0, 0));
    check(draw() == 6, "pixels", "CLIP");
    check(shows(display, "........" ".555...." ".555...." "........"), "drawn", "CLIP, CLPTL and CLPBR");
}

/* A blit from a tile of virtual, in which column k of row j has 2 where k is 10 and 1 where j is 1, else 3. It is drawn at
 * (9, 7), on a board that has room for the tile. */
static void flag_of_the_tile(void)
{
    enum { SIDE = 18 };
    static uint8_t seen[SIDE * SIDE], tile[SIDE * SIDE];
    static const uint8_t expected[3][4] = {{3, 2, 3, 3}, {3, 2, 3, 3}, {1, 2, 1, 1}};
    const uint32_t flags = PRAMOLYT_CMD_APAT | PRAMOLYT_CMD_SOURCE_VIRTUAL;
    uint64_t place, steps;
    size_t j, k, wrong = 0;
    for (j = 0; j < 8; j++)
        for (k = 0; k < 16; k++)
            tile[(2 + j) * SIDE + 1 + k] = k == 10 ? 2 : j == 1 ? 1 : 3;
    begin();
    check(pramolyt_make(&board, SIDE, SIDE, ENTRIES) == PRAMOLYT_DONE, "make", "room for a tile");
    put(PRAMOLYT_XY0, pramolyt_point(1, 2));
    blit(flags, pramolyt_size(4, 3), pramolyt_point(9, 7));
    check(pramolyt_post(&board, &place, memory, sizeof memory, 0, count()) == PRAMOLYT_DONE, "post", "APAT");
    check(pramolyt_run(&board, &steps, 1000, memory, sizeof memory, seen, sizeof seen, tile, sizeof tile) == PRAMOLYT_DONE,
          "run", "APAT");
    check(steps == count() + 12, "pixels", "APAT");
    for (j = 0; j < SIDE; j++)
        for (k = 0; k < SIDE; k++) {
            int drawn = 7 <= j && j < 10 && 9 <= k && k < 13;
            wrong += seen[j * SIDE + k] != (drawn ? expected[j - 7][k - 9] : 0);
        }
    check(wrong == 0, "blit with", "APAT");
    check(refused(PRAMOLYT_CMD, pramolyt_command(PRAMOLYT_LINE, 3, PRAMOLYT_CMD_SOLID | PRAMOLYT_CMD_APAT)), "APAT", "LINE");
    check(refused(PRAMOLYT_CMD, pramolyt_command(PRAMOLYT_BITBLT, 3, PRAMOLYT_CMD_SOLID | PRAMOLYT_CMD_APAT)), "APAT", "SOLID");
}

/* Lines of the pattern 1 0: of three pixels, the second going on where the first ended. */
static void flags_of_lines(void)
{
    static const struct {
        const char *name;
        uint32_t flags;
        unsigned visited;
        const char *rows;
    } rows[] = {
        {"STPL", PRAMOLYT_CMD_STPL, 3, "535....." "353....." "........" "........"},
        {"TRNSP", PRAMOLYT_CMD_STPL | PRAMOLYT_CMD_TRNSP, 3, "5.5....." ".5......" "........" "........"},
        {"SOLID", PRAMOLYT_CMD_SOLID, 3, "555....." "555....." "........" "........"},
        {"NLST", PRAMOLYT_CMD_SOLID | PRAMOLYT_CMD_NLST, 2, "55......" "55......" "........" "........"},
        {"PRST", PRAMOLYT_CMD_STPL | PRAMOLYT_CMD_PRST, 3, "535....." "535....." "........" "........"},
    };
    size_t i;
    for (i = 0; i < sizeof rows / sizeof rows[0]; i++) {
        begin();
        put(PRAMOLYT_FORE, 5);
        put(PRAMOLYT_BACK, 3);
        put(PRAMOLYT_LPAT, 1);
        put(PRAMOLYT_PCTRL, pramolyt_pattern(2, 1, 0, 0));
        line(PRAMOLYT_LINE, rows[i].flags, pramolyt_point(0, 0), pramolyt_point(2, 0));
        line(PRAMOLYT_LINE, rows[i].flags, pramolyt_point(0, 1), pramolyt_point(2, 1));
        check(draw() == 2 * rows[i].visited, "pixels", rows[i].name);
        check(shows(display, rows[i].rows), "lines with", rows[i].name);
    }
}

/* The raster codes: what X says of s, 0x0F, and d, 0x33. */
static void raster_codes(void)
{
    enum { S = 0x0F, D = 0x33 };
#define CODE(NAME, formula) {#NAME, PRAMOLYT_GX_##NAME, (formula) & 0xFF}
    static const struct {
        const char *name;
        unsigned code;
        int byte;
    } rows[] = {
        CODE(CLEAR, 0),          CODE(AND, S & D),          CODE(AND_REVERSE, S & ~D),   CODE(COPY, S),
        CODE(AND_INVERTED, ~S & D), CODE(NOOP, D),          CODE(XOR, S ^ D),            CODE(OR, S | D),
        CODE(NOR, ~S & ~D),      CODE(EQUIV, ~S ^ D),       CODE(INVERT, ~D),            CODE(OR_REVERSE, S | ~D),
        CODE(COPY_INVERTED, ~S), CODE(OR_INVERTED, ~S | D), CODE(NAND, ~S | ~D),         CODE(SET, ~0),
    };
#undef CODE
    size_t i;
    check(sizeof rows / sizeof rows[0] == 16, "raster codes", "there are 16");
    for (i = 0; i < sizeof rows / sizeof rows[0]; i++) {
        begin();
        memset(display, D, sizeof display);
        put(PRAMOLYT_FORE, S);
        put(PRAMOLYT_CMD, pramolyt_command(PRAMOLYT_BITBLT, rows[i].code, PRAMOLYT_CMD_SOLID));
        put(PRAMOLYT_XY2, pramolyt_size(1, 1));
        put(PRAMOLYT_XY1, pramolyt_point(0, 0));
        check(draw() == 1 && display[0] == rows[i].byte && display[1] == D, "raster code", rows[i].name);
    }
}

/* The pixel, 0 to AREA - 1, that visit k of a blit of 2 by 2 draws, with its corner at (4, 2). */
static size_t visited(uint32_t direction, unsigned k)
{
    uint8_t before[AREA];
    size_t at = 0;
    begin();
    put(PRAMOLYT_FORE, 5);
    put(PRAMOLYT_XY3, direction);
    blit(PRAMOLYT_CMD_SOLID, pramolyt_size(2, 2), pramolyt_point(4, 2));
    need(post() == PRAMOLYT_DONE, "post", "direction");
    run(count() + k);
    memcpy(before, display, sizeof before);
    run(1);
    while (at < AREA && display[at] == before[at])
        at++;
    return at;
}

/* The corner comes first, then the pixel beside it, then the next row. */
static void directions(void)
{
    enum { CORNER = 2 * WIDTH + 4 };
    static const struct {
        const char *name;
        uint32_t direction;
        int across, down;
    } rows[] = {
        {"FROM_UPPER_LEFT", PRAMOLYT_FROM_UPPER_LEFT, 1, WIDTH},
        {"FROM_LOWER_LEFT", PRAMOLYT_FROM_LOWER_LEFT, 1, -WIDTH},
        {"FROM_UPPER_RIGHT", PRAMOLYT_FROM_UPPER_RIGHT, -1, WIDTH},
        {"FROM_LOWER_RIGHT", PRAMOLYT_FROM_LOWER_RIGHT, -1, -WIDTH},
    };
    size_t i;
    for (i = 0; i < 4; i++) {
        check(visited(rows[i].direction, 0) == CORNER, "the corner is first", rows[i].name);
        check((int)visited(rows[i].direction, 1) == CORNER + rows[i].across, "second", rows[i].name);
        check((int)visited(rows[i].direction, 2) == CORNER + rows[i].down, "third", rows[i].name);
    }
    check(refused(PRAMOLYT_XY3, PRAMOLYT_FROM_LOWER_RIGHT + 1), "directions", "there are four");
}

/* Whether a line of so many pixels leaves the pattern in this state. */
static int moved(uint32_t pctrl, unsigned pixels, unsigned place, unsigned repeat)
{
    begin();
    put(PRAMOLYT_PCTRL, pctrl);
    line(PRAMOLYT_LINE, PRAMOLYT_CMD_STPL | PRAMOLYT_CMD_NLST, pramolyt_point(0, 0), pramolyt_point((int)pixels, 0));
    return draw() == pixels && board.pattern_place == place && board.pattern_repeat == repeat;
}

static int no_pattern(unsigned length, unsigned scale, unsigned place, unsigned repeat)
{
    return refused(PRAMOLYT_PCTRL, pramolyt_pattern(length, scale, place, repeat));
}

/* Each length and scale, by where the state goes from its last repeat and its last place. */
static void patterns(void)
{
    unsigned length, scale;
    for (length = 1; length <= PRAMOLYT_MAX_PATTERN_LENGTH; length++)
        for (scale = 1; scale <= PRAMOLYT_MAX_PATTERN_SCALE; scale++) {
            uint32_t at_start = pramolyt_pattern(length, scale, 0, 0);
            uint32_t at_last = pramolyt_pattern(length, scale, length - 1, scale - 1);
            check(moved(at_last, 0, length - 1, scale - 1) && moved(at_last, 1, 0, 0)
                      && moved(at_start, length * scale - 1, length - 1, scale - 1),
                  "pattern", "length, scale, place and repeat");
            check(no_pattern(length, scale, length, 0) && no_pattern(length, scale, 0, scale), "pattern",
                  "place at the length, repeat at the scale");
        }
    check(moved(0, PRAMOLYT_MAX_PATTERN_LENGTH - 1, PRAMOLYT_MAX_PATTERN_LENGTH - 1, 0)
              && moved(0, PRAMOLYT_MAX_PATTERN_LENGTH, 0, 0),
          "the longest pattern", "MAX_PATTERN_LENGTH");
    check(moved(0xE0, PRAMOLYT_MAX_PATTERN_SCALE - 1, 0, PRAMOLYT_MAX_PATTERN_SCALE - 1)
              && moved(0xE0, PRAMOLYT_MAX_PATTERN_SCALE, 1, 0),
          "the widest pattern", "MAX_PATTERN_SCALE");
    check(no_pattern(PRAMOLYT_MAX_PATTERN_LENGTH + 1, 1, 0, 0), "pattern", "past MAX_PATTERN_LENGTH");
    check(no_pattern(PRAMOLYT_MAX_PATTERN_LENGTH, PRAMOLYT_MAX_PATTERN_SCALE + 1, 0, 0), "pattern", "past MAX_PATTERN_SCALE");
    check(no_pattern(0, 1, 0, 0) && no_pattern(1, 0, 0, 0), "pattern", "length or scale 0");
}

int main(void)
{
    registers_are_named();
    other_registers_are_illegal();
    words_end_where_they_should();
    limits_of_a_board();
    bytes_of_an_entry();
    entries_have_these_bytes();
    points();
    points_are_drawn();
    sizes();
    opcodes();
    other_opcodes_are_illegal();
    buffers();
    flags_of_blits();
    flag_of_the_destination();
    flag_of_the_clip();
    flag_of_the_tile();
    flags_of_lines();
    raster_codes();
    directions();
    patterns();
    printf("%u passed, %u failed\n", passed, failed);
    return failed != 0;
}
