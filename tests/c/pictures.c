/* What the header says of pramolyt_export and pramolyt_import: the bytes of a picture, which pictures are read, each refusal on
 * its ground, their order, and what they leave. The last line is 'N passed, M failed'. */
#include <stdio.h>
#include <string.h>

#include "pramolyt.h"

enum { WIDTH = 16, HEIGHT = 2, AREA = WIDTH * HEIGHT, LIST = 5, ROOM = 4096, OLD = 0xA5 };

/* what an export of the board has before its pixels */
static const char header[] = "P5\n16 2\n255\n";
enum { HEADER = sizeof header - 1, WHOLE = HEADER + AREA };

static pramolyt_board board;
static uint8_t list[LIST], buffer[AREA + 1]; /* a byte behind the buffer that no call is lent */
static uint8_t pixels[AREA];                 /* no white space, digit or # among them */
static uint8_t room[ROOM];
static unsigned passed, failed;

static void check(int fact, const char *call, const char *about)
{
    if (fact) {
        passed++;
    } else {
        failed++;
        printf("FAILED: %s: %s\n", call, about);
    }
}

/* a fresh board and old bytes in its buffer */
static void fresh(void)
{
    size_t k;
    check(pramolyt_make(&board, WIDTH, HEIGHT, 1) == PRAMOLYT_DONE, "make", "fresh");
    memset(buffer, OLD, sizeof buffer);
    memset(list, 0, LIST);
    for (k = 0; k < AREA; k++)
        pixels[k] = (uint8_t)(0x80 + k);
}

/* the same with a list of one entry in a slot */
static void busy(void)
{
    uint64_t place;
    fresh();
    check(pramolyt_post(&board, &place, list, LIST, 0, 1) == PRAMOLYT_DONE, "post", "busy");
}

/* whether every byte is this one */
static int all(const uint8_t *bytes, size_t length, int byte)
{
    size_t k;
    for (k = 0; k < length; k++)
        if (bytes[k] != byte)
            return 0;
    return 1;
}

/* an export that is done: these bytes, and nothing else is written */
static void exported(size_t number, size_t output_len, const char *about)
{
    const pramolyt_board before = board;
    uint64_t written = 77;
    memset(room, OLD, ROOM);
    check(pramolyt_export(&board, &written, number, pixels, AREA, room, output_len) == PRAMOLYT_DONE, "export", about);
    check(written == WHOLE, about, "bytes written");
    check(memcmp(room, header, HEADER) == 0 && memcmp(room + HEADER, pixels, AREA) == 0, about, "the picture");
    check(all(room + WHOLE, ROOM - WHOLE, OLD), about, "the bytes past it");
    check(memcmp(&board, &before, sizeof board) == 0, about, "the record stays");
}

/* an export that is refused, and all stays */
static void not_exported(size_t number, size_t buffer_len, size_t output_len, uint32_t answer, const char *about)
{
    const pramolyt_board before = board;
    uint64_t written = 77;
    memset(room, OLD, ROOM);
    check(pramolyt_export(&board, &written, number, buffer, buffer_len, room, output_len) == answer, "export", about);
    check(written == 0 && all(room, ROOM, OLD), about, "nothing is written");
    check(memcmp(&board, &before, sizeof board) == 0, about, "the record stays");
}

static void exports(void)
{
    size_t k;
    fresh();
    for (k = 0; k < WHOLE; k++)
        not_exported(k % 2, AREA, k, PRAMOLYT_PAST_THE_END, "an output that is too short");
    for (k = WHOLE; k < WHOLE + 4; k++)
        exported(k % 2, k, "an output that has room");
    exported(0, ROOM, "an output with much room");
    busy();
    exported(0, WHOLE, "while a slot is taken");
    not_exported(1, AREA, WHOLE - 1, PRAMOLYT_PAST_THE_END, "too short while a slot is taken");
}

static void export_grounds(void)
{
    fresh();
    not_exported(2, AREA, ROOM, PRAMOLYT_WRONG_SIZE, "buffer 2");
    not_exported(SIZE_MAX, AREA, ROOM, PRAMOLYT_WRONG_SIZE, "the greatest buffer number");
    not_exported(0, AREA - 1, ROOM, PRAMOLYT_WRONG_SIZE, "a pixel too few");
    not_exported(1, AREA + 1, ROOM, PRAMOLYT_WRONG_SIZE, "a pixel too many");
    not_exported(0, 0, ROOM, PRAMOLYT_WRONG_SIZE, "no pixels");
    not_exported(2, AREA, 0, PRAMOLYT_WRONG_SIZE, "2 before 4, by the number");
    not_exported(0, AREA - 1, 0, PRAMOLYT_WRONG_SIZE, "2 before 4, by the buffer");
    board.under_way = 2;
    not_exported(0, AREA, ROOM, PRAMOLYT_MALFORMED, "a flag of 2");
    not_exported(2, AREA, 0, PRAMOLYT_MALFORMED, "1 before 2 and 4");
}

/* a picture with this header into the room; its bytes */
static size_t picture(const char *head, size_t head_len)
{
    memcpy(room, head, head_len);
    memcpy(room + head_len, pixels, AREA);
    return head_len + AREA;
}

/* an import that is done: the buffer has these pixels */
static void imported(size_t length, const uint8_t *expected, const char *about)
{
    const pramolyt_board before = board;
    memset(buffer, OLD, sizeof buffer);
    check(pramolyt_import(&board, 1, room, length, buffer, AREA) == PRAMOLYT_DONE, "import", about);
    check(memcmp(buffer, expected, AREA) == 0 && buffer[AREA] == OLD, about, "the pixels");
    check(memcmp(&board, &before, sizeof board) == 0, about, "the record stays");
}

/* an import that is refused, and all stays */
static void refused(size_t number, size_t length, size_t buffer_len, uint32_t answer, const char *about)
{
    const pramolyt_board before = board;
    memset(buffer, OLD, sizeof buffer);
    check(pramolyt_import(&board, number, room, length, buffer, buffer_len) == answer, "import", about);
    check(all(buffer, sizeof buffer, OLD), about, "the buffer stays");
    check(memcmp(&board, &before, sizeof board) == 0, about, "the record stays");
}

static void not_a_picture(size_t length, const char *about)
{
    refused(0, length, AREA, PRAMOLYT_NOT_A_PICTURE, about);
}

/* headers that are read, and headers that are not */
static void headers(void)
{
    static const char *const good[] = {
        "P5\n16 2\n255\n",
        "P5 16\t2\r255 ",
        "P5\r\n16\r\n2\r\n255\t",
        "P5 \t\r\n 16  2\n\n255\r",
        "P5\n0016 02\n0255\n",
        "P5\n00000000000000000000000000000000016 2\n000000000000000000000255\n",
        "P5#a quay plan\n\n16 2\n255\n",
        "P5\n#a\n#b\r# c #d\n16 2\n255\n",
        "P5\n1#x\n6 2\n255\n",
        "P5\n#x\n16#y\r #z\n2\n2#\n5#\r5\n",
        "P5\n16 2\n255#\n\n",
        "P5\n16 2\n255#a\r\t",
        "P5#\n#\r\n16#12\n 2#34\r\n255#56\n\r",
    };
    static const char *const bad[] = {
        "",
        "P",
        "P5",
        "P4\n16 2\n255\n",
        "P2\n16 2\n255\n",
        "p5\n16 2\n255\n",
        "\nP5\n16 2\n255\n",
        "#a\nP5\n16 2\n255\n",
        "P#a\n5\n16 2\n255\n",
        "P516 2\n255\n",
        "P5#c\n16 2\n255\n",
        "P5\n16#c\n2\n255\n",
        "P5\n16 2#c\n255\n",
        "P5\n16 2\n255",
        "P5\n16 2\n255#c\n",
        "P5\n16 2\n255#c\r",
        "P5\n16 2\n255#c",
        "P5#c 16 2 255 ",
        "P5\n16 2\n255\n\n",
        "P5\n16 2\n255\r\n",
        "P5\v16 2\n255\n",
        "P5\n16\f2\n255\n",
        "P5\n16 2\n255\v",
        "P5\n16 2\n255\f",
        "P5\n15 2\n255\n",
        "P5\n2 16\n255\n",
        "P5\n32 1\n255\n",
        "P5\n160 2\n255\n",
        "P5\n16 20\n255\n",
        "P5\n16 2\n254\n",
        "P5\n16 2\n65535\n",
        "P5\n16 2\n2550\n",
        "P5\n16\n255\n",
        "P5\n16 2\n",
        "P5\n16 2 2\n255\n",
        "P5\n+16 2\n255\n",
        "P5\n-16 2\n255\n",
        "P5\n16. 2\n255\n",
        "P5\n0x10 2\n255\n",
        "P5\n16,2\n255\n",
        "P5\n272 2\n255\n",
        "P5\n65552 2\n255\n",
        "P5\n4294967312 2\n255\n",
        "P5\n16 4294967298\n255\n",
        "P5\n16 2\n4294967551\n",
        "P5\n18446744073709551632 2\n255\n",
        "P5\n16 2\n18446744073709551871\n",
        "P5\n340282366920938463463374607431768211472 2\n255\n",
        "P5\n16 2\n# no end",
    };
    size_t k;
    for (k = 0; k < sizeof good / sizeof good[0]; k++)
        imported(picture(good[k], strlen(good[k])), pixels, good[k]);
    for (k = 0; k < sizeof bad / sizeof bad[0]; k++)
        not_a_picture(picture(bad[k], strlen(bad[k])), bad[k]);
    memcpy(room, "P5\n16\0 2\n255\n", 13);
    memcpy(room + 13, pixels, AREA);
    not_a_picture(13 + AREA, "a NUL in the header");
}

/* a number with more leading zeros than a reader would count */
static void many_zeros(void)
{
    static char head[3000];
    size_t length;
    memset(head, '0', sizeof head);
    memcpy(head, "P5\n", 3);
    length = sizeof head - 9;
    memcpy(head + length, "16 2\n255\n", 9);
    imported(picture(head, sizeof head), pixels, "thousands of zeros");
    head[3] = '1';
    not_a_picture(picture(head, sizeof head), "a number of thousands of digits");
}

/* every byte of the header changed to every other: read where white space is other white space, and nowhere else */
static void damaged_headers(void)
{
    static const char white[] = " \t\n\r";
    size_t at, wrong = 0;
    int byte;
    for (at = 0; at < HEADER; at++) {
        for (byte = 0; byte < 256; byte++) {
            const int is_white = byte != 0 && strchr(white, byte) != NULL;
            const int expected = byte == (int)(uint8_t)header[at] || (is_white && strchr(white, header[at]) != NULL);
            const size_t length = picture(header, HEADER);
            room[at] = (uint8_t)byte;
            memset(buffer, OLD, sizeof buffer);
            wrong += pramolyt_import(&board, 0, room, length, buffer, AREA) !=
                     (uint32_t)(expected ? PRAMOLYT_DONE : PRAMOLYT_NOT_A_PICTURE);
            wrong += expected ? memcmp(buffer, pixels, AREA) != 0 : !all(buffer, AREA, OLD);
        }
    }
    check(wrong == 0, "import", "headers with a byte changed");
}

/* the raster: too short, too long, and pixels that would mean something in a header */
static void rasters(void)
{
    static const uint8_t any[] = {'#', '\n', ' ', '\r', '\t', '0', '5', 'P', 0, 255};
    uint8_t expected[AREA];
    size_t k, length;
    for (k = 0; k < WHOLE; k++) {
        length = picture(header, HEADER) - WHOLE + k;
        not_a_picture(length, "a picture cut short");
    }
    for (k = 1; k < 40; k++) {
        length = picture(header, HEADER);
        room[length] = '\n';
        not_a_picture(length + k, "bytes after the picture");
    }
    length = picture(header, HEADER);
    memcpy(room + length, room, length);
    not_a_picture(2 * length, "two pictures");
    for (k = 0; k < sizeof any; k++) {
        memset(expected, any[k], AREA);
        length = picture(header, HEADER);
        memset(room + HEADER, any[k], AREA);
        imported(length, expected, "a raster of one byte");
    }
    /* a second newline after the 255 is the first pixel */
    length = picture("P5\n16 2\n255\n\n", HEADER + 1) - 1;
    expected[0] = '\n';
    memcpy(expected + 1, pixels, AREA - 1);
    imported(length, expected, "a newline as the first pixel");
    length = picture("P5\n16 2\n255\n#", HEADER + 1) - 1;
    expected[0] = '#';
    imported(length, expected, "a # as the first pixel");
    check(pramolyt_import(&board, 0, NULL, 0, buffer, AREA) == PRAMOLYT_NOT_A_PICTURE, "import", "NULL");
}

/* the order of import's grounds */
static void import_grounds(void)
{
    uint64_t steps;
    uint8_t virt[AREA];
    size_t length;
    fresh();
    length = picture(header, HEADER);
    refused(2, length, AREA, PRAMOLYT_WRONG_SIZE, "buffer 2");
    refused(SIZE_MAX, length, AREA, PRAMOLYT_WRONG_SIZE, "the greatest buffer number");
    refused(0, length, AREA - 1, PRAMOLYT_WRONG_SIZE, "a pixel too few");
    refused(1, length, AREA + 1, PRAMOLYT_WRONG_SIZE, "a pixel too many");
    refused(2, length - 1, AREA, PRAMOLYT_WRONG_SIZE, "2 before 11, by the number");
    refused(0, 0, AREA - 1, PRAMOLYT_WRONG_SIZE, "2 before 11, by the buffer");
    busy();
    refused(0, length, AREA, PRAMOLYT_BUSY, "while a slot is taken");
    refused(1, length - 1, AREA, PRAMOLYT_BUSY, "7 before 11");
    refused(0, 0, AREA, PRAMOLYT_BUSY, "7 before 11, no bytes");
    refused(2, length, AREA, PRAMOLYT_WRONG_SIZE, "2 before 7, by the number");
    refused(0, length, AREA + 1, PRAMOLYT_WRONG_SIZE, "2 before 7, by the buffer");
    check(pramolyt_run(&board, &steps, 9, list, LIST, buffer, AREA, virt, AREA) == PRAMOLYT_DONE, "run", "to the end");
    imported(length, pixels, "once the list has ended");
    board.width = 0;
    refused(0, length, AREA, PRAMOLYT_MALFORMED, "malformed");
    refused(2, 0, 0, PRAMOLYT_MALFORMED, "1 before 2 and 11");
}

/* the paper's size, and the least and the greatest board: the bytes of the picture, and that it comes back */
static void sizes(void)
{
    static const struct {
        size_t width, height;
        const char *head;
    } boards[] = {
        {8, 4, "P5\n8 4\n255\n"},       {1, 1, "P5\n1 1\n255\n"},          {9, 10, "P5\n9 10\n255\n"},
        {99, 100, "P5\n99 100\n255\n"}, {999, 1000, "P5\n999 1000\n255\n"}, {2048, 2048, "P5\n2048 2048\n255\n"},
    };
    static uint8_t from[2048 * 2048], back[2048 * 2048], output[PRAMOLYT_PICTURE_MAX(2048, 2048)];
    size_t k, at;
    for (at = 0; at < sizeof from; at++)
        from[at] = (uint8_t)(at * 7 + at / 256);
    for (k = 0; k < sizeof boards / sizeof boards[0]; k++) {
        const size_t area = boards[k].width * boards[k].height, head = strlen(boards[k].head);
        const char *about = boards[k].head;
        uint64_t written = 77;
        check(pramolyt_make(&board, boards[k].width, boards[k].height, 1) == PRAMOLYT_DONE, "make", about);
        check(pramolyt_export(&board, &written, 0, from, area, output, head + area - 1) == PRAMOLYT_PAST_THE_END, about,
              "a byte too short");
        check(written == 0, about, "no bytes written");
        check(pramolyt_export(&board, &written, 0, from, area, output, head + area) == PRAMOLYT_DONE, about, "an exact fit");
        check(written == head + area && written <= PRAMOLYT_PICTURE_MAX(boards[k].width, boards[k].height), about, "bytes");
        check(memcmp(output, about, head) == 0 && memcmp(output + head, from, area) == 0, about, "the picture");
        memset(back, OLD, sizeof back);
        check(pramolyt_import(&board, 1, output, (size_t)written, back, area) == PRAMOLYT_DONE, about, "import");
        check(memcmp(back, from, area) == 0 && all(back + area, sizeof back - area, OLD), about, "restored");
    }
    check(PRAMOLYT_PICTURE_MAX(8, 4) == 49 && PRAMOLYT_PICTURE_MAX(1 + 1, 1 ? 3 : 0) == 23, "sizes", "arguments of operators");
}

int main(void)
{
    exports();
    export_grounds();
    fresh();
    headers();
    many_zeros();
    damaged_headers();
    rasters();
    import_grounds();
    sizes();
    printf("%u passed, %u failed\n", passed, failed);
    return failed != 0;
}
