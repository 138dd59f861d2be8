/* Exports and imports of pictures against memcpy of the same pixels between the same places, on idle boards; the best of many
 * rounds taken in turn, pictures and buffers compared. The last two columns are the library's speed divided by memcpy's.
 * `pictures tiny` only compares; its last line is 'N passed, M failed'. Status 1 where a picture differs. */
#define _POSIX_C_SOURCE 199309L
#include <stdbool.h>
#include <stdint.h>
#include <stdio.h>
#include <string.h>
#include <time.h>

#include "pramolyt.h"
#include "pramolyt_list.h"

enum { MOST = 2048, AREA = MOST * MOST, ROUNDS = 200, TIMED = 1 << 20 };

static pramolyt_board board;

/* Pixels, picture and buffer begin at other places of a page: loads that lie just behind stores there are slow. */
enum { PAGE = 4096 };
static _Alignas(PAGE) uint8_t pixels[AREA];
static _Alignas(PAGE) uint8_t picture_room[PRAMOLYT_PICTURE_MAX(MOST, MOST) + PAGE], buffer_room[AREA + PAGE];
static uint8_t *const picture = picture_room + 1024, *const buffer = buffer_room + 2048;

/* The size that is timed: its pixels, and the bytes of its header. */
static size_t area, header;

static bool copy_out(void)
{
    memcpy(picture + header, pixels, area);
    return true;
}

static bool export(void)
{
    uint64_t written;
    return pramolyt_export(&board, &written, PRAMOLYT_DISPLAY, pixels, area, picture, header + area) == PRAMOLYT_DONE &&
           written == header + area;
}

static bool copy_in(void)
{
    memcpy(buffer, picture + header, area);
    return true;
}

static bool import(void)
{
    return pramolyt_import(&board, PRAMOLYT_VIRTUAL, picture, header + area, buffer, area) == PRAMOLYT_DONE;
}

typedef bool way(void);
enum { WAYS = 4 };
static way *const ways[WAYS] = {copy_out, export, copy_in, import};

static double seconds(void)
{
    struct timespec now;
    clock_gettime(CLOCK_MONOTONIC, &now);
    return (double)now.tv_sec + (double)now.tv_nsec * 1e-9;
}

static double time_of(way *go, size_t repeats)
{
    const double begun = seconds();
    for (size_t k = 0; k < repeats; k++) {
        go();
        __asm__ volatile("" : : "r"(picture), "r"(buffer) : "memory");
    }
    return (seconds() - begun) / (double)repeats;
}

/* Whether a board of this size is exported to the picture that its header and pixels are, and comes back. */
static bool same(size_t width, size_t height)
{
    char text[32];
    const int length = snprintf(text, sizeof text, "P5\n%zu %zu\n255\n", width, height);
    area = width * height;
    header = (size_t)length;
    memset(picture_room, 0, sizeof picture_room);
    memset(buffer_room, 0, sizeof buffer_room);
    return pramolyt_make(&board, width, height, 1) == PRAMOLYT_DONE && export() && memcmp(picture, text, header) == 0 &&
           memcmp(picture + header, pixels, area) == 0 && import() && memcmp(buffer, pixels, area) == 0;
}

/* The best time of each way for the size that was compared last. */
static void time_size(double best[WAYS])
{
    const size_t repeats = TIMED / area + 1;
    for (int round = 0; round < ROUNDS; round++) {
        for (int k = 0; k < WAYS; k++) {
            const double took = time_of(ways[k], repeats);
            best[k] = round == 0 || took < best[k] ? took : best[k];
        }
    }
}

int main(int argc, char **argv)
{
    static const size_t sizes[][2] = {{8, 4}, {75, 18}, {320, 200}, {640, 480}, {1024, 768}, {MOST, MOST}};
    const bool tiny = argc == 2 && strcmp(argv[1], "tiny") == 0;
    const size_t rows = sizeof sizes / sizeof sizes[0];
    size_t passed = 0;
    for (size_t k = 0; k < AREA; k++)
        pixels[k] = (uint8_t)(k * 7 + k / 251);
    if (!tiny)
        printf("board         export: memcpy, library, us   import: memcpy, library, us   export   import\n");
    for (size_t k = 0; k < rows; k++) {
        double best[WAYS] = {0};
        const bool is_same = same(sizes[k][0], sizes[k][1]);
        passed += is_same;
        if (!is_same) {
            printf("FAILED: %zu x %zu differs\n", sizes[k][0], sizes[k][1]);
        } else if (!tiny) {
            time_size(best);
            printf("%4zu x %4zu   %14.3f %14.3f   %14.3f %14.3f   %6.2f   %6.2f\n", sizes[k][0], sizes[k][1], best[0] * 1e6,
                   best[1] * 1e6, best[2] * 1e6, best[3] * 1e6, best[0] / best[1], best[2] / best[3]);
        }
    }
    if (tiny)
        printf("%zu passed, %zu failed\n", passed, rows - passed);
    return passed != rows;
}
