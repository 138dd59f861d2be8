/* picture export WIDTH HEIGHT    pixels on standard input, the picture of them on standard output
 * picture import WIDTH HEIGHT    a picture on standard input, its pixels on standard output
 *
 * The status is what the library answers; 99 where the program is not used so. */
#include <stdio.h>
#include <stdlib.h>
#include <string.h>

#include "pramolyt.h"
#include "pramolyt_list.h"

enum { MISUSED = 99 };

/* the longest input: larger than any picture, so that one with bytes after it is seen */
static uint8_t input[2 * PRAMOLYT_PICTURE_MAX(2048, 2048)], output[PRAMOLYT_PICTURE_MAX(2048, 2048)];

int main(int argc, char **argv)
{
    pramolyt_board board;
    uint64_t written = 0;
    if (argc != 4)
        return MISUSED;
    const size_t width = strtoul(argv[2], NULL, 10), height = strtoul(argv[3], NULL, 10), area = width * height;
    if (pramolyt_make(&board, width, height, 1) != PRAMOLYT_DONE)
        return MISUSED;
    const size_t length = fread(input, 1, sizeof input, stdin);
    uint32_t answer = MISUSED;
    if (strcmp(argv[1], "export") == 0) {
        answer = pramolyt_export(&board, &written, PRAMOLYT_DISPLAY, input, length, output, sizeof output);
    } else if (strcmp(argv[1], "import") == 0) {
        answer = pramolyt_import(&board, PRAMOLYT_DISPLAY, input, length, output, area);
        written = answer == PRAMOLYT_DONE ? area : 0;
    }
    return fwrite(output, 1, (size_t)written, stdout) == written ? (int)answer : MISUSED;
}
