/* Another build of the library in the place of the plain C engine, so that two libraries are timed in turn in one program
 * (bench/compare). It is compiled with that build's header, and its names are then changed together with the build's. */
#include "baseline.h"

#include <pramolyt.h>
#include <stdio.h>
#include <stdlib.h>

enum { ENTRIES = 4096 };

static pramolyt_board board;

static void expect_done(uint32_t answer)
{
    if (answer != PRAMOLYT_DONE) {
        fprintf(stderr, "the old library answered %u\n", (unsigned)answer);
        exit(2);
    }
}

void baseline_make(struct baseline *engine, int32_t width, int32_t height)
{
    engine->width = width;
    engine->height = height;
#if PRAMOLYT_VERSION_MAJOR == 0 && PRAMOLYT_VERSION_MINOR < 7
    engine->visits_hidden = true;
#endif
#if PRAMOLYT_VERSION_MAJOR == 0 && PRAMOLYT_VERSION_MINOR < 9
    engine->lacks_tiles = true;
#endif
    expect_done(pramolyt_make(&board, (size_t)width, (size_t)height, ENTRIES));
}

void baseline_post(struct baseline *engine, const uint8_t *list, size_t entries)
{
    uint64_t place;
    (void)engine;
    expect_done(pramolyt_post(&board, &place, list, 5 * ENTRIES, 0, entries));
}

uint64_t baseline_run(struct baseline *engine, const uint8_t *list, size_t entries, uint8_t *display, uint8_t *virt)
{
    const size_t pixels = (size_t)engine->width * (size_t)engine->height;
    uint64_t steps;
    (void)entries;
    expect_done(pramolyt_run(&board, &steps, UINT64_MAX, list, 5 * ENTRIES, display, pixels, virt, pixels));
    engine->phase = board.pattern_place * ((board.pctrl >> 5 & 7) + 1) + board.pattern_repeat;
    engine->last = board.last;
    return steps;
}
