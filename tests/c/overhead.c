/* Nanoseconds a call: a run of budget 1,000 on an idle 2,048 by 2,048 board, and a post of no entries. Best of 20 rounds. */
#define _POSIX_C_SOURCE 199309L
#include <stdio.h>
#include <time.h>

#include "pramolyt.h"

enum { SIDE = 2048, ENTRIES = 4096, CALLS = 200000, ROUNDS = 20 };

static uint8_t list[5 * ENTRIES], display[SIDE * SIDE], virt[SIDE * SIDE];
static pramolyt_board board;

static uint32_t run(void)
{
    uint64_t steps;
    return pramolyt_run(&board, &steps, 1000, list, sizeof list, display, sizeof display, virt, sizeof virt);
}

static uint32_t post(void)
{
    uint64_t place;
    return pramolyt_post(&board, &place, list, sizeof list, 0, 0);
}

static double now(void)
{
    struct timespec t;
    clock_gettime(CLOCK_MONOTONIC, &t);
    return (double)t.tv_sec * 1e9 + (double)t.tv_nsec;
}

static int measure(const char *name, uint32_t (*call)(void), uint32_t answer)
{
    double best = 1e30;
    int round, k, wrong = 0;
    for (round = 0; round < ROUNDS; round++) {
        const double began = now();
        for (k = 0; k < CALLS; k++)
            wrong += call() != answer;
        const double took = (now() - began) / CALLS;
        if (took < best)
            best = took;
    }
    printf("%s: %.1f ns a call\n", name, best);
    return wrong;
}

int main(void)
{
    int wrong = pramolyt_make(&board, SIDE, SIDE, ENTRIES) != PRAMOLYT_DONE;
    wrong += measure("run with budget 1000, idle board", run, PRAMOLYT_DONE);
    wrong += measure("post of no entries, refused with 3", post, PRAMOLYT_NO_ENTRIES);
    return wrong != 0;
}
