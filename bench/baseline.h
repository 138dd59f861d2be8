/* A plain C engine for the same display lists, written for speed: what the library is measured against. */
#ifndef BASELINE_H
#define BASELINE_H

#include <stdbool.h>
#include <stddef.h>
#include <stdint.h>

struct baseline {
    int32_t width, height;
    uint32_t registers[32]; /* by number; 13 to 31 are not used */
    uint32_t last;          /* the last point, as a word of XY1 */
    uint32_t phase;         /* pattern state: place * scale + repeat */
    uint32_t period;        /* length * scale of the pattern in dots */
    bool stale;             /* dots no longer follow LPAT and PCTRL */
    bool visits_hidden;     /* counts the hidden pixels of blits as steps, as libraries before 0.7.0 do */
    bool lacks_tiles;       /* refuses blits from a tile, as libraries before 0.9.0 do */
    uint8_t dots[256];      /* the pattern bit at each phase */
    _Alignas(64) uint8_t saved[2048]; /* the source of a row that is copied onto itself */
};

/* A fresh engine for buffers of width * height bytes. */
void baseline_make(struct baseline *engine, int32_t width, int32_t height);

/* Before each run, its list is posted; this engine has nothing to do there. */
void baseline_post(struct baseline *engine, const uint8_t *list, size_t entries);

/* Runs a list of legal entries to its end and returns its steps: entries fetched and pixels visited, of a blit those that
 * buffer and clip let through. Entries are not checked. The buffers do not overlap. */
uint64_t baseline_run(struct baseline *engine, const uint8_t *list, size_t entries, uint8_t *display, uint8_t *virt);

#endif
