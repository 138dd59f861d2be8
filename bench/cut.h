/* A run with a budget in plain C, over the library's own record. */
#ifndef CUT_H
#define CUT_H

#include <pramolyt.h>

uint32_t cut_run(pramolyt_board *board, uint64_t *steps, uint64_t budget, const uint8_t *list, size_t list_len, uint8_t *display,
                 size_t display_len, uint8_t *virt, size_t virt_len);

#endif
