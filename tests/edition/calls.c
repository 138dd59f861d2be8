/* Makes each call of the header once; the status is 0 where all are done. */
#include "pramolyt.h"

int main(void)
{
    static const uint8_t noop[5], pixel[1];
    pramolyt_board board;
    pramolyt_feed_record feed;
    uint8_t list[5] = {0}, display[1] = {0}, virt[1] = {0}, packed[14];
    uint8_t picture[PRAMOLYT_PICTURE_MAX(1, 1)];
    uint64_t place, steps, written;
    uint32_t answers = pramolyt_make(&board, 1, 1, 1);
    answers |= pramolyt_window_write(&board, 0, 0, pixel, 1, display, 1);
    answers |= pramolyt_export(&board, &written, 0, display, 1, picture, sizeof picture);
    answers |= pramolyt_import(&board, 1, picture, (size_t)written, virt, 1);
    answers |= pramolyt_store(&board, list, 5, 0, noop, 5);
    pramolyt_feed_start(&feed, 0);
    answers |= pramolyt_feed(&board, &feed, list, 5, noop, 5);
    answers |= pramolyt_post(&board, &place, list, 5, 0, 1);
    answers |= pramolyt_run(&board, &steps, 1, list, 5, display, 1, virt, 1);
    answers |= pramolyt_pack(&written, &place, list, 5, packed, 14);
    answers |= pramolyt_unpack(&written, &place, packed, 14, list, 5);
    return answers != PRAMOLYT_DONE;
}
