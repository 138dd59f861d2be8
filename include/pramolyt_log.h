/* A log of the calls, for C and C++. Include it after pramolyt.h: each call of that source file is then also written to
 * pramolyt_log, where that is not NULL, with its bytes and what it answered. `pramolyt replay` makes the calls again.
 *
 *     #include <pramolyt.h>
 *     #include <pramolyt_log.h>
 *     ..
 *     pramolyt_log = fopen("board.log", "w");
 *
 * A line is flushed before the call returns, so the log of a controller that stops has all its calls. What a log says is in
 * docs/LOG.md. Needs C99's <stdio.h>.
 */
#ifndef PRAMOLYT_LOG_H
#define PRAMOLYT_LOG_H

#include <inttypes.h>
#include <stdio.h>

#include "pramolyt.h"

static FILE *pramolyt_log; /* each source file has its own */

/* So many bytes stand together, and a line has so many: whole entries, and else 16. */
enum { PRAMOLYT_LOG_ENTRIES = 5, PRAMOLYT_LOG_PIXELS = 16, PRAMOLYT_LOG_LINE = 60 };

static inline void pramolyt_log_bytes(const uint8_t *bytes, size_t length, size_t group)
{
    size_t line = PRAMOLYT_LOG_LINE / group * group;
    fputs(length == 0 ? " -" : "", pramolyt_log);
    for (size_t k = 0; k < length; k++) {
        if (k % group == 0)
            fputs(k > 0 && k % line == 0 ? "\n  " : " ", pramolyt_log);
        fprintf(pramolyt_log, "%02X", bytes[k]);
    }
}

static inline void pramolyt_log_feed(const pramolyt_feed_record *feed)
{
    fprintf(pramolyt_log, "feed %" PRIu64 " %" PRIu32, feed->next, feed->count);
    pramolyt_log_bytes(feed->held, sizeof feed->held, sizeof feed->held);
}

/* Ends a line, and answers what the call answered. */
static inline uint32_t pramolyt_log_end(uint32_t answer)
{
    fputc('\n', pramolyt_log);
    fflush(pramolyt_log);
    return answer;
}

/* The bytes that a call was given and what it answered, as the end of its line. */
static inline uint32_t pramolyt_log_given(const uint8_t *bytes, size_t length, size_t group, uint32_t answer)
{
    pramolyt_log_bytes(bytes, length, group);
    fprintf(pramolyt_log, " = %" PRIu32, answer);
    return pramolyt_log_end(answer);
}

/* To be called where the program itself writes over list memory from entry `first` on, which no call of the library does. */
static inline void pramolyt_log_overwrite(size_t first, const uint8_t *bytes, size_t bytes_len)
{
    if (pramolyt_log == NULL)
        return;
    fprintf(pramolyt_log, "overwrite %zu", first);
    pramolyt_log_bytes(bytes, bytes_len, PRAMOLYT_LOG_ENTRIES);
    pramolyt_log_end(PRAMOLYT_DONE);
}

static inline uint32_t pramolyt_logged_make(pramolyt_board *board, size_t width, size_t height, size_t entries)
{
    uint32_t answer = pramolyt_make(board, width, height, entries);
    if (pramolyt_log == NULL)
        return answer;
    fprintf(pramolyt_log, "make %zu %zu %zu = %" PRIu32, width, height, entries, answer);
    return pramolyt_log_end(answer);
}

static inline uint32_t pramolyt_logged_post(pramolyt_board *board, uint64_t *place, const uint8_t *list, size_t list_len,
                                            size_t start, size_t count)
{
    uint32_t answer = pramolyt_post(board, place, list, list_len, start, count);
    if (pramolyt_log == NULL)
        return answer;
    fprintf(pramolyt_log, "post %zu %zu = %" PRIu32, start, count, answer);
    if (answer == PRAMOLYT_ILLEGAL_ENTRY)
        fprintf(pramolyt_log, " place %" PRIu64, *place);
    return pramolyt_log_end(answer);
}

static inline uint32_t pramolyt_logged_store(pramolyt_board *board, uint8_t *list, size_t list_len, size_t first,
                                             const uint8_t *bytes, size_t bytes_len)
{
    uint32_t answer = pramolyt_store(board, list, list_len, first, bytes, bytes_len);
    if (pramolyt_log == NULL)
        return answer;
    fprintf(pramolyt_log, "store %zu", first);
    return pramolyt_log_given(bytes, bytes_len, PRAMOLYT_LOG_ENTRIES, answer);
}

static inline uint32_t pramolyt_logged_feed(pramolyt_board *board, pramolyt_feed_record *feed, uint8_t *list, size_t list_len,
                                            const uint8_t *piece, size_t piece_len)
{
    pramolyt_feed_record given = *feed;
    uint32_t answer = pramolyt_feed(board, feed, list, list_len, piece, piece_len);
    if (pramolyt_log == NULL)
        return answer;
    pramolyt_log_feed(&given);
    pramolyt_log_bytes(piece, piece_len, PRAMOLYT_LOG_ENTRIES);
    fprintf(pramolyt_log, " = %" PRIu32, answer);
    if (answer == PRAMOLYT_DONE) {
        fputc(' ', pramolyt_log);
        pramolyt_log_feed(feed);
    }
    return pramolyt_log_end(answer);
}

static inline uint32_t pramolyt_logged_window_write(pramolyt_board *board, size_t number, size_t offset, const uint8_t *bytes,
                                                    size_t bytes_len, uint8_t *buffer, size_t buffer_len)
{
    uint32_t answer = pramolyt_window_write(board, number, offset, bytes, bytes_len, buffer, buffer_len);
    if (pramolyt_log == NULL)
        return answer;
    fprintf(pramolyt_log, "write %zu %zu", number, offset);
    return pramolyt_log_given(bytes, bytes_len, PRAMOLYT_LOG_PIXELS, answer);
}

static inline uint32_t pramolyt_logged_export(pramolyt_board *board, uint64_t *written, size_t number, const uint8_t *buffer,
                                              size_t buffer_len, uint8_t *output, size_t output_len)
{
    uint32_t answer = pramolyt_export(board, written, number, buffer, buffer_len, output, output_len);
    if (pramolyt_log == NULL)
        return answer;
    fprintf(pramolyt_log, "export %zu %zu = %" PRIu32, number, output_len, answer);
    if (answer == PRAMOLYT_DONE) {
        fputs(" picture", pramolyt_log);
        pramolyt_log_bytes(output, (size_t)*written, PRAMOLYT_LOG_PIXELS);
    }
    return pramolyt_log_end(answer);
}

static inline uint32_t pramolyt_logged_import(pramolyt_board *board, size_t number, const uint8_t *picture, size_t picture_len,
                                              uint8_t *buffer, size_t buffer_len)
{
    uint32_t answer = pramolyt_import(board, number, picture, picture_len, buffer, buffer_len);
    if (pramolyt_log == NULL)
        return answer;
    fprintf(pramolyt_log, "import %zu", number);
    return pramolyt_log_given(picture, picture_len, PRAMOLYT_LOG_PIXELS, answer);
}

static inline uint32_t pramolyt_logged_run(pramolyt_board *board, uint64_t *steps, uint64_t budget, const uint8_t *list,
                                           size_t list_len, uint8_t *display, size_t display_len, uint8_t *virt,
                                           size_t virt_len)
{
    uint32_t answer = pramolyt_run(board, steps, budget, list, list_len, display, display_len, virt, virt_len);
    if (pramolyt_log == NULL)
        return answer;
    fprintf(pramolyt_log, "run %" PRIu64 " = %" PRIu32, budget, answer);
    if (answer == PRAMOLYT_DONE || answer == PRAMOLYT_ILLEGAL_FETCH)
        fprintf(pramolyt_log, " steps %" PRIu64, *steps);
    return pramolyt_log_end(answer);
}

#undef pramolyt_make
#undef pramolyt_post
#undef pramolyt_store
#undef pramolyt_window_write
#undef pramolyt_export
#undef pramolyt_import
#undef pramolyt_run
#define pramolyt_make pramolyt_logged_make
#define pramolyt_post pramolyt_logged_post
#define pramolyt_store pramolyt_logged_store
#define pramolyt_feed pramolyt_logged_feed
#define pramolyt_window_write pramolyt_logged_window_write
#define pramolyt_export pramolyt_logged_export
#define pramolyt_import pramolyt_logged_import
#define pramolyt_run pramolyt_logged_run

#endif
