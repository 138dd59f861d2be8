/* For builds of the controller in which these take the place of read, poll and pramolyt_run: signals come between, there are
 * no bytes after all, reads are short; and run 4 is lent a list memory of illegal entries. */
#define _POSIX_C_SOURCE 200809L
#include <errno.h>
#include <poll.h>
#include <unistd.h>

#include "pramolyt.h"
#include "pramolyt_list.h"

int faulty_poll(struct pollfd *fds, nfds_t count, int timeout);
ssize_t faulty_read(int line, void *bytes, size_t length);
uint32_t faulty_run(pramolyt_board *board, uint64_t *steps, uint64_t budget, const uint8_t *list, size_t list_len,
                    uint8_t *display, size_t display_len, uint8_t *virt, size_t virt_len);

static unsigned turn;

int faulty_poll(struct pollfd *fds, nfds_t count, int timeout)
{
    if (turn++ % 3 == 1) {
        errno = EINTR;
        return -1;
    }
    return poll(fds, count, timeout);
}

ssize_t faulty_read(int line, void *bytes, size_t length)
{
    turn++;
    if (turn % 5 == 2 || turn % 5 == 4) {
        errno = turn % 5 == 2 ? EINTR : EAGAIN;
        return -1;
    }
    return read(line, bytes, length < 1 + turn % 11 ? length : 1 + turn % 11);
}

uint32_t faulty_run(pramolyt_board *board, uint64_t *steps, uint64_t budget, const uint8_t *list, size_t list_len,
                    uint8_t *display, size_t display_len, uint8_t *virt, size_t virt_len)
{
    static unsigned runs;
    static uint8_t changed[5 * PRAMOLYT_MAX_ENTRIES];
    if (++runs == 4)
        for (size_t k = 0; k < list_len; k++)
            changed[k] = 0xFF;
    return pramolyt_run(board, steps, budget, runs == 4 ? changed : list, list_len, display, display_len, virt, virt_len);
}
