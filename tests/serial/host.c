/* The host's end of a serial line, for tests: `host CUTS PROGRAM [BYTES]` runs the program with the path of a pseudo-terminal
 * as its argument, writes standard input to the other end in pieces, hangs up when all is read, and ends with the program's
 * status. CUTS is `one`, a byte at a time; `growing`, 1, 2, 3 bytes and so on to 13 and again; `random`, 1 to 40 bytes, by a
 * fixed seed; `slow`, 29 bytes with a pause after each piece; or `whole`. With BYTES, the line is silent for 1.3 seconds
 * after so many. It gives up after 4 seconds. */
#define _XOPEN_SOURCE 700
#include <fcntl.h>
#include <stdio.h>
#include <stdlib.h>
#include <string.h>
#include <sys/ioctl.h>
#include <sys/wait.h>
#include <termios.h>
#include <time.h>
#include <unistd.h>

enum { MOST = 1 << 16, LONGEST = 4000 };

static void need(int fact, const char *what)
{
    if (!fact) {
        perror(what);
        exit(3);
    }
}

static void pause_for(long microseconds)
{
    struct timespec t;
    t.tv_sec = microseconds / 1000000;
    t.tv_nsec = microseconds % 1000000 * 1000;
    nanosleep(&t, NULL);
}

/* Until the program has set the line to hand over every byte. */
static void wait_until_raw(int line)
{
    struct termios t;
    do {
        pause_for(1000);
        need(tcgetattr(line, &t) == 0, "tcgetattr");
    } while (t.c_lflag & ICANON);
}

/* Until no byte waits to be read, seen so many times in turn. */
static void drain(int line, int times)
{
    int seen = 0, waiting;
    while (seen < times) {
        pause_for(100);
        need(ioctl(line, FIONREAD, &waiting) == 0, "FIONREAD");
        seen = waiting == 0 ? seen + 1 : 0;
    }
}

static size_t piece_length(const char *cuts, size_t turn, unsigned *seed)
{
    if (strcmp(cuts, "one") == 0)
        return 1;
    if (strcmp(cuts, "growing") == 0)
        return 1 + turn % 13;
    if (strcmp(cuts, "slow") == 0)
        return 29;
    if (strcmp(cuts, "random") == 0) {
        *seed = *seed * 1103515245 + 12345;
        return 1 + (*seed >> 16) % 40;
    }
    return LONGEST;
}

static void send_bytes(int end, int line, const char *cuts, const unsigned char *bytes, size_t length)
{
    size_t sent = 0, turn;
    unsigned seed = 20260;
    for (turn = 0; sent < length; turn++) {
        size_t piece = piece_length(cuts, turn, &seed);
        ssize_t written = write(end, bytes + sent, piece < length - sent ? piece : length - sent);
        need(written > 0, "write");
        sent += (size_t)written;
        drain(line, 1);
        if (strcmp(cuts, "slow") == 0)
            pause_for(20000);
    }
}

/* Runs the program on the line of a pseudo-terminal; *end is the host's end of it. */
static pid_t start(const char *path, int *end, int *line)
{
    const char *name;
    pid_t program;
    *end = posix_openpt(O_RDWR | O_NOCTTY);
    need(*end >= 0 && grantpt(*end) == 0 && unlockpt(*end) == 0, "pseudo-terminal");
    name = ptsname(*end);
    *line = open(name, O_RDWR | O_NOCTTY);
    need(*line >= 0, name);
    program = fork();
    need(program >= 0, "fork");
    if (program == 0) {
        close(*end);
        close(*line);
        execl(path, path, name, (char *)NULL);
        _exit(3);
    }
    return program;
}

int main(int argc, char **argv)
{
    static unsigned char bytes[MOST];
    const size_t length = fread(bytes, 1, MOST, stdin), before = argc > 3 ? (size_t)atoi(argv[3]) : 0;
    int end, line, status;
    pid_t program;
    need(argc > 2 && before <= length, "usage: host CUTS PROGRAM [BYTES]");
    alarm(4);
    program = start(argv[2], &end, &line);
    wait_until_raw(line);
    send_bytes(end, line, argv[1], bytes, before);
    if (before > 0)
        pause_for(1300000);
    send_bytes(end, line, argv[1], bytes + before, length - before);
    drain(line, 50);
    close(line);
    close(end);
    need(waitpid(program, &status, 0) == program, "waitpid");
    return WIFEXITED(status) ? WEXITSTATUS(status) : 4;
}
