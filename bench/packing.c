/* The two conversions of a list file against a plain C converter, which answers the same and leaves its output alone in
 * refusals too: the same random legal lists, the best of many short runs taken in turn, outputs compared byte for byte. The
 * last two columns are the library's speed divided by the plain one's. `packing tiny` only compares; its last line is
 * 'N passed, M failed'. Status 1 where a conversion differs. */
#define _POSIX_C_SOURCE 199309L
#include <stdint.h>
#include <stdio.h>
#include <string.h>
#include <time.h>

#include "legal.h"
#include "pramolyt.h"
#include "pramolyt_list.h"

typedef uint32_t conversion(uint64_t *, uint64_t *, const uint8_t *, size_t, uint8_t *, size_t);

enum { ENTRIES = PRAMOLYT_MAX_ENTRIES, BYTES = 5 * ENTRIES, LISTS = 7, ROUNDS = 300 };

static uint32_t word_at(const uint8_t *p)
{
    return (uint32_t)p[0] << 24 | (uint32_t)p[1] << 16 | (uint32_t)p[2] << 8 | p[3];
}

static void put_word(uint8_t *p, uint32_t word)
{
    p[0] = (uint8_t)(word >> 24);
    p[1] = (uint8_t)(word >> 16);
    p[2] = (uint8_t)(word >> 8);
    p[3] = (uint8_t)word;
}

static uint32_t head_at(const uint8_t *p)
{
    return (uint32_t)p[0] << 8 | p[1];
}

__attribute__((noinline)) static uint32_t plain_pack(uint64_t *written, uint64_t *place, const uint8_t *in, size_t size,
                                                     uint8_t *out, size_t room)
{
    const size_t count = size / 5, groups = (count + 2) / 3;
    *place = *written = 0;
    if (size % 5 || room < 14 * groups)
        return 2;
    if (size == 0)
        return 3;
    if (count > ENTRIES)
        return 4;
    for (size_t k = 0; k < count; k++) {
        if (in[5 * k] % 8 || !legal(in[5 * k] / 8, word_at(in + 5 * k + 1))) {
            *place = k;
            return 6;
        }
    }
    for (size_t g = 0; g < groups; g++) {
        uint32_t regs[3] = {31, 31, 31}, words[3] = {0, 0, 0};
        for (size_t j = 0; j < 3 && 3 * g + j < count; j++) {
            regs[j] = in[15 * g + 5 * j] / 8;
            words[j] = word_at(in + 15 * g + 5 * j + 1);
        }
        const uint32_t head = regs[0] << 10 | regs[1] << 5 | regs[2];
        out[14 * g] = (uint8_t)(head >> 8);
        out[14 * g + 1] = (uint8_t)head;
        for (size_t j = 0; j < 3; j++)
            put_word(out + 14 * g + 2 + 4 * j, words[j]);
    }
    *written = 14 * groups;
    return 0;
}

__attribute__((noinline)) static uint32_t plain_unpack(uint64_t *written, uint64_t *place, const uint8_t *in,
                                                       size_t size, uint8_t *out, size_t room)
{
    const size_t groups = size / 14;
    size_t count = 3 * groups;
    *place = *written = 0;
    if (size % 14)
        return 2;
    for (uint32_t head = groups ? head_at(in + size - 14) : 0; count > 3 * groups - 3 && head % 32 == 31; head /= 32)
        count--;
    if (room < 5 * count)
        return 2;
    if (size == 0)
        return 3;
    if (count > ENTRIES)
        return 4;
    bool malformed = count + 3 == 3 * groups;
    for (size_t g = 0; g < groups; g++) {
        const uint32_t head = head_at(in + 14 * g);
        malformed |= head >> 15;
        for (size_t j = 0; j < 3; j++) {
            const uint32_t reg = head >> (10 - 5 * j) & 31, word = word_at(in + 14 * g + 2 + 4 * j);
            if (reg == 31) {
                malformed |= 3 * g + j < count || word;
            } else if (!legal(reg, word)) {
                *place = 3 * g + j;
                return 6;
            }
        }
    }
    if (malformed)
        return 10;
    for (size_t g = 0; g < groups; g++) {
        const uint32_t head = head_at(in + 14 * g);
        for (size_t j = 0; j < 3 && 3 * g + j < count; j++) {
            out[15 * g + 5 * j] = (uint8_t)((head >> (10 - 5 * j) & 31) << 3);
            memcpy(out + 15 * g + 5 * j + 1, in + 14 * g + 2 + 4 * j, 4);
        }
    }
    *written = 5 * count;
    return 0;
}

static uint64_t state;

static uint32_t random_word(void)
{
    state ^= state << 13;
    state ^= state >> 7;
    state ^= state << 17;
    return (uint32_t)(state >> 16);
}

static void random_entry(uint8_t *p)
{
    const uint32_t reg = random_word() % 13;
    uint32_t word = random_word();
    if (reg == 0)
        word = word % 2 ? 0 : 0x10000000 | word % 16 << 24;
    if (reg >= 1 && reg <= 4)
        word &= 255;
    if (reg == 6)
        word = 0x1F00;
    if (reg == 10)
        word = word % 2049 << 16 | random_word() % 2049;
    if (reg == 11)
        word &= 3;
    p[0] = (uint8_t)(reg << 3);
    put_word(p + 1, word);
}

static double seconds(void)
{
    struct timespec now;
    clock_gettime(CLOCK_MONOTONIC, &now);
    return (double)now.tv_sec + (double)now.tv_nsec * 1e-9;
}

static double time_of(conversion *convert, const uint8_t *in, size_t size, uint8_t *out, size_t repeats)
{
    uint64_t written, place;
    const double begun = seconds();
    for (size_t k = 0; k < repeats; k++) {
        convert(&written, &place, in, size, out, BYTES);
        __asm__ volatile("" : : "r"(out) : "memory");
    }
    return (seconds() - begun) / (double)repeats;
}

static conversion *const conversions[4] = {plain_pack, pramolyt_pack, plain_unpack, pramolyt_unpack};

/* Adds to the sums the best times for one random list; false where a conversion differs. */
static bool time_list(size_t count, int rounds, double sums[4])
{
    static uint8_t files[2][BYTES], outs[4][BYTES];
    size_t sizes[2] = {5 * count, (count + 2) / 3 * 14};
    double best[4] = {1, 1, 1, 1};
    uint64_t written, place;
    for (size_t k = 0; k < count; k++)
        random_entry(files[0] + 5 * k);
    plain_pack(&written, &place, files[0], sizes[0], files[1], BYTES);
    const size_t repeats = (size_t)(20e-6 / ((double)count * 3e-9 + 8e-9)) + 1;
    for (int round = 0; round < rounds; round++) {
        for (int k = 0; k < 4; k++) {
            const double took = time_of(conversions[k], files[k / 2], sizes[k / 2], outs[k], repeats);
            best[k] = took < best[k] ? took : best[k];
        }
    }
    for (int k = 0; k < 4; k++)
        sums[k] += best[k];
    return !memcmp(outs[0], outs[1], BYTES) && !memcmp(outs[2], outs[3], BYTES) && !memcmp(outs[3], files[0], sizes[0]);
}

/* The times for random lists of so many entries; false where a conversion differs. */
static bool time_size(size_t count, int rounds, double sums[4])
{
    state = 88172645463325252u;
    for (int list = 0; list < LISTS; list++) {
        if (!time_list(count, rounds, sums)) {
            printf("FAILED: a list of %zu entries is converted differently\n", count);
            return false;
        }
    }
    return true;
}

int main(int argc, char **argv)
{
    static const size_t counts[] = {1, 2, 3, 5, 10, 30, 100, 500, ENTRIES};
    const bool tiny = argc == 2 && strcmp(argv[1], "tiny") == 0;
    const size_t sizes = sizeof counts / sizeof counts[0];
    size_t passed = 0;
    if (!tiny)
        printf("entries   pack: plain, library, ns   unpack: plain, library, ns   pack   unpack\n");
    for (size_t k = 0; k < sizes; k++) {
        double sums[4] = {0};
        passed += time_size(counts[k], tiny ? 1 : ROUNDS, sums);
        if (!tiny)
            printf("%7zu   %11.1f %14.1f   %13.1f %14.1f   %4.2f   %6.2f\n", counts[k], sums[0] / LISTS * 1e9,
                   sums[1] / LISTS * 1e9, sums[2] / LISTS * 1e9, sums[3] / LISTS * 1e9, sums[0] / sums[1],
                   sums[2] / sums[3]);
    }
    if (tiny)
        printf("%zu passed, %zu failed\n", passed, sizes - passed);
    return passed != sizes;
}
