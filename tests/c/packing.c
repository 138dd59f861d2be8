/* What the header says of pramolyt_pack and pramolyt_unpack: lists come back, each answer on its ground, what stays, and the
 * macros of sizes. The last line is 'N passed, M failed'. */
#include <stdio.h>
#include <string.h>

#include "pramolyt.h"
#include "pramolyt_list.h"

enum { MOST = PRAMOLYT_MAX_ENTRIES, LIST = 5 * (MOST + 8), OLD = 0xA5 };

/* FORE 7; CMD a solid LINE, raster code copy; XY0 (0, 0); XY1 (4, 2): in edition 1, and in edition 2, of which the second
 * group has one entry */
static const uint8_t line[20] = {8, 0, 0, 0, 7, 0, 0x23, 0x80, 0, 0, 0x48, 0, 0, 0, 0, 0x60, 0, 4, 0, 2};
static const uint8_t packed_line[28] = {0x04, 0x09, 0, 0, 0, 7, 0x23, 0x80, 0, 0, 0, 0, 0, 0,
                                        0x33, 0xFF, 0, 4, 0, 2, 0,    0,    0, 0, 0, 0, 0, 0};

/* the macros are constants */
static uint8_t sized[PRAMOLYT_LIST_SIZE(4)], packed_sized[PRAMOLYT_PACKED_SIZE(4)];

static uint8_t list[LIST], file[LIST], back[LIST];
static unsigned passed, failed;

static void check(int fact, const char *call, const char *about)
{
    if (fact) {
        passed++;
    } else {
        failed++;
        printf("FAILED: %s: %s\n", call, about);
    }
}

/* whether the bytes from a place on are those that were there before a call */
static int old(const uint8_t *bytes, size_t from, size_t length)
{
    while (from < length)
        if (bytes[from++] != OLD)
            return 0;
    return 1;
}

/* a legal entry by its place, each register in turn */
static void fill(size_t entries)
{
    static const uint32_t words[13] = {0x23800000, 1, 2, 254, 4, 0xDEADBEEF, 0x2123, 7, 8, 0xFFFE0009, 0x08000010, 3, 12};
    size_t k;
    for (k = 0; k < entries; k++)
        pramolyt_put_entry(list + 5 * k, (unsigned)(k % 13), words[k % 13]);
}

static void sizes(void)
{
    static const size_t expected[][3] = {{0, 0, 0},   {1, 5, 14},  {2, 10, 14}, {3, 15, 14},
                                         {4, 20, 28}, {6, 30, 28}, {7, 35, 42}, {4096, 20480, 19124}};
    size_t i;
    for (i = 0; i < sizeof expected / sizeof expected[0]; i++) {
        check(PRAMOLYT_LIST_SIZE(expected[i][0]) == expected[i][1], "PRAMOLYT_LIST_SIZE", "entries");
        check(PRAMOLYT_PACKED_SIZE(expected[i][0]) == expected[i][2], "PRAMOLYT_PACKED_SIZE", "entries");
    }
    check(PRAMOLYT_LIST_SIZE(1 + 1) == 10 && PRAMOLYT_PACKED_SIZE(1 ? 4 : 0) == 28, "sizes", "arguments of operators");
    check(sizeof sized == sizeof line && sizeof packed_sized == sizeof packed_line, "sizes", "of arrays");
}

/* the line, byte by byte, both ways */
static void bytes(void)
{
    uint64_t written = 77, place = 77;
    memset(file, OLD, LIST);
    check(pramolyt_pack(&written, &place, line, 20, file, 28) == PRAMOLYT_DONE, "pack", "the line");
    check(written == 28 && place == 0 && memcmp(file, packed_line, 28) == 0 && old(file, 28, LIST), "pack", "its bytes");
    memset(back, OLD, LIST);
    written = place = 77;
    check(pramolyt_unpack(&written, &place, packed_line, 28, back, LIST) == PRAMOLYT_DONE, "unpack", "the line");
    check(written == 20 && place == 0 && memcmp(back, line, 20) == 0 && old(back, 20, LIST), "unpack", "its bytes");
}

/* so many entries come back, with just enough room and with more */
static void comes_back(size_t entries)
{
    const size_t listed = PRAMOLYT_LIST_SIZE(entries), packed = PRAMOLYT_PACKED_SIZE(entries);
    uint64_t written = 77, place = 77;
    size_t more;
    fill(entries);
    for (more = 0; more < 20; more += 19) {
        memset(file, OLD, LIST);
        memset(back, OLD, LIST);
        check(pramolyt_pack(&written, &place, list, listed, file, packed + more) == PRAMOLYT_DONE, "pack", "answer");
        check(written == packed && place == 0 && old(file, packed, LIST), "pack", "bytes written");
        check(pramolyt_unpack(&written, &place, file, packed, back, listed + more) == PRAMOLYT_DONE, "unpack", "answer");
        check(written == listed && place == 0 && old(back, listed, LIST), "unpack", "bytes written");
        check(memcmp(back, list, listed) == 0, "pack and unpack", "the list comes back");
    }
}

typedef uint32_t conversion(uint64_t *, uint64_t *, const uint8_t *, size_t, uint8_t *, size_t);

/* a refusal: its number and place, no bytes written, and the whole output as it was */
static void refused(conversion *convert, const uint8_t *input, size_t length, size_t room, uint32_t number, uint64_t place,
                    const char *about)
{
    const char *name = convert == pramolyt_pack ? "pack" : "unpack";
    uint64_t written = 77, at = 77;
    memset(back, OLD, LIST);
    check(convert(&written, &at, input, length, back, room) == number, name, about);
    check(written == 0 && at == place && old(back, 0, LIST), name, "what a refusal leaves");
}

static void pack_refusals(void)
{
    uint8_t bad[20];
    fill(MOST + 1);
    refused(pramolyt_pack, line, 19, 28, PRAMOLYT_WRONG_SIZE, 0, "no whole entries");
    refused(pramolyt_pack, line, 4, LIST, PRAMOLYT_WRONG_SIZE, 0, "less than an entry");
    refused(pramolyt_pack, line, 20, 27, PRAMOLYT_WRONG_SIZE, 0, "a byte of room too few");
    refused(pramolyt_pack, list, 5 * (MOST + 1), 19123, PRAMOLYT_WRONG_SIZE, 0, "2 before 4");
    refused(pramolyt_pack, line, 0, 0, PRAMOLYT_NO_ENTRIES, 0, "no bytes");
    refused(pramolyt_pack, NULL, 0, LIST, PRAMOLYT_NO_ENTRIES, 0, "NULL");
    refused(pramolyt_pack, list, 5 * (MOST + 1), LIST, PRAMOLYT_PAST_THE_END, 0, "4,097 entries");
    memcpy(bad, line, 20);
    bad[10] |= 1;
    bad[15] = 0x68;
    refused(pramolyt_pack, bad, 20, 28, PRAMOLYT_ILLEGAL_ENTRY, 2, "a bit after the register, in entry 2");
    bad[10] = line[10];
    refused(pramolyt_pack, bad, 20, 28, PRAMOLYT_ILLEGAL_ENTRY, 3, "register 13, in entry 3");
    bad[15] = 31 << 3;
    memset(bad + 16, 0, 4);
    refused(pramolyt_pack, bad, 20, 28, PRAMOLYT_ILLEGAL_ENTRY, 3, "register 31, in entry 3");
}

/* 4,098 positions: with two 31s at the end they are 4,096 entries, with one 4,097 */
static void most_positions(void)
{
    const size_t groups = (MOST + 2) / 3, last = 14 * (groups - 1);
    uint64_t written = 77, place = 77;
    fill(MOST);
    check(pramolyt_pack(&written, &place, list, 5 * MOST, file, LIST) == PRAMOLYT_DONE, "pack", "4,096 entries");
    check(pramolyt_unpack(&written, &place, file, 14 * groups, back, 5 * MOST) == PRAMOLYT_DONE, "unpack", "4,096 entries");
    /* the first of the two becomes CMD 0 */
    file[last] = (uint8_t)(file[last] & 0xFC);
    file[last + 1] = (uint8_t)(file[last + 1] & 0x1F);
    refused(pramolyt_unpack, file, 14 * groups, LIST, PRAMOLYT_PAST_THE_END, 0, "4,097 entries");
    refused(pramolyt_unpack, file, 14 * groups, 5 * MOST, PRAMOLYT_WRONG_SIZE, 0, "2 before 4");
}

static void unpack_refusals(void)
{
    uint8_t bad[42];
    refused(pramolyt_unpack, packed_line, 27, 20, PRAMOLYT_WRONG_SIZE, 0, "no whole groups");
    refused(pramolyt_unpack, packed_line, 13, LIST, PRAMOLYT_WRONG_SIZE, 0, "less than a group");
    refused(pramolyt_unpack, packed_line, 28, 19, PRAMOLYT_WRONG_SIZE, 0, "a byte of room too few");
    refused(pramolyt_unpack, packed_line, 0, 0, PRAMOLYT_NO_ENTRIES, 0, "no bytes");
    refused(pramolyt_unpack, NULL, 0, LIST, PRAMOLYT_NO_ENTRIES, 0, "NULL");
    memcpy(bad, packed_line, 28);
    memcpy(bad + 28, packed_line + 14, 14);
    refused(pramolyt_unpack, bad, 42, LIST, PRAMOLYT_MALFORMED_FILE, 0, "31s in a group that is not the last");
    bad[28] = 0x37; /* register 13 after them, at place 6 */
    refused(pramolyt_unpack, bad, 42, LIST, PRAMOLYT_ILLEGAL_ENTRY, 6, "31s counted in the place, 6 before 10");
    memcpy(bad, packed_line, 28);
    bad[14] |= 0x80;
    refused(pramolyt_unpack, bad, 28, LIST, PRAMOLYT_MALFORMED_FILE, 0, "the zero bit set");
    bad[14] = packed_line[14];
    bad[27] = 1;
    refused(pramolyt_unpack, bad, 28, LIST, PRAMOLYT_MALFORMED_FILE, 0, "data of the last 31");
    bad[27] = 0;
    bad[20] = 1;
    refused(pramolyt_unpack, bad, 28, LIST, PRAMOLYT_MALFORMED_FILE, 0, "data of the 31 before it");
    bad[20] = 0;
    bad[15] = 0xE0; /* 31 and then register 0 */
    refused(pramolyt_unpack, bad, 28, LIST, PRAMOLYT_MALFORMED_FILE, 0, "a 31 before an entry");
    memset(bad + 14, 0, 14);
    bad[14] = 0x7F;
    bad[15] = 0xFF;
    refused(pramolyt_unpack, bad, 28, LIST, PRAMOLYT_MALFORMED_FILE, 0, "31s alone in the last group");
    memcpy(bad, packed_line, 28);
    bad[4] = 1;
    refused(pramolyt_unpack, bad, 28, LIST, PRAMOLYT_ILLEGAL_ENTRY, 0, "FORE above 255");
}

int main(void)
{
    static const size_t counts[] = {1, 2, 3, 4, 5, 6, 7, 100, MOST - 2, MOST - 1, MOST};
    size_t i;
    sizes();
    bytes();
    for (i = 0; i < sizeof counts / sizeof counts[0]; i++)
        comes_back(counts[i]);
    pack_refusals();
    most_positions();
    unpack_refusals();
    printf("%u passed, %u failed\n", passed, failed);
    return failed != 0;
}
