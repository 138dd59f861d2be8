/* Which register may hold which word, in plain C. */
#ifndef LEGAL_H
#define LEGAL_H

#include <stdbool.h>
#include <stdint.h>

static inline bool bit(uint32_t word, int number)
{
    return word >> number & 1;
}

static inline bool legal_command(uint32_t word)
{
    const bool solid = bit(word, 23), trnsp = bit(word, 22), stpl = bit(word, 21), key = bit(word, 20), apat = bit(word, 14);
    if (word == 0)
        return true;
    if (word & 0x3FFF)
        return false;
    switch (word >> 28) {
    case 1:
        return !bit(word, 19) && !bit(word, 18) && (!trnsp || stpl || solid) && (!key || !(stpl || solid)) &&
               (!apat || !(solid || stpl || key));
    case 2:
    case 5:
        return !key && !bit(word, 16) && !apat && (solid || stpl);
    default:
        return false;
    }
}

static inline bool legal_pattern(uint32_t word)
{
    const uint32_t length = word % 32 ? word % 32 : 32;
    return word < 65536 && word / 8192 <= word / 32 % 8 && word / 256 % 32 < length;
}

static inline bool legal(uint32_t reg, uint32_t word)
{
    switch (reg) {
    case 0:
        return legal_command(word);
    case 1:
    case 2:
    case 3:
    case 4:
        return word < 256;
    case 5:
    case 7:
    case 8:
    case 9:
    case 12:
        return true;
    case 6:
        return legal_pattern(word);
    case 10:
        return word >> 16 <= 2048 && (word & 65535) <= 2048;
    case 11:
        return word <= 3;
    default:
        return false;
    }
}

#endif
