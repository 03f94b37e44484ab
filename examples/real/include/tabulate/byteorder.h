#ifndef TABULATE_BYTEORDER_H
#define TABULATE_BYTEORDER_H

#include <stdint.h>
#include <string.h>

#if defined(__BYTE_ORDER__) && defined(__ORDER_LITTLE_ENDIAN__)
#define WORDS_ARE_LITTLE (__BYTE_ORDER__ == __ORDER_LITTLE_ENDIAN__)
#elif defined(_WIN32)
#define WORDS_ARE_LITTLE 1
#else
#error the byte order of this system is not known
#endif

/* Four bytes as a number, the first byte lowest, on every system. */
static inline uint32_t little_word(const void *bytes)
{
#if WORDS_ARE_LITTLE
    uint32_t word;
    memcpy(&word, bytes, sizeof word);
    return word;
#else
    const unsigned char *at = bytes;
    return at[0] | (uint32_t)at[1] << 8 | (uint32_t)at[2] << 16 | (uint32_t)at[3] << 24;
#endif
}

#endif
