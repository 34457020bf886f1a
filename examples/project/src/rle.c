#include "rle.h"

unsigned rle_pack(const unsigned char *from, unsigned size, unsigned char *to)
{
    const unsigned char *end = from + size;
    unsigned char *begin = to;
    while (from < end) {
        unsigned char byte = *from, count = 0;
        while (from < end && *from == byte && count < 255) {
            ++from;
            ++count;
        }
        *to++ = count;
        *to++ = byte;
    }
    return to - begin;
}

unsigned rle_unpack(const unsigned char *from, unsigned size, unsigned char *to)
{
    const unsigned char *end = from + size;
    unsigned char *begin = to;
    while (from < end) {
        unsigned char count = *from++, byte = *from++;
        while (count--)
            *to++ = byte;
    }
    return to - begin;
}
