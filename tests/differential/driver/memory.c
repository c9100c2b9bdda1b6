/* What the library asks of a C library, since the driver is linked with none: copying and filling. In words of 16 bytes, for the library hands its
   state on by value. */
#include "stddef.h"

typedef char word __attribute__((vector_size(16), aligned(1), may_alias));

void *memcpy(void *restrict to, const void *restrict from, size_t length) {
    char *t = to;
    const char *f = from;
    for (; length >= 64; length -= 64, t += 64, f += 64) {
        word a = ((const word *)f)[0], b = ((const word *)f)[1], c = ((const word *)f)[2], d = ((const word *)f)[3];
        ((word *)t)[0] = a, ((word *)t)[1] = b, ((word *)t)[2] = c, ((word *)t)[3] = d;
    }
    for (; length >= 16; length -= 16, t += 16, f += 16) *(word *)t = *(const word *)f;
    for (; length > 0; length--) *t++ = *f++;
    return to;
}

void *memmove(void *to, const void *from, size_t length) {
    char *t = to;
    const char *f = from;
    if (t <= f || t >= f + length) {
        for (; length > 0; length--) *t++ = *f++;
    } else {
        for (; length > 0; length--) t[length - 1] = f[length - 1];
    }
    return to;
}

void *memset(void *to, int byte, size_t length) {
    char *t = to;
    char b = (char)byte;
    word all = {b, b, b, b, b, b, b, b, b, b, b, b, b, b, b, b};
    for (; length >= 16; length -= 16, t += 16) *(word *)t = all;
    for (; length > 0; length--) *t++ = b;
    return to;
}
