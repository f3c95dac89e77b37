/* The four functions that the compiler may call of itself. */

#include <stddef.h>

void *memcpy(void *to, const void *from, size_t length)
{
    unsigned char *put = to;
    const unsigned char *take = from;

    while (length-- > 0)
        *put++ = *take++;
    return to;
}

void *memmove(void *to, const void *from, size_t length)
{
    unsigned char *put = to;
    const unsigned char *take = from;

    if (put <= take)
        return memcpy(to, from, length);
    while (length-- > 0)
        put[length] = take[length];
    return to;
}

void *memset(void *to, int value, size_t length)
{
    unsigned char *put = to;

    while (length-- > 0)
        *put++ = (unsigned char)value;
    return to;
}

int memcmp(const void *left, const void *right, size_t length)
{
    const unsigned char *a = left;
    const unsigned char *b = right;

    for (; length > 0; length--, a++, b++)
        if (*a != *b)
            return *a - *b;
    return 0;
}
