/* memcpy, memmove, memset and memcmp by the System V ABI, for the image of the proved objects on Windows: what they ask
   of the C library on Linux. */
#include <stddef.h>

void *memcpy(void *to, const void *from, size_t count) {
    void *result = to;
    __asm__ volatile("rep movsb" : "+D"(to), "+S"(from), "+c"(count) : : "memory");
    return result;
}

void *memmove(void *to, const void *from, size_t count) {
    unsigned char *into = to;
    const unsigned char *of = from;
    if (into <= of)
        return memcpy(to, from, count);
    while (count-- > 0)
        into[count] = of[count];
    return to;
}

void *memset(void *to, int value, size_t count) {
    void *result = to;
    __asm__ volatile("rep stosb" : "+D"(to), "+c"(count) : "a"(value) : "memory");
    return result;
}

int memcmp(const void *first, const void *second, size_t count) {
    const unsigned char *a = first, *b = second;
    for (size_t i = 0; i < count; i++)
        if (a[i] != b[i])
            return a[i] < b[i] ? -1 : 1;
    return 0;
}

int bcmp(const void *first, const void *second, size_t count) { return memcmp(first, second, count); }
