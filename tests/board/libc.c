/* What compilers call of their own accord, for a machine for which no C library is installed: by words of four bytes where both sides are
 * aligned, as a C library that is built for speed has it. Stores are volatile, so that no compiler makes a call of the same function of them. */
#include <stddef.h>
#include <stdint.h>

typedef uint32_t __attribute__((may_alias)) word;

void *memcpy(void *to, const void *from, size_t n);
void *memmove(void *to, const void *from, size_t n);
void *memset(void *to, int byte, size_t n);
int memcmp(const void *one, const void *other, size_t n);

void *memcpy(void *to, const void *from, size_t n) {
    uint8_t *t = (uint8_t *)to;
    const uint8_t *f = (const uint8_t *)from;
    if ((((uintptr_t)t | (uintptr_t)f) & 3u) == 0) {
        for (; n >= 16; n -= 16, t += 16, f += 16) {
            word a = ((const word *)f)[0], b = ((const word *)f)[1], c = ((const word *)f)[2], d = ((const word *)f)[3];
            ((volatile word *)t)[0] = a;
            ((volatile word *)t)[1] = b;
            ((volatile word *)t)[2] = c;
            ((volatile word *)t)[3] = d;
        }
        for (; n >= 4; n -= 4, t += 4, f += 4)
            *(volatile word *)t = *(const word *)f;
    }
    for (; n > 0; n--)
        *(volatile uint8_t *)t++ = *f++;
    return to;
}

void *memmove(void *to, const void *from, size_t n) {
    uint8_t *t = (uint8_t *)to;
    const uint8_t *f = (const uint8_t *)from;
    if ((uintptr_t)to <= (uintptr_t)from)
        return memcpy(to, from, n);
    for (; n > 0; n--)
        *(volatile uint8_t *)(t + n - 1) = f[n - 1];
    return to;
}

void *memset(void *to, int byte, size_t n) {
    uint8_t *t = (uint8_t *)to;
    word four = 0x01010101u * (uint8_t)byte;
    for (; n > 0 && ((uintptr_t)t & 3u) != 0; n--)
        *(volatile uint8_t *)t++ = (uint8_t)byte;
    for (; n >= 16; n -= 16, t += 16) {
        ((volatile word *)t)[0] = four;
        ((volatile word *)t)[1] = four;
        ((volatile word *)t)[2] = four;
        ((volatile word *)t)[3] = four;
    }
    for (; n > 0; n--)
        *(volatile uint8_t *)t++ = (uint8_t)byte;
    return to;
}

int memcmp(const void *one, const void *other, size_t n) {
    const volatile uint8_t *a = (const uint8_t *)one, *b = (const uint8_t *)other;
    size_t i;
    for (i = 0; i < n; i++)
        if (a[i] != b[i])
            return a[i] < b[i] ? -1 : 1;
    return 0;
}
