/* What LLVM calls by itself, in a web page. */
#include <stddef.h>
#include <stdint.h>

/* Each of these three is one instruction, memory.copy or memory.fill. */
void *memcpy(void *to, const void *from, size_t size) {
    __builtin_memcpy(to, from, size);
    return to;
}
void *memmove(void *to, const void *from, size_t size) {
    __builtin_memmove(to, from, size);
    return to;
}
void *memset(void *to, int byte, size_t size) {
    __builtin_memset(to, byte, size);
    return to;
}

int memcmp(const void *a, const void *b, size_t size) {
    const unsigned char *x = a, *y = b;
    for (; size && *x == *y; size--)
        x++, y++;
    return size ? *x - *y : 0;
}
int bcmp(const void *a, const void *b, size_t size) { return memcmp(a, b, size); }

/* Numbers of 128 bits, as compiler-rt has them. */
typedef union {
    __int128 all;
    struct {
        uint64_t low, high;
    } part;
} wide;

static uint64_t low_half(uint64_t x) { return (uint32_t)x; }
static uint64_t high_half(uint64_t x) { return x >> 32; }

__int128 __multi3(__int128 a, __int128 b) {
    wide x = {.all = a}, y = {.all = b}, z;
    uint64_t low = low_half(x.part.low) * low_half(y.part.low);
    uint64_t middle = high_half(x.part.low) * low_half(y.part.low) + high_half(low);
    uint64_t other = low_half(x.part.low) * high_half(y.part.low) + low_half(middle);
    z.part.low = other << 32 | low_half(low);
    z.part.high = high_half(x.part.low) * high_half(y.part.low) + high_half(middle) + high_half(other)
        + x.part.high * y.part.low + x.part.low * y.part.high;
    return z.all;
}

__int128 __ashlti3(__int128 a, int by) {
    wide x = {.all = a}, z = x;
    if (by & 64) {
        z.part.high = x.part.low << (by & 63);
        z.part.low = 0;
    } else if (by != 0) {
        z.part.low = x.part.low << by;
        z.part.high = x.part.high << by | x.part.low >> (64 - by);
    }
    return z.all;
}

__int128 __lshrti3(__int128 a, int by) {
    wide x = {.all = a}, z = x;
    if (by & 64) {
        z.part.low = x.part.high >> (by & 63);
        z.part.high = 0;
    } else if (by != 0) {
        z.part.high = x.part.high >> by;
        z.part.low = x.part.low >> by | x.part.high << (64 - by);
    }
    return z.all;
}
