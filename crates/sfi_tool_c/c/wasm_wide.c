/*
 * Products and shifts of numbers of 128 bits, which clang calls on WebAssembly and a C library would have. They are trusted,
 * and not proved.
 */
#include <stdint.h>

typedef unsigned __int128 wide;

static wide joined(uint64_t high, uint64_t low) { return (wide)high << 64 | low; }

__int128 __multi3(__int128 left, __int128 right) {
    uint64_t a = (uint64_t)left, b = (uint64_t)right, half = 0xffffffff;
    uint64_t low = (a & half) * (b & half), one = (a >> 32) * (b & half), two = (a & half) * (b >> 32);
    uint64_t middle = (low >> 32) + (one & half) + (two & half);
    uint64_t high = (a >> 32) * (b >> 32) + (one >> 32) + (two >> 32) + (middle >> 32);
    high += a * (uint64_t)((wide)right >> 64) + b * (uint64_t)((wide)left >> 64);
    return (__int128)joined(high, middle << 32 | (low & half));
}

__int128 __ashlti3(__int128 given, int by) {
    uint64_t low = (uint64_t)given, high = (uint64_t)((wide)given >> 64);
    if (by >= 64)
        return (__int128)joined(low << (by - 64), 0);
    return by ? (__int128)joined(high << by | low >> (64 - by), low << by) : given;
}

__int128 __lshrti3(__int128 given, int by) {
    uint64_t low = (uint64_t)given, high = (uint64_t)((wide)given >> 64);
    if (by >= 64)
        return (__int128)joined(0, high >> (by - 64));
    return by ? (__int128)joined(high >> by, low >> by | high << (64 - by)) : given;
}
