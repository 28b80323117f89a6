/* Shifts of numbers of 128 bits by fewer than 128 bits, which LLVM's code calls where it divides such numbers. No proof
 * covers them. */
#include "types.h"

typedef unsigned __int128 wide;

static wide joined(uint64_t high, uint64_t low) { return (wide)high << 64 | low; }

__int128 __ashlti3(__int128 value, int count) {
    uint64_t low = (uint64_t)value, high = (uint64_t)((wide)value >> 64);
    if (count >= 64) return (__int128)joined(low << (count - 64), 0);
    if (count == 0) return value;
    return (__int128)joined(high << count | low >> (64 - count), low << count);
}

__int128 __lshrti3(__int128 value, int count) {
    uint64_t low = (uint64_t)value, high = (uint64_t)((wide)value >> 64);
    if (count >= 64) return (__int128)joined(0, high >> (count - 64));
    if (count == 0) return value;
    return (__int128)joined(high >> count, low >> count | high << (64 - count));
}
