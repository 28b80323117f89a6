/* The product of two numbers of 128 bits, which LLVM's code calls where a product of 64 bits is tested for overflow. No
 * proof covers it. */
#include "types.h"

typedef unsigned __int128 wide;

/* The whole product of two numbers of 64 bits, by the products of their halves. */
static wide product(uint64_t one, uint64_t other) {
    const uint64_t mask = 0xffffffff;
    uint64_t low = (one & mask) * (other & mask), first = (one & mask) * (other >> 32);
    uint64_t second = (one >> 32) * (other & mask), high = (one >> 32) * (other >> 32);
    uint64_t middle = (low >> 32) + (first & mask) + (second & mask);
    uint64_t above = high + (first >> 32) + (second >> 32) + (middle >> 32);
    return (wide)above << 64 | middle << 32 | (low & mask);
}

/* Modulo 2^128 the upper halves of both go into the upper half alone, and so signed numbers have the same product. */
__int128 __multi3(__int128 one, __int128 other) {
    uint64_t low = (uint64_t)one, other_low = (uint64_t)other;
    uint64_t high = (uint64_t)((wide)one >> 64), other_high = (uint64_t)((wide)other >> 64);
    wide lower = product(low, other_low);
    return (__int128)(lower + ((wide)(low * other_high + high * other_low) << 64));
}
