/* Multiplication and division, which the machine doesn't have. The functions of the compiler's library decide by branches what
   they add and take away, and what a branch decides has no sources. These compute each bit, so that under the linkage `data` a
   result has the sources of both operands. The product of 64 bits is in machine.S. Division by 0 gives all ones, and the
   dividend as the rest, as the compiler's functions do. */
#include <stdint.h>

typedef unsigned __int128 uint128_t;

/* All ones for a bit of 1, 0 for 0. The compiler knows no more of it, so that it makes no branch. */
static inline uint64_t mask_of(uint64_t bit)
{
    uint64_t mask = -bit;
    __asm__("" : "+r"(mask));
    return mask;
}

uint128_t __multi3(uint128_t a, uint128_t b)
{
    uint64_t low = (uint64_t)a, high = (uint64_t)(a >> 64), low_sum = 0, high_sum = 0;
    for (; b != 0; b >>= 1) {
        uint64_t mask = mask_of((uint64_t)b & 1), added = low & mask;
        low_sum += added;
        high_sum += (high & mask) + (low_sum < added);
        high = high << 1 | low >> 63;
        low <<= 1;
    }
    return (uint128_t)high_sum << 64 | low_sum;
}

struct division {
    uint64_t quotient, rest;
};

static inline struct division divide(uint64_t dividend, uint64_t divisor)
{
    if (divisor == 0)
        return (struct division){UINT64_MAX, dividend};
    int shift = 0;
    for (; divisor < dividend && divisor >> 63 == 0; shift++)
        divisor <<= 1;
    uint64_t quotient = 0;
    for (; shift >= 0; shift--, divisor >>= 1) {
        uint64_t bit = dividend >= divisor;
        dividend -= divisor & mask_of(bit);
        quotient = quotient << 1 | bit;
    }
    return (struct division){quotient, dividend};
}

/* A number without its sign, and a number with a sign of all ones or none. */
static inline uint64_t size_of(int64_t number)
{
    uint64_t sign = (uint64_t)(number >> 63);
    return ((uint64_t)number ^ sign) - sign;
}

static inline int64_t with_sign(uint64_t size, int64_t sign)
{
    return (int64_t)((size ^ (uint64_t)sign) - (uint64_t)sign);
}

uint64_t __udivdi3(uint64_t dividend, uint64_t divisor)
{
    return divide(dividend, divisor).quotient;
}

uint64_t __umoddi3(uint64_t dividend, uint64_t divisor)
{
    return divide(dividend, divisor).rest;
}

int64_t __divdi3(int64_t dividend, int64_t divisor)
{
    if (divisor == 0)
        return -1;
    return with_sign(divide(size_of(dividend), size_of(divisor)).quotient, (dividend ^ divisor) >> 63);
}

int64_t __moddi3(int64_t dividend, int64_t divisor)
{
    return with_sign(divide(size_of(dividend), size_of(divisor)).rest, dividend >> 63);
}

uint32_t __udivsi3(uint32_t dividend, uint32_t divisor)
{
    return (uint32_t)__udivdi3(dividend, divisor);
}

uint32_t __umodsi3(uint32_t dividend, uint32_t divisor)
{
    return (uint32_t)__umoddi3(dividend, divisor);
}

int32_t __divsi3(int32_t dividend, int32_t divisor)
{
    return (int32_t)__divdi3(dividend, divisor);
}

int32_t __modsi3(int32_t dividend, int32_t divisor)
{
    return (int32_t)__moddi3(dividend, divisor);
}
