/* Multiplication and division: the machine has RV64I alone, so the compiler calls these functions instead.
   Their names are the compiler's. They use shifts, sums and comparisons only. A quotient by 0 has all bits
   set, and the remainder is then the dividend, as with the instructions of the extension M. */
#include <stdint.h>

struct division {
    uint64_t quotient;
    uint64_t remainder;
};

static struct division divide(uint64_t dividend, uint64_t divisor)
{
    struct division result = {0, dividend};
    int shift = 0;

    if (divisor == 0)
        return (struct division){UINT64_MAX, dividend};
    while (divisor <= dividend >> 1) {
        divisor <<= 1;
        shift++;
    }
    for (; shift >= 0; shift--) {
        result.quotient <<= 1;
        if (divisor <= result.remainder) {
            result.remainder -= divisor;
            result.quotient |= 1;
        }
        divisor >>= 1;
    }
    return result;
}

static uint64_t magnitude(int64_t value)
{
    return value < 0 ? -(uint64_t)value : (uint64_t)value;
}

uint64_t __muldi3(uint64_t left, uint64_t right)
{
    uint64_t product = 0;

    for (; right != 0; right >>= 1) {
        if (right & 1)
            product += left;
        left <<= 1;
    }
    return product;
}

uint64_t __udivdi3(uint64_t dividend, uint64_t divisor)
{
    return divide(dividend, divisor).quotient;
}

uint64_t __umoddi3(uint64_t dividend, uint64_t divisor)
{
    return divide(dividend, divisor).remainder;
}

int64_t __divdi3(int64_t dividend, int64_t divisor)
{
    uint64_t quotient = divide(magnitude(dividend), magnitude(divisor)).quotient;

    return divisor != 0 && (dividend < 0) != (divisor < 0) ? -quotient : quotient;
}

int64_t __moddi3(int64_t dividend, int64_t divisor)
{
    uint64_t remainder = divide(magnitude(dividend), magnitude(divisor)).remainder;

    return dividend < 0 ? -remainder : remainder;
}

int32_t __mulsi3(int32_t left, int32_t right)
{
    return __muldi3((uint32_t)left, (uint32_t)right);
}

uint32_t __udivsi3(uint32_t dividend, uint32_t divisor)
{
    return __udivdi3(dividend, divisor);
}

uint32_t __umodsi3(uint32_t dividend, uint32_t divisor)
{
    return __umoddi3(dividend, divisor);
}

int32_t __divsi3(int32_t dividend, int32_t divisor)
{
    return __divdi3(dividend, divisor);
}

int32_t __modsi3(int32_t dividend, int32_t divisor)
{
    return __moddi3(dividend, divisor);
}
