/* Arithmetic of 128 bits by that of 64: what the compiler calls where WebAssembly has no instruction. The names and what they do are
 * those of the compiler's own library, of which the kit has no copy for this target. */
#include "wide.h"

typedef __UINT64_TYPE__ uint64_t;
typedef __INT64_TYPE__ int64_t;

union parts {
    uint128 whole;
    struct {
        uint64_t low, high;
    };
};

static uint128 joined(uint64_t low, uint64_t high)
{
    union parts made = {.low = low, .high = high};
    return made.whole;
}

/* The whole product of two numbers of 64 bits, by their halves. The empty asm hides one of them: a compiler that sees all of it takes
 * it for a product of 128 bits, and calls __multi3. */
static uint128 product(uint64_t one, uint64_t other)
{
    uint64_t half = 0xffffffff;
    uint64_t low = (one & half) * (other & half), cross = (one >> 32) * (other & half);
    __asm__("" : "+r"(cross));
    uint64_t middle = (low >> 32) + (cross & half) + (one & half) * (other >> 32); /* below 2^64: 2^32 - 1 twice, and their square */
    return joined((low & half) | middle << 32, (one >> 32) * (other >> 32) + (cross >> 32) + (middle >> 32));
}

uint128 __multi3(uint128 one, uint128 other)
{
    union parts left = {one}, right = {other}, made = {product(left.low, right.low)};
    made.high += left.low * right.high + left.high * right.low;
    return made.whole;
}

uint128 __ashlti3(uint128 number, int places)
{
    union parts it = {number};
    if (places == 0)
        return number;
    if (places >= 64)
        return joined(0, it.low << (places - 64));
    return joined(it.low << places, it.high << places | it.low >> (64 - places));
}

uint128 __lshrti3(uint128 number, int places)
{
    union parts it = {number};
    if (places == 0)
        return number;
    if (places >= 64)
        return joined(it.high >> (places - 64), 0);
    return joined(it.low >> places | it.high << (64 - places), it.high >> places);
}

uint128 __ashrti3(uint128 number, int places)
{
    union parts it = {number};
    int64_t high = (int64_t)it.high;
    if (places == 0)
        return number;
    if (places >= 64)
        return joined((uint64_t)(high >> (places - 64)), (uint64_t)(high >> 63));
    return joined(it.low >> places | it.high << (64 - places), (uint64_t)(high >> places));
}

static int is_less(union parts one, union parts other)
{
    return one.high < other.high || (one.high == other.high && one.low < other.low);
}

static union parts difference(union parts one, union parts other)
{
    return (union parts){.low = one.low - other.low, .high = one.high - other.high - (one.low < other.low)};
}

/* How many bits in front of a number's first one are 0. The number is not 0. */
static int zeros(union parts number)
{
    return number.high ? __builtin_clzl(number.high) : 64 + __builtin_clzl(number.low);
}

/* The quotient, with the rest in `rest`: bit by bit, from the first at which the divisor may fit. The divisor is not 0: that of
 * proved code is not. */
static uint128 divided(uint128 number, uint128 divisor, union parts *rest)
{
    union parts left = {number}, by = {divisor}, quotient = {0};
    *rest = left;
    if (!left.high && !by.high) {
        rest->low = left.low % by.low;
        return left.low / by.low;
    }
    if (is_less(left, by))
        return 0;
    for (int place = zeros(by) - zeros(left); place >= 0; place--) {
        union parts shifted = {__ashlti3(divisor, place)};
        if (is_less(*rest, shifted))
            continue;
        *rest = difference(*rest, shifted);
        if (place >= 64)
            quotient.high |= 1ul << (place - 64);
        else
            quotient.low |= 1ul << place;
    }
    return quotient.whole;
}

uint128 __udivti3(uint128 number, uint128 divisor)
{
    union parts rest;
    return divided(number, divisor, &rest);
}

uint128 __umodti3(uint128 number, uint128 divisor)
{
    union parts rest;
    divided(number, divisor, &rest);
    return rest.whole;
}

/* The number without its sign, as which its highest bit is read. */
static uint128 magnitude(uint128 number)
{
    union parts it = {number};
    return it.high >> 63 ? 0 - number : number;
}

/* Both numbers have signs, and what is not whole is cut off. */
uint128 __divti3(uint128 number, uint128 divisor)
{
    union parts one = {number}, other = {divisor}, rest;
    uint128 quotient = divided(magnitude(number), magnitude(divisor), &rest);
    return (one.high ^ other.high) >> 63 ? 0 - quotient : quotient;
}
