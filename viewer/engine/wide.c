// Arithmetic on 128 bits, which the compiler calls by these names where the processor has none: shifts by 0 to 127, a product, a quotient and a rest.

typedef unsigned long u64;
typedef unsigned __int128 u128;
typedef struct { u64 low, high; } Halves;
typedef union { u128 whole; Halves half; } Wide;

u128 __ashlti3(u128 a, int by) {
    Wide x = {a}, moved = {.half = {0, x.half.low << (by & 63)}};
    if (by == 0) return a;
    if (by < 64) moved.half = (Halves){x.half.low << by, x.half.high << by | x.half.low >> (64 - by)};
    return moved.whole;
}

u128 __lshrti3(u128 a, int by) {
    Wide x = {a}, moved = {.half = {x.half.high >> (by & 63), 0}};
    if (by == 0) return a;
    if (by < 64) moved.half = (Halves){x.half.low >> by | x.half.high << (64 - by), x.half.high >> by};
    return moved.whole;
}

// The product of two numbers of 64 bits, by those of their halves.
static u128 product(u64 a, u64 b) {
    u64 a_low = (unsigned)a, a_high = a >> 32, b_low = (unsigned)b, b_high = b >> 32;
    u64 low = a_low * b_low, left = a_high * b_low, right = a_low * b_high;
    u64 middle = (low >> 32) + (unsigned)left + (unsigned)right;
    Wide made = {.half = {middle << 32 | (unsigned)low, a_high * b_high + (left >> 32) + (right >> 32) + (middle >> 32)}};
    return made.whole;
}

u128 __multi3(u128 a, u128 b) {
    Wide x = {a}, y = {b}, made = {product(x.half.low, y.half.low)};
    made.half.high += x.half.low * y.half.high + x.half.high * y.half.low;
    return made.whole;
}

// The quotient, and the rest behind the pointer, bit by bit from the highest. By zero, which no proved program divides, the quotient is all ones.
static u128 divided(u128 a, u128 b, u128 *rest) {
    Wide x = {a}, y = {b}, quotient = {0}, left = {0};
    if ((x.half.high | y.half.high) == 0 && y.half.low != 0) {
        *rest = x.half.low % y.half.low;
        return x.half.low / y.half.low;
    }
    for (int bit = 127; bit >= 0; bit--) {
        u64 next = bit >= 64 ? x.half.high >> (bit - 64) & 1 : x.half.low >> bit & 1;
        u64 over = left.half.high >> 63;
        left.half.high = left.half.high << 1 | left.half.low >> 63;
        left.half.low = left.half.low << 1 | next;
        quotient.half.high = quotient.half.high << 1 | quotient.half.low >> 63;
        quotient.half.low <<= 1;
        if (over || left.half.high > y.half.high || (left.half.high == y.half.high && left.half.low >= y.half.low)) {
            left.whole -= y.whole;
            quotient.half.low |= 1;
        }
    }
    *rest = left.whole;
    return quotient.whole;
}

u128 __udivti3(u128 a, u128 b) {
    u128 rest;
    return divided(a, b, &rest);
}

u128 __umodti3(u128 a, u128 b) {
    u128 rest;
    divided(a, b, &rest);
    return rest;
}
