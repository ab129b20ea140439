/* Numbers of 128 bits, under the names by which clang calls for them on a machine that has none: as
 * many of these as the library asks for. */
typedef __UINT64_TYPE__ word;
typedef unsigned __int128 wide;

static wide joined(word high, word low) {
    return ((wide)high << 64) | low;
}

wide __ashlti3(wide a, int by) {
    word high = (word)(a >> 64), low = (word)a;
    if (by == 0)
        return a;
    return by < 64 ? joined((high << by) | (low >> (64 - by)), low << by) : joined(low << (by - 64), 0);
}

wide __lshrti3(wide a, int by) {
    word high = (word)(a >> 64), low = (word)a;
    if (by == 0)
        return a;
    return by < 64 ? joined(high >> by, (low >> by) | (high << (64 - by))) : joined(0, high >> (by - 64));
}

/* The product of two numbers of 64 bits. */
static wide product(word a, word b) {
    const word half = 0xffffffff;
    word lowest = (a & half) * (b & half);
    word middle = (a >> 32) * (b & half) + (lowest >> 32);
    word other = (a & half) * (b >> 32) + (middle & half);
    return joined((a >> 32) * (b >> 32) + (middle >> 32) + (other >> 32), (other << 32) | (lowest & half));
}

/* The product modulo 2 to the 128, also of numbers with a sign. */
wide __multi3(wide a, wide b) {
    word crossed = (word)a * (word)(b >> 64) + (word)(a >> 64) * (word)b;
    return product((word)a, (word)b) + joined(crossed, 0);
}

/* The quotient, a bit at a time from the highest. What is left stays below `b`, so twice that and a bit
 * are below twice `b`. */
wide __udivti3(wide a, wide b) {
    wide quotient = 0, left = 0;
    for (int step = 0; step < 128; step++) {
        bool is_over = left >> 127;
        left = (left << 1) | (a >> 127);
        a <<= 1;
        bool fits = is_over || left >= b;
        left -= fits ? b : 0;
        quotient = (quotient << 1) | fits;
    }
    return quotient;
}
