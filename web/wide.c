/* Numbers of 128 bits: compiled code multiplies and shifts them by these names, which a compiler's library has elsewhere. */
typedef unsigned long u64;
typedef unsigned __int128 u128;
typedef union { u128 whole; struct { u64 low, high; } part; } wide;

#define LOW(n) ((n) & 0xffffffff)
#define HIGH(n) ((n) >> 32)

u128 __multi3(u128 one, u128 other) {
    wide a = { one }, b = { other }, result;
    u64 lows = LOW(a.part.low) * LOW(b.part.low);
    u64 first = HIGH(a.part.low) * LOW(b.part.low) + HIGH(lows);
    u64 second = LOW(a.part.low) * HIGH(b.part.low) + LOW(first);
    result.part.low = second << 32 | LOW(lows);
    result.part.high = HIGH(a.part.low) * HIGH(b.part.low) + HIGH(first) + HIGH(second)
        + a.part.high * b.part.low + a.part.low * b.part.high;
    return result.whole;
}

u128 __ashlti3(u128 number, int by) {
    wide a = { number }, result;
    if (by == 0) return number;
    result.part.low = by < 64 ? a.part.low << by : 0;
    result.part.high = by < 64 ? a.part.high << by | a.part.low >> (64 - by) : a.part.low << (by - 64);
    return result.whole;
}

u128 __lshrti3(u128 number, int by) {
    wide a = { number }, result;
    if (by == 0) return number;
    result.part.high = by < 64 ? a.part.high >> by : 0;
    result.part.low = by < 64 ? a.part.low >> by | a.part.high << (64 - by) : a.part.high >> (by - 64);
    return result.whole;
}
