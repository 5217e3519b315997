/* Compares the calls of web/wide.c with the processor's own numbers of 128 bits. */
#include "../../web/wide.c"
#include <stdio.h>

static u64 state = 1;

/* A number whose bits are most often all equal in many places. */
static u64 drawn(void) {
    state = state * 6364136223846793005u + 1442695040888963407u;
    u64 bits = state >> 11 | state << 53;
    switch (state >> 61) {
    case 0: return 0;
    case 1: return ~(u64)0;
    case 2: return (u64)1 << (bits & 63);
    case 3: return bits >> (bits & 63);
    default: return bits;
    }
}

int main(void) {
    for (int count = 0; count < 1000000; count++) {
        u128 a = (u128)drawn() << 64 | drawn(), b = (u128)drawn() << 64 | drawn();
        int by = (int)(drawn() & 127);
        if (__multi3(a, b) != a * b || __ashlti3(a, by) != a << by || __lshrti3(a, by) != a >> by) {
            printf("wrong at %d, by %d\n", count, by);
            return 1;
        }
    }
    return 0;
}
