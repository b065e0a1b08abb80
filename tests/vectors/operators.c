/* What the operators make of edges, worked out by a C compiler: the stdout that is expected of crates/words_vectors.
 *
 * mkdir -p target && cc -O1 -Wall -o target/operators tests/vectors/operators.c && target/operators > crates/words_vectors/stdout
 */
#include <inttypes.h>
#include <stdint.h>
#include <stdio.h>

static const uint32_t edges[] = {0, 1, 31, 32, 33, 0x7fffffff, 0x80000000, 0x80000001, 0xffffffff, 0x12345678};

static uint32_t apply(int o, uint32_t a, uint32_t b) {
    switch (o) {
    case 0: return a + b;
    case 1: return a - b;
    case 2: return a * b;
    case 3: return (uint32_t)((uint64_t)a * b >> 32);
    case 4: return b ? a / b : 0xffffffff;
    case 5: return b ? a % b : a;
    case 6: return a & b;
    case 7: return a | b;
    case 8: return a ^ b;
    case 9: return a >> (b & 31);
    case 10: return a << (b & 31);
    case 11: return (uint32_t)((int32_t)a >> (b & 31));
    case 12: return (int32_t)a < (int32_t)b;
    case 13: return a < b;
    default: return a == b;
    }
}

int main(void) {
    static const char *names[] = {"add", "sub", "mul", "mul-high", "div", "rem", "and", "or", "xor",
        "shift-right", "shift-left", "shift-signed", "less-signed", "less", "equal"};
    int n = sizeof edges / sizeof edges[0];
    for (int o = 0; o < 15; o++)
        for (int i = 0; i < n; i++)
            for (int k = 0; k < n; k++)
                printf("%s %08" PRIx32 " %08" PRIx32 " %08" PRIx32 "\n", names[o], edges[i], edges[k], apply(o, edges[i], edges[k]));
    return 0;
}
