// Writes a source of at most 1,048,576 bytes whose labels all begin their search at the first groups of a table of 8,192 groups under the
// kit's FoldHasher, whose seed is fixed: the dearest labels for a map that hashes them so.
#include <inttypes.h>
#include <stdint.h>
#include <stdio.h>

enum { LABELS = 69800, LENGTH = 8, GROUPS = 8192, FIRST = 8 };
static const uint64_t multiplier = 0x9e3779b97f4a7c15, seed = 0x243f6a8885a308d3;

static uint64_t folded(uint64_t a, uint64_t b)
{
    unsigned __int128 product = (unsigned __int128)a * b;
    return (uint64_t)product ^ (uint64_t)(product >> 64);
}

// The hash of a list of bytes so far, after one byte more.
static uint64_t after(uint64_t state, unsigned char byte)
{
    uint64_t read = (uint64_t)byte | (uint64_t)byte << 8 | (uint64_t)byte << 16;
    return folded(state ^ read, multiplier ^ 2);
}

int main(void)
{
    static const char signs[] = "0123456789ABCDEFGHIJKLMNOPQRSTUVWXYZ";
    uint64_t length = folded(seed ^ LENGTH, multiplier ^ 16);
    char label[LENGTH + 1] = {0};
    int found = 0;
    puts(" CODE");
    for (uint32_t number = 0; found < LABELS; number++) {
        uint64_t state = length, rest = number;
        label[0] = 'L';
        for (int i = 1; i < LENGTH; i++, rest /= 36) label[i] = signs[rest % 36];
        for (int i = 0; i < LENGTH; i++) state = after(state, (unsigned char)label[i]);
        if (((uint32_t)(state ^ state >> 32) & (GROUPS - 1)) >= FIRST) continue;
        printf("%s TRA 0\n", label);
        found++;
    }
    puts(" END");
    return 0;
}
