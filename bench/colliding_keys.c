// Keys of four octets that the hash of groups puts into one place, for `bench/hostile_costs`, which compiles this file:
//
//     colliding_keys COUNT
//
// Writes so many of them, four octets each, the lowest first. The hash is the kit's FoldHasher with its fixed seed, over where the
// interval starts, the number of the key's octets, and each of them. Wanted is 0 in its 14 lowest bits.
#include <stdint.h>
#include <stdio.h>
#include <stdlib.h>

#define START 1700000100000ull
#define MULTIPLIER 0x9e3779b97f4a7c15ull
#define SEED 0x243f6a8885a308d3ull

static uint64_t fold(uint64_t state, uint64_t word, uint64_t octets) {
    unsigned __int128 product = (unsigned __int128)(state ^ word) * (MULTIPLIER ^ (2 * octets));
    return (uint64_t)product ^ (uint64_t)(product >> 64);
}

int main(int argc, char **argv) {
    long wanted = argc > 1 ? atol(argv[1]) : 0;
    uint64_t begin = fold(fold(SEED, START, 8), 4, 8);
    for (uint64_t key = 0; key >> 32 == 0 && wanted > 0; key++) {
        uint64_t state = begin;
        for (int shift = 24; shift >= 0; shift -= 8) {
            uint64_t octet = key >> shift & 255;
            state = fold(state, octet | octet << 8 | octet << 16, 1);
        }
        if (((state ^ state >> 32) & 0x3fff) == 0) {
            uint32_t found = (uint32_t)key;
            fwrite(&found, sizeof found, 1, stdout);
            wanted--;
        }
    }
    return wanted > 0;
}
