// Prints keys of eight letters whose hashes in the library's `HashMap` agree in their low bits: the hasher's seed is
// fixed, so anyone can find them. Usage: chosen_keys COUNT BITS
#include <stdint.h>
#include <stdio.h>
#include <stdlib.h>
#include <string.h>

#define SEED 0x243f6a8885a308d3ULL
#define MULTIPLIER 0x9e3779b97f4a7c15ULL

static uint64_t folded(uint64_t a, uint64_t b) {
    unsigned __int128 product = (unsigned __int128)a * b;
    return (uint64_t)product ^ (uint64_t)(product >> 64);
}

static uint32_t hash(const char *key) {
    uint64_t word;
    memcpy(&word, key, 8);
    uint64_t state = folded(SEED ^ word, MULTIPLIER ^ 16);
    // The byte that std writes after each text.
    state = folded(state ^ 0xffffffULL, MULTIPLIER ^ 2);
    return (uint32_t)(state ^ (state >> 32));
}

int main(int count, char **words) {
    if (count != 3)
        return 2;
    static const char letters[] = "abcdefghijklmnopqrstuvwxyz012345";
    long left = atol(words[1]);
    uint32_t mask = (1u << atoi(words[2])) - 1, wanted = 0;
    for (uint64_t number = 0; left > 0; number++) {
        char key[8];
        for (int i = 0; i < 8; i++)
            key[7 - i] = letters[number >> (5 * i) & 31];
        uint32_t found = hash(key) & mask;
        if (number == 0)
            wanted = found;
        if (found == wanted) {
            fwrite(key, 1, 8, stdout);
            left--;
        }
    }
    return 0;
}
