/* The same chain step as the proved crates take, in plain C, to compare their speed:
   step KEY COUNT prints the key that COUNT steps down from KEY end on. */
#include <stdint.h>
#include <stdio.h>
#include <stdlib.h>
#include <string.h>

static uint32_t rotate(uint32_t x, uint32_t n) {
    n &= 31;
    return n ? (x << n) | (x >> (32 - n)) : x;
}

static uint32_t word(const uint8_t *p) {
    return (uint32_t)p[0] | (uint32_t)p[1] << 8 | (uint32_t)p[2] << 16 | (uint32_t)p[3] << 24;
}

static void set_up(uint32_t s[26], const uint8_t key[16]) {
    uint32_t l[4], a = 0, b = 0;
    for (int i = 0; i < 4; i++) l[i] = word(key + 4 * i);
    s[0] = 0xb7e15163;
    for (int i = 1; i < 26; i++) s[i] = s[i - 1] + 0x9e3779b9;
    for (int r = 0, i = 0, j = 0; r < 78; r++) {
        a = s[i] = rotate(s[i] + a + b, 3);
        b = l[j] = rotate(l[j] + a + b, a + b);
        i = i == 25 ? 0 : i + 1;
        j = j == 3 ? 0 : j + 1;
    }
}

static void encrypt(const uint32_t s[26], uint8_t block[8]) {
    uint32_t a = word(block) + s[0], b = word(block + 4) + s[1];
    for (int r = 1; r <= 12; r++) {
        a = rotate(a ^ b, b) + s[2 * r];
        b = rotate(b ^ a, a) + s[2 * r + 1];
    }
    for (int i = 0; i < 4; i++) {
        block[i] = a >> 8 * i;
        block[4 + i] = b >> 8 * i;
    }
}

/* the tag of the two bytes (purpose, half) */
static void tag(const uint32_t s[26], uint8_t purpose, uint8_t half, uint8_t out[8]) {
    memset(out, 0, 8);
    out[7] = 2;
    encrypt(s, out);
    out[0] ^= purpose;
    out[1] ^= half;
    encrypt(s, out);
}

int main(int argc, char **argv) {
    uint8_t key[16];
    uint32_t s[26];
    if (argc != 3 || strlen(argv[1]) != 32) return 1;
    for (int i = 0; i < 16; i++) {
        unsigned byte;
        if (sscanf(argv[1] + 2 * i, "%2x", &byte) != 1) return 1;
        key[i] = byte;
    }
    for (unsigned long n = strtoul(argv[2], NULL, 10); n > 0; n--) {
        set_up(s, key);
        tag(s, 1, 0, key);
        tag(s, 1, 1, key + 8);
    }
    for (int i = 0; i < 16; i++) printf("%02x", key[i]);
    putchar('\n');
    return 0;
}
