#include "sha256.h"

#include <stdint.h>
#include <stdio.h>
#include <string.h>

#define PART 64u      /* octets that are taken in at a time */
#define LENGTH_AT 56u /* where the length in bits stands in the last part */
#define ROUNDS 64

/* The first 32 bits of the fractions of the cube roots of the first 64 primes. */
static const uint32_t constants[ROUNDS] = {
    0x428a2f98, 0x71374491, 0xb5c0fbcf, 0xe9b5dba5, 0x3956c25b, 0x59f111f1, 0x923f82a4, 0xab1c5ed5,
    0xd807aa98, 0x12835b01, 0x243185be, 0x550c7dc3, 0x72be5d74, 0x80deb1fe, 0x9bdc06a7, 0xc19bf174,
    0xe49b69c1, 0xefbe4786, 0x0fc19dc6, 0x240ca1cc, 0x2de92c6f, 0x4a7484aa, 0x5cb0a9dc, 0x76f988da,
    0x983e5152, 0xa831c66d, 0xb00327c8, 0xbf597fc7, 0xc6e00bf3, 0xd5a79147, 0x06ca6351, 0x14292967,
    0x27b70a85, 0x2e1b2138, 0x4d2c6dfc, 0x53380d13, 0x650a7354, 0x766a0abb, 0x81c2c92e, 0x92722c85,
    0xa2bfe8a1, 0xa81a664b, 0xc24b8b70, 0xc76c51a3, 0xd192e819, 0xd6990624, 0xf40e3585, 0x106aa070,
    0x19a4c116, 0x1e376c08, 0x2748774c, 0x34b0bcb5, 0x391c0cb3, 0x4ed8aa4a, 0x5b9cca4f, 0x682e6ff3,
    0x748f82ee, 0x78a5636f, 0x84c87814, 0x8cc70208, 0x90befffa, 0xa4506ceb, 0xbef9a3f7, 0xc67178f2,
};

static uint32_t turned(uint32_t x, unsigned by)
{
    return x >> by | x << (32 - by);
}

/* The 16 words of a part, and 48 more that follow from them. */
static void schedule(uint32_t w[ROUNDS], const uint8_t *part)
{
    for (size_t i = 0; i < 16; i++) {
        w[i] = (uint32_t)part[4 * i] << 24 | (uint32_t)part[4 * i + 1] << 16 | (uint32_t)part[4 * i + 2] << 8 |
               part[4 * i + 3];
    }
    for (size_t i = 16; i < ROUNDS; i++) {
        uint32_t s0 = turned(w[i - 15], 7) ^ turned(w[i - 15], 18) ^ w[i - 15] >> 3;
        uint32_t s1 = turned(w[i - 2], 17) ^ turned(w[i - 2], 19) ^ w[i - 2] >> 10;

        w[i] = w[i - 16] + s0 + w[i - 7] + s1;
    }
}

static void take_part(uint32_t hash[8], const uint8_t *part)
{
    uint32_t w[ROUNDS], v[8];

    schedule(w, part);
    memcpy(v, hash, sizeof v);
    for (size_t i = 0; i < ROUNDS; i++) {
        uint32_t s1 = turned(v[4], 6) ^ turned(v[4], 11) ^ turned(v[4], 25);
        uint32_t t1 = v[7] + s1 + ((v[4] & v[5]) ^ (~v[4] & v[6])) + constants[i] + w[i];
        uint32_t s0 = turned(v[0], 2) ^ turned(v[0], 13) ^ turned(v[0], 22);
        uint32_t t2 = s0 + ((v[0] & v[1]) ^ (v[0] & v[2]) ^ (v[1] & v[2]));

        memmove(v + 1, v, 7 * sizeof v[0]);
        v[4] += t1;
        v[0] = t1 + t2;
    }
    for (size_t i = 0; i < 8; i++) {
        hash[i] += v[i];
    }
}

/* The octets after the last whole part, the bit that ends them, and the length in bits. */
static void take_end(uint32_t hash[8], const uint8_t *octets, size_t count)
{
    uint8_t last[2 * PART] = {0};
    size_t left = count % PART;
    size_t size = left < LENGTH_AT ? PART : 2 * PART;
    uint64_t bits = (uint64_t)count * 8;

    memcpy(last, octets + (count - left), left);
    last[left] = 0x80;
    for (size_t i = 0; i < 8; i++) {
        last[size - 1 - i] = (uint8_t)(bits >> 8 * i);
    }
    take_part(hash, last);
    if (size > PART) {
        take_part(hash, last + PART);
    }
}

void sha256_hex(const void *octets, size_t count, char hex[SHA256_DIGITS + 1])
{
    uint32_t hash[8] = {0x6a09e667, 0xbb67ae85, 0x3c6ef372, 0xa54ff53a, 0x510e527f, 0x9b05688c, 0x1f83d9ab, 0x5be0cd19};

    for (size_t at = 0; count - at >= PART; at += PART) {
        take_part(hash, (const uint8_t *)octets + at);
    }
    take_end(hash, octets, count);
    for (size_t i = 0; i < 8; i++) {
        snprintf(hex + 8 * i, 9, "%08x", (unsigned)hash[i]);
    }
}
