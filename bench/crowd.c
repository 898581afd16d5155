/* Writes names of attributes, one a line, that share a bucket of a table by hashes.
 *
 * usage: crowd COUNT BITS
 *
 * The hash is that of std's tables and `DefaultHasher`: SipHash-1-3 with keys of zeros, over the name and a byte 255, both halves of
 * the result xored. Those of the names end in BITS zero bits. They are found by trying: 2^BITS names for each one, some
 * hundred million names a second. */
#include <inttypes.h>
#include <stdio.h>
#include <stdlib.h>

static const char LETTERS[] = "ABCDEFGHIJKLMNOPQRSTUVWXYZabcdefghijklmnopqrstuvwxyz0123456789._";

enum { PAIRS = 64 * 64 };

static uint64_t rotated(uint64_t x, int by) { return x << by | x >> (64 - by); }

/* The folded hash of a name of six bytes: they, the byte 255 and the length are one block. */
static uint32_t hash(uint64_t block) {
    uint64_t a = 0x736f6d6570736575, b = 0x646f72616e646f6d, c = 0x6c7967656e657261, d = 0x7465646279746573 ^ block;
    for (int round = 0; round < 4; round++) {
        a += b, c += d, b = rotated(b, 13) ^ a, d = rotated(d, 16) ^ c, a = rotated(a, 32);
        c += b, a += d, b = rotated(b, 17) ^ c, d = rotated(d, 21) ^ a, c = rotated(c, 32);
        if (round == 0)
            a ^= block, c ^= 0xff;
    }
    uint64_t all = a ^ b ^ c ^ d;
    return (uint32_t)(all ^ all >> 32);
}

/* The hashes of the names that begin with each pair of letters and then are alike. */
__attribute__((target_clones("avx2", "default"))) static void hash_all(const uint64_t *pairs, uint64_t rest, uint32_t *hashes) {
    for (int k = 0; k < PAIRS; k++)
        hashes[k] = hash(pairs[k] | rest);
}

int main(int count, char **words) {
    if (count != 3)
        return fprintf(stderr, "usage: crowd COUNT BITS\n"), 2;
    long wanted = atol(words[1]);
    uint32_t mask = ((uint32_t)1 << atoi(words[2])) - 1;
    static uint64_t pairs[PAIRS];
    static uint32_t hashes[PAIRS];
    for (int k = 0; k < PAIRS; k++)
        pairs[k] = (uint64_t)LETTERS[k / 64] | (uint64_t)LETTERS[k % 64] << 8;
    for (int rest = 0; rest < PAIRS * PAIRS; rest++) {
        uint64_t more = pairs[rest / PAIRS] << 16 | pairs[rest % PAIRS] << 32;
        hash_all(pairs, more | (uint64_t)0xff << 48 | (uint64_t)7 << 56, hashes);
        for (int k = 0; k < PAIRS; k++) {
            if (hashes[k] & mask)
                continue;
            if (wanted-- == 0)
                return 0;
            uint64_t name = pairs[k] | more;
            for (int at = 0; at < 48; at += 8)
                putchar((int)(name >> at & 0xff));
            putchar('\n');
        }
    }
    return fprintf(stderr, "crowd: there are fewer such names\n"), 1;
}
