/* Counts what a drawn trace asks of each bank of a module, for bench/parts, which compares it with what parts tell. It is written from
   docs/FORMATS.md alone, and shares nothing with the passes of python/pcm.

       counts SEED ROWS PERCENT CUTS STEP HOT LINES BYTES BANKS

   It prints `cuts N`, then `BANK READS WRITES` for each bank. LINES is a power of two. */
#include <inttypes.h>
#include <stdint.h>
#include <stdio.h>
#include <stdlib.h>

typedef struct {
    uint64_t a, b, c, d;
} generator;

static uint64_t turn(uint64_t x, unsigned k) { return (x << k) | (x >> (64 - k)); }

static inline uint64_t next(generator *g)
{
    uint64_t result = turn(g->a + g->d, 23) + g->a;
    generator old = *g;
    g->b = old.b ^ old.c ^ old.a;
    g->a = old.a ^ old.d ^ old.b;
    g->c = old.c ^ old.a ^ (old.b << 17);
    g->d = turn(old.d ^ old.b, 45);
    return result;
}

/* SplitMix64: its word number k. */
static uint64_t mixed(uint64_t seed, uint64_t k)
{
    uint64_t z = seed + k * UINT64_C(0x9E3779B97F4A7C15);
    z = (z ^ (z >> 30)) * UINT64_C(0xBF58476D1CE4E5B9);
    z = (z ^ (z >> 27)) * UINT64_C(0x94D049BB133111EB);
    return z ^ (z >> 31);
}

/* Where a line stands: a Feistel network of three rounds over its two halves, the lower of which has `half` bits. */
static uint64_t placed(uint64_t line, uint64_t seed, unsigned bits)
{
    unsigned half = bits / 2;
    uint64_t upper = line >> half, lower = line % (UINT64_C(1) << half);
    for (unsigned round = 1; round <= 3; round++) {
        uint64_t from = round % 2 ? lower : upper, mixes = from ^ (mixed(seed, round) % 65536);
        if (round % 2)
            upper ^= (mixes * mixes) % (UINT64_C(1) << (bits - half));
        else
            lower ^= (mixes * mixes) % (UINT64_C(1) << half);
    }
    return (upper << half) + lower;
}

int main(int count, char **words)
{
    static uint64_t asked[64][2], found[10];
    if (count != 10)
        return 2;
    for (int i = 1; i < 10; i++)
        found[i] = strtoull(words[i], NULL, 10);
    const uint64_t seed = found[1], rows = found[2], percent = found[3], cuts = found[4], hot = found[6], lines = found[7];
    const uint64_t bytes = found[8], banks = found[9], of_bank = lines / banks, part = rows / (cuts + 1) ? rows / (cuts + 1) : 1;
    unsigned bits = 0;
    uint64_t came = 0, due = part, *bank_of = malloc(lines * sizeof *bank_of);
    if (!bank_of)
        return 7;
    while ((UINT64_C(1) << bits) < lines)
        bits++;
    for (uint64_t line = 0; line < lines; line++)
        bank_of[line] = placed(line, seed, bits) / of_bank;
    generator g = {mixed(seed, 1), mixed(seed, 2), mixed(seed, 3), mixed(seed, 4)};
    for (uint64_t row = 1; row <= rows; row++) {
        (void)next(&g); /* (the ticks, by the option step) */
        if (row == due && came < cuts) {
            came++;
            due += part;
            continue;
        }
        uint64_t word = next(&g), among = hot && (word >> 40) % 10 < 9 ? (hot < lines ? hot : lines) : lines;
        int writes = (word >> 32) % 100 < percent;
        asked[bank_of[word % among]][writes]++;
        for (uint64_t i = 0; writes && i < bytes / 8; i++)
            (void)next(&g);
    }
    printf("cuts %" PRIu64 "\n", came);
    for (uint64_t bank = 0; bank < banks; bank++)
        printf("%" PRIu64 " %" PRIu64 " %" PRIu64 "\n", bank, asked[bank][0], asked[bank][1]);
    return 0;
}
