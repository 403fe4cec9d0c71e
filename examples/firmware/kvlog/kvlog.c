/* A half is a header of two words (generation; HEAD ^ generation, which is its commit word) and records behind it:
       commit word, key << 16 | size, the value's words
   A record counts where its commit word is RECORD ^ generation ^ its place: so nothing that an older generation left counts.
   The order that matters, each arrow a persist(): value -> commit word -> the call returns; and in a compaction: a generation that was
   never used -> all live records in the other half -> its header's commit word.

   BUG_.. plant one bug each; tools that cut the power must find them. */
#include "kvlog.h"
#include "board.h"

#define HEAD UINT32_C(0x4b564c47)
#define RECORD UINT32_C(0xc0de0000)
#define HEADER_WORDS 2

static volatile uint32_t *half_of(const struct kv *kv, uint32_t half)
{
    return kv->nvm + half * kv->half_words;
}

static uint32_t commit_of(uint32_t gen, uint32_t at)
{
#ifdef BUG_STALE /* a commit word that knows no generation */
    (void)gen;
    return RECORD ^ at;
#else
    return RECORD ^ gen << 8 ^ at;
#endif
}

static uint32_t words_of(uint32_t size)
{
    return 2 + (size + 3) / 4;
}

/* A word is stored; where the memory refused it, it is stored again. */
static void put_word(volatile uint32_t *to, uint32_t word)
{
    *to = word;
#ifndef BUG_NO_RETRY
    while (is_refused())
        *to = word;
#endif
}

static void put_words(volatile uint32_t *to, const uint32_t *words, uint32_t count)
{
    for (uint32_t i = 0; i < count; i++)
        put_word(to + i, words[i]);
}

/* A whole record at a place of a half, and its commit word behind it. */
static void put_record(struct kv *kv, uint32_t half, uint32_t gen, uint32_t at, uint32_t key, const uint32_t *value, uint32_t size)
{
    volatile uint32_t *to = half_of(kv, half) + at;
#ifdef BUG_COMMIT_FIRST
    put_word(to, commit_of(gen, at));
    persist(to, 4);
#endif
    put_word(to + 1, key << 16 | size);
    put_words(to + 2, value, words_of(size) - 2);
#ifndef BUG_NO_CLEAN
    persist(to + 1, 4 * (words_of(size) - 1));
#endif
#ifndef BUG_COMMIT_FIRST
    put_word(to, commit_of(gen, at));
#endif
#ifndef BUG_NO_CLEAN_COMMIT
    persist(to, 4);
#endif
}

/* Between the two a half has no header that counts. */
static void begin_header(struct kv *kv, uint32_t half, uint32_t gen)
{
    put_word(half_of(kv, half), gen);
    persist(half_of(kv, half), 4);
}
static void commit_header(struct kv *kv, uint32_t half, uint32_t gen)
{
    put_word(half_of(kv, half) + 1, HEAD ^ gen);
    persist(half_of(kv, half) + 1, 4);
}

/* Copies the live records into the other half, which then is the live one. */
static void compact(struct kv *kv, int is_boot)
{
    uint32_t value[KV_MOST / 4], other = 1 - kv->half, gen = kv->gen + 1, tail = HEADER_WORDS, at[KV_KEYS] = {0};
#ifndef BUG_GEN_AGAIN /* a compaction that a cut broke off has used its generation: its records mustn't count in the next one */
    if (half_of(kv, other)[0] >= gen)
        gen = half_of(kv, other)[0] + 1;
#endif
    int flips_first = 0;
#ifdef BUG_FLIP_FIRST
    flips_first = 1;
#endif
#ifdef BUG_FLIP_FIRST_AT_BOOT
    flips_first = is_boot;
#endif
    (void)is_boot;
    begin_header(kv, other, gen);
    if (flips_first)
        commit_header(kv, other, gen);
    for (uint32_t key = 0; key < KV_KEYS; key++) {
        int size = kv_get(kv, key, value, sizeof value);
        if (size < 0)
            continue;
        put_record(kv, other, gen, tail, key, value, (uint32_t)size);
        at[key] = tail;
        tail += words_of((uint32_t)size);
    }
    if (!flips_first)
        commit_header(kv, other, gen);
    kv->half = other;
    kv->gen = gen;
    kv->tail = tail;
    for (uint32_t key = 0; key < KV_KEYS; key++)
        kv->at[key] = at[key];
}

void kv_mount(struct kv *kv, volatile uint32_t *nvm, size_t bytes)
{
    kv->nvm = nvm;
    kv->half_words = (uint32_t)(bytes / 8);
    kv->gen = 0;
    for (uint32_t key = 0; key < KV_KEYS; key++)
        kv->at[key] = 0;
    for (uint32_t half = 0; half < 2; half++) {
        uint32_t gen = half_of(kv, half)[0];
        if (gen > kv->gen && half_of(kv, half)[1] == (HEAD ^ gen)) {
            kv->gen = gen;
            kv->half = half;
        }
    }
    kv->tail = HEADER_WORDS;
    if (kv->gen == 0) {
        kv->gen = 1;
        kv->half = 0;
        begin_header(kv, 0, 1);
        commit_header(kv, 0, 1);
        return;
    }
    volatile uint32_t *words = half_of(kv, kv->half);
    while (kv->tail + 2 <= kv->half_words && words[kv->tail] == commit_of(kv->gen, kv->tail)) {
        uint32_t head = words[kv->tail + 1], key = head >> 16, size = head & 0xffff;
        if (key >= KV_KEYS || size > KV_MOST || kv->tail + words_of(size) > kv->half_words)
            break;
        kv->at[key] = kv->tail;
        kv->tail += words_of(size);
    }
    /* (a half that is nearly full is made shorter now rather than within a put) */
    if (kv->tail > kv->half_words - kv->half_words / 4)
        compact(kv, 1);
}

int kv_get(const struct kv *kv, uint32_t key, void *value, size_t most)
{
    volatile uint32_t *words = half_of(kv, kv->half) + kv->at[key];
    if (key >= KV_KEYS || kv->at[key] == 0)
        return -1;
    uint32_t size = words[1] & 0xffff, copy[KV_MOST / 4];
    for (uint32_t i = 0; i < words_of(size) - 2; i++)
        copy[i] = words[2 + i];
    memcpy(value, copy, size < most ? size : most);
    return (int)size;
}

int kv_put(struct kv *kv, uint32_t key, const void *value, size_t size)
{
    uint32_t words[KV_MOST / 4] = {0};
    if (key >= KV_KEYS || size > KV_MOST)
        return -1;
    memcpy(words, value, size);
#ifdef BUG_IN_PLACE /* a value of the same size is written where the old one stands */
    volatile uint32_t *old = half_of(kv, kv->half) + kv->at[key];
    if (kv->at[key] != 0 && (old[1] & 0xffff) == size) {
        put_words(old + 2, words, words_of(size) - 2);
        persist(old + 2, size);
        return 0;
    }
#endif
    if (kv->tail + words_of((uint32_t)size) > kv->half_words)
        compact(kv, 0);
    if (kv->tail + words_of((uint32_t)size) > kv->half_words)
        return -1;
    put_record(kv, kv->half, kv->gen, kv->tail, key, words, (uint32_t)size);
    kv->at[key] = kv->tail;
    kv->tail += words_of((uint32_t)size);
    return 0;
}
