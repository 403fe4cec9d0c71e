/* The log as a firmware of the board: operation i puts a value under a key, of which both go by i. */
#include "board.h"
#include "kvlog.h"

#define USED_KEYS 5

static struct kv kv;

static uint32_t key_of(uint32_t i)
{
    return mixed(i) % USED_KEYS;
}

static uint32_t size_of(uint32_t i)
{
    static const uint8_t sizes[] = {8, 20, 44, 92};
    return sizes[mixed(i + 1000) % 4];
}

static uint32_t word_of(uint32_t i, uint32_t at)
{
    return at == 0 ? i : mixed(i << 8 | at);
}

void mount(void)
{
    kv_mount(&kv, NVM, NVM_BYTES);
}

void operation(uint32_t i)
{
    static uint32_t value[KV_MOST / 4];
    for (uint32_t at = 0; at < size_of(i) / 4; at++)
        value[at] = word_of(i, at);
#ifdef BUG_ACK_EARLY
    acknowledge(i);
#endif
    if (kv_put(&kv, key_of(i), value, size_of(i)) != 0) {
        say("full: the log takes no more");
        HOST_END = 1;
    }
#ifndef BUG_ACK_EARLY
    acknowledge(i);
#endif
}

static int is_value_of(uint32_t i, uint32_t key, const uint32_t *value, uint32_t size)
{
    if (key_of(i) != key || size_of(i) != size)
        return 0;
    for (uint32_t at = 0; at < size / 4; at++)
        if (value[at] != word_of(i, at))
            return 0;
    return 1;
}

static int is_wrong(const char *what, uint32_t key, const char *has, uint32_t number, const char *but)
{
    say(what);
    say_number(key);
    say(has);
    say_number(number);
    say(but);
    return 0;
}

/* Whether a key has the value of the last acknowledged operation that put one, or that of the one that was under way. */
static int is_key_right(uint32_t key, uint32_t done)
{
    static uint32_t value[KV_MOST / 4];
    int size = kv_get(&kv, key, value, sizeof value);
    uint32_t newest = done;
    while (newest > 0 && key_of(newest - 1) != key)
        newest--; /* (it is operation newest - 1) */
    if (size < 0 && newest == 0)
        return 1;
    if (size < 0)
        return is_wrong("lost: key ", key, " has no value, operation ", newest - 1, " was acknowledged");
    if (value[0] > done || !is_value_of(value[0], key, value, (uint32_t)size))
        return is_wrong("garbage: the value of key ", key, " was never put, of ", (uint32_t)size, " bytes");
    if (value[0] + 1 != newest && value[0] != done)
        return is_wrong("stale: key ", key, " has operation ", value[0], ", a later one was acknowledged");
    return 1;
}

int is_right(uint32_t done)
{
    for (uint32_t key = 0; key < USED_KEYS; key++)
        if (!is_key_right(key, done))
            return 0;
    return 1;
}
