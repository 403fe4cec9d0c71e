/* A configuration in two slots: each write goes to the slot that isn't in use, and the one with the greater number whose sum is right counts.
   With -DTRUSTS_NUMBERS the sum isn't looked at, as if a slot that has a number were whole; with -DONE_SLOT it is written where it stands. */
#include "board.h"

#define WORDS 12

struct slot {
    uint32_t number; /* of the write that filled it, from 1; 0: none did */
    uint32_t words[WORDS];
    uint32_t sum;
};

static uint32_t used; /* the slot that counts */

static volatile struct slot *slot(uint32_t which)
{
    return (volatile struct slot *)NVM + which;
}

static uint32_t sum_of(const volatile struct slot *it)
{
    uint32_t sum = mixed(it->number);
    for (uint32_t i = 0; i < WORDS; i++)
        sum = mixed(sum ^ it->words[i]);
    return sum;
}

static int is_whole(uint32_t which)
{
#ifdef TRUSTS_NUMBERS
    return slot(which)->number != 0;
#else
    return slot(which)->number != 0 && slot(which)->sum == sum_of(slot(which));
#endif
}

void mount(void)
{
    used = is_whole(1) && (!is_whole(0) || slot(1)->number > slot(0)->number);
}

void operation(uint32_t number)
{
#ifdef ONE_SLOT
    uint32_t next = used;
#else
    uint32_t next = 1 - used;
#endif
    volatile struct slot *to = slot(next);
    to->number = number + 1;
    for (uint32_t i = 0; i < WORDS; i++)
        to->words[i] = mixed(number << 8 | i);
    to->sum = sum_of(to);
    persist(to, sizeof *to);
    used = next;
    acknowledge(number);
}

int is_right(uint32_t done)
{
    const volatile struct slot *it = slot(used);
    if (!is_whole(used)) {
        if (done == 0)
            return 1;
        say("lost: there is no configuration");
        return 0;
    }
    if (it->number != done && it->number != done + 1) {
        say("stale: it is that of write ");
        say_number(it->number);
        return 0;
    }
    for (uint32_t i = 0; i < WORDS; i++)
        if (it->words[i] != mixed((it->number - 1) << 8 | i)) {
            say("garbage: word ");
            say_number(i);
            return 0;
        }
    return 1;
}
