/* start.c: from reset to the end: mounts, tells whether all is right, does the operations that the host asks for, and tells again. */
#include "board.h"

extern uint32_t stack_top, data_from, data_begin, data_end, bss_begin, bss_end;
void reset(void);
__attribute__((section(".vectors"), used)) static void *const vectors[] = {&stack_top, reset};

/* (the compiler calls these two of itself) */
void *memcpy(void *to, const void *from, size_t size)
{
    for (size_t i = 0; i < size; i++)
        ((volatile uint8_t *)to)[i] = ((const uint8_t *)from)[i];
    return to;
}

void *memset(void *to, int byte, size_t size)
{
    for (size_t i = 0; i < size; i++)
        ((volatile uint8_t *)to)[i] = (uint8_t)byte;
    return to;
}

static int run(void)
{
    uint32_t done = HOST_DONE, goal = HOST_GOAL;
    mount();
    if (!is_right(done))
        return 1;
    if (done >= goal)
        return 0;
    for (; done < goal; done++)
        operation(done);
    return !is_right(goal);
}

void reset(void)
{
    for (uint32_t *to = &data_begin, *from = &data_from; to < &data_end;)
        *to++ = *from++;
    for (uint32_t *to = &bss_begin; to < &bss_end;)
        *to++ = 0;
    HOST_END = (uint32_t)run();
    for (;;)
        ;
}
