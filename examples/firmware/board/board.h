/* board.h: what a firmware sees of the board: a Cortex-M7 whose data cache is cleaned by address, a non-volatile memory, and a host that
   tells what to do and is told what was done.

   A firmware is three functions, which start.c calls at each power-up (README.md has a recipe):

       void mount(void);                   what a boot does: it finds, in the non-volatile memory, what was there before
       void operation(uint32_t number);    does this operation, and calls acknowledge(number) once it is durable
       int is_right(uint32_t done);        whether all is there that `done` acknowledged operations left; the next one may be there, too, as it
                                           was under way. What is wrong it says by `say`, and answers 0

   The operations are 0, 1, 2 ..; what each does goes by its number alone, since behind a cut the same one is asked for again. */
#ifndef BOARD_H
#define BOARD_H
#include <stddef.h>
#include <stdint.h>

#define REGISTER(at) (*(volatile uint32_t *)(at))
#define HOST_NVM_BYTES REGISTER(0x40000000) /* R: how large the non-volatile memory is */
#define HOST_DONE REGISTER(0x40000004)      /* R: how many operations were acknowledged before this boot */
#define HOST_GOAL REGISTER(0x40000008)      /* R: go on until so many are */
#define HOST_ACK REGISTER(0x4000000c)       /* W: the operation of this number is done, and durable: each in its turn */
#define HOST_SAY REGISTER(0x40000010)       /* W: a character of what is wrong */
#define HOST_END REGISTER(0x40000014)       /* W: the end: 0 where all is right */
#define NVM_REFUSED REGISTER(0x40000018)    /* R: bit 0: a store was refused since this was read last */

#define NVM ((volatile uint32_t *)0x60000000)
#define NVM_BYTES HOST_NVM_BYTES

void mount(void);
void operation(uint32_t number);
int is_right(uint32_t done);

/* (of start.c: there is no C library) */
void *memcpy(void *to, const void *from, size_t size);
void *memset(void *to, int byte, size_t size);

static inline void acknowledge(uint32_t number)
{
    HOST_ACK = number;
}

/* Behind it these bytes are durable, if the memory took them: they are cleaned from the cache (ARMv7-M: SCB->DCCMVAC). */
static inline void persist(volatile void *at, size_t size)
{
    uintptr_t line = (uintptr_t)at & ~(uintptr_t)31, end = (uintptr_t)at + size;
    __asm__ volatile("dsb" ::: "memory");
    for (; line < end; line += 32)
        REGISTER(0xe000ef68) = (uint32_t)line;
    __asm__ volatile("dsb" ::: "memory");
}

/* Whether the memory refused a store since this was asked last: on a bus that drops it is to be stored again. */
static inline int is_refused(void)
{
    return (int)(NVM_REFUSED & 1);
}

static inline void say(const char *words)
{
    while (*words != 0)
        HOST_SAY = (uint32_t)*words++;
}

static inline void say_number(uint32_t number)
{
    char digits[11];
    int at = 10;
    digits[at] = 0;
    do
        digits[--at] = (char)('0' + number % 10);
    while ((number /= 10) != 0);
    say(digits + at);
}

/* Bits that look drawn, the same for the same number: what an operation writes goes by them. */
static inline uint32_t mixed(uint32_t x)
{
    x ^= x >> 16;
    x *= UINT32_C(0x7feb352d);
    x ^= x >> 15;
    x *= UINT32_C(0x846ca68b);
    return x ^ x >> 16;
}
#endif
