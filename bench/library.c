/* Rows of a module in this process, or of one behind a pipe: library WHICH ROWS MODE SETTLES, `here` or the program of streams; MODE w (writes of whole
   lines), r (reads) or m (half and half); a settle behind each so many rows, 0: none here, each 200 rows by the pipe, which must be read. A row
   each 30 ticks; all outcomes are taken. Prints nanoseconds of the clock and of this process's time, a row, and how many outcomes came. */
#define _POSIX_C_SOURCE 200809L
#include "pcm.h"
#include "pcm_stream.h"
#include <time.h>

struct asked {
    uint64_t rows, settles;
    char mode;
};

static uint64_t told;

static void take(void *context, const struct pcm_outcome *outcome)
{
    (void)context;
    (void)outcome;
    told++;
}

static double now(clockid_t clock)
{
    struct timespec it;
    clock_gettime(clock, &it);
    return (double)it.tv_sec + (double)it.tv_nsec * 1e-9;
}

/* The next row: its line, its bytes, and whether it is a read. */
static bool draw(uint64_t *x, char mode, uint32_t *line, uint8_t bytes[64])
{
    *x ^= *x << 13;
    *x ^= *x >> 7;
    *x ^= *x << 17;
    *line = (uint32_t)(*x >> 20) % 512;
    if (mode == 'r' || (mode == 'm' && (*x & 1)))
        return true;
    for (uint64_t i = 0; i < 8; i++) {
        uint64_t word = *x * (2 * i + 1);
        memcpy(bytes + 8 * i, &word, 8);
    }
    return false;
}

static int plays_here(const struct asked *asked)
{
    struct pcm_module pcm = PCM_MODULE_CLOSED_ONE;
    struct pcm_module_options options = PCM_MODULE_DEFAULTS;
    struct pcm_module_outcome outcome;
    uint64_t x = UINT64_C(88172645463325252), tick = 0;
    uint32_t line, status = pcm_module_open(&pcm, &options);
    uint8_t bytes[64];
    for (uint64_t i = 0; status == PCM_MODULE_OK && i < asked->rows; i++) {
        tick += 30;
        bool is_read = draw(&x, asked->mode, &line, bytes);
        status = is_read ? pcm_module_read(&pcm, tick, line) : pcm_module_write(&pcm, tick, line, bytes, 64);
        if (asked->settles && i % asked->settles == asked->settles - 1)
            status |= pcm_module_settle(&pcm, tick);
        while (pcm_module_next(&pcm, &outcome) == PCM_MODULE_OK)
            told++;
    }
    status |= pcm_module_finish(&pcm);
    while (pcm_module_next(&pcm, &outcome) == PCM_MODULE_OK)
        told++;
    pcm_module_close(&pcm);
    return status == PCM_MODULE_OK;
}

static int plays_by_pipe(const struct asked *asked, const char *program)
{
    static struct pcm pcm;
    const char *const words[] = {program, NULL};
    struct pcm_outcome outcome;
    uint64_t x = UINT64_C(88172645463325252), tick = 0, settles = asked->settles ? asked->settles : 200;
    uint32_t line;
    uint8_t bytes[64];
    enum pcm_result status = pcm_open(&pcm, words);
    for (uint64_t i = 0; status == PCM_OK && i < asked->rows; i++) {
        tick += 30;
        bool is_read = draw(&x, asked->mode, &line, bytes);
        status = is_read ? pcm_read(&pcm, tick, line) : pcm_write(&pcm, tick, line, bytes, 64);
        if (status == PCM_OK && i % settles == settles - 1)
            status = pcm_settle_all(&pcm, tick, take, NULL);
    }
    if (status == PCM_OK)
        status = pcm_finish(&pcm);
    while (status == PCM_OK && pcm_next(&pcm, &outcome) == PCM_OK)
        told++;
    return pcm_close(&pcm) <= 1 && status == PCM_OK;
}

int main(int count, char **words)
{
    if (count != 5)
        return 2;
    struct asked asked = {strtoull(words[2], NULL, 10), strtoull(words[4], NULL, 10), words[3][0]};
    double began = now(CLOCK_MONOTONIC), used = now(CLOCK_PROCESS_CPUTIME_ID);
    int is_right = strcmp(words[1], "here") == 0 ? plays_here(&asked) : plays_by_pipe(&asked, words[1]);
    double took = now(CLOCK_MONOTONIC) - began, own = now(CLOCK_PROCESS_CPUTIME_ID) - used;
    printf("%.1f %.1f %llu\n", took / (double)asked.rows * 1e9, own / (double)asked.rows * 1e9, (unsigned long long)told);
    return !is_right;
}
