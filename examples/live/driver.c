/* Writes a line of a module, knows at once that the write is durable, and waits until the array has it. driver.py does the same.
   cc -std=c11 -I c -o driver examples/live/driver.c && ./driver */
#include "pcm_stream.h"

static void tell(void *context, const struct pcm_outcome *it)
{
    (void)context;
    if (it->kind == PCM_STORED)
        printf("row %u: stored at tick %u\n", (unsigned)it->row, (unsigned)it->tick);
}

int main(int count, char **words_given)
{
    static struct pcm pcm;
    const char *words[] = {count > 1 ? words_given[1] : "./pcm", "stream", NULL};
    const uint8_t line[64] = {1, 2, 3};
    if (pcm_open(&pcm, words) != PCM_OK) {
        perror(words[0]);
        return 1;
    }
    if (pcm_write_sure(&pcm, 0, 7, line, NULL, 64, NULL, NULL) == PCM_OK)
        printf("row %u: accepted, so durable\n", (unsigned)pcm.rows);
    if (pcm_settle_until(&pcm, pcm.rows, 1000, tell, NULL) == PCM_OK)
        printf("the next row may come at tick %u\n", (unsigned)pcm.tick);
    return pcm_finish(&pcm) == PCM_OK ? pcm_close(&pcm) : 1;
}
