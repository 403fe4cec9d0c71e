/* Boots a module from the rows of an earlier one, a trace on standard input as torn.c prints it: plays them into a new module, which then stands
   as the earlier one did, cuts the power, and reads line 0.
   cc -std=c11 -I c -o boot examples/live/boot.c && ./boot < driven.csv */
#include "pcm_stream.h"

static void tell(void *context, const struct pcm_outcome *it)
{
    if (it->row == *(const uint32_t *)context && (it->kind == PCM_READ || it->kind == PCM_FORWARDED)) {
        printf("row %u: ", (unsigned)it->row);
        for (uint32_t i = 0; i < it->size; i++)
            printf("%02x", it->bytes[i]);
        putchar('\n');
    }
}

int main(int count, char **words_given)
{
    static struct pcm pcm;
    const char *words[] = {count > 1 ? words_given[1] : "./pcm", "stream", NULL};
    char row[PCM_MOST_ROW];
    enum pcm_result result = pcm_open(&pcm, words);
    if (result != PCM_OK) {
        perror(words[0]);
        return 1;
    }
    while (result == PCM_OK && fgets(row, sizeof row, stdin) != NULL)
        result = pcm_replay(&pcm, row, NULL, NULL);
    if (result == PCM_OK)
        result = pcm_settle_all(&pcm, pcm.tick, NULL, NULL); /* (behind it there is room for rows) */
    printf("%u rows, up to tick %u\n", (unsigned)pcm.rows, (unsigned)pcm.tick);
    if (result == PCM_OK && (result = pcm_cut(&pcm, pcm.tick)) == PCM_OK && (result = pcm_read(&pcm, pcm.tick, 0)) == PCM_OK)
        result = pcm_settle_until(&pcm, pcm.rows, pcm.tick + 10000, tell, &pcm.rows);
    if (result == PCM_OK)
        result = pcm_finish(&pcm);
    if (result != PCM_OK)
        fprintf(stderr, "the module answers %d\n", (int)result);
    int status = pcm_close(&pcm);
    return result == PCM_OK ? status : 1;
}
