/* Drives a module up to a power cut, and prints the rows that it handed in as a trace: of that one `./pcm stream --end off --print image`
   makes the image of what the cut leaves where the power stays off (with status 1, since the write stays queued).
   cc -std=c11 -I c -o torn examples/live/torn.c && ./torn > driven.csv && ./pcm stream --end off --print image < driven.csv > torn.image */
#include "pcm_stream.h"

/* (rows that settle are no rows of a trace) */
static void keep(void *context, char op, const char *row, size_t size)
{
    if (strchr("RWMC", op) != NULL)
        fwrite(row, 1, size, (FILE *)context);
}

int main(int count, char **words_given)
{
    static struct pcm pcm;
    struct pcm_outcome outcome;
    const char *words[] = {count > 1 ? words_given[1] : "./pcm", "stream", NULL};
    uint8_t line[64];
    memset(line, 0xff, sizeof line);
    if (pcm_open(&pcm, words) != PCM_OK) {
        perror(words[0]);
        return 1;
    }
    pcm.log = keep;
    pcm.context = stdout;
    puts("tick,op,arg,data");
    if (pcm_write_sure(&pcm, 0, 0, line, NULL, 64, NULL, NULL) != PCM_OK || pcm_cut(&pcm, 7) != PCM_OK)
        fprintf(stderr, "the module took no write or no cut\n");
    enum pcm_result result = pcm_finish(&pcm);
    while (result == PCM_OK)
        result = pcm_next(&pcm, &outcome); /* (the module goes on behind the cut: here nobody asks) */
    return result == PCM_ENDED ? pcm_close(&pcm) : 1;
}
