/* A million rows through pcm_stream.h, with a settle each hundred, for bench/streams. The first word is the program of streams. */
#include "pcm_stream.h"

enum { ROWS = 1000000, LINES = 512, EACH = 100 };

/* Takes outcomes up to the settled one, or to the end, and answers how many rows they tell of. */
static int take(struct pcm *pcm)
{
    struct pcm_outcome outcome;
    int taken = 0;
    while (pcm_next(pcm, &outcome) == PCM_OK && outcome.kind != PCM_SETTLED) taken++;
    return taken;
}

int main(int argc, char **argv)
{
    static struct pcm pcm;
    const char *words[] = {argc > 1 ? argv[1] : "", NULL};
    uint8_t bytes[64] = {1, 2, 3};
    int taken = 0;
    if (pcm_open(&pcm, words) != PCM_OK) return 1;
    for (uint64_t row = 0; row < ROWS; row++) {
        enum pcm_result sent = row % 2 ? pcm_read(&pcm, row * 20, row % LINES) : pcm_write(&pcm, row * 20, row % LINES, bytes, 64);
        if (sent != PCM_OK) return 2;
        if (row % EACH == EACH - 1) {
            if (pcm_settle(&pcm, row * 20) != PCM_OK) return 3;
            taken += take(&pcm);
        }
    }
    if (pcm_finish(&pcm) != PCM_OK) return 4;
    taken += take(&pcm);
    return pcm_close(&pcm) > 1 || taken != ROWS;
}
