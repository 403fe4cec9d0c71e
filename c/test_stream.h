/* test_stream.h: what tests of pcm_stream.h have in common. */
#ifndef TEST_STREAM_H
#define TEST_STREAM_H

#include "pcm_stream.h"
#include "test_checks.h"

#include <fcntl.h>
#include <unistd.h>

#ifdef PCM_STREAM_LIBRARY
enum { is_piped = 0 };
#else
enum { is_piped = 1 };
#endif

/* Puts the words of a stream into `all`: at most four of the test's own, then those of a small module. How many they are. */
static inline int begin_words(const char *all[], int count, char **words)
{
    const char *options[] = {"stream", "--banks", "1", "--regions", "1", "--lines", "4"};
    int n = 0;
    for (int i = 1; i < count && n < 4; i++)
        all[n++] = words[i];
    for (int i = 0; i < 7; i++)
        all[n++] = options[i];
    return n;
}

/* Takes outcomes up to the next one that says that the module has settled, and answers how many came before. */
static inline int until_settled(struct pcm *pcm, struct pcm_outcome *last)
{
    struct pcm_outcome outcome = {PCM_CUT, 0, 0, 0, 0, {0}};
    int count = 0;
    while (pcm_next(pcm, &outcome) == PCM_OK && outcome.kind != PCM_SETTLED) {
        *last = outcome;
        count++;
    }
    return outcome.kind == PCM_SETTLED ? count : -1;
}

/* Each call of a closed module is refused. */
static inline int is_refused(struct pcm *pcm)
{
    struct pcm_outcome outcome;
    uint8_t bytes[64] = {1};
    uint32_t rows = pcm->rows;
    int refused = pcm_write(pcm, pcm->tick, 0, bytes, 64) == PCM_REFUSED && pcm_read(pcm, pcm->tick, 0) == PCM_REFUSED;
    refused &= pcm_settle(pcm, pcm->tick) == PCM_REFUSED && pcm_settle_all(pcm, pcm->tick, NULL, NULL) == PCM_REFUSED;
    refused &= pcm_flush(pcm) == PCM_REFUSED && pcm_next(pcm, &outcome) == PCM_REFUSED && pcm_finish(pcm) == PCM_REFUSED;
    refused &= pcm_replay(pcm, "0,R,0,\n", NULL, NULL) == PCM_REFUSED && pcm_write_sure(pcm, pcm->tick, 0, bytes, NULL, 64, NULL, NULL) == PCM_REFUSED;
    return refused && pcm_learn(pcm, NULL) == PCM_REFUSED && pcm->rows == rows && pcm->to <= 0 && pcm->from <= 0;
}

/* What is handed to a taker. */
static struct { int count, settled, strange; uint32_t rows[64]; enum pcm_kind kinds[64]; } taken;
static inline void take(void *context, const struct pcm_outcome *outcome)
{
    taken.strange += context != &taken;
    taken.settled += outcome->kind == PCM_SETTLED;
    taken.rows[taken.count % 64] = outcome->row;
    taken.kinds[taken.count++ % 64] = outcome->kind;
}

/* Takes what is left behind pcm_finish. */
static inline int ends(struct pcm *pcm)
{
    struct pcm_outcome outcome;
    enum pcm_result result;
    while ((result = pcm_next(pcm, &outcome)) == PCM_OK)
        ;
    return result == PCM_ENDED;
}
#endif
