/* Replays a trace of `pcm stream` in this process, by pcm_stream.h over the library, and prints what that would: replay [--OPTION VALUE ..] <TRACE.
   Words as of `pcm stream`. Status 0, 2 for words, 3 for a row that the module refuses, 7 where memory ran out. */
#define PCM_STREAM_LIBRARY
#include "pcm_stream.h"

static const char *const kinds[] = {"stored", "merged", "queued", "full", "worn", "read", "forwarded", "busy", "lost", "cut", "settled"};
static const char *const marks[] = {"going", "exhausted", "halted"};

static void tell(void *context, const struct pcm_outcome *it)
{
    (void)context;
    printf("%u,%s,%llu,", (unsigned)it->row, kinds[it->kind], (unsigned long long)it->tick);
    if (it->kind == PCM_STORED || it->kind == PCM_READ)
        printf("%u", (unsigned)it->place);
    putchar(',');
    for (uint32_t i = 0; i < it->size; i++)
        printf("%02x", it->bytes[i]);
    putchar('\n');
}

static void tell_wear(uint64_t tick, const struct pcm_wear *it)
{
    const uint64_t numbers[] = {it->pulses, it->most, it->mean, it->pointers, it->senses, it->set, it->reset};
    printf(",wear,%llu,,", (unsigned long long)tick);
    for (int i = 0; i < 7; i++)
        printf("%llu%c", (unsigned long long)numbers[i], i < 6 ? ' ' : '\n');
}

static void tell_bytes(uint64_t tick, uint32_t line, const uint8_t *bytes, uint32_t size)
{
    printf(",bytes,%llu,%u,", (unsigned long long)tick, (unsigned)line);
    for (uint32_t i = 0; i < size; i++)
        printf("%02x", bytes[i]);
    putchar('\n');
}

/* What the module answers to a row that settles, of this row or line; what it tells is printed. */
static enum pcm_result settled(struct pcm *pcm, uint64_t tick, char op, uint32_t number)
{
    struct pcm_bank banks[64];
    struct pcm_wear wear = {0, 0, 0, 0, 0, 0, 0};
    uint8_t bytes[PCM_MOST_BYTES];
    memset(banks, 0, sizeof banks);
    enum pcm_result result = op == 'A'   ? pcm_settle_any(pcm, tick, tell, NULL)
                             : op == 'U' ? pcm_settle_until(pcm, number, tick, tell, NULL)
                             : op == 'Q' ? pcm_ask(pcm, tick, banks, 64, tell, NULL)
                             : op == 'L' ? pcm_look(pcm, tick, &wear, tell, NULL)
                             : op == 'P' ? pcm_peek(pcm, tick, number, bytes, pcm->line_size, tell, NULL)
                                         : pcm_settle_all(pcm, tick, tell, NULL);
    for (uint32_t i = 0; result == PCM_OK && op == 'Q' && i < pcm->told.banks; i++)
        printf(",bank,%llu,%u,%u %u %s\n", (unsigned long long)tick, (unsigned)i, (unsigned)banks[i].waiting_writes, (unsigned)banks[i].waiting_reads,
               marks[banks[i].mark]);
    if (result == PCM_OK && op == 'L')
        tell_wear(tick, &wear);
    if (result == PCM_OK && op == 'P')
        tell_bytes(tick, number, bytes, pcm->line_size);
    if (result == PCM_OK)
        printf(",settled,%llu,,\n", (unsigned long long)pcm->tick);
    return result;
}

/* What the module answers to a row; all that is known then is printed. */
static enum pcm_result played(struct pcm *pcm, const char *row)
{
    struct pcm_outcome outcome;
    char *at;
    uint64_t tick = strtoull(row, &at, 10);
    if (at[0] == ',' && strchr("SQULP", at[1]) != NULL)
        return settled(pcm, tick, at[1] == 'U' && at[3] == ',' ? 'A' : at[1], (uint32_t)strtoul(at + 3, NULL, 10));
    enum pcm_result result = pcm_replay(pcm, row, tell, NULL);
    while (result == PCM_OK && pcm_next(pcm, &outcome) == PCM_OK)
        tell(NULL, &outcome);
    return result;
}

int main(int count, char **words)
{
    static char row[1024], printed[1 << 16];
    static struct pcm pcm;
    const char *options[64] = {"replay"};
    struct pcm_outcome outcome;
    setvbuf(stdout, printed, _IOFBF, sizeof printed);
    for (int i = 1; i < count && i < 63; i++)
        options[i] = words[i];
    enum pcm_result result = pcm_open(&pcm, options);
    if (result == PCM_OK && pcm.ends_with == 0 && fgets(row, sizeof row, stdin) != NULL)
        puts("row,outcome,tick,place,data");
    while (result == PCM_OK && fgets(row, sizeof row, stdin) != NULL)
        result = played(&pcm, row);
    int is_played = result == PCM_OK && pcm_finish(&pcm) == PCM_OK;
    while (is_played && pcm_next(&pcm, &outcome) == PCM_OK)
        tell(NULL, &outcome);
    int status = pcm_close(&pcm);
    if (status == 7)
        fputs("out of memory\n", stderr);
    return status > 1 ? status : is_played ? 0 : 3;
}
