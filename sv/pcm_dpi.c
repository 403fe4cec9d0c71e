/* pcm_dpi.c: what pcm_dpi.sv imports. C11 or C++17, beside c/pcm_stream.h and the simulator's svdpi.h. */
#include "pcm_stream.h"

#include "svdpi.h"

#ifdef __cplusplus
extern "C" {
#endif

enum { LINE = 64 };

/* A module, and the outcomes that are known and not yet taken. */
struct memory {
    struct pcm pcm;
    struct pcm_outcome *known;
    size_t first, count, room;
    int is_short; /* there was no memory for an outcome */
};

/* Takes an outcome. */
static void keep(void *context, const struct pcm_outcome *outcome)
{
    struct memory *it = (struct memory *)context;
    if (it->count == it->room) {
        size_t room = 2 * it->room + 64;
        struct pcm_outcome *known = (struct pcm_outcome *)realloc(it->known, room * sizeof *known);
        if (known == NULL) {
            it->is_short = 1;
            return;
        }
        it->known = known;
        it->room = room;
    }
    it->known[it->count++] = *outcome;
}

/* A result, unless memory fell short. */
static int told(const struct memory *it, enum pcm_result result)
{
    return it->is_short ? PCM_FAILED : (int)result;
}

/* Starts the program by its words, to which --tell=shape is added. */
static int start(struct memory *it, char *words)
{
    const char *lent[64];
    int count = 0;
    for (char *at = strtok(words, " "); at != NULL && count < 62; at = strtok(NULL, " "))
        lent[count++] = at;
    lent[count] = "--tell=shape";
    lent[count + 1] = NULL;
    return count > 0 && pcm_open(&it->pcm, lent) == PCM_OK && pcm_learn(&it->pcm, NULL) == PCM_OK && it->pcm.shape.line == LINE;
}

void *pcm_dpi_open(const char *words)
{
    struct memory *it = (struct memory *)calloc(1, sizeof *it);
    size_t size = strlen(words) + 1;
    char *own = (char *)malloc(size);
    int is_open = it != NULL && own != NULL && start(it, (char *)memcpy(own, words, size));
    free(own);
    if (is_open)
        return it;
    if (it != NULL)
        pcm_close(&it->pcm);
    free(it);
    return NULL;
}

int pcm_dpi_close(void *memory)
{
    struct memory *it = (struct memory *)memory;
    int status = it == NULL ? -1 : pcm_close(&it->pcm);
    if (it != NULL)
        free(it->known);
    free(it);
    return status;
}

/* Whether a row that met PCM_FULL is to be sent again: answers were taken. */
static int is_again(struct memory *it, enum pcm_result result)
{
    return result == PCM_FULL && pcm_settle_all(&it->pcm, it->pcm.tick, keep, it) == PCM_OK;
}

/* The strobe's bits as bytes; whether all are 1. */
static int put_given(uint8_t given[LINE], const svBitVecVal *strobe)
{
    int count = 0;
    for (int i = 0; i < LINE; i++)
        count += given[i] = strobe[i / 32] >> i % 32 & 1;
    return count == LINE;
}

/* (The words of a vector are little-endian here, as a line is.) */
unsigned pcm_dpi_write(void *memory, uint64_t tick, unsigned line, const svBitVecVal *data, const svBitVecVal *strobe)
{
    struct memory *it = (struct memory *)memory;
    const uint8_t *bytes = (const uint8_t *)data;
    uint8_t given[LINE];
    int is_whole = put_given(given, strobe);
    enum pcm_result result;
    do
        result = is_whole ? pcm_write(&it->pcm, tick, line, bytes, LINE) : pcm_write_masked(&it->pcm, tick, line, bytes, given, LINE);
    while (is_again(it, result));
    return result == PCM_OK ? it->pcm.rows : 0;
}

unsigned pcm_dpi_read(void *memory, uint64_t tick, unsigned line)
{
    struct memory *it = (struct memory *)memory;
    enum pcm_result result;
    do
        result = pcm_read(&it->pcm, tick, line);
    while (is_again(it, result));
    return result == PCM_OK ? it->pcm.rows : 0;
}

unsigned pcm_dpi_cut(void *memory, uint64_t tick)
{
    struct memory *it = (struct memory *)memory;
    enum pcm_result result;
    do
        result = pcm_cut(&it->pcm, tick);
    while (is_again(it, result));
    return result == PCM_OK ? it->pcm.rows : 0;
}

int pcm_dpi_settle(void *memory, uint64_t tick)
{
    struct memory *it = (struct memory *)memory;
    return told(it, pcm_settle_all(&it->pcm, tick, keep, it));
}

int pcm_dpi_settle_until(void *memory, unsigned row, uint64_t tick)
{
    struct memory *it = (struct memory *)memory;
    return told(it, pcm_settle_until(&it->pcm, row, tick, keep, it));
}

int pcm_dpi_finish(void *memory)
{
    struct memory *it = (struct memory *)memory;
    struct pcm_outcome outcome;
    enum pcm_result result;
    do
        result = pcm_finish(&it->pcm);
    while (is_again(it, result));
    while (result == PCM_OK && (result = pcm_next(&it->pcm, &outcome)) == PCM_OK)
        keep(it, &outcome);
    return told(it, result == PCM_ENDED ? PCM_OK : result);
}

int pcm_dpi_next(void *memory, unsigned *row, int *kind, uint64_t *tick, unsigned *place, svBitVecVal *data)
{
    struct memory *it = (struct memory *)memory;
    memset(data, 0, LINE);
    if (it->first == it->count) {
        it->first = it->count = 0;
        return 0;
    }
    const struct pcm_outcome *at = &it->known[it->first++];
    *row = at->row;
    *kind = (int)at->kind;
    *tick = at->tick;
    *place = at->place;
    if (at->size == LINE)
        memcpy(data, at->bytes, LINE);
    return 1;
}

uint64_t pcm_dpi_tick(void *memory)
{
    return ((struct memory *)memory)->pcm.tick;
}

unsigned pcm_dpi_bank_of(void *memory, unsigned line)
{
    return pcm_bank_of(&((struct memory *)memory)->pcm, line);
}

unsigned pcm_dpi_write_queue(void *memory)
{
    return ((struct memory *)memory)->pcm.shape.write_queue;
}

unsigned pcm_dpi_read_queue(void *memory)
{
    return ((struct memory *)memory)->pcm.shape.read_queue;
}

/* (The string is good until the next call.) */
const char *pcm_dpi_digits(const svBitVecVal *data, const svBitVecVal *strobe)
{
    static char digits[2 * LINE + 1];
    uint8_t given[LINE];
    *pcm__put_bytes(digits, (const uint8_t *)data, put_given(given, strobe) ? NULL : given, LINE) = 0;
    return digits;
}

#ifdef __cplusplus
}
#endif
