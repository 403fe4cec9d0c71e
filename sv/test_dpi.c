/* Tests of pcm_dpi.c, as a simulator calls it, over the program that the first word names. Prints 'N passed, M failed'. */
#include "pcm_dpi.c"

static int passed, failed;

static void check(int holds, const char *what)
{
    if (holds)
        passed++;
    else
        fprintf(stderr, "failed: %s\n", what);
    failed += !holds;
}

/* A module of the program by its further words. */
static void *opened(const char *program, const char *more)
{
    char words[1024];
    snprintf(words, sizeof words, "%s stream --banks 2 --regions 1 --lines 8 --write-queue 4 --read-queue 3 %s", program, more);
    return pcm_dpi_open(words);
}

static void each_call_does_what_it_says(const char *program)
{
    svBitVecVal ones[16], seen[16], all[2] = {0xffffffff, 0xffffffff}, some[2] = {5, 0};
    unsigned row, place;
    uint64_t tick;
    int kind, banks = 0;
    void *memory = opened(program, "");
    memset(ones, 0xff, sizeof ones);
    check(memory != NULL, "it starts");
    check(pcm_dpi_write_queue(memory) == 4 && pcm_dpi_read_queue(memory) == 3, "its queues");
    for (unsigned line = 0; line < 16; line++)
        banks += pcm_dpi_bank_of(memory, line) == 1;
    check(banks == 8 && pcm_dpi_bank_of(memory, 16) == PCM_NO_BANK, "its banks");
    check(pcm_dpi_write(memory, 0, 0, ones, all) == 1 && pcm_dpi_next(memory, &row, &kind, &tick, &place, seen) == 0, "a write, of which nothing is known");
    check(pcm_dpi_settle_until(memory, 1, 1000) == 0 && pcm_dpi_tick(memory) == 15, "until it is stored");
    check(pcm_dpi_next(memory, &row, &kind, &tick, &place, seen) == 1 && row == 1 && kind == PCM_STORED && tick == 15, "it is");
    check(pcm_dpi_write(memory, 20, 1, ones, some) == 2 && pcm_dpi_read(memory, 100, 1) == 3 && pcm_dpi_cut(memory, 100) == 4, "further rows");
    check(pcm_dpi_read(memory, 101, 1) == 5 && pcm_dpi_settle(memory, 200) == 0, "and a settle");
    for (int i = 0; i < 4; i++)
        check(pcm_dpi_next(memory, &row, &kind, &tick, &place, seen) == 1, "each has its outcome");
    check(row == 5 && kind == PCM_READ && seen[0] == 0x00ff00ff && seen[1] == 0 && seen[15] == 0, "the last reads the bytes that were given");
    check(pcm_dpi_next(memory, &row, &kind, &tick, &place, seen) == 0, "and there is no more");
    check(pcm_dpi_finish(memory) == 0 && pcm_dpi_close(memory) == 1, "the end, with a read that a cut lost");
}

static void wrong_arguments_are_refused(const char *program)
{
    svBitVecVal bytes[16] = {1}, all[2] = {0xffffffff, 0xffffffff}, none[2] = {0, 0};
    check(pcm_dpi_open("") == NULL && pcm_dpi_open("/nowhere/pcm stream") == NULL && pcm_dpi_open("true") == NULL, "no program");
    check(opened(program, "--line 128") == NULL, "lines of another size");
    void *memory = opened(program, "");
    check(pcm_dpi_write(memory, 10, 16, bytes, all) == 0 && pcm_dpi_write(memory, 10, 0, bytes, none) == 0, "a line that there isn't, and no strobe");
    check(pcm_dpi_read(memory, 10, 0) == 1 && pcm_dpi_read(memory, 9, 0) == 0 && pcm_dpi_settle(memory, 9) == PCM_REFUSED, "a tick that falls");
    check(pcm_dpi_close(memory) == 0 && pcm_dpi_close(NULL) == -1, "a close without the end");
}

/* More answers than the pipes hold, none of which is taken until the end. */
static void answers_wait(const char *program)
{
    svBitVecVal bytes[16], all[2] = {0xffffffff, 0xffffffff};
    unsigned row, place, sent = 0, told = 0;
    uint64_t tick;
    int kind;
    void *memory = opened(program, "");
    memset(bytes, 0x5a, sizeof bytes);
    for (unsigned i = 0; i < 20000; i++)
        sent += (i % 3 == 0 ? pcm_dpi_write(memory, 20 * i, i % 16, bytes, all) : pcm_dpi_read(memory, 20 * i, i % 16)) == i + 1;
    check(sent == 20000 && pcm_dpi_finish(memory) == 0, "20,000 rows");
    while (pcm_dpi_next(memory, &row, &kind, &tick, &place, bytes) == 1)
        told++;
    check(told == 20000 && pcm_dpi_close(memory) >= 0, "each is told once");
}

static void digits_are_those_of_a_trace(void)
{
    svBitVecVal bytes[16] = {0x04030201}, all[2] = {0xffffffff, 0xffffffff}, some[2] = {2, 0};
    check(strncmp(pcm_dpi_digits(bytes, all), "01020304000000", 14) == 0 && strlen(pcm_dpi_digits(bytes, all)) == 128, "the first byte first");
    check(strncmp(pcm_dpi_digits(bytes, some), "..02....", 8) == 0, "points for bytes that aren't given");
}

int main(int count, char **words)
{
    const char *program = count > 1 ? words[1] : "./pcm";
    each_call_does_what_it_says(program);
    wrong_arguments_are_refused(program);
    answers_wait(program);
    digits_are_those_of_a_trace();
    printf("%d passed, %d failed\n", passed, failed);
    return failed != 0;
}
