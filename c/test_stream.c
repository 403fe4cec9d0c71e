/* Tests of pcm_stream.h over the program that the first word names; or over the library, where they are compiled with PCM_STREAM_LIBRARY. Prints
   'N passed, M failed'. */
#include "test_stream.h"

static void answers_come_as_they_are_known(const char *const words[])
{
    static struct pcm pcm;
    struct pcm_outcome outcome;
    uint8_t bytes[64];
    memset(bytes, 0xa5, sizeof bytes);
    check(pcm_open(&pcm, words) == PCM_OK, "the program starts");
    check(pcm_write(&pcm, 0, 0, bytes, 64) == PCM_OK && pcm.rows == 1, "a write has the number 1");
    check(pcm_read(&pcm, 3, 0) == PCM_OK && pcm.rows == 2, "a read has the number 2");
    check(pcm_settle(&pcm, 14) == PCM_OK && pcm.rows == 2, "a settle has no number");
    check(until_settled(&pcm, &outcome) == 1, "the read is answered, and nothing else");
    check(outcome.kind == PCM_FORWARDED && outcome.row == 2 && outcome.tick == 3, "it is forwarded");
    check(outcome.size == 64 && memcmp(outcome.bytes, bytes, 64) == 0, "with the bytes that were written");
    check(pcm_settle(&pcm, 1000) == PCM_OK && until_settled(&pcm, &outcome) == 1, "the write is answered");
    check(outcome.kind == PCM_STORED && outcome.tick == 15, "it is stored");
    memset(bytes + 1, 0, 63);
    check(pcm_write_masked(&pcm, 1000, 1, bytes, bytes, 64) == PCM_OK, "a write gives one byte");
    check(pcm_cut(&pcm, 1007) == PCM_OK, "the power is cut");
    check(pcm_read(&pcm, 1007, 1) == PCM_OK && pcm_settle(&pcm, 2000) == PCM_OK, "a read");
    check(until_settled(&pcm, &outcome) == 3, "all three are answered");
    check(pcm_finish(&pcm) == PCM_OK, "no more rows");
    check(pcm_next(&pcm, &outcome) == PCM_ENDED, "and no more outcomes");
    check(pcm_close(&pcm) == 0, "status 0");
}

static void many_rows_with_answers_taken_late(const char *const words[])
{
    static struct pcm pcm;
    struct pcm_outcome outcome;
    int told = 0, rows = 200000;
    check(pcm_open(&pcm, words) == PCM_OK, "the program starts");
    for (int i = 0; i < rows; i++) {
        enum pcm_result result;
        while ((result = pcm_read(&pcm, 10 * (uint64_t)i, (uint32_t)(i % 4))) == PCM_FULL)
            told += pcm_next(&pcm, &outcome) == PCM_OK;
        if (result != PCM_OK)
            break;
    }
    enum pcm_result result;
    while ((result = pcm_finish(&pcm)) == PCM_FULL)
        told += pcm_next(&pcm, &outcome) == PCM_OK;
    while (pcm_next(&pcm, &outcome) == PCM_OK)
        told++;
    check(told == rows, "each row is answered once");
    check(pcm_close(&pcm) == 0, "status 0");
}

static void settles_with_answers_taken_late(const char *const words[])
{
    static struct pcm pcm;
    struct pcm_outcome outcome;
    int settled = 0, rows = 5000;
    check(pcm_open(&pcm, words) == PCM_OK, "the program starts");
    for (int i = 0; i < rows; i++) {
        while (pcm_read(&pcm, 10 * (uint64_t)i, (uint32_t)(i % 4)) == PCM_FULL)
            settled += pcm_next(&pcm, &outcome) == PCM_OK && outcome.kind == PCM_SETTLED;
        while (pcm_settle(&pcm, 10 * (uint64_t)i) == PCM_FULL)
            settled += pcm_next(&pcm, &outcome) == PCM_OK && outcome.kind == PCM_SETTLED;
    }
    while (pcm_finish(&pcm) == PCM_FULL)
        settled += pcm_next(&pcm, &outcome) == PCM_OK && outcome.kind == PCM_SETTLED;
    while (pcm_next(&pcm, &outcome) == PCM_OK)
        settled += outcome.kind == PCM_SETTLED;
    check(settled == rows, "each settle is answered once");
    check(pcm_close(&pcm) == 0, "status 0");
}

/* What was never opened is closed, and standard input stays the caller's. */
static void what_is_all_zero_is_closed(void)
{
    static struct pcm pcm, other;
    int was_open = fcntl(0, F_GETFD) >= 0 || open("/dev/null", O_RDONLY) == 0;
    check(pcm_close(&other) == -1 && was_open && fcntl(0, F_GETFD) >= 0, "a close of it closes nothing");
    check(other.to == -1 && is_refused(&other) && pcm_close(&other) == -1, "nor does another");
    check(is_refused(&pcm) && fcntl(0, F_GETFD) >= 0 && pcm_close(&pcm) == -1, "each call of it is refused");
}

/* Words that print anything but outcomes. */
static void what_prints_no_rows_is_refused(const char *const words[], int count)
{
    static struct pcm pcm;
    const char *one[20] = {0}, *two[20] = {0}, *rows[20] = {0};
    for (int i = 0; i < count; i++)
        one[i] = two[i] = rows[i] = words[i];
    one[count] = "--print=summary";
    two[count] = "--print";
    two[count + 1] = "image";
    rows[count] = "--print=rows";
    errno = 0;
    check(pcm_open(&pcm, one) == PCM_REFUSED && errno == EINVAL && is_refused(&pcm) && pcm_close(&pcm) == -1, "a summary");
    check(pcm_open_apart(&pcm, two) == PCM_REFUSED && is_refused(&pcm) && pcm_close(&pcm) == -1, "an image");
    check(pcm_open(&pcm, rows) == PCM_OK && pcm_settle_all(&pcm, 0, NULL, NULL) == PCM_OK && pcm_finish(&pcm) == PCM_OK && pcm_close(&pcm) == 0, "rows");
}

/* The status of a close is the program's: behind a finish, whatever was taken before; without one, where nobody waits for an answer. */
static void a_close_takes_what_is_left(const char *const words[], int count)
{
    static struct pcm pcm;
    struct pcm_outcome outcome;
    const char *narrow[20] = {0};
    uint8_t bytes[64] = {1};
    int right = 0;
    for (int i = 0; i < count; i++)
        narrow[i] = words[i];
    narrow[count] = "--write-queue=2";
    for (int i = 0; i < 20; i++) {
        int sent = pcm_open(&pcm, words) == PCM_OK;
        for (uint32_t line = 0; line < 3; line++)
            sent &= pcm_write_sure(&pcm, 0, line, bytes, NULL, 64, NULL, NULL) == PCM_OK;
        right += sent && pcm_finish(&pcm) == PCM_OK && pcm_close(&pcm) == 0 && is_refused(&pcm);
    }
    check(right == 20, "three writes, a finish and a close");
    check(pcm_open(&pcm, narrow) == PCM_OK, "a queue of two writes");
    for (uint32_t line = 0; line < 3; line++)
        check(pcm_write(&pcm, 0, line, bytes, 64) == PCM_OK, "a write");
    check(pcm_finish(&pcm) == PCM_OK && pcm_close(&pcm) == 1, "one of three falls short");
    check(pcm_open(&pcm, words) == PCM_OK && pcm_read(&pcm, 0, 99999) == PCM_OK && pcm_finish(&pcm) == PCM_OK && pcm_close(&pcm) == 3, "a faulty row");
    check(pcm_open(&pcm, words) == PCM_OK, "more answers than a pipe holds");
    for (right = 0; right < 1200 && pcm_read(&pcm, 10 * (uint64_t)right, 0) == PCM_OK;)
        right++;
    check(right == 1200 && pcm_finish(&pcm) == PCM_OK && pcm_next(&pcm, &outcome) == PCM_OK && pcm_close(&pcm) == 0, "one of them is taken");
    check(pcm_open(&pcm, words) == PCM_OK && pcm_settle_all(&pcm, 9, NULL, NULL) == PCM_OK && pcm_close(&pcm) == 0, "no finish, and nothing to be said");
    check(pcm_write_sure(&pcm, 9, 0, bytes, NULL, 64, NULL, NULL) == PCM_REFUSED && is_refused(&pcm), "no call behind it is taken");
}

/* Without pcm_finish nothing is said on standard error. */
static void a_close_is_quiet(const char *const words[])
{
    static struct pcm pcm;
    uint8_t bytes[64] = {1};
    char said;
    int right = 0, own = dup(2), ends[2];
    check(own >= 0 && pipe(ends) == 0 && dup2(ends[1], 2) == 2, "standard error is a pipe");
    for (int i = 0; i < 20; i++) {
        int sent = pcm_open(&pcm, words) == PCM_OK;
        for (uint32_t line = 0; line < 3; line++)
            sent &= pcm_write_sure(&pcm, 0, line, bytes, NULL, 64, NULL, NULL) == PCM_OK;
        right += sent && pcm_close(&pcm) == 0 && is_refused(&pcm);
    }
    dup2(own, 2);
    close(own);
    close(ends[1]);
    check(right == 20 && read(ends[0], &said, 1) == 0, "three writes that wait, and a close");
    close(ends[0]);
}

static void arguments_are_looked_at(const char *const words[], int count)
{
    static struct pcm pcm;
    const char *wide[20] = {0}, *one[20] = {0};
    uint8_t bytes[PCM_MOST_BYTES + 1] = {1}, none[PCM_MOST_BYTES] = {0};
    struct pcm_outcome outcome;
    for (int i = 0; i < count; i++)
        wide[i] = one[i] = words[i];
    wide[count] = "--line";
    wide[count + 1] = "128";
    one[count] = "--line=128";
    check(pcm_open(&pcm, words) == PCM_OK && pcm.line_size == 64, "a line of 64 bytes");
    const size_t sizes[] = {0, 1, 63, 65, 128, 129};
    for (int i = 0; i < 6; i++)
        check(pcm_write(&pcm, 0, 0, bytes, sizes[i]) == PCM_SIZE && pcm_write_masked(&pcm, 0, 0, bytes, bytes, sizes[i]) == PCM_SIZE,
              "another size is refused");
    check(pcm_write_masked(&pcm, 0, 0, bytes, none, 64) == PCM_REFUSED, "a mask that gives nothing is refused");
    check(pcm_read(&pcm, PCM_LAST_TICK + 1, 0) == PCM_REFUSED, "a tick beyond the last one is refused");
    check(pcm_read(&pcm, 7, 0) == PCM_OK && pcm_read(&pcm, 6, 0) == PCM_REFUSED && pcm_settle(&pcm, 6) == PCM_REFUSED, "so is one that falls");
    check(pcm_cut(&pcm, PCM_LAST_TICK) == PCM_OK && pcm.rows == 2, "the last tick is one");
    check(pcm_finish(&pcm) == PCM_OK && pcm_read(&pcm, PCM_LAST_TICK, 0) == PCM_REFUSED && pcm_finish(&pcm) == PCM_OK, "no row comes behind the end");
    check(pcm_next(&pcm, &outcome) == PCM_OK && pcm_next(&pcm, &outcome) == PCM_OK && pcm_next(&pcm, &outcome) == PCM_ENDED, "two rows were sent");
    check(pcm_close(&pcm) == 0, "status 0");
    check(pcm_open(&pcm, wide) == PCM_OK && pcm_write(&pcm, 0, 0, bytes, 128) == PCM_OK && pcm_write(&pcm, 0, 0, bytes, 64) == PCM_SIZE, "a line of 128");
    check(pcm_finish(&pcm) == PCM_OK && pcm_next(&pcm, &outcome) == PCM_OK && pcm_close(&pcm) == 0, "status 0");
    check(pcm_open(&pcm, one) == PCM_OK && pcm.line_size == 128, "in one word");
    pcm.line_size = 0;
    check(pcm_write(&pcm, 0, 0, bytes, 128) == PCM_OK && pcm_write(&pcm, 0, 0, bytes, 129) == PCM_SIZE, "any size, where the caller says so");
    check(pcm_finish(&pcm) == PCM_OK && pcm_next(&pcm, &outcome) == PCM_OK && pcm_close(&pcm) == 0, "status 0");
}

/* What is handed to a log. */
static char logged[4096];
static void keep(void *context, char op, const char *row, size_t size)
{
    size_t at = strlen((char *)context);
    if (strchr("RWMC", op) != NULL) {
        memcpy((char *)context + at, row, size);
        ((char *)context)[at + size] = 0;
    }
}

static void writes_are_answered_at_once(const char *const words[], int count)
{
    static struct pcm pcm;
    struct pcm_outcome outcome;
    const char *narrow[20] = {0};
    uint8_t bytes[64] = {1}, given[64] = {1};
    for (int i = 0; i < count; i++)
        narrow[i] = words[i];
    narrow[count] = "--write-queue=2";
    memset(&taken, 0, sizeof taken);
    logged[0] = 0;
    check(pcm_open(&pcm, narrow) == PCM_OK, "a queue of two writes");
    pcm.log = keep;
    pcm.context = logged;
    check(pcm_write_sure(&pcm, 0, 0, bytes, NULL, 64, take, &taken) == PCM_OK && taken.count == 0, "a write is accepted");
    check(pcm_write_sure(&pcm, 0, 1, bytes, given, 64, NULL, NULL) == PCM_OK, "another one, masked");
    check(pcm_write_sure(&pcm, 1, 2, bytes, NULL, 64, take, &taken) == PCM_DECLINED, "the queue is full");
    check(taken.count == 1 && taken.rows[0] == 3 && taken.kinds[0] == PCM_FULL_QUEUE, "so its outcome says");
    check(pcm_write_sure(&pcm, 1, 1, bytes, NULL, 64, take, &taken) == PCM_OK && taken.count == 2, "a write that merges is accepted");
    check(taken.rows[1] == 2 && taken.kinds[1] == PCM_MERGED, "and the one before it is told");
    check(pcm_settle(&pcm, 1) == PCM_OK, "a settle of the caller's own");
    check(pcm_write_sure(&pcm, 100, 2, bytes, NULL, 63, take, &taken) == PCM_SIZE && taken.count == 2, "a size that is none");
    check(pcm_write_sure(&pcm, 100, 2, bytes, NULL, 64, take, &taken) == PCM_OK && taken.settled == 1, "which is told, the call's own isn't");
    check(taken.count == 5 && pcm.settles == 0, "with what is stored by then");
    taken.count = 0;
    check(pcm_read(&pcm, 100, 2) == PCM_OK && pcm_settle_all(&pcm, 1000, take, &taken) == PCM_OK, "the module settles in one call");
    check(taken.count == 2 && taken.kinds[0] == PCM_FORWARDED && taken.kinds[1] == PCM_STORED, "and tells what is known");
    check(taken.strange == 0, "the caller's context is handed on");
    check(pcm_finish(&pcm) == PCM_OK && pcm_next(&pcm, &outcome) == PCM_ENDED && pcm_close(&pcm) == 1, "status 1");
    check(strncmp(logged, "0,W,0,01000000", 14) == 0 && strstr(logged, "\n0,M,1,01....") != NULL, "rows are logged as they were sent");
    check(strstr(logged, "\n100,R,2,\n") != NULL && strchr(logged, 'S') == NULL, "all of them, in order");
    check(pcm_open(&pcm, narrow) == PCM_OK && pcm_read(&pcm, 0, 99999) == PCM_OK, "a fault");
    check(pcm_write_sure(&pcm, 0, 0, bytes, NULL, 64, take, &taken) == PCM_ENDED && pcm_close(&pcm) == 3, "is told by the next answer");
}

/* A trace of a driver, by its log, and what became of each of its rows. */
static char trace[65536];
static void keep_all(void *context, char op, const char *row, size_t size)
{
    size_t at = strlen((char *)context);
    (void)op;
    memcpy((char *)context + at, row, size);
    ((char *)context)[at + size] = 0;
}
static struct pcm_outcome became[1024];
static void note(void *context, const struct pcm_outcome *outcome)
{
    if (outcome->kind != PCM_SETTLED)
        ((struct pcm_outcome *)context)[outcome->row] = *outcome;
}

static void a_log_is_replayed(const char *const words[])
{
    static struct pcm pcm;
    static struct pcm_outcome again[1024];
    uint8_t bytes[64], given[64] = {1};
    char row[PCM_MOST_ROW];
    int right = 0, rows = 0;
    memset(became, 0, sizeof became);
    memset(again, 0, sizeof again);
    strcpy(trace, "tick,op,arg,data\n");
    check(pcm_open(&pcm, words) == PCM_OK, "a module that is driven");
    pcm.log = keep_all;
    pcm.context = trace;
    for (uint32_t i = 0; i < 100; i++) {
        memset(bytes, (int)i, 64);
        right += pcm_write(&pcm, 20 * i, i % 4, bytes, 64) == PCM_OK && pcm_write_masked(&pcm, 20 * i, i % 3, bytes, given, 64) == PCM_OK;
        right += pcm_read(&pcm, 20 * i + 1, i % 4) == PCM_OK && pcm_settle_until(&pcm, pcm.rows, 20 * i + 20, note, became) == PCM_OK;
    }
    check(right == 200 && pcm_cut(&pcm, pcm.tick) == PCM_OK && pcm_settle_all(&pcm, pcm.tick, note, became) == PCM_OK, "up to a cut");
    uint64_t tick = pcm.tick;
    check(pcm.rows == 301 && pcm_finish(&pcm) == PCM_OK && pcm_close(&pcm) >= 0, "it isn't needed any more");
    check(pcm_open(&pcm, words) == PCM_OK, "another one");
    for (const char *at = trace; *at != 0; at += strlen(row), rows++) {
        size_t size = (size_t)(strchr(at, '\n') + 1 - at);
        memcpy(row, at, size);
        row[size] = 0;
        right -= pcm_replay(&pcm, row, note, again) != PCM_OK;
    }
    check(right == 200 && rows == 403 && pcm.rows == 301 && pcm.tick == tick, "takes its rows, and passes over the others");
    check(pcm_settle_all(&pcm, tick, note, again) == PCM_OK, "and settles");
    right = 0;
    for (int i = 1; i <= 301; i++)
        right += again[i].row == became[i].row && again[i].kind == became[i].kind && again[i].tick == became[i].tick && again[i].size == became[i].size
                 && memcmp(again[i].bytes, became[i].bytes, became[i].size) == 0;
    check(right == 301 && became[300].row == 300 && became[1].row == 1, "and each row became the same");
    const char *none[] = {"", "\n", "9000", "9000,", "9000,R,0,", "9000,R,0,\r\n", "9000,R,0\n", "9000,R,,\n", "9000,R,0,00\n", "9000,X,0,\n", ",R,0,\n",
                          "9000,C,0,\n", "9000,R,123456789,\n", "-1,R,0,\n", "0,R,0,\n", "12345678901234,R,0,\n", "9999999999999,R,0,\n", "tick,op,arg,data"};
    for (int i = 0; i < 18; i++)
        check(pcm_replay(&pcm, none[i], NULL, NULL) == PCM_REFUSED && pcm.rows == 301, "what is no row is refused");
    const char *short_ones[] = {"9000,W,0,\n", "9000,W,0,00\n", "9000,M,0,00..\n"};
    for (int i = 0; i < 3; i++)
        check(pcm_replay(&pcm, short_ones[i], NULL, NULL) == PCM_SIZE, "what isn't of a line's size, too");
    check(pcm_replay(&pcm, "9000,W,0,0x\n", NULL, NULL) == PCM_REFUSED && pcm_replay(&pcm, "9000,W,0,..\n", NULL, NULL) == PCM_REFUSED, "nor digits");
    snprintf(row, sizeof row, "9000,W,3,%0128d\n", 0);
    memcpy(row + 9, "aBCdEf", 6);
    check(pcm_replay(&pcm, row, NULL, NULL) == PCM_OK && pcm_replay(&pcm, "9000,R,3,\n", NULL, NULL) == PCM_OK, "digits of either case are taken");
    check(pcm_settle_all(&pcm, 9000, note, again) == PCM_OK && memcmp(again[303].bytes, "\xab\xcd\xef\0", 4) == 0, "with their values");
    memset(&taken, 0, sizeof taken);
    for (right = 0; right < 40000; right++) {
        snprintf(row, sizeof row, "%d,R,3,\n", 10000 + 10 * right);
        if (pcm_replay(&pcm, row, take, &taken) != PCM_OK)
            break;
    }
    check(right == 40000 && (taken.count > 1000 || !is_piped), "answers that must be taken are handed on");
    check(pcm_settle_all(&pcm, 500000, take, &taken) == PCM_OK && taken.count == 40001, "each once");
    check(pcm_finish(&pcm) == PCM_OK && pcm_replay(&pcm, "9000,R,3,\n", NULL, NULL) == PCM_REFUSED && pcm_close(&pcm) >= 0, "the end");
}

static void what_waits_in_each_bank_is_told(const char *const words[], int count)
{
    static struct pcm pcm;
    struct pcm_bank banks[3] = {{9, 9, PCM_HALTED}, {9, 9, PCM_HALTED}, {9, 9, PCM_HALTED}};
    const char *two[20] = {0};
    uint8_t bytes[64] = {1};
    for (int i = 0; i < count; i++)
        two[i] = i > 0 && strcmp(words[i - 1], "--banks") == 0 ? "2" : words[i];
    memset(&taken, 0, sizeof taken);
    check(pcm_open(&pcm, two) == PCM_OK, "two banks");
    check(pcm_write(&pcm, 0, 0, bytes, 64) == PCM_OK && pcm_read(&pcm, 3, 4) == PCM_OK && pcm_read(&pcm, 3, 0) == PCM_OK, "a write and two reads");
    check(pcm_ask(&pcm, 4, banks, 3, take, &taken) == PCM_OK && pcm.rows == 3, "a question has no number");
    check(taken.count == 1 && taken.kinds[0] == PCM_FORWARDED && taken.settled == 0, "what is known by then is told");
    check(banks[0].waiting_writes == 1 && banks[0].waiting_reads == 0 && banks[0].mark == PCM_GOING, "a write waits in the first bank");
    check(banks[1].waiting_writes == 0 && banks[1].waiting_reads == 1 && banks[1].mark == PCM_GOING, "and a read in the second");
    check(banks[2].waiting_writes == 9 && banks[2].mark == PCM_HALTED, "there is no third one");
    check(pcm_ask(&pcm, 1000, banks, 1, NULL, NULL) == PCM_OK && banks[0].waiting_writes == 0 && banks[1].waiting_reads == 1, "of one bank alone");
    check(pcm_ask(&pcm, 999, banks, 2, NULL, NULL) == PCM_REFUSED, "a tick that falls is refused");
    check(pcm_finish(&pcm) == PCM_OK && ends(&pcm) && pcm_close(&pcm) == 0, "status 0");
}

static void wear_is_told(const char *const words[])
{
    static struct pcm pcm;
    struct pcm_wear wear = {9, 9, 9, 9, 9, 9, 9};
    uint8_t bytes[64];
    memset(bytes, 0xff, sizeof bytes);
    memset(&taken, 0, sizeof taken);
    check(pcm_open(&pcm, words) == PCM_OK && pcm_look(&pcm, 0, &wear, take, &taken) == PCM_OK && taken.count == 0, "a look at a new module");
    check(wear.pulses + wear.most + wear.mean + wear.pointers + wear.senses + wear.set + wear.reset == 0, "nothing was done");
    check(pcm_write(&pcm, 0, 0, bytes, 64) == PCM_OK && pcm_look(&pcm, 14, &wear, take, &taken) == PCM_OK && pcm.rows == 1, "a look has no number");
    check(wear.senses == 1 && wear.pulses == 0 && taken.count == 0 && pcm.settles == 0, "a sense was made");
    check(pcm_look(&pcm, 15, &wear, take, &taken) == PCM_OK && taken.count == 1 && taken.kinds[0] == PCM_STORED, "what is known by then is told");
    check(wear.pulses == 1 && wear.most == 1 && wear.mean == 0 && wear.pointers == 0, "a pulse was made");
    check(wear.set == 512 && wear.reset == 0, "it drove all cells to 1");
    check(pcm_look(&pcm, 14, &wear, NULL, NULL) == PCM_REFUSED && pcm_look(&pcm, 20, NULL, NULL, NULL) == PCM_OK, "a tick that falls is refused");
    check(pcm_finish(&pcm) == PCM_OK && ends(&pcm) && pcm_close(&pcm) == 0, "status 0");
}

static void a_settle_until_stops_where_its_row_has_its_outcome(const char *const words[])
{
    static struct pcm pcm;
    uint8_t bytes[64] = {1};
    memset(&taken, 0, sizeof taken);
    logged[0] = 0;
    check(pcm_open(&pcm, words) == PCM_OK, "the program starts");
    pcm.log = keep;
    pcm.context = logged;
    check(pcm_write(&pcm, 0, 0, bytes, 64) == PCM_OK && pcm_settle_until(&pcm, 1, 1000, take, &taken) == PCM_OK, "a write is waited for");
    check(pcm.tick == 15 && pcm.rows == 1 && taken.count == 1 && taken.kinds[0] == PCM_STORED, "it is stored then, and no later tick is reached");
    check(pcm_read(&pcm, 14, 0) == PCM_REFUSED && pcm_read(&pcm, 30, 0) == PCM_OK, "rows go on from there");
    check(pcm_settle_until(&pcm, 2, 1000, take, &taken) == PCM_OK && pcm.tick == 35 && taken.kinds[1] == PCM_READ, "a read is waited for");
    check(pcm_settle_until(&pcm, 1, 1000, take, &taken) == PCM_OK && pcm.tick == 35 && taken.count == 2, "what is known isn't waited for");
    check(pcm_write(&pcm, 40, 1, bytes, 64) == PCM_OK && pcm_settle_until(&pcm, 3, 54, take, &taken) == PCM_OK, "a write, not long enough");
    check(pcm.tick == 54 && taken.count == 2, "it has no outcome yet");
    check(pcm_settle_until(&pcm, 3, 55, take, &taken) == PCM_OK && pcm.tick == 55 && taken.rows[2] == 3, "one tick more does");
    check(pcm_write(&pcm, 60, 0, bytes, 64) == PCM_OK && pcm_write(&pcm, 60, 1, bytes, 64) == PCM_OK && pcm_write(&pcm, 61, 1, bytes, 64) == PCM_OK,
          "a write merges");
    check(pcm_settle(&pcm, 62) == PCM_OK && pcm_settle_until(&pcm, 5, 1000, take, &taken) == PCM_OK && pcm.tick == 62, "the older one has its outcome");
    check(taken.count == 5 && taken.kinds[3] == PCM_MERGED && taken.settled == 1 && pcm.settles == 0, "a settle of the caller's own is told");
    check(pcm_read(&pcm, 62, 2) == PCM_OK && pcm_cut(&pcm, 63) == PCM_OK && pcm_settle_until(&pcm, 7, 1000, take, &taken) == PCM_OK, "a cut");
    check(pcm.tick == 63 && taken.kinds[5] == PCM_LOST && taken.kinds[6] == PCM_CUT, "the read is lost by it");
    check(pcm_settle_until(&pcm, 0, 1000, NULL, NULL) == PCM_REFUSED && pcm_settle_until(&pcm, 9, 1000, NULL, NULL) == PCM_REFUSED, "no such row");
    check(pcm_settle_until(&pcm, 6, 62, NULL, NULL) == PCM_REFUSED && pcm_settle_until(&pcm, 6, PCM_LAST_TICK + 1, NULL, NULL) == PCM_REFUSED,
          "nor such a tick");
    check(pcm_settle_until(&pcm, 6, PCM_LAST_TICK, NULL, NULL) == PCM_OK && pcm.tick == 73, "the newer write is stored behind the cut");
    check(pcm_finish(&pcm) == PCM_OK && pcm_settle_until(&pcm, 6, 1000, NULL, NULL) == PCM_REFUSED && ends(&pcm) && pcm_close(&pcm) == 1, "status 1");
    check(strchr(logged, 'U') == NULL && strstr(logged, "\n30,R,0,\n40,W,1,01") != NULL, "a log has the rows of a trace alone");
}

/* When each row had its outcome; 0, which is no tick of one here, where it has none yet. */
static uint64_t known[4096];
static void know(void *context, const struct pcm_outcome *outcome)
{
    ((uint64_t *)context)[outcome->row] = outcome->tick;
}

/* Each settle until of many reaches a tick that the outcomes agree with. */
static void settles_until_agree_with_the_outcomes(const char *const words[], int count)
{
    static struct pcm pcm;
    const char *narrow[20] = {0};
    uint64_t state = 88172645463325252u, reached[3] = {0};
    uint8_t bytes[64];
    int right = 0;
    for (int i = 0; i < count; i++)
        narrow[i] = i > 0 && strcmp(words[i - 1], "--banks") == 0 ? "4" : words[i];
    narrow[count] = "--write-queue=4";
    narrow[count + 1] = "--misses=3";
    memset(known, 0, sizeof known);
    check(pcm_open(&pcm, narrow) == PCM_OK && pcm_settle(&pcm, 1) == PCM_OK, "four banks");
    for (int i = 0; i < 1000; i++) {
        for (int n = 0; n < 3; n++) {
            state ^= state << 13, state ^= state >> 7, state ^= state << 17;
            memset(bytes, (int)(state >> 40 & 255), sizeof bytes);
            uint64_t tick = pcm.tick + (state >> 8) % 12;
            uint32_t line = (uint32_t)(state >> 16 & 15);
            enum pcm_result sent = state >> 50 & 1    ? pcm_write(&pcm, tick, line, bytes, 64)
                                   : state >> 52 & 31 ? pcm_read(&pcm, tick, line)
                                                      : pcm_cut(&pcm, tick);
            right -= sent != PCM_OK;
        }
        uint32_t back = (uint32_t)(state >> 24) % 8, row = pcm.rows > back ? pcm.rows - back : 1;
        uint64_t stood = pcm.tick, limit = stood + (state >> 32) % 60;
        right += pcm_settle_until(&pcm, row, limit, know, known) == PCM_OK;
        if (pcm.tick == stood && known[row] != 0 && known[row] <= stood)
            reached[0]++;
        else if (pcm.tick == known[row])
            reached[1]++;
        else if (known[row] == 0 && pcm.tick == limit)
            reached[2]++;
    }
    check(right == 1000 && reached[0] + reached[1] + reached[2] == 1000, "where the outcome was known, as it comes, or at the end of patience");
    check(reached[0] > 50 && reached[1] > 50 && reached[2] > 50, "each of them comes");
    check(pcm_finish(&pcm) == PCM_OK && ends(&pcm) && pcm_close(&pcm) >= 0, "the end");
}

static void what_the_module_is_is_told(const char *const words[], int count)
{
    static struct pcm pcm;
    struct pcm_outcome outcome;
    const char *telling[22] = {0};
    uint8_t bytes[64] = {1};
    for (int i = 0; i < count; i++)
        telling[i] = words[i];
    telling[count] = "--tell";
    telling[count + 1] = "shape";
    check(pcm_open(&pcm, words) == PCM_OK && !pcm.tells_shape && pcm_learn(&pcm, NULL) == PCM_REFUSED, "who doesn't ask isn't told");
    check(pcm.shape.version == 0 && pcm_read(&pcm, 0, 4) == PCM_OK && pcm_finish(&pcm) == PCM_OK && ends(&pcm) && pcm_close(&pcm) == 3, "status 3");
    check(pcm_open(&pcm, telling) == PCM_OK && pcm.tells_shape && pcm_learn(&pcm, NULL) == PCM_OK, "the module tells what it is");
    const struct pcm_shape told = pcm.shape, right = {1, 1, 1, 4, 8, 64, 32, 32}, banks = {0, 1, 0, 0, 0, 0, 0, 0}, wide = {0, 0, 0, 0, 0, 128, 0, 0};
    check(told.version == 1 && told.banks == 1 && told.regions == 1 && told.lines == 4 && told.spares == 8, "one bank, one region, four lines");
    check(told.line == 64 && told.write_queue == 32 && told.read_queue == 32, "and the defaults of the others");
    check(pcm_learn(&pcm, &right) == PCM_OK && pcm_learn(&pcm, &banks) == PCM_OK && pcm_learn(&pcm, &wide) == PCM_OTHER, "it isn't any other");
    check(pcm_read(&pcm, 0, 4) == PCM_REFUSED && pcm_write(&pcm, 0, 4, bytes, 64) == PCM_REFUSED, "a line that it hasn't is refused");
    check(pcm_read(&pcm, 0, 3) == PCM_OK && pcm_cut(&pcm, 9) == PCM_OK && pcm_settle_until(&pcm, 1, 100, NULL, NULL) == PCM_OK, "others aren't");
    check(pcm_finish(&pcm) == PCM_OK && ends(&pcm) && pcm_learn(&pcm, &right) == PCM_OK && pcm_close(&pcm) == 0, "status 0");
    telling[count + 1] = "module";
    check(pcm_open(&pcm, telling) == PCM_OK && pcm_learn(&pcm, &banks) == PCM_OK && pcm.shape.version == 2, "it may tell all of itself");
    check(pcm.rest.seed == pcm.seed && pcm.rest.psi == 100 && pcm.rest.read_ticks == 5 && pcm.rest.iter_ticks == 10, "seed, gap moves, ticks");
    check(pcm.rest.policy == PCM_PAUSE && pcm.rest.home == PCM_GUARDED && pcm_bank_of(&pcm, 3) == 0 && pcm_finish(&pcm) == PCM_OK, "policy, registers");
    check(ends(&pcm) && pcm_close(&pcm) == 0, "status 0");
    telling[count + 1] = "shape";
    check(pcm_open(&pcm, telling) == PCM_OK && pcm_read(&pcm, 0, 0) == PCM_OK && pcm_settle(&pcm, 9) == PCM_OK, "a row before it is asked for");
    check(pcm_next(&pcm, &outcome) == PCM_OK && outcome.kind == PCM_READ && pcm_learn(&pcm, &right) == PCM_OK, "it is known by the first answer");
    check(pcm_finish(&pcm) == PCM_OK && ends(&pcm) && pcm_close(&pcm) == 0, "status 0");
}

/* Words that are refused show at the first settle. */
static void wrong_words_are_found_out(const char *const words[], int count)
{
    static struct pcm pcm;
    const char *wrong[22] = {0}, *twice[22] = {0}, *many[22] = {0};
    for (int i = 0; i < count; i++)
        wrong[i] = twice[i] = many[i] = words[i];
    wrong[count] = "--polcy=pause";
    twice[count] = "--banks=1";
    many[count] = "--spares=1025";
    check(pcm_open(&pcm, wrong) == PCM_OK && pcm_settle_all(&pcm, 0, NULL, NULL) == PCM_ENDED && pcm_close(&pcm) == 2, "a word that is none");
    check(pcm_open(&pcm, twice) == PCM_OK && pcm_settle_all(&pcm, 0, NULL, NULL) == PCM_ENDED && pcm_close(&pcm) == 2, "one that is given twice");
    check(pcm_open(&pcm, many) == PCM_OK && pcm_settle_all(&pcm, 0, NULL, NULL) == PCM_ENDED && pcm_close(&pcm) == 2, "a value out of its range");
}

static void a_bank_without_a_spare_is_exhausted(const char *const words[], int count)
{
    static struct pcm pcm;
    struct pcm_bank bank = {0, 0, PCM_GOING};
    const char *worn[20] = {0};
    const char *more[] = {"--spares", "0", "--lo", "1", "--hi", "1"};
    uint8_t bytes[64];
    for (int i = 0; i < count; i++)
        worn[i] = words[i];
    for (int i = 0; i < 6; i++)
        worn[count + i] = more[i];
    check(pcm_open(&pcm, worn) == PCM_OK, "cells of one change");
    for (int i = 0; i < 8; i++) {
        memset(bytes, i % 2 ? 0xff : 0, 64);
        check(pcm_write(&pcm, 1000 * (uint64_t)i, 0, bytes, 64) == PCM_OK, "a write");
    }
    check(pcm_ask(&pcm, 9000, &bank, 1, NULL, NULL) == PCM_OK && bank.mark == PCM_EXHAUSTED && bank.waiting_writes > 0, "the bank is exhausted");
    for (uint32_t row = 1; row <= 8; row++)
        check(pcm_settle_until(&pcm, row, 10000, NULL, NULL) == PCM_OK, "a write that stays in its queue");
    check(pcm.tick == 10000, "is waited for in vain");
    check(pcm_finish(&pcm) == PCM_OK && ends(&pcm) && pcm_close(&pcm) == 1, "status 1");
}

int main(int count, char **words)
{
    const char *all[20] = {0};
    int n = begin_words(all, count, words);
    answers_come_as_they_are_known(all);
    what_is_all_zero_is_closed();
    what_prints_no_rows_is_refused(all, n);
    a_close_takes_what_is_left(all, n);
    a_close_is_quiet(all);
    arguments_are_looked_at(all, n);
    writes_are_answered_at_once(all, n);
    a_log_is_replayed(all);
    what_waits_in_each_bank_is_told(all, n);
    wear_is_told(all);
    a_settle_until_stops_where_its_row_has_its_outcome(all);
    settles_until_agree_with_the_outcomes(all, n);
    what_the_module_is_is_told(all, n);
    wrong_words_are_found_out(all, n);
    a_bank_without_a_spare_is_exhausted(all, n);
    many_rows_with_answers_taken_late(all);
    settles_with_answers_taken_late(all);
    return checked();
}
