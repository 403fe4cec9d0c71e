/* Tests of pcm_stream.h over a pipe, to the program that the first word names and to others: what is different in the caller's own process
   (test_stream.c has the rest). Prints 'N passed, M failed'. */
#include "test_stream.h"

static void what_cannot_start_is_told(void)
{
    static struct pcm pcm;
    const char *none[] = {"/nowhere/pcm", NULL}, *folder[] = {"/", NULL}, *ends[] = {"false", NULL};
    struct pcm_outcome outcome = {PCM_CUT, 0, 0, 0, 0, {0}};
    check(pcm_open(&pcm, none) == PCM_FAILED && errno == ENOENT && is_refused(&pcm) && pcm_close(&pcm) == -1, "what isn't there doesn't start");
    check(pcm_open_apart(&pcm, folder) == PCM_FAILED && errno == EACCES && is_refused(&pcm) && pcm_close(&pcm) == -1, "nor what is no program");
    check(is_refused(&pcm), "nothing is sent to it");
    check(pcm_open(&pcm, ends) == PCM_OK && pcm_finish(&pcm) == PCM_OK, "what ends at once starts");
    check(pcm_next(&pcm, &outcome) == PCM_ENDED && pcm_close(&pcm) == 1, "and tells its status");
}

/* Without pcm_finish a program that doesn't stop saying something is left alone; behind it, one that is slow is waited for. */
static void a_close_waits_for_an_end(void)
{
    static struct pcm pcm;
    const char *late[] = {"sh", "-c", "cat >/dev/null; sleep 0.1; echo row,outcome,tick,place,data && echo 1,cut,0,,", NULL};
    const char *endless[] = {"sh", "-c", "yes 2>/dev/null", NULL};
    check(pcm_open(&pcm, late) == PCM_OK && pcm_finish(&pcm) == PCM_OK && pcm_close(&pcm) == 0, "answers that come late");
    check(pcm_open(&pcm, endless) == PCM_OK && pcm_settle_all(&pcm, 0, NULL, NULL) == PCM_GARBLED && pcm_close(&pcm) != 0, "no end");
}

/* As `pcm map` tells it. */
static void the_bank_of_a_line(const char *const words[], int count)
{
    static struct pcm pcm, map;
    const char *shaped[20] = {0}, *mapped[20] = {0};
    const char *more[] = {"--banks=8", "--regions=2", "--lines=64", "--seed", "18446744073709551615", "--tell=shape"};
    int n = 0, m = 0, right = 0;
    for (int i = 0; i < count && (i == 0 || strcmp(words[i - 1], "stream") != 0); i++) {
        shaped[n++] = words[i];
        mapped[m++] = strcmp(words[i], "stream") == 0 ? "map" : words[i];
    }
    for (int i = 0; i < 6; i++)
        shaped[n++] = more[i];
    for (int i = 0; i < 5; i++)
        mapped[m++] = more[i];
    check(pcm_open(&pcm, shaped) == PCM_OK && pcm_bank_of(&pcm, 0) == PCM_NO_BANK, "without a shape it isn't known");
    check(pcm_learn(&pcm, NULL) == PCM_OK && pcm_bank_of(&pcm, 1024) == PCM_NO_BANK, "nor of a line that the module hasn't");
    check(pcm_open(&map, mapped) == PCM_OK && pcm_finish(&map) == PCM_OK, "the module's map");
    enum pcm_result result;
    for (const char *text = pcm__line(&map, &result); text != NULL; text = pcm__line(&map, &result)) {
        char *end;
        uint32_t line = (uint32_t)strtoul(text, &end, 10);
        right += end > text && *end == ',' && pcm_bank_of(&pcm, line) == strtoul(end + 1, NULL, 10);
    }
    check(pcm_close(&map) == 0 && right == 1024, "each line is in the bank that the map says");
    check(pcm_close(&pcm) == 0, "status 0");
}

static void faults_are_told(const char *const words[])
{
    static struct pcm pcm;
    struct pcm_outcome outcome;
    int sent = 0;
    check(pcm_open(&pcm, words) == PCM_OK && pcm_read(&pcm, 0, 99999) == PCM_OK && pcm_finish(&pcm) == PCM_OK, "a line that there isn't");
    check(pcm_next(&pcm, &outcome) == PCM_ENDED && pcm_close(&pcm) == 3, "is a fault of the trace");
    check(pcm_open(&pcm, words) == PCM_OK && pcm_read(&pcm, 0, 99999) == PCM_OK && pcm_settle(&pcm, 0) == PCM_OK, "another");
    check(pcm_next(&pcm, &outcome) == PCM_ENDED, "the program has ended");
    while (sent < 100000 && pcm_read(&pcm, 0, 0) == PCM_OK)
        sent++;
    check(sent < 100000 && pcm_settle(&pcm, 0) == PCM_ENDED, "rows behind it are told so, without a signal");
    check(pcm_close(&pcm) == 3, "status 3");
    const char *wrong[] = {"1,stored,5", "1,gone,5,3,", "1,read,5,3,0", "1,read,5,3,0x", "1,storedx,5,3,", "1,,5,3,", "x,stored,5,3,", "1,stored,5,x,",
                           "1,stored",   ",wear,5,,1 2 3 4 5 6", ",wear,5,,1 2 3 4 5 6 7 8", ",wear,5,,1 2 3 4 5 6 ", ",wear,5,1 2 3 4 5 6 7"};
    for (int i = 0; i < 13; i++) {
        const char *echoes[] = {"echo", wrong[i], NULL};
        check(pcm_open(&pcm, echoes) == PCM_OK && pcm_next(&pcm, &outcome) == PCM_GARBLED && pcm_close(&pcm) == 0, "a line that is none");
    }
}

/* Opens a module whose program has ended at a fault, behind three rows that it told of; whether it could be. */
static int has_ended(struct pcm *pcm, const char *const words[])
{
    uint8_t bytes[64] = {1};
    memset(&taken, 0, sizeof taken);
    int sent = pcm_open(pcm, words) == PCM_OK && pcm_write(pcm, 0, 0, bytes, 64) == PCM_OK && pcm_read(pcm, 100, 0) == PCM_OK;
    sent &= pcm_read(pcm, 200, 0) == PCM_OK && pcm_settle(pcm, 300) == PCM_OK && pcm_read(pcm, 300, 99999) == PCM_OK && pcm_flush(pcm) == PCM_OK;
    struct pollfd it = {pcm->to, 0, 0};
    return sent && poll(&it, 1, 60000) == 1;
}

static int told_all(void)
{
    return taken.count == 4 && taken.rows[0] == 1 && taken.rows[1] == 2 && taken.rows[2] == 3 && taken.settled == 1;
}

static void what_was_told_before_an_end_is_handed_on(const char *const words[])
{
    static struct pcm pcm;
    struct pcm_outcome outcome;
    struct pcm_bank bank;
    uint8_t bytes[64] = {1};
    int sent = 0;
    check(has_ended(&pcm, words) && pcm_settle_all(&pcm, 400, take, &taken) == PCM_ENDED && told_all(), "to the call that settles");
    check(pcm_next(&pcm, &outcome) == PCM_ENDED && pcm_close(&pcm) == 3, "none is left");
    check(has_ended(&pcm, words) && pcm_ask(&pcm, 400, &bank, 1, take, &taken) == PCM_ENDED && told_all() && pcm_close(&pcm) == 3, "to a question");
    check(has_ended(&pcm, words) && pcm_settle_until(&pcm, 1, 400, take, &taken) == PCM_ENDED && told_all() && pcm_close(&pcm) == 3, "to a settle until");
    check(has_ended(&pcm, words) && pcm_write_sure(&pcm, 400, 1, bytes, NULL, 64, take, &taken) == PCM_ENDED && told_all(), "to a write");
    check(pcm_next(&pcm, &outcome) == PCM_ENDED && pcm_close(&pcm) == 3, "status 3");
    for (int i = 0; i < 2; i++) {
        check(has_ended(&pcm, words), "a program that has ended");
        while (sizeof pcm.out - pcm.held >= PCM_MOST_ROW && pcm_read(&pcm, 300, 0) == PCM_OK)
            sent++;
        check(i == 0 ? pcm_write_sure(&pcm, 400, 1, bytes, NULL, 64, take, &taken) == PCM_ENDED : pcm_replay(&pcm, "400,R,0,\n", take, &taken) == PCM_ENDED,
              "a row for which there is no room");
        check(told_all() && pcm_next(&pcm, &outcome) == PCM_ENDED && pcm_close(&pcm) == 3, "takes what is left, too");
    }
    check(sent > 1000 && has_ended(&pcm, words) && pcm_settle(&pcm, 400) == PCM_ENDED, "a settle that takes nothing");
    for (sent = 0; pcm_next(&pcm, &outcome) == PCM_OK;)
        sent++;
    check(sent == 4 && pcm_close(&pcm) == 3, "leaves it");
}

static void a_stream_that_ends_with_a_refusal(const char *const words[], int count)
{
    static struct pcm pcm;
    const char *until[20] = {0};
    uint8_t bytes[64] = {1};
    for (int i = 0; i < count; i++)
        until[i] = words[i];
    until[count] = "--until=refused";
    until[count + 1] = "--write-queue=1";
    memset(&taken, 0, sizeof taken);
    check(pcm_open(&pcm, until) == PCM_OK && pcm_write_sure(&pcm, 0, 0, bytes, NULL, 64, take, &taken) == PCM_OK, "a write is accepted");
    check(pcm_write_sure(&pcm, 0, 1, bytes, NULL, 64, take, &taken) == PCM_DECLINED, "the next one is declined");
    check(taken.count == 2 && taken.rows[0] == 2 && taken.kinds[0] == PCM_FULL_QUEUE && taken.rows[1] == 1, "which is told, and what its end makes known");
    check(pcm_write_sure(&pcm, 0, 2, bytes, NULL, 64, take, &taken) == PCM_ENDED && taken.count == 2, "the stream has ended");
    check(pcm_finish(&pcm) == PCM_OK && pcm_close(&pcm) == 0, "status 0");
}

/* A program that reaches tick 9, whatever it is asked. */
static void a_tick_that_was_not_asked_for(void)
{
    static struct pcm pcm;
    const char *nine[] = {"sh", "-c", "while read -r row; do case $row in *,U,*) echo ,settled,9,,;; esac; done", NULL};
    check(pcm_open(&pcm, nine) == PCM_OK && pcm_read(&pcm, 0, 0) == PCM_OK && pcm_settle_until(&pcm, 1, 9, NULL, NULL) == PCM_OK, "it may be reached");
    check(pcm.tick == 9 && pcm_settle_until(&pcm, 1, 20, NULL, NULL) == PCM_OK && pcm.tick == 9, "again");
    check(pcm_read(&pcm, 12, 0) == PCM_OK && pcm_settle_until(&pcm, 1, 20, NULL, NULL) == PCM_GARBLED && pcm_close(&pcm) == 0, "but not from 12 on");
    check(pcm_open(&pcm, nine) == PCM_OK && pcm_read(&pcm, 0, 0) == PCM_OK && pcm_settle_until(&pcm, 1, 8, NULL, NULL) == PCM_GARBLED, "nor up to 8");
    check(pcm_close(&pcm) == 0, "status 0");
}

static void the_newest_bytes_of_a_line_are_told(const char *const words[])
{
    static struct pcm pcm;
    struct pcm_wear before = {0, 0, 0, 0, 0, 0, 0}, behind = before;
    uint8_t bytes[64], found[64], given[64] = {1}, none[64] = {0};
    memset(bytes, 0xff, sizeof bytes);
    memset(&taken, 0, sizeof taken);
    check(pcm_open(&pcm, words) == PCM_OK && pcm_peek(&pcm, 0, 0, found, 64, take, &taken) == PCM_OK && taken.count == 0, "a peek at a new module");
    check(memcmp(found, none, 64) == 0 && pcm.rows == 0, "never written, it counts as 0");
    check(pcm_write(&pcm, 0, 0, bytes, 64) == PCM_OK && pcm_peek(&pcm, 0, 0, found, 64, take, &taken) == PCM_OK, "a write waits");
    check(memcmp(found, bytes, 64) == 0 && pcm.tick == 0 && taken.count == 0, "what is accepted is newest, at the same tick");
    bytes[0] = 7;
    check(pcm_write_masked(&pcm, 3, 0, bytes, given, 64) == PCM_OK && pcm_cut(&pcm, 8) == PCM_OK, "one byte more, and the power goes");
    check(pcm_look(&pcm, 8, &before, take, &taken) == PCM_OK && pcm_peek(&pcm, 8, 0, found, 64, take, &taken) == PCM_OK, "it is there");
    check(memcmp(found, bytes, 64) == 0 && pcm_look(&pcm, 8, &behind, NULL, NULL) == PCM_OK && before.senses == behind.senses, "nothing was sensed");
    check(pcm_peek(&pcm, 8, 0, found, 63, NULL, NULL) == PCM_SIZE && pcm_peek(&pcm, 7, 0, found, 64, NULL, NULL) == PCM_REFUSED, "what is wrong is refused");
    check(pcm_finish(&pcm) == PCM_OK && ends(&pcm) && pcm_close(&pcm) == 0, "status 0");
}

static void a_settle_until_any_row_goes_to_the_next_outcome(const char *const words[])
{
    static struct pcm pcm;
    uint8_t bytes[64] = {1};
    memset(&taken, 0, sizeof taken);
    check(pcm_open(&pcm, words) == PCM_OK && pcm_write(&pcm, 0, 0, bytes, 64) == PCM_OK, "a write");
    check(pcm_settle_any(&pcm, 14, take, &taken) == PCM_OK && pcm.tick == 14 && taken.count == 0, "not long enough");
    check(pcm_settle_any(&pcm, 1000, take, &taken) == PCM_OK && pcm.tick == 15 && taken.count == 1, "it is stored");
    check(pcm_read(&pcm, 20, 0) == PCM_OK && pcm_settle_any(&pcm, 1000, take, &taken) == PCM_OK && pcm.tick == 25 && taken.count == 2, "a read");
    check(pcm_settle_any(&pcm, 1000, take, &taken) == PCM_OK && pcm.tick == 1000 && taken.count == 2, "nothing is left to tell");
    check(pcm_finish(&pcm) == PCM_OK && ends(&pcm) && pcm_close(&pcm) == 0, "status 0");
}

static void a_shape_that_is_none(void)
{
    static struct pcm pcm;
    const char *wrong[] = {",shape,0,0,1 1 4 8 64 32 32", ",shape,0,1,1 1 4 8 0 32 32", ",shape,0,1,1 1 4 8 129 32 32",
                           ",shape,0,1,1 1 4 8 64 32",    "1,stored,5,3,",               "?"};
    const char *ended[] = {"false", "--tell=shape", NULL};
    for (int i = 0; i < 6; i++) {
        const char *echoes[] = {"echo", wrong[i], NULL};
        check(pcm_open(&pcm, echoes) == PCM_OK && (pcm.tells_shape = 1) && pcm_learn(&pcm, NULL) == PCM_GARBLED, "it is told so");
        check(pcm_close(&pcm) == 0, "status 0");
    }
    check(pcm_open(&pcm, ended) == PCM_OK && pcm_learn(&pcm, NULL) == PCM_ENDED && pcm_close(&pcm) == 1, "nor is it told by what has ended");
}

/* What the words of pcm_open don't tell pcm_learn does. */
static void a_script_is_asked_what_its_module_is(const char *const words[], int count)
{
    static struct pcm pcm;
    const char *one[22] = {"sh", "-c", "exec \"$@\" --tell shape --line=128", "sh"}, *other[22] = {0};
    const struct pcm_shape wide = {0, 0, 0, 0, 0, 128, 0, 0};
    uint8_t bytes[128] = {1};
    for (int i = 0; i < count; i++) {
        one[i + 4] = words[i];
        other[i] = strcmp(words[i], "stream") == 0 ? "run" : words[i];
    }
    other[count] = "--tell=shape";
    check(pcm_open(&pcm, one) == PCM_OK && pcm.line_size == 64 && (pcm.tells_shape = 1) && pcm_learn(&pcm, &wide) == PCM_OK, "by a script");
    check(pcm.line_size == 128 && pcm_write(&pcm, 0, 0, bytes, 64) == PCM_SIZE && pcm_write(&pcm, 0, 0, bytes, 128) == PCM_OK, "whose lines are wide");
    check(pcm_finish(&pcm) == PCM_OK && ends(&pcm) && pcm_close(&pcm) == 0, "status 0");
    check(pcm_open(&pcm, other) == PCM_OK && pcm_learn(&pcm, NULL) == PCM_ENDED && pcm_close(&pcm) == 2, "a command that isn't of streams");
}

/* Digits, of which lanes take sixteen at once. */
static void digits_are_put_and_read(void)
{
    char text[2 * PCM_MOST_BYTES + 3], one[3];
    uint8_t bytes[PCM_MOST_BYTES], back[PCM_MOST_BYTES], given[PCM_MOST_BYTES];
    int right = 0;
    for (size_t size = 0; size <= PCM_MOST_BYTES; size++) {
        for (size_t i = 0; i < size; i++) {
            bytes[i] = (uint8_t)(73 * size + 151 * i);
            given[i] = (uint8_t)(i % 3);
        }
        *pcm__put_bytes(text, bytes, NULL, size) = 0;
        int same = strlen(text) == 2 * size && pcm__get_bytes(text, back) == (int)size && memcmp(bytes, back, size) == 0;
        for (size_t i = 0; i < size; i++) {
            snprintf(one, sizeof one, "%02x", bytes[i]);
            same &= memcmp(one, text + 2 * i, 2) == 0;
        }
        *pcm__put_bytes(text, bytes, given, size) = 0;
        for (size_t i = 0; i < size; i++) {
            snprintf(one, sizeof one, "%02x", bytes[i]);
            same &= memcmp(i % 3 == 0 ? ".." : one, text + 2 * i, 2) == 0;
        }
        right += same && strlen(text) == 2 * size;
    }
    check(right == PCM_MOST_BYTES + 1, "bytes of each number");
    right = 0;
    for (int at = 0; at < 80; at++)
        for (int c = 1; c < 256; c++) {
            memset(text, '0', 80);
            text[80] = 0;
            text[at] = (char)c;
            int is_digit = (c >= '0' && c <= '9') || (c >= 'a' && c <= 'f');
            right += pcm__get_bytes(text, back) == (is_digit ? 40 : -1);
        }
    check(right == 80 * 255, "no other character is a digit, wherever it stands");
    memset(text, '0', sizeof text);
    text[2 * PCM_MOST_BYTES + 2] = 0;
    check(pcm__get_bytes(text, back) == -1 && pcm__get_bytes(text + 1, back) == -1, "nor are more bytes than a line has");
    check(pcm__get_bytes(text + 2, back) == PCM_MOST_BYTES && pcm__get_bytes("0", back) == -1, "nor half of one");
}

/* PCM_FULL comes where so many bytes wait as the header says, and never by the calls that take answers themselves. */
static void full_has_its_bound(const char *const words[])
{
    static struct pcm pcm;
    struct pcm_outcome outcome;
    enum pcm_result result = PCM_OK;
    int rows = 0;
    check(pcm_open(&pcm, words) == PCM_OK, "the program starts");
    while (rows < 1000000 && (result = pcm_read(&pcm, 10 * (uint64_t)rows, 0)) == PCM_OK)
        rows++;
    check(result == PCM_FULL && pcm.end - pcm.begin > PCM_MOST_WAITING && rows > 330, "it comes where many bytes wait");
    memset(&taken, 0, sizeof taken);
    check(pcm_settle_all(&pcm, 10 * (uint64_t)rows, take, &taken) == PCM_OK, "a settle that takes answers goes on");
    check(pcm_settle_all(&pcm, 10 * (uint64_t)rows + 5, take, &taken) == PCM_OK && taken.count == rows, "each row is answered once");
    for (int i = 0; i < 1000 && result != PCM_ENDED; i++) {
        for (int n = 0; n < 330; n++)
            if (pcm_read(&pcm, pcm.tick + 5, 0) != PCM_OK)
                result = PCM_ENDED;
        if (pcm_settle_all(&pcm, pcm.tick, NULL, NULL) != PCM_OK)
            result = PCM_ENDED;
    }
    check(result == PCM_FULL, "and 330 reads between two settles never meet it");
    /* (32 that waited and 334 have 366 answers of 176 bytes) */
    for (int i = 0; i < 100 && result != PCM_ENDED; i++) {
        for (int n = 0; n < 334; n++)
            if (pcm_read(&pcm, pcm.tick + (n < 1 ? 1000 : n < 303 ? 5 : 0), 0) != PCM_OK)
                result = PCM_ENDED;
        if (pcm_settle_all(&pcm, pcm.tick, NULL, NULL) != PCM_OK)
            result = PCM_ENDED;
    }
    struct pcm_bank bank;
    check(result == PCM_FULL && pcm_ask(&pcm, pcm.tick, &bank, 1, NULL, NULL) == PCM_OK && bank.waiting_reads == 32, "nor 334 behind 32 that waited");
    check(pcm_settle_all(&pcm, pcm.tick + 1000, NULL, NULL) == PCM_OK && pcm_read(&pcm, pcm.tick, 0) == PCM_OK, "one read more");
    check(pcm_finish(&pcm) == PCM_OK && pcm_next(&pcm, &outcome) == PCM_OK && pcm_next(&pcm, &outcome) == PCM_ENDED, "the last read");
    check(pcm_close(&pcm) == 0, "status 0");
}

/* The numbers of the header's example: reads and writes wait in all four banks, and 200 reads, or 740 writes, come behind them. */
static void the_example_of_full_holds(const char *const words[], int count)
{
    static struct pcm pcm;
    struct pcm_bank banks[4];
    const char *four[20] = {0};
    uint8_t bytes[64] = {0};
    int n = 0, right = 0;
    for (int i = 0; i < count && (i == 0 || strcmp(words[i - 1], "stream") != 0); i++)
        four[n++] = words[i];
    check(pcm_open(&pcm, four) == PCM_OK, "four banks");
    for (uint64_t round = 1; round <= 20; round++) {
        uint64_t tick = 1000000 * round;
        bytes[0] = (uint8_t)round;
        for (uint32_t i = 0; i < 256; i++)
            right += pcm_write(&pcm, tick, i, bytes, 64) == PCM_OK && pcm_read(&pcm, tick, 256 + i) == PCM_OK;
        right += pcm_ask(&pcm, tick, banks, 4, NULL, NULL) == PCM_OK;
        for (int i = 0; i < 4; i++)
            right += banks[i].waiting_writes == 32 && banks[i].waiting_reads == 32;
        for (uint32_t i = 0; i < (round % 2 ? 200 : 740); i++)
            right += round % 2 ? pcm_read(&pcm, tick + 1000 + 10 * i, 256 + i % 256) == PCM_OK : pcm_write(&pcm, tick + 1000 + 10 * i, i % 512, bytes, 64) == PCM_OK;
        right += pcm_settle_all(&pcm, pcm.tick, NULL, NULL) == PCM_OK;
    }
    check(right == 20 * (256 + 1 + 4 + 1) + 10 * (200 + 740), "its rows never meet PCM_FULL");
    check(pcm_finish(&pcm) == PCM_OK && pcm_close(&pcm) == 1, "the end");
}

/* Reads that waited at the settle before count, too. */
static void what_waits_counts_towards_full(const char *const words[], int count)
{
    static struct pcm pcm;
    const char *wide[20] = {0};
    const char *more[] = {"--banks=64", "--regions=2", "--lines=64", "--line=128", "--read-queue=256"};
    uint8_t bytes[128] = {0};
    int n = 0, right = 0;
    for (int i = 0; i < count && (i == 0 || strcmp(words[i - 1], "stream") != 0); i++)
        wide[n++] = words[i];
    for (int i = 0; i < 5; i++)
        wide[n++] = more[i];
    check(pcm_open(&pcm, wide) == PCM_OK, "64 banks");
    for (uint32_t i = 0; i < 80; i++) {
        for (uint32_t j = 0; j < 200; j++)
            right += pcm_read(&pcm, 0, (200 * i + j) % 8192) == PCM_OK;
        right += pcm_settle_all(&pcm, 0, NULL, NULL) == PCM_OK;
    }
    check(right == 80 * 201, "most of 16,000 reads wait");
    enum pcm_result result = PCM_OK;
    for (uint32_t i = 0; i < 1344 && result == PCM_OK; i++)
        result = pcm_write(&pcm, 100000, i, bytes, 128);
    check(result == PCM_FULL && pcm_settle_all(&pcm, 100000, NULL, NULL) == PCM_OK, "their answers leave no room");
    check(pcm_finish(&pcm) == PCM_OK && pcm_close(&pcm) >= 0, "the end");
}

/* (The fifth field of /proc/PID/stat is its process group.) */
static void a_group_of_its_own(void)
{
    static struct pcm pcm;
    const char *asks[] = {"sh", "-c", "read -r a b c d e rest < /proc/$$/stat; [ $e = $$ ]", NULL};
    check(pcm_open(&pcm, asks) == PCM_OK && pcm_finish(&pcm) == PCM_OK && pcm_close(&pcm) == 1, "a program of the caller's group");
    check(pcm_open_apart(&pcm, asks) == PCM_OK && pcm_finish(&pcm) == PCM_OK && pcm_close(&pcm) == 0, "one with a group of its own");
}

static void standard_descriptors_may_be_closed(const char *const words[])
{
    static struct pcm pcm;
    struct pcm_outcome outcome;
    int status = 0;
    pid_t child = fork();
    if (child == 0) {
        close(0);
        close(1);
        int told = pcm_open(&pcm, words) == PCM_OK && pcm_read(&pcm, 0, 0) == PCM_OK && pcm_settle(&pcm, 9) == PCM_OK
            && until_settled(&pcm, &outcome) == 1 && pcm_finish(&pcm) == PCM_OK && pcm_close(&pcm) == 0;
        _exit(told ? 0 : 1);
    }
    check(child > 0 && waitpid(child, &status, 0) == child && status == 0, "a caller without standard input and output");
}

int main(int count, char **words)
{
    const char *all[20] = {0};
    int n = begin_words(all, count, words);
    what_cannot_start_is_told();
    a_close_waits_for_an_end();
    the_bank_of_a_line(all, n);
    faults_are_told(all);
    what_was_told_before_an_end_is_handed_on(all);
    a_stream_that_ends_with_a_refusal(all, n);
    a_tick_that_was_not_asked_for();
    the_newest_bytes_of_a_line_are_told(all);
    a_settle_until_any_row_goes_to_the_next_outcome(all);
    a_shape_that_is_none();
    a_script_is_asked_what_its_module_is(all, n);
    digits_are_put_and_read();
    full_has_its_bound(all);
    the_example_of_full_holds(all, n);
    what_waits_counts_towards_full(all, n);
    a_group_of_its_own();
    standard_descriptors_may_be_closed(all);
    return checked();
}
