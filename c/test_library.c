/* Tests of pcm.h over the library that it is linked with. Prints 'N passed, M failed'. */
#include "pcm.h"
#include "pcm_stream.h" /* (both may stand in one file) */
#include "test_checks.h"

static struct pcm_module opened(const struct pcm_module_options *options)
{
    struct pcm_module pcm = PCM_MODULE_CLOSED_ONE;
    check(pcm_module_open(&pcm, options) == PCM_MODULE_OK && pcm.is_open, "a module is opened");
    return pcm;
}

static void answers_come_as_they_are_known(void)
{
    struct pcm_module_options options = PCM_MODULE_DEFAULTS;
    struct pcm_module pcm = opened(&options);
    struct pcm_module_outcome outcome;
    uint8_t bytes[64];
    memset(bytes, 0xa5, sizeof bytes);
    check(pcm_module_lines(&pcm) == 512 && pcm_module_rows(&pcm) == 0, "it has its lines, and no rows");
    check(pcm_module_write(&pcm, 0, 0, bytes, 64) == PCM_MODULE_OK && pcm_module_rows(&pcm) == 1, "a write has the number 1");
    check(pcm_module_read(&pcm, 3, 0) == PCM_MODULE_OK && pcm_module_rows(&pcm) == 2, "a read has the number 2");
    check(pcm_module_settle(&pcm, 14) == PCM_MODULE_OK && pcm_module_rows(&pcm) == 2, "a settle has no number");
    check(pcm_module_tick(&pcm) == 14 && pcm_module_waiting(&pcm) == 1, "the read is answered, and nothing else");
    check(pcm_module_next(&pcm, &outcome) == PCM_MODULE_OK && outcome.kind == PCM_MODULE_FORWARDED, "it is forwarded");
    check(outcome.row == 2 && outcome.tick == 3 && outcome.place == 0 && outcome.size == 64, "as row 2, at its arrival");
    check(memcmp(outcome.bytes, bytes, 64) == 0, "with the bytes that were written");
    check(pcm_module_next(&pcm, &outcome) == PCM_MODULE_EMPTY && outcome.row == 2, "no other waits, and what was told stays");
    check(pcm_module_settle_until(&pcm, 1, 1000) == PCM_MODULE_OK && pcm_module_tick(&pcm) == 15, "the write is waited for");
    check(pcm_module_next(&pcm, &outcome) == PCM_MODULE_OK && outcome.kind == PCM_MODULE_STORED && outcome.tick == 15, "it is stored");
    check(pcm_module_cut(&pcm, 1007) == PCM_MODULE_OK && pcm_module_read(&pcm, 1007, 0) == PCM_MODULE_OK, "a cut, and a read");
    check(pcm_module_finish(&pcm) == PCM_MODULE_OK && pcm_module_waiting(&pcm) == 2, "both are answered in the end");
    check(pcm_module_next(&pcm, &outcome) == PCM_MODULE_OK && outcome.kind == PCM_MODULE_CUT, "the cut");
    check(pcm_module_next(&pcm, &outcome) == PCM_MODULE_OK && outcome.kind == PCM_MODULE_READ, "the read from the array");
    check(memcmp(outcome.bytes, bytes, 64) == 0 && outcome.tick == 1012, "with the bytes that were written before");
    pcm_module_close(&pcm);
}

/* What a closed module answers to each call, whichever way it is closed. */
static void a_closed_module_answers(struct pcm_module *pcm)
{
    struct pcm_module_outcome outcome = {99, 98, 97, 96, 0, {95}};
    struct pcm_module_backlog bank = {9, 8, 7};
    struct pcm_module_wear wear = {9, 9, 9, 9, 9, 9, 9};
    struct pcm_module_standing line = {9, 9, 9, 9, 9, 9, 9};
    uint8_t bytes[64] = {6};
    check(pcm_module_write(pcm, 0, 0, bytes, 64) == PCM_MODULE_CLOSED && pcm_module_read(pcm, 0, 0) == PCM_MODULE_CLOSED, "closed: rows");
    check(pcm_module_cut(pcm, 0) == PCM_MODULE_CLOSED && pcm_module_settle(pcm, 0) == PCM_MODULE_CLOSED, "closed: a cut, a settle");
    check(pcm_module_settle_until(pcm, 1, 0) == PCM_MODULE_CLOSED && pcm_module_finish(pcm) == PCM_MODULE_CLOSED, "closed: the end");
    check(pcm_module_settle_any(pcm, 0) == PCM_MODULE_CLOSED, "closed: no row is waited for");
    check(pcm_module_line(pcm, 0, &line) == PCM_MODULE_CLOSED && line.place == 9, "closed: no line");
    check(pcm_module_newest(pcm, 0, bytes, 64) == PCM_MODULE_CLOSED && bytes[0] == 6, "closed: no bytes");
    check(pcm_module_next(pcm, &outcome) == PCM_MODULE_CLOSED && outcome.kind == 99 && outcome.bytes[0] == 95, "closed: no outcome");
    check(pcm_module_bank(pcm, 0, &bank) == PCM_MODULE_CLOSED && bank.writes == 9, "closed: no bank");
    check(pcm_module_look(pcm, &wear) == PCM_MODULE_CLOSED && wear.pulses == 9, "closed: no wear");
    check(pcm_module_tick(pcm) == 0 && pcm_module_rows(pcm) == 0, "closed: no tick, no rows");
    check(pcm_module_lines(pcm) == 0 && pcm_module_waiting(pcm) == 0, "closed: no lines, nothing waits");
    pcm_module_close(pcm);
    check(!pcm->is_open, "closed: it stays closed");
}

static void handles_are_opened_and_closed(void)
{
    static struct pcm_module pcm;
    struct pcm_module_options options = PCM_MODULE_DEFAULTS;
    a_closed_module_answers(&pcm);
    check(pcm_module_open(&pcm, &options) == PCM_MODULE_OK, "it is opened");
    check(pcm_module_read(&pcm, 7, 1) == PCM_MODULE_OK, "a row");
    check(pcm_module_open(&pcm, &options) == PCM_MODULE_OPEN && pcm_module_rows(&pcm) == 1, "once more it isn't, and stays as it was");
    struct pcm_module moved = pcm;
    check(pcm_module_rows(&moved) == 1 && pcm_module_tick(&moved) == 7, "it may be moved");
    pcm_module_close(&moved);
    a_closed_module_answers(&moved);
    check(pcm_module_open(&moved, &options) == PCM_MODULE_OK && pcm_module_rows(&moved) == 0, "and opened anew");
    pcm_module_close(&moved);
    pcm_module_close(&moved);
}

static void what_cannot_come_is_refused_and_changes_nothing(void)
{
    struct pcm_module_options options = PCM_MODULE_DEFAULTS;
    struct pcm_module pcm = opened(&options);
    struct pcm_module_backlog bank = {9, 8, 7};
    uint8_t bytes[128] = {0};
    const uint64_t last = UINT64_C(1) << 40;
    check(pcm_module_write(&pcm, 0, 512, bytes, 64) == PCM_MODULE_NO_LINE && pcm_module_read(&pcm, 0, 512) == PCM_MODULE_NO_LINE, "no such line");
    check(pcm_module_write(&pcm, 0, 0, bytes, 63) == PCM_MODULE_SIZE && pcm_module_write(&pcm, 0, 0, bytes, 128) == PCM_MODULE_SIZE, "other sizes");
    check(pcm_module_write(&pcm, 0, 0, bytes, 0) == PCM_MODULE_SIZE, "no bytes");
    check(pcm_module_write(&pcm, 0, UINT32_MAX, bytes, 0) == PCM_MODULE_NO_LINE, "no bytes, to no line");
    const bool none[64] = {false};
    check(pcm_module_write_masked(&pcm, 0, 0, bytes, 64, none, 64) == PCM_MODULE_MASK, "a mask that gives nothing");
    check(pcm_module_write_masked(&pcm, 0, 0, bytes, 64, none, 63) == PCM_MODULE_SIZE, "a mask of another size");
    check(pcm_module_write_masked(&pcm, 0, 512, bytes, 64, none, 63) == PCM_MODULE_NO_LINE, "a mask of another size, to no line");
    check(pcm_module_settle_until(&pcm, 0, 0) == PCM_MODULE_NO_ROW && pcm_module_settle_until(&pcm, 1, 0) == PCM_MODULE_NO_ROW, "no such row");
    check(pcm_module_bank(&pcm, 4, &bank) == PCM_MODULE_NO_BANK && bank.writes == 9, "no such bank");
    check(pcm_module_read(&pcm, last + 1, 0) == PCM_MODULE_LATE && pcm_module_settle(&pcm, UINT64_MAX) == PCM_MODULE_LATE, "too late");
    check(pcm_module_rows(&pcm) == 0 && pcm_module_tick(&pcm) == 0 && pcm_module_waiting(&pcm) == 0, "nothing was taken");
    check(pcm_module_write(&pcm, 100, 3, bytes, 64) == PCM_MODULE_OK && pcm_module_read(&pcm, 100, 3) == PCM_MODULE_OK, "rows at one tick");
    check(pcm_module_cut(&pcm, 99) == PCM_MODULE_LATE && pcm_module_settle(&pcm, 99) == PCM_MODULE_LATE, "a tick that is past");
    check(pcm_module_settle_any(&pcm, 99) == PCM_MODULE_LATE && pcm_module_settle_any(&pcm, last + 1) == PCM_MODULE_LATE, "nor for any row");
    check(pcm_module_settle_until(&pcm, 1, 99) == PCM_MODULE_LATE && pcm_module_rows(&pcm) == 2, "waiting to one that is past");
    check(pcm_module_settle(&pcm, last) == PCM_MODULE_OK && pcm_module_tick(&pcm) == last, "the last tick");
    check(pcm_module_finish(&pcm) == PCM_MODULE_OK && pcm_module_finish(&pcm) == PCM_MODULE_ENDED, "it ends once");
    check(pcm_module_settle_any(&pcm, last) == PCM_MODULE_ENDED, "nothing is waited for behind the end");
    check(pcm_module_read(&pcm, last, 0) == PCM_MODULE_ENDED && pcm_module_settle(&pcm, last) == PCM_MODULE_ENDED, "no rows behind the end");
    check(pcm_module_waiting(&pcm) == 2, "outcomes are there still");
    pcm_module_close(&pcm);
}

static void options_out_of_range_are_told(void)
{
    const struct pcm_module_options options = PCM_MODULE_DEFAULTS;
    const struct {
        uint32_t wrong;
        size_t field;
        uint32_t value;
    } tried[] = {
        {PCM_MODULE_OPTIONS_SIZE, offsetof(struct pcm_module_options, size), 71},
        {PCM_MODULE_OPTIONS_SIZE, offsetof(struct pcm_module_options, size), 80},
        {PCM_MODULE_BANKS, offsetof(struct pcm_module_options, banks), 3},
        {PCM_MODULE_BANKS, offsetof(struct pcm_module_options, banks), 128},
        {PCM_MODULE_REGIONS, offsetof(struct pcm_module_options, regions), 0},
        {PCM_MODULE_LINES, offsetof(struct pcm_module_options, lines), 2},
        {PCM_MODULE_TOTAL, offsetof(struct pcm_module_options, lines), 1u << 25},
        {PCM_MODULE_LINE, offsetof(struct pcm_module_options, line), 96},
        {PCM_MODULE_SPARES, offsetof(struct pcm_module_options, spares), 1025},
        {PCM_MODULE_WRITE_QUEUE, offsetof(struct pcm_module_options, write_queue), 0},
        {PCM_MODULE_READ_QUEUE, offsetof(struct pcm_module_options, read_queue), 257},
        {PCM_MODULE_PSI, offsetof(struct pcm_module_options, psi), 65536},
        {PCM_MODULE_READ_TICKS, offsetof(struct pcm_module_options, read_ticks), 256},
        {PCM_MODULE_ITER_TICKS, offsetof(struct pcm_module_options, iter_ticks), 0},
        {PCM_MODULE_POLICY, offsetof(struct pcm_module_options, policy), 3},
        {PCM_MODULE_REGISTERS, offsetof(struct pcm_module_options, registers), UINT32_MAX},
        {PCM_MODULE_MISSES, offsetof(struct pcm_module_options, misses), 8},
        {PCM_MODULE_LO, offsetof(struct pcm_module_options, lo), 0},
        {PCM_MODULE_HI, offsetof(struct pcm_module_options, hi), 99999999},
        {PCM_MODULE_HI, offsetof(struct pcm_module_options, hi), 4000000001},
    };
    check(pcm_module_bad_option(&options) == PCM_MODULE_ALL_RIGHT, "those that stand in the header are right");
    for (size_t i = 0; i < sizeof tried / sizeof tried[0]; i++) {
        struct pcm_module_options changed = options;
        struct pcm_module pcm = PCM_MODULE_CLOSED_ONE;
        memcpy((char *)&changed + tried[i].field, &tried[i].value, sizeof(uint32_t));
        check(pcm_module_bad_option(&changed) == tried[i].wrong, "an option that is out of range is told");
        check(pcm_module_open(&pcm, &changed) == PCM_MODULE_OPTIONS && !pcm.is_open, "and nothing is opened");
    }
    struct pcm_module_options many = options;
    many.banks = 3;
    many.hi = 0;
    check(pcm_module_bad_option(&many) == PCM_MODULE_HI, "of several the one that is looked at first");
    many.registers = 2;
    check(pcm_module_bad_option(&many) == PCM_MODULE_REGISTERS, "before wear the registers");
    many.policy = 3;
    check(pcm_module_bad_option(&many) == PCM_MODULE_POLICY, "and before them the policy");
}

/* Writes and reads of a module; what it tells is summed. */
static uint64_t played(struct pcm_module *pcm, uint64_t seed, int from, int to)
{
    struct pcm_module_outcome outcome;
    uint64_t sum = 0;
    for (int i = from; i < to; i++) {
        uint8_t bytes[64];
        uint64_t x = (seed + (uint64_t)i) * UINT64_C(0x9e3779b97f4a7c15);
        memset(bytes, (int)(x >> 56), sizeof bytes);
        uint32_t line = (uint32_t)(x >> 20) % 512;
        uint64_t tick = (uint64_t)i * 9;
        check((x & 1 ? pcm_module_read(pcm, tick, line) : pcm_module_write(pcm, tick, line, bytes, 64)) == PCM_MODULE_OK, "a row");
        while (pcm_module_next(pcm, &outcome) == PCM_MODULE_OK)
            sum = sum * 31 + outcome.row + outcome.tick + outcome.kind + (outcome.size ? outcome.bytes[9] : 0);
    }
    return sum;
}

static void two_modules_share_nothing(void)
{
    struct pcm_module_options options = PCM_MODULE_DEFAULTS, other = PCM_MODULE_DEFAULTS;
    other.seed = 7;
    struct pcm_module one = opened(&options), two = opened(&other), alone = opened(&options);
    uint64_t beside[2][4], by_itself[4];
    for (int part = 0; part < 4; part++) {
        beside[0][part] = played(&one, 1, 200 * part, 200 * (part + 1));
        beside[1][part] = played(&two, 5, 200 * part, 200 * (part + 1));
    }
    pcm_module_close(&two);
    for (int part = 0; part < 4; part++)
        by_itself[part] = played(&alone, 1, 200 * part, 200 * (part + 1));
    check(memcmp(beside[0], by_itself, sizeof by_itself) == 0, "a module tells the same beside another as alone");
    check(beside[0][3] != beside[1][3], "which tells something else");
    pcm_module_close(&one);
    pcm_module_close(&alone);
}

static void long_lines_have_128_bytes(void)
{
    struct pcm_module_options options = PCM_MODULE_DEFAULTS;
    options.line = 128;
    struct pcm_module pcm = opened(&options);
    struct pcm_module_outcome outcome = {0, 0, 0, 0, 0, {0}};
    uint8_t bytes[128];
    for (int i = 0; i < 128; i++)
        bytes[i] = (uint8_t)(3 * i);
    check(pcm_module_write(&pcm, 0, 9, bytes, 64) == PCM_MODULE_SIZE, "64 bytes are no line of it");
    check(pcm_module_write(&pcm, 0, 9, bytes, 128) == PCM_MODULE_OK && pcm_module_settle(&pcm, 100) == PCM_MODULE_OK, "a line is written");
    check(pcm_module_read(&pcm, 100, 9) == PCM_MODULE_OK && pcm_module_finish(&pcm) == PCM_MODULE_OK, "and read");
    while (outcome.row != 2 && pcm_module_next(&pcm, &outcome) == PCM_MODULE_OK)
        continue;
    check(outcome.kind == PCM_MODULE_READ && outcome.size == 128 && memcmp(outcome.bytes, bytes, 128) == 0, "it has the bytes that were written");
    pcm_module_close(&pcm);
}

static void masked_writes_give_some_bytes(void)
{
    struct pcm_module_options options = PCM_MODULE_DEFAULTS;
    struct pcm_module pcm = opened(&options);
    struct pcm_module_outcome outcome = {0, 0, 0, 0, 0, {0}};
    uint8_t bytes[64], other[64], wanted[64];
    bool given[64];
    for (int i = 0; i < 64; i++) {
        bytes[i] = (uint8_t)(3 * i);
        other[i] = (uint8_t)(255 - i);
        given[i] = i % 5 == 2;
        wanted[i] = given[i] ? other[i] : bytes[i];
    }
    check(pcm_module_write(&pcm, 0, 9, bytes, 64) == PCM_MODULE_OK && pcm_module_settle(&pcm, 1000) == PCM_MODULE_OK, "a line is written");
    check(pcm_module_write_masked(&pcm, 1000, 9, other, 64, given, 64) == PCM_MODULE_OK, "some bytes of it are written over");
    check(pcm_module_settle(&pcm, 2000) == PCM_MODULE_OK && pcm_module_read(&pcm, 2000, 9) == PCM_MODULE_OK, "it is read");
    check(pcm_module_finish(&pcm) == PCM_MODULE_OK, "it ends");
    while (outcome.row != 3 && pcm_module_next(&pcm, &outcome) == PCM_MODULE_OK)
        continue;
    check(outcome.kind == PCM_MODULE_READ && outcome.size == 64 && memcmp(outcome.bytes, wanted, 64) == 0, "the others have stayed");
    pcm_module_close(&pcm);
}

static void wear_is_told(void)
{
    struct pcm_module_options options = PCM_MODULE_DEFAULTS;
    for (int i = 0; i < 2; i++) {
        struct pcm_module_wear wear = {9, 9, 9, 9, 9, 9, 9};
        uint8_t bytes[128];
        options.line = i == 0 ? 64 : 128;
        struct pcm_module pcm = opened(&options);
        memset(bytes, 0xff, sizeof bytes);
        check(pcm_module_look(&pcm, &wear) == PCM_MODULE_OK && wear.pulses + wear.most + wear.mean == 0, "of a new module nothing was pulsed");
        check(wear.pointers + wear.senses + wear.set + wear.reset == 0, "nor sensed or driven");
        check(pcm_module_write(&pcm, 0, 9, bytes, options.line) == PCM_MODULE_OK && pcm_module_finish(&pcm) == PCM_MODULE_OK, "a line is written");
        check(pcm_module_look(&pcm, &wear) == PCM_MODULE_OK && wear.pulses == 1 && wear.most == 1 && wear.mean == 0, "by one pulse");
        check(wear.set == 8 * options.line && wear.reset == 0 && wear.pointers == 0 && wear.senses > 0, "of all of its cells");
        check(pcm_module_waiting(&pcm) == 1, "its outcome waits as before");
        pcm_module_close(&pcm);
    }
}

static void any_row_is_waited_for(void)
{
    struct pcm_module_options options = PCM_MODULE_DEFAULTS;
    struct pcm_module pcm = opened(&options);
    struct pcm_module_outcome outcome;
    uint8_t bytes[64] = {1};
    check(pcm_module_write(&pcm, 0, 0, bytes, 64) == PCM_MODULE_OK && pcm_module_settle_any(&pcm, 14) == PCM_MODULE_OK, "a write");
    check(pcm_module_tick(&pcm) == 14 && pcm_module_waiting(&pcm) == 0, "not long enough");
    check(pcm_module_settle_any(&pcm, 1000) == PCM_MODULE_OK && pcm_module_tick(&pcm) == 15, "until it is stored");
    check(pcm_module_settle_any(&pcm, 15) == PCM_MODULE_OK && pcm_module_waiting(&pcm) == 1, "what is told already counts no more");
    check(pcm_module_next(&pcm, &outcome) == PCM_MODULE_OK && outcome.kind == PCM_MODULE_STORED, "it waits still");
    check(pcm_module_read(&pcm, 20, 0) == PCM_MODULE_OK && pcm_module_settle_any(&pcm, 1000) == PCM_MODULE_OK, "a read");
    check(pcm_module_tick(&pcm) == 25 && pcm_module_waiting(&pcm) == 1, "is answered");
    check(pcm_module_settle_any(&pcm, 1000) == PCM_MODULE_OK && pcm_module_tick(&pcm) == 1000, "and then nothing is left to tell");
    pcm_module_close(&pcm);
}

static void lines_are_looked_at(void)
{
    struct pcm_module_options options = PCM_MODULE_DEFAULTS;
    for (int i = 0; i < 2; i++) {
        struct pcm_module_wear before, behind;
        struct pcm_module_outcome outcome;
        struct pcm_module_standing line = {9, 9, 9, 9, 9, 9, 9};
        uint8_t bytes[128], found[128], none[128] = {0};
        options.line = i == 0 ? 64 : 128;
        struct pcm_module pcm = opened(&options);
        memset(bytes, 0xff, sizeof bytes);
        check(pcm_module_newest(&pcm, 9, found, options.line) == PCM_MODULE_OK && memcmp(found, none, options.line) == 0, "never written, a line counts as 0");
        check(pcm_module_write(&pcm, 0, 9, bytes, options.line) == PCM_MODULE_OK && pcm_module_look(&pcm, &before) == PCM_MODULE_OK, "a write waits");
        check(pcm_module_newest(&pcm, 9, found, options.line) == PCM_MODULE_OK && memcmp(found, bytes, options.line) == 0, "its bytes are the newest");
        check(pcm_module_look(&pcm, &behind) == PCM_MODULE_OK && before.senses == behind.senses && pcm_module_tick(&pcm) == 0, "nothing was sensed");
        check(pcm_module_line(&pcm, 9, &line) == PCM_MODULE_OK && line.pulses + line.set + line.reset + line.stuck == 0, "its array line is new");
        check(pcm_module_finish(&pcm) == PCM_MODULE_OK && pcm_module_next(&pcm, &outcome) == PCM_MODULE_OK, "it is stored");
        check(pcm_module_line(&pcm, 9, &line) == PCM_MODULE_OK && line.place == outcome.place, "where the line stands");
        check(line.pulses == 1 && line.set == 8 * options.line && line.reset == 0 && line.senses > 0 && line.changes > 0, "and is pulsed there");
        check(pcm_module_newest(&pcm, 9, found, options.line) == PCM_MODULE_OK && memcmp(found, bytes, options.line) == 0, "from where it is read now");
        found[0] = 7;
        line.place = 7;
        check(pcm_module_newest(&pcm, 512, found, options.line) == PCM_MODULE_NO_LINE, "no line");
        check(pcm_module_newest(&pcm, 512, found, 1) == PCM_MODULE_NO_LINE, "nor of another size");
        check(pcm_module_newest(&pcm, 9, found, options.line - 1) == PCM_MODULE_SIZE && pcm_module_newest(&pcm, 9, found, 0) == PCM_MODULE_SIZE, "other sizes");
        check(pcm_module_line(&pcm, 512, &line) == PCM_MODULE_NO_LINE && line.place == 7 && found[0] == 7, "and what was there stays");
        pcm_module_close(&pcm);
    }
}

static void kinds_have_words(void)
{
    check(strcmp(pcm_module_word(PCM_MODULE_STORED), "stored") == 0 && strcmp(pcm_module_word(PCM_MODULE_FULL_QUEUE), "full") == 0, "the words of kinds");
    check(strcmp(pcm_module_word(PCM_MODULE_CUT), "cut") == 0 && pcm_module_word(PCM_MODULE_CUT + 1) == NULL, "and none of a number that is none");
}

static void layouts_are_those_of_the_library(void)
{
    check(sizeof(struct pcm_module) == 16 && offsetof(struct pcm_module, at) == 8, "a module");
    check(sizeof(struct pcm_module_options) == 72 && offsetof(struct pcm_module_options, seed) == 64, "options");
    check(sizeof(struct pcm_module_outcome) == 152 && offsetof(struct pcm_module_outcome, bytes) == 24, "an outcome");
    check(sizeof(struct pcm_module_backlog) == 12, "a bank");
    check(sizeof(struct pcm_module_wear) == 56, "how worn it is");
    check(sizeof(struct pcm_module_standing) == 48 && offsetof(struct pcm_module_standing, changes) == 40, "a line");
    check((int)PCM_MODULE_CUT == (int)PCM_CUT && (int)PCM_MODULE_FULL_QUEUE == (int)PCM_FULL_QUEUE, "kinds are those of streams");
}

int main(void)
{
    layouts_are_those_of_the_library();
    answers_come_as_they_are_known();
    handles_are_opened_and_closed();
    what_cannot_come_is_refused_and_changes_nothing();
    options_out_of_range_are_told();
    two_modules_share_nothing();
    long_lines_have_128_bytes();
    masked_writes_give_some_bytes();
    wear_is_told();
    any_row_is_waited_for();
    lines_are_looked_at();
    kinds_have_words();
    return checked();
}
