/* Calls a library's functions in any order, with any arguments but wild pointers, on several modules side by side, and looks whether each answer is
   one that may come: fuzz SEED CALLS. What it prints is the same for the same words; status 1 where an answer may not come. */
#include "pcm.h"
#include <stdio.h>
#include <stdlib.h>
#include <string.h>

enum { MODULES = 4 };

/* A module, and what is known of it from outside. */
struct known {
    struct pcm_module pcm;
    struct pcm_module_options options;
    uint32_t rows, told;
    uint64_t tick;
    bool has_ended;
};

static uint64_t state;
static uint64_t sum;

static uint64_t drawn(void)
{
    state ^= state << 13;
    state ^= state >> 7;
    state ^= state << 17;
    return state;
}

static uint32_t below(uint32_t most) { return (uint32_t)(drawn() >> 33) % most; }

static void wants(bool holds, const char *what)
{
    if (!holds) {
        printf("an answer that may not come: %s\n", what);
        exit(1);
    }
}

/* A number that is mostly small, at times any, at times at a limit. */
static uint32_t any(uint32_t usual)
{
    static const uint32_t limits[] = {0, 1, 2, 3, 63, 64, 65, 128, 255, 256, 1024, 65535, 65536, 1u << 26, UINT32_MAX - 1, UINT32_MAX};
    uint32_t kind = below(20);
    return kind == 0 ? (uint32_t)drawn() : kind == 1 ? limits[below(sizeof limits / sizeof limits[0])] : below(usual);
}

static uint64_t tick_of(const struct known *it)
{
    uint32_t kind = below(40);
    if (kind == 0)
        return drawn();
    if (kind == 1 && below(4) == 0)
        return (UINT64_C(1) << 40) - 1 + below(3);
    return kind == 2 && it->tick > 0 ? it->tick - 1 : it->tick + below(60);
}

static void draw_options(struct pcm_module_options *options)
{
    const struct pcm_module_options usual = PCM_MODULE_DEFAULTS;
    *options = usual;
    options->banks = 1u << below(5);
    options->regions = 1u << below(3);
    options->lines = 4u << below(4);
    options->line = below(3) ? 64 : 128;
    options->spares = below(4);
    options->write_queue = 1 + below(8);
    options->read_queue = 1 + below(8);
    options->psi = 1 + below(10);
    options->policy = below(3);
    options->registers = below(2);
    options->misses = below(3);
    options->lo = 1 + below(30);
    options->hi = options->lo + below(30);
    options->seed = drawn();
    /* (at times a field is anything) */
    if (below(4) == 0) {
        uint32_t wrong = any(300);
        memcpy((char *)options + 4 * below(16), &wrong, sizeof wrong);
        if (options->lines > 1u << 16)
            options->lines = 64; /* (a large module takes its memory: a table of 4 bytes a block of lines, and is tried by itself) */
    }
}

static void opens(struct known *it)
{
    struct pcm_module_options options;
    draw_options(&options);
    bool was_open = it->pcm.is_open;
    uint32_t bad = pcm_module_bad_option(&options), status = pcm_module_open(&it->pcm, &options);
    wants(bad <= PCM_MODULE_HI, "a bad option");
    wants(status == (was_open ? PCM_MODULE_OPEN : bad ? PCM_MODULE_OPTIONS : PCM_MODULE_OK), "open");
    if (status == PCM_MODULE_OK) {
        it->options = options;
        it->rows = it->told = 0;
        it->tick = 0;
        it->has_ended = false;
    }
    wants(it->pcm.is_open == (was_open || status == PCM_MODULE_OK), "whether it is open");
}

/* A status of a row that isn't refused for itself, and what is known behind it. */
static void wants_row(struct known *it, uint32_t status, uint64_t tick, bool has_number)
{
    bool is_late = tick < it->tick || tick > UINT64_C(1) << 40;
    uint32_t wanted = !it->pcm.is_open ? PCM_MODULE_CLOSED : it->has_ended ? PCM_MODULE_ENDED : is_late ? PCM_MODULE_LATE : PCM_MODULE_OK;
    wants(status == wanted, "a row");
    if (status == PCM_MODULE_OK) {
        it->tick = tick;
        it->rows += has_number;
    }
}

static uint32_t total_of(const struct known *it) { return it->pcm.is_open ? it->options.banks * it->options.regions * it->options.lines : 0; }

/* A write of a line, or of those bytes of it that are given. */
static void writes(struct known *it)
{
    uint8_t bytes[160];
    bool given[160], is_masked = below(3) == 0, gives_some = !is_masked;
    size_t usual = it->options.line, size = below(12) ? usual : below(sizeof bytes), count = below(12) ? size : below(sizeof bytes);
    uint32_t share = below(5), line = any(total_of(it) + 1);
    for (size_t i = 0; i < sizeof bytes; i++) {
        bytes[i] = (uint8_t)(drawn() >> 40);
        given[i] = below(4) < share;
        gives_some |= i < count && given[i];
    }
    uint64_t tick = tick_of(it);
    uint32_t status = is_masked ? pcm_module_write_masked(&it->pcm, tick, line, bytes, size, given, count)
                                : pcm_module_write(&it->pcm, tick, line, bytes, size);
    if (it->pcm.is_open && line >= total_of(it))
        wants(status == PCM_MODULE_NO_LINE, "a write to no line");
    else if (it->pcm.is_open && (size != usual || (is_masked && count != usual)))
        wants(status == PCM_MODULE_SIZE, "a write of another size");
    else if (it->pcm.is_open && !gives_some)
        wants(status == PCM_MODULE_MASK, "a write that gives no byte");
    else
        wants_row(it, status, tick, true);
}

static void reads(struct known *it)
{
    uint32_t line = any(total_of(it) + 1);
    uint64_t tick = tick_of(it);
    uint32_t status = pcm_module_read(&it->pcm, tick, line);
    if (it->pcm.is_open && line >= total_of(it))
        wants(status == PCM_MODULE_NO_LINE, "a read of no line");
    else
        wants_row(it, status, tick, true);
}

static void waits(struct known *it)
{
    uint64_t tick = tick_of(it), before = it->tick;
    bool is_any = below(3) == 0;
    uint32_t row = any(it->rows + 2), status = is_any ? pcm_module_settle_any(&it->pcm, tick) : pcm_module_settle_until(&it->pcm, row, tick);
    if (it->pcm.is_open && !is_any && (row == 0 || row > it->rows)) {
        wants(status == PCM_MODULE_NO_ROW, "waiting for no row");
    } else {
        wants_row(it, status, tick, false);
        if (status == PCM_MODULE_OK) {
            it->tick = pcm_module_tick(&it->pcm);
            wants(it->tick >= before && it->tick <= tick, "the tick that was reached");
        }
    }
}

static void ends(struct known *it)
{
    uint32_t status = pcm_module_finish(&it->pcm);
    wants(status == (!it->pcm.is_open ? PCM_MODULE_CLOSED : it->has_ended ? PCM_MODULE_ENDED : PCM_MODULE_OK), "the end");
    it->has_ended |= status == PCM_MODULE_OK;
    if (status == PCM_MODULE_OK)
        wants(it->told + pcm_module_waiting(&it->pcm) == it->rows, "each row has one outcome in the end");
}

static void takes(struct known *it, uint32_t most)
{
    struct pcm_module_outcome outcome;
    for (uint32_t i = 0; i < most; i++) {
        size_t waiting = pcm_module_waiting(&it->pcm);
        uint32_t status = pcm_module_next(&it->pcm, &outcome);
        wants(status == (!it->pcm.is_open ? PCM_MODULE_CLOSED : waiting == 0 ? PCM_MODULE_EMPTY : PCM_MODULE_OK), "an outcome");
        if (status != PCM_MODULE_OK)
            return;
        bool has_bytes = outcome.kind == PCM_MODULE_READ || outcome.kind == PCM_MODULE_FORWARDED;
        wants(outcome.kind <= PCM_MODULE_CUT && outcome.row >= 1 && outcome.row <= it->rows, "an outcome of a row");
        wants(outcome.size == (has_bytes ? it->options.line : 0) && outcome.tick <= it->tick + (it->has_ended ? UINT64_C(1) << 32 : 0), "its bytes");
        it->told++;
        sum = sum * 31 + outcome.kind + outcome.row + outcome.tick + outcome.place + (has_bytes ? outcome.bytes[outcome.size - 1] : 0);
    }
}

/* A line is looked at. */
static void peeks(struct known *it)
{
    uint8_t bytes[160] = {0};
    struct pcm_module_standing told = {0, 0, 0, 0, 0, 0, 0};
    uint32_t line = any(total_of(it) + 1);
    size_t usual = it->options.line, size = below(12) ? usual : below(sizeof bytes);
    bool has_line = line < total_of(it);
    uint32_t status = pcm_module_line(&it->pcm, line, &told), closed = it->pcm.is_open ? PCM_MODULE_OK : PCM_MODULE_CLOSED;
    wants(status == (closed ? closed : has_line ? PCM_MODULE_OK : PCM_MODULE_NO_LINE), "where a line stands");
    wants(told.stuck <= 8 * 144 && (told.pulses > 0 || told.set + told.reset == 0), "how worn it is there");
    status = pcm_module_newest(&it->pcm, line, bytes, size);
    wants(status == (closed ? closed : !has_line ? PCM_MODULE_NO_LINE : size != usual ? PCM_MODULE_SIZE : PCM_MODULE_OK), "newest bytes");
    for (size_t i = 0; i < sizeof bytes; i++) {
        wants(bytes[i] == 0 || (status == PCM_MODULE_OK && i < size), "bytes beyond a line");
        sum = sum * 31 + bytes[i];
    }
    sum = sum * 31 + told.place + told.pulses + told.senses + told.changes;
}

static void looks(struct known *it)
{
    struct pcm_module_backlog backlog = {0, 0, 0};
    uint32_t bank = any(20), status = pcm_module_bank(&it->pcm, bank, &backlog);
    wants(status == (!it->pcm.is_open ? PCM_MODULE_CLOSED : bank >= it->options.banks ? PCM_MODULE_NO_BANK : PCM_MODULE_OK), "a bank");
    if (status == PCM_MODULE_OK)
        wants(backlog.writes <= it->options.write_queue && backlog.reads <= it->options.read_queue && backlog.mark <= PCM_MODULE_HALTED, "what waits");
    struct pcm_module_wear wear = {0, 0, 0, 0, 0, 0, 0};
    status = pcm_module_look(&it->pcm, &wear);
    wants(status == (it->pcm.is_open ? PCM_MODULE_OK : PCM_MODULE_CLOSED), "a look");
    wants(wear.mean <= wear.most && wear.most <= wear.pulses, "how worn it is");
    sum = sum * 31 + wear.pulses + wear.senses + wear.set + wear.pointers;
    wants(pcm_module_rows(&it->pcm) == (it->pcm.is_open ? it->rows : 0), "how many rows came");
    wants(pcm_module_tick(&it->pcm) == (it->pcm.is_open ? it->tick : 0) || it->has_ended, "the tick that was reached");
    wants(pcm_module_lines(&it->pcm) == total_of(it), "how many lines there are");
}

static void calls(struct known *it)
{
    uint64_t tick = tick_of(it);
    switch (below(17)) {
    case 0: opens(it); break;
    case 1: case 2: case 3: case 4: writes(it); break;
    case 5: case 6: case 7: case 8: reads(it); break;
    case 9: wants_row(it, pcm_module_cut(&it->pcm, tick), tick, true); break;
    case 10: wants_row(it, pcm_module_settle(&it->pcm, tick), tick, false); break;
    case 11: waits(it); break;
    case 12: case 13: takes(it, below(40)); break;
    case 14: looks(it); break;
    case 15: peeks(it); break;
    default:
        if (below(20) == 0)
            ends(it);
        else if (below(30) == 0)
            pcm_module_close(&it->pcm);
    }
}

int main(int count, char **words)
{
    static struct known modules[MODULES];
    uint64_t seed = count > 1 ? strtoull(words[1], NULL, 10) : 1, calls_in_all = count > 2 ? strtoull(words[2], NULL, 10) : 100000;
    state = seed * UINT64_C(0x9e3779b97f4a7c15) | 1;
    for (uint64_t i = 0; i < calls_in_all; i++)
        calls(&modules[below(MODULES)]);
    for (int i = 0; i < MODULES; i++)
        pcm_module_close(&modules[i].pcm);
    printf("%llu calls of seed %llu: %016llx\n", (unsigned long long)calls_in_all, (unsigned long long)seed, (unsigned long long)sum);
    return 0;
}
