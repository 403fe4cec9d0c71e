/* Of parts.c: what parts told, on its way to its place in the whole. */
#ifndef PCM_PARTS_PLACE_H
#define PCM_PARTS_PLACE_H

#include "parts_io.h"

/* Rows of a part that have come and have no outcome, by their numbers in the part: linear probing in a table that is at most half full. */
struct pending {
    uint64_t number, row; /* (in the part, 0 of none; in the whole trace) */
    uint32_t line, bank;
};
static struct pending *table;
static size_t mask, used;

static size_t home_of(uint64_t number) { return (size_t)((number * UINT64_C(0x9E3779B97F4A7C15)) >> 20) & mask; }

static struct pending *pending_at(uint64_t number)
{
    size_t at = home_of(number);
    while (table[at].number && table[at].number != number)
        at = (at + 1) & mask;
    return &table[at];
}

static void make_table(size_t size)
{
    table = calloc(size, sizeof *table);
    if (!table)
        leave(7, "out of memory");
    mask = size - 1;
}

static void add_pending(struct pending one)
{
    if (2 * ++used > mask) {
        struct pending *old = table;
        size_t size = mask + 1;
        make_table(2 * size);
        for (size_t i = 0; i < size; i++)
            if (old[i].number)
                *pending_at(old[i].number) = old[i];
        free(old);
    }
    *pending_at(one.number) = one;
}

static void take_pending(struct pending *one)
{
    size_t hole = (size_t)(one - table), at = hole;
    used--;
    for (;;) {
        at = (at + 1) & mask;
        if (!table[at].number)
            break;
        if (((at - home_of(table[at].number)) & mask) >= ((at - hole) & mask)) {
            table[hole] = table[at];
            hole = at;
        }
    }
    table[hole].number = 0;
}

/* Where the reader of a part's index stands. */
static struct {
    int fd, ended, left; /* (files behind the one that is read) */
    char **names;
    size_t from, until;
    unsigned char bytes[PIECE];
    enum kind kind;
    uint64_t tick, number, row, settles;
    uint32_t bank, line;
} at;

static void open_index(char **names)
{
    at.names = names;
    at.fd = open(*names, O_RDONLY);
    if (at.fd < 0)
        leave_file(4, *names);
}

/* The next of the part's rows; none is left where it has ended. What isn't written yet is of rows of which nothing is told yet. */
static void step(void)
{
    for (;;) {
        while (at.until - at.from < 16) {
            memmove(at.bytes, at.bytes + at.from, at.until - at.from);
            at.until -= at.from;
            at.from = 0;
            ssize_t got = read(at.fd, at.bytes + at.until, PIECE - at.until);
            if (got < 0 && errno != EINTR)
                leave_file(4, *at.names);
            if (got == 0 && at.left) {
                at.left--;
                close(at.fd);
                open_index(at.names + 1);
                continue;
            }
            if (got == 0) {
                at.ended = 1;
                return;
            }
            at.until += got > 0 ? (size_t)got : 0;
        }
        const unsigned char *it = at.bytes + at.from;
        uint64_t first = 0;
        uint32_t line = 0, passed = 0;
        for (int i = 7; i >= 0; i--)
            first = first << 8 | it[i];
        for (int i = 3; i >= 0; i--) {
            line = line << 8 | it[8 + i];
            passed = passed << 8 | it[12 + i];
        }
        at.from += 16;
        at.row += passed;
        at.kind = (enum kind)(first & 7);
        if (at.kind == PASSED)
            continue;
        at.bank = (uint32_t)(first >> 3) & 63;
        at.tick = first >> 9;
        at.line = line;
        if (at.kind == SETTLE) {
            at.settles++;
            return;
        }
        at.number++;
        add_pending((struct pending){at.number, at.row, at.line, at.bank});
        return;
    }
}

static void not_of_the_part(void) { leave(3, "the rows aren't those of a stream of this part"); }

/* The number at a place that a comma ends; it goes behind that. */
static uint64_t told_number(char **text)
{
    uint64_t value = 0;
    char *from = *text;
    for (; is_digit(**text); ++*text)
        value = 10 * value + (uint64_t)(**text - '0');
    if (*text == from || **text != ',')
        not_of_the_part();
    ++*text;
    return value;
}

static void put_key(struct sink *sink, uint64_t row, unsigned within)
{
    char key[DIGITS];
    for (int i = 15; i >= 0; i--, row >>= 4)
        key[i] = "0123456789abcdef"[row & 15];
    key[16] = "0123456789abcdef"[within >> 4];
    key[17] = "0123456789abcdef"[within & 15];
    put(sink, key, DIGITS);
}

static void put_row(struct sink *sink, uint64_t number, const char *rest, size_t length)
{
    char text[24];
    size_t from = sizeof text;
    do
        text[--from] = (char)('0' + number % 10);
    while (number /= 10);
    put(sink, text + from, sizeof text - from);
    put(sink, ",", 1);
    put(sink, rest, length);
}

/* The banks of the part: what the module tells, the part tells that has its first bank. */
static uint64_t first_bank, last_bank;
/* Of placing: whether keys are rows' numbers; whether all is told of the row at which the index stands (what it decides itself comes last). */
static int by_number, is_done = 1;

static void next_row(void)
{
    step();
    is_done = 0;
}

/* A line without a number: what the module or its banks answer where all settle. */
static void place_answer(struct sink *out, char *line, size_t length)
{
    if (!strncmp(line, ",shape,", 7)) {
        if (first_bank == 0 && !by_number) {
            put_key(out, 0, 1);
            put(out, line, length);
        }
        return;
    }
    while (!at.ended && (at.kind != SETTLE || is_done))
        next_row();
    if (at.kind != SETTLE)
        not_of_the_part();
    is_done = !strncmp(line, ",settled,", 9);
    unsigned within = 0;
    if (!strncmp(line, ",bank,", 6)) {
        char *text = line + 6;
        told_number(&text);
        uint64_t bank = told_number(&text);
        if (bank < first_bank || last_bank < bank)
            return;
        within = 0x40 + (unsigned)bank;
    } else if (!strncmp(line, ",wear,", 6))
        within = 0x80;
    else if (!strncmp(line, ",settled,", 9))
        within = 0x81;
    else
        not_of_the_part();
    if (!by_number && (within != 0x81 || first_bank == 0)) {
        put_key(out, at.row + at.settles, within);
        put(out, line, length);
    }
}

/* Whether a stream tells now of a row that has come, the next of which it tells something. */
static int is_now(const struct pending *one, const char *word, uint64_t tick)
{
    switch (*word) {
    case 's': /* stored, read: where its bank goes on, at that tick or later */
    case 'r':
        return (at.kind >= CUT || at.bank == one->bank) && one->number < at.number + (at.kind == SETTLE) && tick <= at.tick;
    case 'm': /* merged: as the newer write comes */
        return at.kind == WRITE && at.line == one->line && one->number < at.number;
    case 'l': /* lost: at a cut */
        return at.kind == CUT && one->number < at.number;
    case 'q': /* queued: in the end */
        return 0;
    default:
        return one->number == at.number && at.kind != SETTLE;
    }
}

/* A line of a row that has a number. */
static void place_row(struct sink *out, char *line, size_t length)
{
    char *text = line;
    uint64_t number = told_number(&text);
    char *word = text;
    while (*text != ',' && *text != '\n')
        text++;
    if (*text++ == '\n')
        not_of_the_part();
    uint64_t tick = told_number(&text);
    while (at.number < number && !at.ended)
        next_row();
    struct pending *one = pending_at(number);
    if (!one->number)
        not_of_the_part();
    while (!at.ended && (is_done || !is_now(one, word, tick))) {
        next_row();
        one = pending_at(number);
    }
    int is_cut = *word == 'c';
    if (!is_cut || first_bank == 0) {
        if (by_number)
            put_key(out, one->row, 0);
        else
            put_key(out, at.ended ? UINT64_MAX : at.row + at.settles, is_cut ? 0x40 : one->bank);
        put_row(out, one->row, word, length - (size_t)(word - line));
    }
    is_done = !at.ended && number == at.number && at.kind != SETTLE;
    take_pending(one);
}

static int place(int count, char **words)
{
    if (count && !strcmp(*words, "--by-number"))
        by_number = 1, count--, words++;
    if (count < 2)
        return 2;
    read_range(words[0], &first_bank, &last_bank);
    at.left = count - 2;
    open_index(words + 1);
    at.kind = PASSED;
    make_table(1 << 12);
    struct lines told;
    open_lines(&told, 0, "standard input");
    struct sink *out = opened(1, "standard output");
    size_t length;
    char *line = next_line(&told, &length);
    if (!line || length != sizeof TOLD - 1 || memcmp(line, TOLD, length))
        not_of_the_part();
    if (first_bank == 0) {
        put_key(out, 0, 0);
        put(out, TOLD, sizeof TOLD - 1);
    }
    while ((line = next_line(&told, &length)))
        if (*line == ',')
            place_answer(out, line, length);
        else
            place_row(out, line, length);
    finish(out);
    return 0;
}

#endif
