/* Of parts.c: a trace on its way to the parts of its banks. */
#ifndef PCM_PARTS_SPLIT_H
#define PCM_PARTS_SPLIT_H

#include "drawn.h"
#include "parts_io.h"

/* The randomiser: where a line goes, counted through the banks. */
static uint64_t keys[3], low, high;
static int width;

static void key_randomiser(uint64_t total, uint64_t seed)
{
    int bits = 0;
    while (total >> (bits + 1))
        bits++;
    for (int i = 0; i < 3; i++)
        keys[i] = split_mix(&seed) & 0xFFFF;
    width = bits / 2;
    low = (UINT64_C(1) << width) - 1;
    high = (UINT64_C(1) << (bits - width)) - 1;
}

static inline uint64_t placed(uint64_t line)
{
    uint64_t left = line >> width, right = line & low;
    left ^= (right ^ keys[0]) * (right ^ keys[0]) & high;
    right ^= (left ^ keys[1]) * (left ^ keys[1]) & low;
    left ^= (right ^ keys[2]) * (right ^ keys[2]) & high;
    return left << width | right;
}

/* Splitting. */
static struct {
    uint64_t lines, bits_of_bank, parts, rows, first, tick, count[PARTS], noted[PARTS];
    uint64_t piece, from, until;
    size_t digits, size;
    unsigned part_of[PARTS]; /* (by banks; PARTS of one that no part has) */
    int has_index, is_piece, came, ends_in_cut;
    struct sink *out[PARTS], *index[PARTS];
} whole;

/* The banks of all parts, with commas. */
static void read_ranges(char *text)
{
    for (int bank = 0; bank < PARTS; bank++)
        whole.part_of[bank] = PARTS;
    for (whole.parts = 0; whole.parts < PARTS; text++) {
        uint64_t first, last;
        text = read_range(text, &first, &last);
        for (; first <= last; first++)
            whole.part_of[first] = (unsigned)whole.parts;
        whole.parts++;
        if (*text != ',')
            break;
    }
    if (*text)
        leave(2, "banks are wanted, as 0-3");
}

static void fault(const char *kind)
{
    fprintf(stderr, "trace row %" PRIu64 ": %s\n", whole.rows + 1, kind);
    exit(3);
}

static void plain_only(void)
{
    leave(9, "the trace isn't of the plain form that is read fast");
}

static void put_record(struct sink *index, uint64_t first, uint64_t line, uint64_t passed)
{
    unsigned char record[16];
    for (int i = 0; i < 8; i++)
        record[i] = (unsigned char)(first >> 8 * i);
    for (int i = 0; i < 4; i++) {
        record[8 + i] = (unsigned char)(line >> 8 * i);
        record[12 + i] = (unsigned char)(passed >> 8 * i);
    }
    put(index, (const char *)record, sizeof record);
}

/* Notes that rows passed, but for so few that a record has room for them; answers how many these are. */
static uint64_t note_passed(uint64_t part, uint64_t room)
{
    uint64_t passed = whole.rows - whole.noted[part];
    for (; passed > room; passed -= passed < UINT32_MAX ? passed : UINT32_MAX)
        put_record(whole.index[part], PASSED, 0, passed < UINT32_MAX ? passed : UINT32_MAX);
    whole.noted[part] = whole.rows;
    return passed;
}

static void note(uint64_t part, enum kind kind, uint64_t bank, uint64_t line)
{
    uint64_t passed = note_passed(part, UINT32_MAX);
    put_record(whole.index[part], whole.tick << 9 | bank << 3 | (uint64_t)kind, line, passed);
}

/* A row of a line goes to the part of its bank; NULL where none has that. */
static inline struct sink *part_of_line(enum kind kind, uint64_t line)
{
    uint64_t bank = placed(line) >> whole.bits_of_bank, part = whole.part_of[bank];
    if (!whole.came)
        whole.first = whole.tick;
    whole.came = 1;
    whole.rows++;
    if (part == PARTS)
        return NULL;
    whole.count[part]++;
    if (whole.has_index)
        note(part, kind, bank, line);
    return whole.out[part];
}

static inline void to_line(enum kind kind, uint64_t line, const char *row, size_t length)
{
    struct sink *out = part_of_line(kind, line);
    if (out)
        put(out, row, length);
}

static void to_all(enum kind kind, const char *row, size_t length)
{
    if (!whole.came)
        whole.first = whole.tick;
    whole.came = 1;
    whole.rows += kind == CUT;
    for (uint64_t part = 0; part < whole.parts; part++) {
        whole.count[part] += kind == CUT;
        put(whole.out[part], row, length);
        if (whole.has_index)
            note(part, kind, 0, 0);
    }
}

static inline int is_hexadecimal(char it) { return is_digit(it) | ((unsigned char)((it | 32) - 'a') < 6); }

/* Of digits of a line, whose number is a multiple of 16. */
static int are_hexadecimal(const char *text, size_t count)
{
    unsigned char wrong[16] = {0}, found = 0;
    for (size_t i = 0; i < count; i += 16)
        for (size_t j = 0; j < 16; j++)
            wrong[j] |= (unsigned char)!is_hexadecimal(text[i + j]);
    for (size_t j = 0; j < 16; j++)
        found |= wrong[j];
    return !found;
}

/* Of a masked write: each pair is digits or points, and not all are points. */
static int are_masked(const char *text, size_t count)
{
    int gives = 0;
    for (size_t i = 0; i < count; i += 2) {
        if (text[i] == '.' && text[i + 1] == '.')
            continue;
        if (!is_hexadecimal(text[i]) || !is_hexadecimal(text[i + 1]))
            return 0;
        gives = 1;
    }
    return gives;
}

static int number_within(const char *text, size_t count, size_t digits, uint64_t most, uint64_t *value)
{
    *value = 0;
    if (count < 1 || count > digits)
        return 0;
    for (size_t i = 0; i < count; i++) {
        if (!is_digit(text[i]))
            return 0;
        *value = 10 * *value + (uint64_t)(text[i] - '0');
    }
    return *value <= most;
}

/* A row of a trace, with LF behind it; its first fault is told as a stream tells it. */
static void split_row(char *row, size_t length)
{
    size_t end = length - 1;
    if (end && row[end - 1] == '\r') {
        row[--end] = '\n';
        length--;
    }
    if (!end || memchr(row, '"', end) || memchr(row, '\r', end))
        plain_only();
    size_t cut[4], fields = 1;
    for (char *comma = row; (comma = memchr(comma, ',', (size_t)(row + end - comma))); comma++)
        if (fields < 4)
            cut[fields++ - 1] = (size_t)(comma - row);
        else
            fault("fields");
    if (fields != 4)
        fault("fields");
    const char *op = row + cut[0] + 1, *arg = row + cut[1] + 1, *data = row + cut[2] + 1;
    size_t of_op = cut[1] - cut[0] - 1, of_arg = cut[2] - cut[1] - 1, of_data = end - cut[2] - 1;
    uint64_t tick, line;
    if (!number_within(row, cut[0], 13, LAST_TICK, &tick))
        fault("tick");
    if (tick < whole.tick)
        fault("order");
    if (of_op != 1 || !memchr("RWMCSQLU", *op, 8))
        fault("op");
    if (*op == 'U')
        fault("until");
    whole.ends_in_cut = *op == 'C';
    if (memchr("CSQL", *op, 4)) {
        if (of_arg)
            fault("line");
        if (of_data)
            fault("payload");
        whole.tick = tick;
        to_all(*op == 'C' ? CUT : SETTLE, row, length);
        return;
    }
    if (!number_within(arg, of_arg, whole.digits, whole.lines - 1, &line))
        fault("line");
    size_t wanted = *op == 'R' ? 0 : 2 * whole.size;
    if (of_data != wanted || (*op == 'W' && !are_hexadecimal(data, of_data)) || (*op == 'M' && !are_masked(data, of_data)))
        fault("payload");
    whole.tick = tick;
    to_line(*op == 'R' ? READ : WRITE, line, row, length);
}

/* A row of a read or a write, whose bytes are looked at once; answers its length, or 0 where `split_row` is to judge it. */
static size_t split_fast(const char *row, size_t left)
{
    const char *at = row, *arg;
    uint64_t tick = 0, line = 0;
    if (left < MOST_OF_ROW)
        return 0;
    for (; at < row + 14 && is_digit(*at); at++)
        tick = 10 * tick + (uint64_t)(*at - '0');
    char op = at[1];
    if (at == row || at == row + 14 || *at != ',' || tick > LAST_TICK || tick < whole.tick || (op != 'R' && op != 'W') || at[2] != ',')
        return 0;
    for (at += 3, arg = at; at < arg + 9 && is_digit(*at); at++)
        line = 10 * line + (uint64_t)(*at - '0');
    if (at == arg || (size_t)(at - arg) > whole.digits || line >= whole.lines || *at++ != ',')
        return 0;
    if (op == 'W') {
        if (!are_hexadecimal(at, 2 * whole.size))
            return 0;
        at += 2 * whole.size;
    }
    if (*at++ != '\n')
        return 0;
    whole.tick = tick;
    whole.ends_in_cut = 0;
    to_line(op == 'R' ? READ : WRITE, line, row, (size_t)(at - row));
    return (size_t)(at - row);
}

static void split_header(struct lines *trace)
{
    size_t length;
    char *row = next_line(trace, &length);
    if (row && (!memcmp(row, "\xef\xbb\xbf", length < 3 ? length : 3) || memchr(row, '"', length) || *row == '\n' || *row == '\r'))
        plain_only();
    if (row && length > 1 && row[length - 2] == '\r')
        row[--length - 1] = '\n';
    if (!row || length != sizeof HEADER - 1 || memcmp(row, HEADER, length)) {
        if (row && memchr(row, '\r', length))
            plain_only();
        leave(3, "trace row 0: header");
    }
}

static void split_trace(void)
{
    struct lines trace;
    size_t length;
    open_lines(&trace, 0, "standard input");
    if (whole.is_piece) {
        if (lseek(0, (off_t)whole.from, SEEK_SET) < 0)
            leave_file(4, "standard input");
        trace.left = whole.until - whole.from;
    }
    if (whole.from == 0)
        split_header(&trace);
    for (;;) {
        while ((length = split_fast(trace.text + trace.from, trace.until - trace.from)))
            trace.from += length;
        char *row = next_line(&trace, &length);
        if (!row)
            return;
        split_row(row, length);
    }
}

/* Drawing. */
static char *put_decimal(char *at, uint64_t value)
{
    char text[20];
    size_t from = sizeof text;
    do
        text[--from] = (char)('0' + value % 10);
    while (value /= 10);
    memcpy(at, text + from, sizeof text - from);
    return at + sizeof text - from;
}

/* A row that is drawn, all of whose words are drawn, too; answers its length. */
static size_t write_drawn(struct drawn *drawn, enum drawn_op op, char *row)
{
    static const char HEXADECIMAL[] = "0123456789abcdef";
    char *at = put_decimal(row, drawn->tick);
    *at++ = ',';
    *at++ = op == DRAWN_CUT ? 'C' : op == DRAWN_WRITE ? 'W' : 'R';
    *at++ = ',';
    if (op != DRAWN_CUT)
        at = put_decimal(at, drawn->line);
    *at++ = ',';
    for (uint64_t i = 0; op == DRAWN_WRITE && i < drawn->words; i++) {
        uint64_t bytes = drawn_word(drawn);
        for (int j = 0; j < 8; j++, bytes >>= 8) {
            *at++ = HEXADECIMAL[bytes >> 4 & 15];
            *at++ = HEXADECIMAL[bytes & 15];
        }
    }
    *at++ = '\n';
    return (size_t)(at - row);
}

static void draw_rows(struct drawn drawn)
{
    char row[MOST_OF_ROW];
    for (enum drawn_op op; (op = drawn_row(&drawn)) != DRAWN_END;) {
        whole.tick = drawn.tick;
        whole.ends_in_cut = op == DRAWN_CUT;
        if (op == DRAWN_CUT) {
            to_all(CUT, row, write_drawn(&drawn, op, row));
            continue;
        }
        struct sink *out = part_of_line(op == DRAWN_WRITE ? WRITE : READ, drawn.line);
        if (out)
            put(out, row, write_drawn(&drawn, op, row));
        else
            for (uint64_t i = 0; op == DRAWN_WRITE && i < drawn.words; i++)
                drawn_word(&drawn);
    }
}

/* The name of a part's file. */
static char *name_of(const char *prefix, uint64_t part)
{
    size_t room = strlen(prefix) + 48;
    char *name = malloc(room);
    if (!name)
        leave(7, "out of memory");
    snprintf(name, room, "%s%" PRIu64 ".%" PRIu64, prefix, part, whole.piece);
    return name;
}

static void open_part(uint64_t part, struct sink *out, const char *index)
{
    whole.out[part] = out;
    if (index)
        out->before = whole.index[part] = opened(-1, index);
    if (whole.from == 0)
        put(out, HEADER, sizeof HEADER - 1);
}

/* Opens the parts, each in a file of its own behind a prefix, or one of these descriptors, and what is known of their rows. */
static void open_parts(char *to, const char *index)
{
    int are_open = is_digit(*to);
    char *at = to;
    for (uint64_t part = 0; part < whole.parts; part++) {
        struct sink *out = are_open ? opened((int)strtol(at, &at, 10), "a part") : opened(-1, name_of(to, part));
        at += are_open && *at == ',';
        open_part(part, out, index ? name_of(index, part) : NULL);
    }
}

/* No part ends before all that is known of its rows is there. */
static void close_parts(void)
{
    for (uint64_t part = 0; part < whole.parts; part++) {
        if (whole.has_index)
            note_passed(part, 0);
        flush(whole.out[part]);
    }
    for (uint64_t part = 0; part < whole.parts; part++) {
        finish(whole.out[part]);
        if (whole.has_index)
            finish(whole.index[part]);
    }
}

static void tell_parts(void)
{
    for (uint64_t part = 0; part < whole.parts; part++)
        printf("part %" PRIu64 " %" PRIu64 "\n", part, whole.count[part]);
    if (whole.is_piece && whole.came)
        printf("ticks %" PRIu64 " %" PRIu64 " %d\n", whole.first, whole.tick, whole.ends_in_cut);
    printf("rows %" PRIu64 "\n", whole.rows);
}

/* Adds the cut with which the power goes. */
static void add_cut(void)
{
    char row[32];
    if (whole.came && !whole.ends_in_cut)
        to_all(CUT, row, (size_t)sprintf(row, "%" PRIu64 ",C,,\n", whole.tick));
}

/* The sizes of the module, and the seed of its randomiser. */
static void know_module(uint64_t banks, uint64_t lines, uint64_t seed)
{
    if (!banks || banks > PARTS || lines < banks)
        leave(2, "a module is wanted");
    whole.lines = lines;
    for (whole.bits_of_bank = 0; banks << whole.bits_of_bank < lines;)
        whole.bits_of_bank++;
    key_randomiser(lines, seed);
    whole.digits = lines > 100000 ? 8 : 5;
}

/* How parts are written: with an index, and the cut with which the power goes. */
struct written {
    const char *index;
    int off;
};

/* Takes an option that says so; answers how many words that are, of so many, 0 where it is another. */
static int take_option(struct written *how, int count, char **words)
{
    if (!strcmp(*words, "--off")) {
        how->off = 1;
        return 1;
    }
    if (strcmp(*words, "--index") || count < 2)
        return 0;
    how->index = words[1];
    return 2;
}

static int split(int count, char **words)
{
    struct written how = {NULL, 0};
    for (int taken; count && !strncmp(*words, "--", 2); count -= taken, words += taken) {
        taken = take_option(&how, count, words);
        if (!taken && !strcmp(*words, "--piece") && count > 3) {
            whole.is_piece = 1;
            whole.piece = word_as_number(words[1]);
            whole.from = word_as_number(words[2]);
            whole.until = word_as_number(words[3]);
            taken = 4;
        }
        if (!taken)
            return 2;
    }
    if (count != 7 || whole.from > whole.until)
        return 2;
    uint64_t banks = word_as_number(words[0]);
    know_module(banks, banks * word_as_number(words[1]) * word_as_number(words[2]), word_as_number(words[3]));
    whole.size = word_as_number(words[4]);
    if (whole.size != 64 && whole.size != 128)
        return 2;
    read_ranges(words[5]);
    whole.has_index = how.index != NULL;
    open_parts(words[6], how.index);
    split_trace();
    if (how.off)
        add_cut();
    close_parts();
    tell_parts();
    return 0;
}

static int draw(int count, char **words)
{
    struct drawn drawn;
    struct written how = {NULL, 0};
    for (int taken; count && !strncmp(*words, "--", 2); count -= taken, words += taken)
        if (!(taken = take_option(&how, count, words)))
            return 2;
    if (count != 3 || !drawn_by(&drawn, words[0]))
        return 2;
    know_module(word_as_number(words[1]), drawn.lines, strtoull(words[0], NULL, 10));
    read_ranges(words[2]);
    if (whole.parts != 1)
        return 2;
    whole.has_index = how.index != NULL;
    open_part(0, opened(1, "standard output"), how.index);
    draw_rows(drawn);
    if (how.off)
        add_cut();
    close_parts();
    return 0;
}

#endif
