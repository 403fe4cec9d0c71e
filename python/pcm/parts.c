/* The passes of `python3 -m pcm parts` in C; partwise.py has the same in Python, byte for byte. The banks of a part are FIRST-LAST.

   parts split [--off] [--index PREFIX] [--piece P FROM UNTIL] BANKS REGIONS LINES SEED SIZE FIRST-LAST,FIRST-LAST,.. PREFIX|FD,FD,.. < TRACE
       Part K, in the file PREFIXK.0 or to a descriptor, gets the rows of its banks' lines, all cuts and all that settles.
       --off adds a cut where one stream with --end off does. --index writes for each of a part's rows where it stands in the whole trace, and
       what it asks, in 16 bytes: number + ticks << 9 | bank << 3 | kind, line, rows since the part's row before, the lowest byte first.
       It prints `part K ROWS` for each, and `rows ROWS`: those that have a number. --piece splits the bytes FROM to UNTIL of a file, which
       begin with a row unless FROM is 0, into PREFIXK.P, and prints `ticks FIRST LAST CUT`, too, where it has a row: whether the last one is
       a cut. The pieces of a part, one behind the other, are its rows, and so are those of its index. Status 3: the line `trace row N: KIND`
       says which row is faulty, as a stream says it, or `trace row N: until`, since a settle until isn't split. Status 9: the trace isn't of
       the plain form that is read fast (quotes, empty lines, a mark, CR alone).
   parts draw [--off] [--index FILE] SEED,ROWS,PERCENT,CUTS,STEP,HOT,LINES,BYTES BANKS FIRST-LAST
       Writes what split gives a part of the trace that is drawn so, and its index to a file.
   parts place [--by-number] FIRST-LAST INDEX .. < ROWS
       What the stream of a part told, with the numbers of the whole trace, and a key in front: where one stream tells it, in 18 digits.
   parts keep FIRST-LAST < REPORT
       The rows of a report, as one on array lines, of the part's banks, with the first number of each as its key.
   parts merge LINES SENSES FILE ..
       What place or keep wrote of all parts, in the order of the keys, without them. The module has LINES array lines; of a look, SENSES of
       each cut before it are taken off for each part but one.

   Status 2: the words; 3: what is read isn't as it should be; 4: reading failed; 5: writing failed; 7: out of memory. */
#include "parts_split.h"
#include "parts_place.h"

/* Keeping the rows of a part's banks. */
static int keep(int count, char **words)
{
    if (count != 1)
        return 2;
    read_range(words[0], &first_bank, &last_bank);
    struct lines report;
    open_lines(&report, 0, "standard input");
    struct sink *out = opened(1, "standard output");
    size_t length;
    char *line = next_line(&report, &length);
    if (!line)
        not_of_the_part();
    if (first_bank == 0) {
        put_key(out, 0, 0);
        put(out, line, length);
    }
    while ((line = next_line(&report, &length))) {
        char *text = line;
        uint64_t number = told_number(&text), bank = told_number(&text);
        if (first_bank <= bank && bank <= last_bank) {
            put_key(out, number, 1);
            put(out, line, length);
        }
    }
    finish(out);
    return 0;
}

/* Merging: the files' next lines in a heap by their keys. */
struct merged {
    struct lines lines;
    char *line;
    size_t length;
};

static int is_below(const struct merged *one, const struct merged *other) { return memcmp(one->line, other->line, DIGITS) < 0; }

static void sift(struct merged **heap, size_t count)
{
    struct merged *top = heap[0];
    size_t hole = 0;
    for (size_t child; (child = 2 * hole + 1) < count; hole = child) {
        if (child + 1 < count && is_below(heap[child + 1], heap[child]))
            child++;
        if (!is_below(heap[child], top))
            break;
        heap[hole] = heap[child];
    }
    heap[hole] = top;
}

static int advance(struct merged *one)
{
    one->line = next_line(&one->lines, &one->length);
    if (one->line && one->length < DIGITS + 1)
        leave(3, "a part has a line without a key");
    return one->line != NULL;
}

static uint64_t sum(uint64_t one, uint64_t other) { return one + other < one ? UINT64_MAX : one + other; }

/* A look's answer, of one part and of further ones. */
static struct {
    uint64_t count, of[7];
    char begin[64];
} look;

static void add_look(const char *line)
{
    const char *numbers = strrchr(line, ',');
    uint64_t one[7];
    char *end = (char *)numbers + 1;
    if (!look.count++) {
        memset(look.of, 0, sizeof look.of);
        snprintf(look.begin, sizeof look.begin, "%.*s", (int)(numbers + 1 - line), line);
    }
    for (int i = 0; i < 7; i++)
        one[i] = strtoull(end, &end, 10);
    for (int i = 0; i < 7; i++)
        look.of[i] = i == 1 ? (look.of[i] > one[i] ? look.of[i] : one[i]) : sum(look.of[i], one[i]);
}

static void end_look(struct sink *out, uint64_t lines, uint64_t senses)
{
    char text[256];
    look.of[2] = look.of[0] / lines;
    look.of[4] -= (look.count - 1) * senses;
    int length = sprintf(text, "%s", look.begin);
    for (int i = 0; i < 7; i++)
        length += sprintf(text + length, "%" PRIu64 "%c", look.of[i], i < 6 ? ' ' : '\n');
    put(out, text, (size_t)length);
    look.count = 0;
}

static int merge(int count, char **words)
{
    if (count < 3 || count > 2 + PARTS)
        return 2;
    uint64_t lines = word_as_number(words[0]), senses = word_as_number(words[1]), cuts = 0;
    struct merged all[PARTS], *heap[PARTS];
    size_t left = 0;
    for (int i = 2; i < count; i++) {
        struct merged *one = &all[i - 2];
        open_lines(&one->lines, -1, words[i]);
        if (!advance(one))
            continue;
        size_t hole = left++;
        for (; hole && is_below(one, heap[(hole - 1) / 2]); hole = (hole - 1) / 2)
            heap[hole] = heap[(hole - 1) / 2];
        heap[hole] = one;
    }
    struct sink *out = opened(1, "standard output");
    while (left) {
        struct merged *one = heap[0];
        int is_look = one->line[16] == '8' && one->line[17] == '0';
        if (look.count && !is_look)
            end_look(out, lines, cuts * senses);
        if (is_look) {
            one->line[one->length - 1] = 0;
            add_look(one->line + DIGITS);
        } else {
            cuts += one->line[16] == '4' && one->line[17] == '0' && one->line[DIGITS] != ',';
            put(out, one->line + DIGITS, one->length - DIGITS);
        }
        if (!advance(one))
            heap[0] = heap[--left];
        if (left)
            sift(heap, left);
    }
    finish(out);
    return 0;
}

int main(int count, char **words)
{
    static const struct { const char *name; int (*pass)(int, char **); } PASSES[] = {
        {"split", split}, {"draw", draw}, {"place", place}, {"keep", keep}, {"merge", merge},
    };
    int status = 2;
    for (size_t i = 0; count > 1 && i < sizeof PASSES / sizeof *PASSES; i++)
        if (!strcmp(words[1], PASSES[i].name))
            status = PASSES[i].pass(count - 2, words + 2);
    if (status == 2)
        leave(2, "usage: parts split|draw|place|keep|merge ..");
    return fflush(stdout) || ferror(stdout) ? 5 : status;
}
