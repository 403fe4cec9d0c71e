/* Counts how many ticks the rows of a trace took, by what a stream printed of them: the pass of `python3 -m pcm latencies` in C.

   usage: latencies TRACE ROWS                                        ROWS is a file, or - for standard input
          latencies --drawn SEED,ROWS,PERCENT,CUTS,STEP,HOT,LINES,BYTES ROWS

   It prints `OUTCOME TICKS COUNT` for each outcome and number of ticks that came, in any order, and last `without COUNT`, rows of the trace
   that have no outcome. Status 3: a row isn't of the plain form that it reads fast (quotes, CR, blank lines, a mark): the pass in Python
   reads those, and says what is wrong where something is. Standard error has a line then where the last of ROWS isn't ended. */
#include <inttypes.h>

#include "drawn.h"
#include "lines.h"

/* Numbers by numbers: linear probing in a table that is at most half full. Keys are kept one higher, so that 0 is none. */
struct map {
    uint64_t *keys, *values;
    size_t mask, used;
};

static void map_make(struct map *map, size_t size)
{
    map->keys = calloc(size, sizeof *map->keys);
    map->values = calloc(size, sizeof *map->values);
    if (!map->keys || !map->values)
        leave(7, "out of memory");
    map->mask = size - 1;
    map->used = 0;
}

static size_t map_home(const struct map *map, uint64_t key)
{
    return (size_t)((key * UINT64_C(0x9E3779B97F4A7C15)) >> 20) & map->mask;
}

static size_t map_find(const struct map *map, uint64_t key)
{
    size_t at = map_home(map, key);
    while (map->keys[at] && map->keys[at] != key + 1)
        at = (at + 1) & map->mask;
    return at;
}

/* The value of a key, which is 0 where it is new. */
static uint64_t *map_at(struct map *map, uint64_t key)
{
    size_t at = map_find(map, key);
    if (!map->keys[at]) {
        if (2 * ++map->used > map->mask) {
            struct map larger;
            map_make(&larger, 2 * (map->mask + 1));
            for (size_t i = 0; i <= map->mask; i++)
                if (map->keys[i])
                    *map_at(&larger, map->keys[i] - 1) = map->values[i];
            free(map->keys);
            free(map->values);
            *map = larger;
            map->used++;
            at = map_find(map, key);
        }
        map->keys[at] = key + 1;
        map->values[at] = 0;
    }
    return &map->values[at];
}

/* Takes a key out; whether it was there. */
static int map_take(struct map *map, uint64_t key, uint64_t *value)
{
    size_t at = map_find(map, key), hole = at;
    if (!map->keys[at])
        return 0;
    *value = map->values[at];
    map->used--;
    for (;;) {
        at = (at + 1) & map->mask;
        if (!map->keys[at])
            break;
        size_t home = map_home(map, map->keys[at] - 1);
        if (((at - home) & map->mask) >= ((at - hole) & map->mask)) {
            map->keys[hole] = map->keys[at];
            map->values[hole] = map->values[at];
            hole = at;
        }
    }
    map->keys[hole] = 0;
    return 1;
}

/* The next line of plain rows, each ended by LF; NULL where there is none. (A trace's last line may lack its end; where a row of a stream does, those
   behind it are missing.) */
static char *plain_line(struct lines *lines, int is_whole)
{
    size_t length = 0;
    char *line = next_line(lines, &length);
    if (length > ROOM)
        leave(3, NULL);
    if (line && is_whole && lines->lacks_end && lines->from == lines->until)
        leave(3, "the last line isn't ended");
    return line;
}

/* The number at a place, which a comma must end; it goes behind that. */
static uint64_t number(char **at)
{
    uint64_t value = 0;
    char *from = *at;
    for (; **at >= '0' && **at <= '9'; ++*at)
        value = 10 * value + (uint64_t)(**at - '0');
    if (*at == from || *at - from > 13 || **at != ',')
        leave(3, NULL);
    ++*at;
    return value;
}

/* Where arrivals come from. */
static struct lines trace;
static struct drawn drawn;
static int is_drawn;
static uint64_t arrived, now;
static struct map waiting;
enum { READ, WRITE, CUT };

/* The next row of a drawn trace, as `come` has it. */
static int come_drawn(void)
{
    enum drawn_op op = drawn_row(&drawn);
    for (uint64_t i = 0; op == DRAWN_WRITE && i < drawn.words; i++)
        drawn_word(&drawn);
    now = drawn.tick;
    arrived += op != DRAWN_END;
    return op == DRAWN_READ ? READ : op == DRAWN_WRITE ? WRITE : op == DRAWN_CUT ? CUT : -1;
}

/* The next row comes at `now`; what it is, or -1 where there is none. */
static int come(void)
{
    char *line;
    if (is_drawn)
        return come_drawn();
    do {
        line = plain_line(&trace, 0);
        if (!line)
            return -1;
        now = number(&line);
        if (!strchr("RWMCSQUL", *line) || line[1] != ',')
            leave(3, NULL);
    } while (strchr("SQUL", *line));
    arrived++;
    return *line == 'R' ? READ : *line == 'C' ? CUT : WRITE;
}

/* The next row arrives; whether there was one. */
static int arrive(void)
{
    int op = come();
    if (op >= 0)
        *map_at(&waiting, arrived) = now * 4 + (uint64_t)op;
    return op >= 0;
}

static const char *const OUTCOMES[] = {"stored", "merged", "queued", "full", "worn", "read", "forwarded", "busy", "lost", "cut"};
static const int OPS[] = {WRITE, WRITE, WRITE, WRITE, WRITE, READ, READ, READ, READ, CUT};
enum { KINDS = 10, NEAR = 1 << 14 };
static uint64_t near[KINDS][NEAR];
static struct map far;

/* An outcome of a row of the stream. */
static void told(char *line)
{
    if (*line == ',')
        return;
    uint64_t row = number(&line), came;
    char *end = strchr(line, ',');
    int kind = 0;
    if (!end)
        leave(3, NULL);
    while (kind < KINDS && (strncmp(OUTCOMES[kind], line, (size_t)(end - line)) || OUTCOMES[kind][end - line]))
        kind++;
    if (kind == KINDS)
        leave(3, NULL);
    line = end + 1;
    uint64_t tick = number(&line);
    while (arrived < row)
        if (!arrive()) {
            /* (the cut that is added where the power stays off) */
            if (kind == 9 && row == arrived + 1)
                return;
            leave(3, NULL);
        }
    if (!map_take(&waiting, row, &came) || tick < came / 4 || came % 4 != (uint64_t)OPS[kind])
        leave(3, NULL);
    came /= 4;
    if (tick - came < NEAR)
        near[kind][tick - came]++;
    else
        ++*map_at(&far, (tick - came) * 16 + (uint64_t)kind);
}

int main(int count, char **words)
{
    struct lines rows;
    is_drawn = count == 4 && !strcmp(words[1], "--drawn");
    if (!is_drawn && count != 3)
        leave(2, "usage: latencies TRACE|--drawn NUMBERS ROWS");
    map_make(&waiting, 1 << 12);
    map_make(&far, 1 << 12);
    if (is_drawn) {
        if (!drawn_by(&drawn, words[2]))
            leave(2, "--drawn wants eight numbers");
    } else {
        open_lines(&trace, strcmp(words[1], "-") ? -1 : 0, words[1]);
        char *head = plain_line(&trace, 0);
        if (!head || strncmp(head, "tick,op,arg,data\n", 17))
            leave(3, NULL);
    }
    open_lines(&rows, strcmp(words[count - 1], "-") ? -1 : 0, words[count - 1]);
    char *line = plain_line(&rows, 1);
    if (!line || strncmp(line, "row,outcome,tick,place,data\n", 28))
        leave(3, NULL);
    while ((line = plain_line(&rows, 1)))
        told(line);
    uint64_t without = waiting.used;
    while (come() >= 0)
        without++;
    for (int kind = 0; kind < KINDS; kind++)
        for (uint64_t ticks = 0; ticks < NEAR; ticks++)
            if (near[kind][ticks])
                printf("%s %" PRIu64 " %" PRIu64 "\n", OUTCOMES[kind], ticks, near[kind][ticks]);
    for (size_t at = 0; at <= far.mask; at++)
        if (far.keys[at])
            printf("%s %" PRIu64 " %" PRIu64 "\n", OUTCOMES[(far.keys[at] - 1) % 16], (far.keys[at] - 1) / 16, far.values[at]);
    printf("without %" PRIu64 "\n", without);
    return fflush(stdout) || ferror(stdout) ? 5 : 0;
}
