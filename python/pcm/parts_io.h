/* What the passes of parts.c share: their words, and bytes on their way to a file. */
#ifndef PCM_PARTS_IO_H
#define PCM_PARTS_IO_H

#include <inttypes.h>

#include "lines.h"

enum { PARTS = 64, PIECE = 1 << 16, DIGITS = 18, MOST_OF_ROW = 320 };
enum kind { READ, WRITE, CUT, SETTLE, PASSED = 7 };
static const uint64_t LAST_TICK = UINT64_C(1) << 40;
static const char HEADER[] = "tick,op,arg,data\n", TOLD[] = "row,outcome,tick,place,data\n";

static inline int is_digit(char it) { return (unsigned char)(it - '0') < 10; }

static uint64_t word_as_number(const char *word)
{
    char *end;
    errno = 0;
    uint64_t value = strtoull(word, &end, 10);
    if (errno || end == word || *end)
        leave(2, "a number is wanted");
    return value;
}

/* The banks of a part, as FIRST-LAST; where they end in the text. */
static char *read_range(char *text, uint64_t *first, uint64_t *last)
{
    char *end = text;
    if (is_digit(*text))
        *first = strtoull(text, &end, 10);
    char *behind = end;
    if (end != text && *end == '-' && is_digit(end[1]))
        *last = strtoull(end + 1, &behind, 10);
    if (behind == end || *first > *last || *last >= PARTS)
        leave(2, "banks are wanted, as 0-3");
    return behind;
}

/* Bytes on their way to a file, of which some are held. */
struct sink {
    int fd;
    const char *name;
    struct sink *before; /* (one that must have all its bytes before this has) */
    size_t held;
    char bytes[PIECE];
};

static void flush(struct sink *sink)
{
    if (sink->before)
        flush(sink->before);
    for (size_t done = 0; done < sink->held;) {
        ssize_t wrote = write(sink->fd, sink->bytes + done, sink->held - done);
        if (wrote < 0 && errno != EINTR)
            leave_file(5, sink->name);
        if (wrote > 0)
            done += (size_t)wrote;
    }
    sink->held = 0;
}

static inline void put(struct sink *sink, const char *bytes, size_t count)
{
    while (count > PIECE - sink->held) {
        size_t some = PIECE - sink->held;
        memcpy(sink->bytes + sink->held, bytes, some);
        sink->held = PIECE;
        flush(sink);
        bytes += some;
        count -= some;
    }
    memcpy(sink->bytes + sink->held, bytes, count);
    sink->held += count;
}

static struct sink *opened(int fd, const char *name)
{
    struct sink *sink = malloc(sizeof *sink);
    if (!sink)
        leave(7, "out of memory");
    sink->fd = fd >= 0 ? fd : open(name, O_WRONLY | O_CREAT | O_TRUNC, 0666);
    if (sink->fd < 0)
        leave_file(5, name);
    sink->name = name;
    sink->before = NULL;
    sink->held = 0;
    return sink;
}

static void finish(struct sink *sink)
{
    flush(sink);
    if (close(sink->fd))
        leave_file(5, sink->name);
    free(sink);
}

#endif
