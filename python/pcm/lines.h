/* Lines of a file, and how a pass ends where it can't go on. */
#ifndef PCM_LINES_H
#define PCM_LINES_H

#include <errno.h>
#include <fcntl.h>
#include <stdint.h>
#include <stdio.h>
#include <stdlib.h>
#include <string.h>
#include <unistd.h>

/* A file is read by so many bytes. */
enum { ROOM = 1 << 18 };

static void leave(int status, const char *why)
{
    if (why)
        fprintf(stderr, "%s\n", why);
    exit(status);
}

static void leave_file(int status, const char *name)
{
    fprintf(stderr, "%s: %s\n", name, strerror(errno));
    exit(status);
}

/* Lines of a file, each ended by LF. */
struct lines {
    int fd, ended, lacks_end; /* (lacks_end: the last line did) */
    const char *name;
    char *text;
    size_t from, until, room;
    uint64_t left; /* (bytes that may be read) */
};

static void open_lines(struct lines *lines, int fd, const char *name)
{
    lines->fd = fd >= 0 ? fd : open(name, O_RDONLY);
    if (lines->fd < 0)
        leave_file(4, name);
    lines->name = name;
    lines->room = ROOM;
    lines->text = malloc(lines->room + 1);
    if (!lines->text)
        leave(7, "out of memory");
    lines->ended = lines->lacks_end = 0;
    lines->from = lines->until = 0;
    lines->left = UINT64_MAX;
}

/* The next line with its end, and its length; NULL where there is none. A last line without an end gets one. */
static char *next_line(struct lines *lines, size_t *length)
{
    size_t seen = lines->from;
    for (;;) {
        char *end = memchr(lines->text + seen, '\n', lines->until - seen);
        if (end) {
            char *line = lines->text + lines->from;
            *length = (size_t)(end - line) + 1;
            lines->from += *length;
            return line;
        }
        if (lines->ended)
            return NULL;
        memmove(lines->text, lines->text + lines->from, lines->until - lines->from);
        lines->until -= lines->from;
        lines->from = 0;
        seen = lines->until;
        if (lines->until == lines->room) {
            lines->room *= 2;
            lines->text = realloc(lines->text, lines->room + 1);
            if (!lines->text)
                leave(7, "out of memory");
        }
        size_t most = lines->room - lines->until;
        ssize_t got = read(lines->fd, lines->text + lines->until, most < lines->left ? most : (size_t)lines->left);
        if (got < 0 && errno == EINTR)
            continue;
        if (got < 0)
            leave_file(4, lines->name);
        if (got == 0) {
            lines->ended = 1;
            lines->lacks_end = lines->until > 0;
            if (lines->until)
                lines->text[lines->until++] = '\n';
        }
        lines->left -= (uint64_t)got;
        lines->until += (size_t)got;
        lines->text[lines->until] = 0;
    }
}

#endif
