// Stands before libc's allocator, read and write, and counts the calls that COUNTED names: `memory`, requests for it, `reads`, those of
// standard input, or `writes`, those to standard output. REFUSE=N refuses call N, counted from 1, REFUSE_FROM=N each from N on; INTERRUPT=1
// interrupts the first and each other one, SHORT=1 gives each read or write one byte. COUNT=PATH has the number of calls in the end. What
// the loader asks for before the environment can be read isn't counted.
#define _GNU_SOURCE
#include <errno.h>
#include <stdio.h>
#include <stdlib.h>
#include <string.h>
#include <sys/syscall.h>
#include <unistd.h>

extern void *__libc_malloc(size_t);
extern void *__libc_calloc(size_t, size_t);
extern void *__libc_realloc(void *, size_t);
extern void *__libc_memalign(size_t, size_t);

// (no call is of kind NONE; calls of kind OTHER are never counted)
enum kind { NONE, MEMORY, READ, WRITE, OTHER };

static enum kind counted;
static unsigned long made, refused, refused_from, interrupts, shortens;

// Whether this call is one that fails, and, if so, why: by this error, or since it is interrupted.
static int refuses(enum kind kind, int error) {
    if (kind != counted) return 0;
    made++;
    int is_refused = made == refused || (refused_from != 0 && made >= refused_from), is_interrupted = interrupts && made % 2 == 1;
    if (is_refused || is_interrupted) errno = is_refused ? error : EINTR;
    return is_refused || is_interrupted;
}

static size_t length(enum kind kind, size_t size) { return kind == counted && shortens && size > 1 ? 1 : size; }

static enum kind kind_of(const char *name) {
    if (!name) return NONE;
    return !strcmp(name, "memory") ? MEMORY : !strcmp(name, "reads") ? READ : !strcmp(name, "writes") ? WRITE : NONE;
}

static unsigned long number_of(const char *text) { return text ? strtoul(text, 0, 10) : 0; }

__attribute__((constructor)) static void begin(void) {
    refused = number_of(getenv("REFUSE"));
    refused_from = number_of(getenv("REFUSE_FROM"));
    interrupts = number_of(getenv("INTERRUPT"));
    shortens = number_of(getenv("SHORT"));
    counted = kind_of(getenv("COUNTED"));
}

__attribute__((destructor)) static void end(void) {
    const char *path = getenv("COUNT");
    counted = NONE;
    FILE *file = path ? fopen(path, "w") : 0;
    if (file) { fprintf(file, "%lu\n", made); fclose(file); }
}

ssize_t read(int from, void *bytes, size_t size) {
    enum kind kind = from == STDIN_FILENO ? READ : OTHER;
    return refuses(kind, EIO) ? -1 : syscall(SYS_read, from, bytes, length(kind, size));
}
ssize_t write(int to, const void *bytes, size_t size) {
    enum kind kind = to == STDOUT_FILENO ? WRITE : OTHER;
    return refuses(kind, EIO) ? -1 : syscall(SYS_write, to, bytes, length(kind, size));
}

void *malloc(size_t size) { return refuses(MEMORY, ENOMEM) ? 0 : __libc_malloc(size); }
void *calloc(size_t count, size_t size) { return refuses(MEMORY, ENOMEM) ? 0 : __libc_calloc(count, size); }
void *realloc(void *old, size_t size) { return refuses(MEMORY, ENOMEM) ? 0 : __libc_realloc(old, size); }
void *memalign(size_t align, size_t size) { return refuses(MEMORY, ENOMEM) ? 0 : __libc_memalign(align, size); }
void *aligned_alloc(size_t align, size_t size) { return refuses(MEMORY, ENOMEM) ? 0 : __libc_memalign(align, size); }
int posix_memalign(void **place, size_t align, size_t size) {
    if (refuses(MEMORY, ENOMEM)) return ENOMEM;
    void *found = __libc_memalign(align, size);
    if (!found) return ENOMEM;
    *place = found;
    return 0;
}
