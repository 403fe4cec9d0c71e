/* pcm.h: a proved phase-change memory module in this process. Link with -lpcm (`pkg-config --cflags --libs pcm`). C99 and C++17.

       struct pcm_module pcm = PCM_MODULE_CLOSED_ONE;
       struct pcm_module_options options = PCM_MODULE_DEFAULTS;
       struct pcm_module_outcome outcome;
       pcm_module_open(&pcm, &options);
       pcm_module_write(&pcm, 0, 7, bytes, 64);        // the row's number is pcm_module_rows(&pcm)
       pcm_module_read(&pcm, 100, 7);
       pcm_module_settle(&pcm, 1000);
       while (pcm_module_next(&pcm, &outcome) == PCM_MODULE_OK) ..
       pcm_module_finish(&pcm);                        // no more rows; pcm_module_next gives what is left
       pcm_module_close(&pcm);

   It is the module of `pcm stream`, which answers the same to the same rows (tested). What options, rows and outcomes mean USING.md and FORMATS.md of
   the repository say; ticks are the simulation's own unit of time, from 0 to 2^40, and never fall. A line is a line of the module, from 0. Outcomes
   wait until they are taken: nothing is called back. Memory comes from malloc: as the module is opened, for all that it will ever hold, but for
   outcomes that wait while more rows come. Each call that may be refused answers a status; but for PCM_MODULE_OK it has changed nothing.

   What a call does to the module, and which answer comes when, is proved, for all arguments. What C can break is what C always can: a pointer that
   isn't valid (so NULL), or not to as many bytes as are said; a struct pcm_module that is neither all zero nor as the last call left it, so one that
   was written to, or a copy of one of which the other was closed; two threads in one module at once (two modules share nothing). All else is looked
   at as it comes, and answered.

   Names begin with pcm_module, so that pcm_stream.h, whose module is another process, may stand beside it. */
#ifndef PCM_H
#define PCM_H

#include <stdbool.h>
#include <stddef.h>
#include <stdint.h>

#ifdef __cplusplus
extern "C" {
#endif

/* What a call answers. */
enum pcm_module_status {
    PCM_MODULE_OK,        /* it is done */
    PCM_MODULE_ENDED,     /* pcm_module_finish was called before: no more rows come */
    PCM_MODULE_EMPTY,     /* no outcome waits */
    PCM_MODULE_LATE,      /* the tick is below one that was reached, or above 2^40 */
    PCM_MODULE_NO_LINE,   /* the module hasn't the line */
    PCM_MODULE_NO_BANK,   /* the module hasn't the bank */
    PCM_MODULE_NO_ROW,    /* no row of this number came */
    PCM_MODULE_SIZE,      /* the bytes aren't as many as a line has */
    PCM_MODULE_MASK,      /* a mask gives no byte */
    PCM_MODULE_TOO_MANY,  /* 4,294,967,294 rows came */
    PCM_MODULE_OPTIONS,   /* an option is out of range: pcm_module_bad_option says which */
    PCM_MODULE_NO_MEMORY, /* malloc gave none, and nothing changed: of a row it comes only where outcomes wait that weren't taken */
    PCM_MODULE_CLOSED,    /* the module isn't open */
    PCM_MODULE_OPEN       /* the module is open already */
};

/* An option. PCM_MODULE_TOTAL stands for all lines of the module together. */
enum pcm_module_option {
    PCM_MODULE_ALL_RIGHT, PCM_MODULE_OPTIONS_SIZE, PCM_MODULE_BANKS, PCM_MODULE_REGIONS, PCM_MODULE_LINES, PCM_MODULE_TOTAL, PCM_MODULE_LINE,
    PCM_MODULE_SPARES, PCM_MODULE_WRITE_QUEUE, PCM_MODULE_READ_QUEUE, PCM_MODULE_PSI, PCM_MODULE_READ_TICKS, PCM_MODULE_ITER_TICKS,
    PCM_MODULE_POLICY, PCM_MODULE_REGISTERS, PCM_MODULE_MISSES, PCM_MODULE_LO, PCM_MODULE_HI
};

enum pcm_module_policy { PCM_MODULE_PAUSE, PCM_MODULE_PLAIN, PCM_MODULE_CANCEL };

/* Where a bank keeps its registers: in memory that survives a power cut, or in lines of its array. */
enum pcm_module_home { PCM_MODULE_GUARDED, PCM_MODULE_ARRAY };

/* What became of a row. */
enum pcm_module_kind {
    PCM_MODULE_STORED, PCM_MODULE_MERGED, PCM_MODULE_QUEUED, PCM_MODULE_FULL_QUEUE, PCM_MODULE_WORN, PCM_MODULE_READ, PCM_MODULE_FORWARDED,
    PCM_MODULE_BUSY, PCM_MODULE_LOST, PCM_MODULE_CUT
};

/* Whether a bank goes on: it does; a worn line of it found no spare, so that it takes no write any more; or one of its control lines is worn, so
   that it begins no line write any more. */
enum pcm_module_mark { PCM_MODULE_GOING, PCM_MODULE_EXHAUSTED, PCM_MODULE_HALTED };

/* A module. The caller owns it, and may move it; what is in it is the library's. One that is all zero, as a static one, is closed. */
struct pcm_module {
    bool is_open;
    void *at;
};
/* clang-format off */
#define PCM_MODULE_CLOSED_ONE {false, NULL}
/* clang-format on */

/* What a module is to be: the options of `pcm stream` that have these names, with their ranges. */
struct pcm_module_options {
    uint32_t size; /* sizeof (struct pcm_module_options): a later library can have more options */
    uint32_t banks;
    uint32_t regions; /* of a bank */
    uint32_t lines;   /* of a region */
    uint32_t line;    /* the bytes of a line: 64 or 128 */
    uint32_t spares;  /* of a bank */
    uint32_t write_queue;
    uint32_t read_queue;
    uint32_t psi;
    uint32_t read_ticks;
    uint32_t iter_ticks;
    uint32_t policy;    /* enum pcm_module_policy */
    uint32_t registers; /* enum pcm_module_home */
    uint32_t misses;
    uint32_t lo;
    uint32_t hi;
    uint64_t seed;
};
/* Those that `pcm stream` has where none are given. */
#define PCM_MODULE_DEFAULTS                                                                                                                    \
    {sizeof(struct pcm_module_options), 4, 2, 64, 64, 8, 32, 32, 100, 5, 10, PCM_MODULE_PAUSE, PCM_MODULE_GUARDED, 0, 100000000, 100000000, 0}

struct pcm_module_outcome {
    uint32_t kind;  /* enum pcm_module_kind */
    uint32_t row;   /* the row's number, from 1 */
    uint64_t tick;  /* when */
    uint32_t place; /* of PCM_MODULE_STORED and PCM_MODULE_READ: the array line; else 0 */
    uint32_t size;  /* of PCM_MODULE_READ and PCM_MODULE_FORWARDED: how many bytes; else 0 */
    uint8_t bytes[128];
};

/* What waits in a bank. */
struct pcm_module_backlog {
    uint32_t writes; /* the entries of its write queue, one that is in flight among them */
    uint32_t reads;  /* one that is served among them */
    uint32_t mark;   /* enum pcm_module_mark */
};

/* How worn a module is: numbers over all its array lines, free spares too; each stays at the greatest uint64_t. */
struct pcm_module_wear {
    uint64_t pulses;   /* of all lines together */
    uint64_t most;     /* of the line that has most */
    uint64_t mean;     /* of a line, rounded down */
    uint64_t pointers; /* the active ones, by the lines' own check cells */
    uint64_t senses;   /* of all lines together */
    uint64_t set;      /* how often a pulse drove a cell to 1 */
    uint64_t reset;    /* and to 0 */
};

/* Where a line of a module stands in the array now, and how worn that array line is; each count stays at the greatest of its type. */
struct pcm_module_standing {
    uint64_t pulses;  /* of the array line; a torn one counts */
    uint64_t senses;  /* how often it was sensed */
    uint64_t set;     /* how often a pulse drove a cell of it to 1 */
    uint64_t reset;   /* and to 0 */
    uint32_t place;   /* the array line, as an outcome tells it */
    uint32_t stuck;   /* how many of its cells are stuck */
    uint32_t changes; /* the most changes that one of its cells has spent */
};

/* The word of a kind of outcomes, as a stream tells it; NULL of a number that is none. */
static inline const char *pcm_module_word(uint32_t kind)
{
    static const char *const words[] = {"stored", "merged", "queued", "full", "worn", "read", "forwarded", "busy", "lost", "cut"};
    return kind <= PCM_MODULE_CUT ? words[kind] : NULL;
}

/* The first option found out of range, or PCM_MODULE_ALL_RIGHT: the size of the options, policy, registers, line, misses, lo, hi, and then the others
   in their order, with PCM_MODULE_TOTAL behind the lines. The options are only read. */
uint32_t pcm_module_bad_option(const struct pcm_module_options *options);
/* Opens a module that is closed. What it holds is freed by pcm_module_close alone. PCM_MODULE_OPEN, PCM_MODULE_OPTIONS, PCM_MODULE_NO_MEMORY. */
uint32_t pcm_module_open(struct pcm_module *pcm, const struct pcm_module_options *options);
/* A write of a whole line, of so many bytes, arrives; they are copied. PCM_MODULE_OK says that the row was taken, not that the write is accepted:
   its outcome says that. PCM_MODULE_SIZE, PCM_MODULE_NO_LINE, and of every row PCM_MODULE_CLOSED, PCM_MODULE_ENDED, PCM_MODULE_LATE,
   PCM_MODULE_TOO_MANY, PCM_MODULE_NO_MEMORY. */
uint32_t pcm_module_write(struct pcm_module *pcm, uint64_t tick, uint32_t line, const uint8_t *bytes, size_t size);
/* A write that gives the bytes for which `given` is true arrives; both are as many as a line has, and are copied. PCM_MODULE_MASK where it gives
   none, and as a write of a whole line. */
uint32_t pcm_module_write_masked(struct pcm_module *pcm, uint64_t tick, uint32_t line, const uint8_t *bytes, size_t size, const bool *given,
                                 size_t count);
/* A read of a line arrives. PCM_MODULE_NO_LINE, and those of every row. */
uint32_t pcm_module_read(struct pcm_module *pcm, uint64_t tick, uint32_t line);
/* The power is cut, and is there again at once. Those of every row. */
uint32_t pcm_module_cut(struct pcm_module *pcm, uint64_t tick);
/* Every bank goes on to a tick. It has no number. PCM_MODULE_CLOSED, PCM_MODULE_ENDED, PCM_MODULE_LATE. */
uint32_t pcm_module_settle(struct pcm_module *pcm, uint64_t tick);
/* Every bank goes on only until a row has its outcome, from the tick that was reached, and to `limit` where it has none by then; pcm_module_tick tells
   how far. PCM_MODULE_NO_ROW, and as a settle. */
uint32_t pcm_module_settle_until(struct pcm_module *pcm, uint32_t row, uint64_t limit);
/* The same until any row has its outcome that had none. As a settle. */
uint32_t pcm_module_settle_any(struct pcm_module *pcm, uint64_t limit);
/* No more rows come: the banks drain. PCM_MODULE_CLOSED, PCM_MODULE_ENDED. */
uint32_t pcm_module_finish(struct pcm_module *pcm);
/* Takes the outcome that was told first of those that wait. PCM_MODULE_EMPTY where none waits, PCM_MODULE_CLOSED; the outcome stays as it is then. */
uint32_t pcm_module_next(struct pcm_module *pcm, struct pcm_module_outcome *outcome);
/* The same, of at most so many outcomes; how many they were. */
static inline size_t pcm_module_take(struct pcm_module *pcm, struct pcm_module_outcome *outcomes, size_t most)
{
    size_t taken = 0;
    while (taken < most && pcm_module_next(pcm, &outcomes[taken]) == PCM_MODULE_OK)
        taken++;
    return taken;
}
/* What waits in a bank, from 0. PCM_MODULE_NO_BANK, PCM_MODULE_CLOSED. */
uint32_t pcm_module_bank(struct pcm_module *pcm, uint32_t bank, struct pcm_module_backlog *told);
/* Where a line stands at the tick that was reached, and how worn it is there; behind pcm_module_finish too. PCM_MODULE_NO_LINE, PCM_MODULE_CLOSED. */
uint32_t pcm_module_line(struct pcm_module *pcm, uint32_t line, struct pcm_module_standing *told);
/* A line's newest bytes at that tick, those that the module accepted last, wherever they are, are put into `bytes`, as many as a line has. It is a
   debugger's look: nothing is sensed for it. PCM_MODULE_NO_LINE, PCM_MODULE_SIZE, PCM_MODULE_CLOSED; the bytes stay as they are then. */
uint32_t pcm_module_newest(struct pcm_module *pcm, uint32_t line, uint8_t *bytes, size_t size);
/* How worn the module is at the tick that was reached, behind pcm_module_finish too. It goes over all array lines: of a large module it takes time.
   PCM_MODULE_CLOSED. */
uint32_t pcm_module_look(struct pcm_module *pcm, struct pcm_module_wear *told);
/* The tick that was reached, how many rows came (the number of the last one), how many lines the module has, how many outcomes wait; 0 of one
   that is closed. */
uint64_t pcm_module_tick(struct pcm_module *pcm);
uint32_t pcm_module_rows(struct pcm_module *pcm);
uint32_t pcm_module_lines(struct pcm_module *pcm);
size_t pcm_module_waiting(struct pcm_module *pcm);
/* Closes a module, and frees all that it has, outcomes that wait too. One that is closed stays closed; one that was closed can be opened again. */
void pcm_module_close(struct pcm_module *pcm);

#ifdef __cplusplus
}
#endif
#endif
