/* pcm_stream.h: a proved phase-change memory module behind a pipe, or in one's own process, for simulators in C and C++.

   One header, POSIX; it compiles as C11 and as C++17, with -pedantic-errors and without a macro of the caller's. It starts `pcm stream`, sends
   rows of a trace, and takes outcomes as they become known. Nothing is allocated, no thread is started, no signal is handled or raised; each
   error is a return value.

       struct pcm pcm;
       const char *words[] = {"./pcm", "stream", "--banks", "4", NULL};
       if (pcm_open(&pcm, words) != PCM_OK) ..     // the program couldn't be started; errno tells why
       pcm_write(&pcm, 0, 7, bytes, 64);           // the row's number is pcm.rows
       pcm_read(&pcm, 100, 7);
       pcm_settle(&pcm, 1000);
       struct pcm_outcome outcome;
       while (pcm_next(&pcm, &outcome) == PCM_OK && outcome.kind != PCM_SETTLED) ..
       if (pcm_write_sure(&pcm, 1000, 8, bytes, NULL, 64, NULL, NULL) == PCM_OK) ..   // it is accepted, so durable
       pcm_settle_until(&pcm, pcm.rows, 9000, NULL, NULL);   // the array has it; pcm.tick is the tick at which it came there
       pcm_finish(&pcm);                           // no more rows; pcm_next then gives the rest, and PCM_ENDED behind the last
       int status = pcm_close(&pcm);               // the program's: 0, or 1 where some row fell short

   Ticks are the simulation's own unit of time, from 0 to 2^40, and never fall. A line is a line of the module, from 0. What an option, a row
   or an outcome means is told by the repository's docs (USING.md, FORMATS.md).

   With PCM_STREAM_LIBRARY defined before it is included, and pcm.h and pcm_stream_library.h beside it, the module is in the caller's own process, by
   the library (pcm.h): no program is started, and the words in front of the first option are passed over. Functions and answers are the same, but:
   a row is served as it is handed in, so what is wrong with it shows at once; options are those of a module, and of others only their defaults
   (`--end drain`, `--until end`, `--input source`), `--tell shape` and `--tell module`: any other shows as one that the program refuses;
   copies (pcm_copy.h) answer PCM_FAILED, with ENOTSUP; pcm_next, which would wait for ever where no outcome is to come, answers PCM_REFUSED;
   PCM_FULL comes where PCM_MOST_SETTLES settles wait to be taken, and never else; memory is allocated; and nothing is left to send where
   pcm_close comes.

   A struct pcm is the caller's: it holds two descriptors, a process, and two buffers (some 80 KiB together), and must not be moved while it is
   open. One that is all zero, as a static one is, counts as closed. It isn't to be used by two threads at once.

   PCM_FULL comes only where answers of more than PCM_MOST_WAITING bytes wait to be taken. An answer has at most 48 bytes, that of a read two
   more for each byte of its line. So who takes all answers behind each settle never meets it, as long as these are no more, of all rows since
   the settle before and of all writes and reads that waited then: with 4 banks, queues of 32 writes and of 32 reads, all of them full, and
   lines of 64 bytes 200 reads, or 740 writes, between two settles. */
#ifndef PCM_STREAM_H
#define PCM_STREAM_H

#include <errno.h>
#include <stddef.h>
#include <stdint.h>
#include <stdio.h>
#include <stdlib.h>
#include <string.h>
#include <sys/types.h>
#ifdef PCM_STREAM_LIBRARY
#include "pcm.h"
#else
#include <fcntl.h>
#include <poll.h>
#include <signal.h>
#include <spawn.h>
#include <sys/socket.h>
#include <sys/wait.h>
#include <unistd.h>
#endif
#ifdef __SSE2__
#include <emmintrin.h> /* sixteen digits at once */
#endif

#ifdef __cplusplus
extern "C" {
#endif

/* The greatest number of bytes of a line. */
#define PCM_MOST_BYTES 128
/* The longest row of a trace, and the longest line of a stream, with its end. */
#define PCM_MOST_ROW 512
/* So many bytes of answers are held for the caller at least, before PCM_FULL comes. */
#define PCM_MOST_WAITING 64512
/* So many bytes pcm_close takes at most without pcm_finish: more than the answers of all that may wait then, in 64 banks and in the pipes. */
#define PCM_MOST_LEFT (1 << 26)
/* Over the library: so many settles may wait to be taken before PCM_FULL comes. */
#define PCM_MOST_SETTLES 64
/* The last tick, and the last row's number. */
#define PCM_LAST_TICK (UINT64_C(1) << 40)
#define PCM_LAST_ROW UINT32_C(4294967294)

/* What a call answers. */
enum pcm_result {
    PCM_OK,       /* it is done */
    PCM_ENDED,    /* the program has ended; pcm_close tells its status. Of pcm_next, and of calls that hand outcomes to `take`, it says that none
                     is left, too; behind any other call pcm_next gives those that are */
    PCM_FULL,     /* answers have to be taken first (pcm_next), before another row can be sent */
    PCM_FAILED,   /* a call of the system failed; errno tells why */
    PCM_REFUSED,  /* an argument is out of range: a tick, a row, a line (where the shape is known), a mask that gives nothing; or the module
                     is closed; nothing was sent */
    PCM_GARBLED,  /* the program sent a line that isn't one of a stream */
    PCM_SIZE,     /* the bytes aren't as many as a line has; nothing was sent */
    PCM_DECLINED, /* the module refused the write: it isn't accepted */
    PCM_OTHER     /* the module has another shape than is wanted */
};

/* What became of a row, or that the module has settled. */
enum pcm_kind {
    PCM_STORED, PCM_MERGED, PCM_QUEUED, PCM_FULL_QUEUE, PCM_WORN, PCM_READ, PCM_FORWARDED, PCM_BUSY, PCM_LOST, PCM_CUT, PCM_SETTLED
};

/* Whether a bank goes on. */
enum pcm_mark {
    PCM_GOING,     /* it does */
    PCM_EXHAUSTED, /* a worn line of it found no spare: each write is refused as worn from then on */
    PCM_HALTED     /* one of its control lines is worn: no line write is begun any more */
};

/* What waits in a bank. */
struct pcm_bank {
    uint32_t waiting_writes; /* the entries of its write queue, one that is in flight among them */
    uint32_t waiting_reads;  /* one that is served among them */
    enum pcm_mark mark;
};

/* How worn a module is: numbers over all its array lines, free spares too. */
struct pcm_wear {
    uint64_t pulses;   /* of all lines together */
    uint64_t most;     /* of the line that has most */
    uint64_t mean;     /* of a line, rounded down */
    uint64_t pointers; /* the active ones, by the lines' own check cells */
    uint64_t senses;   /* of all lines together */
    uint64_t set;      /* cells that pulses drove to 1 */
    uint64_t reset;    /* cells that pulses drove to 0 */
};

/* The number of no bank. */
#define PCM_NO_BANK UINT32_MAX

/* Which line writes give way to a read that comes, and where a bank keeps its registers: in the order of the library's values. */
enum pcm_policy { PCM_PAUSE, PCM_PLAIN, PCM_CANCEL };
enum pcm_home { PCM_GUARDED, PCM_ARRAY };

/* What a module is, where the program tells it (`--tell shape` or `--tell module`); all 0 until then. */
struct pcm_shape {
    uint32_t version;     /* of what is told: 1, or 2 by `--tell module` */
    uint32_t banks;
    uint32_t regions;     /* of a bank */
    uint32_t lines;       /* of a region */
    uint32_t spares;      /* of a bank */
    uint32_t line;        /* the bytes of a line */
    uint32_t write_queue; /* the writes that a bank's queue holds */
    uint32_t read_queue;  /* the reads that may wait at a bank */
};

/* What it is besides, by `--tell module`; all 0 until then. */
struct pcm_rest {
    uint64_t seed;       /* of the randomiser, and of how cells wear */
    uint32_t psi;        /* the stores in a region behind which its gap moves */
    uint32_t read_ticks; /* of a sense */
    uint32_t iter_ticks; /* of an iteration of a line write */
    enum pcm_policy policy;
    enum pcm_home home;
};

/* What spreads lines over the banks (FORMATS.md, 'The randomiser's words'). */
struct pcm_randomiser {
    uint32_t key[3], low_bits, high_bits; /* its keys, and the bits of its halves */
    uint32_t bank_bits;                   /* those of the number of a bank's lines */
};

struct pcm_outcome {
    enum pcm_kind kind;
    uint32_t row;       /* the row's number, from 1; 0 of PCM_SETTLED */
    uint64_t tick;      /* when */
    uint32_t place;     /* of PCM_STORED and PCM_READ: the array line */
    uint32_t size;      /* of PCM_READ and PCM_FORWARDED: how many bytes */
    uint8_t bytes[PCM_MOST_BYTES];
};

/* The caller's own: what takes a row's text, its end among its `size` bytes, as it is sent: `op` is R, W, M or C, or S, Q, U, L or P of a row that
   settles. The first four, behind the header `tick,op,arg,data`, are a trace that plays the same again by the same options (pcm_replay); but with
   `--end off`, where a settle came last, its cut comes at the tick of the trace's last row, unless the caller ends with pcm_cut. The text is only
   lent. */
typedef void (*pcm_logger)(void *context, char op, const char *row, size_t size);
/* The caller's own: what takes an outcome, which is only lent. It calls nothing of this header. */
typedef void (*pcm_taker)(void *context, const struct pcm_outcome *outcome);

struct pcm {
    pid_t process;         /* the program's. Of `./pcm` it is that of a shell around the program where PCM_EXPLAIN is 1, or standard error is a
                              terminal (and PCM_EXPLAIN isn't 0): to kill that leaves the program. What `./pcm path stream` prints is the
                              program's own path, by which there is no shell */
    int to, from;          /* -1 or 0 where closed */
    uint32_t rows;         /* how many rows were sent: the number of the last one. With `--end off` the program adds a cut at the end, unless the
                              last row is one and no settle came behind it: it has the next number (with `--until refused` the one behind the
                              refused row) */
    uint32_t line_size;    /* the bytes of a line, by the words of pcm_open, or by the shape. Where the program was told so otherwise, the caller
                              sets it; 0: any */
    int tells_shape;       /* whether the words of pcm_open have `--tell shape` or `--tell module`. Where the program was told so otherwise, the caller sets it */
    struct pcm_shape shape; /* behind pcm_learn: what the module is */
    struct pcm_rest rest;   /* behind pcm_learn, where it is told: what it is besides */
    uint64_t seed;         /* by the words of pcm_open, or by what `--tell module` tells. Where the program was told so otherwise, the caller sets it
                              before any other call */
    struct pcm_randomiser randomiser; /* behind pcm_learn: that of the shape and the seed */
    uint64_t tick;         /* of the last row or settle; behind pcm_settle_until the one that was reached */
    uint32_t settles;      /* how many were sent, those of calls that take all among them, whose PCM_SETTLED wasn't taken yet */
    pcm_logger log;        /* the caller's, from pcm_open on, which sets it to NULL: each row is handed to it, with `context` */
    void *context;
    int control;           /* of pcm_copy.h: by what copies are asked for; 0: there are none */
    int is_heard;          /* of pcm_copy.h: whether the program has said that it can be copied */
#ifdef PCM_STREAM_LIBRARY
    struct pcm_module module;
    struct pcm_shape told;  /* what pcm_learn tells */
    struct pcm_rest told_besides;
    int ends_with;          /* not 0: the status with which the program would have ended here; no more rows are taken */
    int falls_short;        /* whether an outcome that was taken is full, worn, busy, lost or queued */
    uint64_t taken;         /* how many outcomes were */
    uint32_t first;         /* of `marks`: the first one that waits; there are `settles` of them */
    struct {
        uint64_t behind, tick; /* behind so many outcomes stands that the module has settled to this tick */
    } marks[PCM_MOST_SETTLES];
#else
    size_t held, begin, end;
    char out[16384];       /* rows that are still to be handed to the program */
    char in[PCM_MOST_WAITING + 2 * PCM_MOST_ROW]; /* answers that were taken from it */
#endif
};

/* Starts the program: words[0] is its path or a name on the search path, and the last of them is NULL; they are only lent. What it says of
   faults goes to the caller's standard error. PCM_FAILED where it can't be started (under valgrind, which posix_spawn can't tell errors to,
   it starts and ends with status 127): the module is closed then, so each call is refused. Whatever it answers, pcm_close frees what it took.
   PCM_REFUSED, with EINVAL, where the words have `--print` with anything but rows, whose outcomes nobody would tell: nothing is started then.
   Words that the program refuses show behind the first settle, by PCM_ENDED of pcm_settle_all and its like, or of pcm_next behind pcm_settle, and
   by status 2 of pcm_close; where the environment has PCM_EXPLAIN=1, `./pcm` says which word it is. A command that reads all before it prints,
   as `run`, never answers a settle, so that this waits for ever; pcm_learn, with `--tell shape` among the words, finds that out. */
static inline enum pcm_result pcm_open(struct pcm *pcm, const char *const words[]);
/* The same with a process group of the program's own: what a terminal sends (Ctrl-C, a hang-up) reaches the caller alone, and the program
   ends once the caller has closed it or has ended. */
static inline enum pcm_result pcm_open_apart(struct pcm *pcm, const char *const words[]);
/* What the module is, where the program was started with `--tell shape` or `--tell module`: it waits for that, and puts it into pcm->shape, and what is
   told besides into pcm->rest. From then on a line
   that the module hasn't is refused by each call, and a line's size is the module's own, whatever the words said. PCM_OTHER where a number of
   `wanted` that isn't 0 is another (NULL: all are right); the module goes on. PCM_REFUSED where the program doesn't tell its shape. Call it
   behind pcm_open, or at any time. */
static inline enum pcm_result pcm_learn(struct pcm *pcm, const struct pcm_shape *wanted);
/* The bank of a line, behind pcm_learn: whose queue a write or a read of it waits in. PCM_NO_BANK where the shape isn't known, or the module hasn't
   the line. */
static inline uint32_t pcm_bank_of(const struct pcm *pcm, uint32_t line);
/* A write of a whole line, of so many bytes, arrives. The bytes are copied. */
static inline enum pcm_result pcm_write(struct pcm *pcm, uint64_t tick, uint32_t line, const uint8_t *bytes, size_t size);
/* A write that gives the bytes for which `given` isn't 0 (at least one) arrives. Both are copied. */
static inline enum pcm_result pcm_write_masked(struct pcm *pcm, uint64_t tick, uint32_t line, const uint8_t *bytes, const uint8_t *given,
                                               size_t size);
/* A read of a line arrives. */
static inline enum pcm_result pcm_read(struct pcm *pcm, uint64_t tick, uint32_t line);
/* The power is cut, and is there again at once. */
static inline enum pcm_result pcm_cut(struct pcm *pcm, uint64_t tick);
/* Every bank goes on to a tick; behind the outcomes known by then pcm_next gives PCM_SETTLED. All rows before are handed to the program, now
   or by pcm_next. As of every row, PCM_FULL says that it wasn't taken. */
static inline enum pcm_result pcm_settle(struct pcm *pcm, uint64_t tick);
/* The same in one call: it settles, and takes all that is known then. Each outcome but its own PCM_SETTLED is handed to `take` (NULL: it is
   dropped). It never answers PCM_FULL. */
static inline enum pcm_result pcm_settle_all(struct pcm *pcm, uint64_t tick, pcm_taker take, void *context);
/* The same, and what waits then in the first `count` banks is put into `banks`; where the module has fewer, the others stay as they are. */
static inline enum pcm_result pcm_ask(struct pcm *pcm, uint64_t tick, struct pcm_bank *banks, size_t count, pcm_taker take, void *context);
/* The same, but the module goes on only until a row that was sent has its outcome: to the first tick, from the one at which it stands, behind
   which that is known, and to `tick` where it isn't by then (a write that stays queued has none before the end). pcm.tick is then the tick
   that was reached, and the next row may have any tick from there on. A row whose outcome is known leaves the module where it stands. */
static inline enum pcm_result pcm_settle_until(struct pcm *pcm, uint32_t row, uint64_t tick, pcm_taker take, void *context);
/* The same, but until any row has its outcome that hadn't one: to the first tick, from the one at which the module stands, behind which something
   is to tell, and to `tick` where nothing is by then. */
static inline enum pcm_result pcm_settle_any(struct pcm *pcm, uint64_t tick, pcm_taker take, void *context);
/* The same as pcm_settle_all, and the newest bytes of a line are put into `bytes`, as many as a line has (PCM_SIZE: `size` is another): those that
   the module accepted last, wherever they are. It is a debugger's look: no line is sensed for it, and at the tick at which the module stands
   (pcm.tick) none passes. */
static inline enum pcm_result pcm_peek(struct pcm *pcm, uint64_t tick, uint32_t line, uint8_t *bytes, size_t size, pcm_taker take, void *context);
/* The same as pcm_settle_all, and how worn the module is then is put into `wear`. It goes over all array lines: of a large module it takes
   time. */
static inline enum pcm_result pcm_look(struct pcm *pcm, uint64_t tick, struct pcm_wear *wear, pcm_taker take, void *context);
/* A write arrives (of a whole line where `given` is NULL), and is answered at once, by a settle at its tick: PCM_OK where it is accepted, so
   that it outlives every power cut; PCM_DECLINED where its bank's queue is full or the bank is worn (with `--until refused` the program has ended
   then, as the next call says). Every outcome that became known, a refusal of this write too, is handed to `take`, as by pcm_settle_all. It
   never answers PCM_FULL. */
static inline enum pcm_result pcm_write_sure(struct pcm *pcm, uint64_t tick, uint32_t line, const uint8_t *bytes, const uint8_t *given, size_t size,
                                             pcm_taker take, void *context);
/* A row of a trace is sent, a string with its LF, as fgets reads it of what `log` kept of an earlier module: where that one had the same options,
   all its rows, and pcm_settle_all at the last tick, let this one stand as that did. The trace's header, and rows that settle, are passed over.
   Answers that must be taken first are handed to `take` (NULL: they are dropped). PCM_REFUSED where it is no row of a trace, or one that can't
   come now; PCM_SIZE where its bytes aren't as many as a line has. It never answers PCM_FULL. The string is only lent. */
static inline enum pcm_result pcm_replay(struct pcm *pcm, const char *row, pcm_taker take, void *context);
/* Hands all rows to the program. PCM_FULL where it waits for its answers to be taken. */
static inline enum pcm_result pcm_flush(struct pcm *pcm);
/* The next outcome. It waits for one: so call it only where one is to come, behind a settle or behind pcm_finish. */
static inline enum pcm_result pcm_next(struct pcm *pcm, struct pcm_outcome *outcome);
/* No more rows come: the banks drain. PCM_FULL where the program waits for its answers to be taken; rows may still come then. */
static inline enum pcm_result pcm_finish(struct pcm *pcm);
/* Closes all, waits for the program, and answers its status; -1 where the system tells none, as where it was killed. Behind pcm_finish the answers
   that are left are taken and dropped, and the status is that of all rows: 0, or 1 where some row fell short; 2 where the words are wrong, 3
   where a row is, 6 where there are too many, 7 where memory ran out. Without pcm_finish rows that wait to be sent are dropped, and the status is
   that of those before; where the program goes on to say more than PCM_MOST_LEFT bytes, nobody takes them, and it is what the program makes of
   that; a module that can be copied (pcm_copy.h) ends then at once, and the status is -1. */
static inline int pcm_close(struct pcm *pcm);

/* From here on: how. */

#ifdef PCM_STREAM_LIBRARY
#define PCM__CLEARED sizeof(struct pcm)
#else
#define PCM__CLEARED offsetof(struct pcm, out) /* (a buffer needn't be) */
#endif

/* The value that the words of the program give an option (`--line`, in one word or in two), or else this one. */
static inline const char *pcm__value(const char *const words[], const char *option, const char *otherwise)
{
    size_t size = strlen(option);
    for (int i = 1; words[0] != NULL && words[i] != NULL; i++)
        if (strncmp(words[i], option, size) == 0 && (words[i][size] == '=' || words[i][size] == 0)) {
            const char *given = words[i][size] == '=' ? words[i] + size + 1 : words[i + 1];
            return given != NULL ? given : otherwise;
        }
    return otherwise;
}

/* Puts the digits of a number, and answers where they end. */
static inline char *pcm__put_number(char *at, uint64_t number)
{
    char digits[20];
    int count = 0;
    do
        digits[count++] = (char)('0' + number % 10);
    while ((number /= 10) != 0);
    while (count > 0)
        *at++ = digits[--count];
    return at;
}

#ifdef __SSE2__
/* The digits of sixteen values below 16. */
static inline __m128i pcm__digits(__m128i values)
{
    __m128i are_letters = _mm_cmpgt_epi8(values, _mm_set1_epi8(9));
    return _mm_add_epi8(_mm_add_epi8(values, _mm_set1_epi8('0')), _mm_and_si128(are_letters, _mm_set1_epi8('a' - '0' - 10)));
}

/* The values of sixteen digits; `are_digits` loses the lanes in which none is. */
static inline __m128i pcm__values(const char *at, __m128i *are_digits)
{
    __m128i digits = _mm_loadu_si128((const __m128i *)at), are_letters = _mm_cmpgt_epi8(digits, _mm_set1_epi8('9'));
    __m128i values = _mm_sub_epi8(_mm_sub_epi8(digits, _mm_set1_epi8('0')), _mm_and_si128(are_letters, _mm_set1_epi8('a' - '0' - 10)));
    __m128i are_small = _mm_cmpeq_epi8(_mm_min_epu8(values, _mm_set1_epi8(15)), values);
    __m128i are_right = _mm_cmpeq_epi8(_mm_cmpgt_epi8(values, _mm_set1_epi8(9)), are_letters);
    *are_digits = _mm_and_si128(*are_digits, _mm_and_si128(are_small, are_right));
    return values;
}

/* The sixteen bytes of 32 digits. */
static inline __m128i pcm__sixteen(const char *at, __m128i *are_digits)
{
    const __m128i low = _mm_set1_epi16(255), one = pcm__values(at, are_digits), two = pcm__values(at + 16, are_digits);
    return _mm_packus_epi16(_mm_and_si128(_mm_or_si128(_mm_slli_epi16(one, 4), _mm_srli_epi16(one, 8)), low),
                            _mm_and_si128(_mm_or_si128(_mm_slli_epi16(two, 4), _mm_srli_epi16(two, 8)), low));
}
#endif

/* Puts the digits of bytes, and answers where they end; two dots for one that isn't given. */
static inline char *pcm__put_bytes(char *at, const uint8_t *bytes, const uint8_t *given, size_t size)
{
    size_t i = 0;
#ifdef __SSE2__
    for (; given == NULL && i + 16 <= size; i += 16, at += 32) {
        const __m128i low = _mm_set1_epi8(15), it = _mm_loadu_si128((const __m128i *)(bytes + i));
        const __m128i highs = _mm_and_si128(_mm_srli_epi16(it, 4), low), lows = _mm_and_si128(it, low);
        _mm_storeu_si128((__m128i *)at, pcm__digits(_mm_unpacklo_epi8(highs, lows)));
        _mm_storeu_si128((__m128i *)(at + 16), pcm__digits(_mm_unpackhi_epi8(highs, lows)));
    }
#endif
    for (; i < size; i++, at += 2) {
        int is_given = given == NULL || given[i] != 0;
        at[0] = is_given ? "0123456789abcdef"[bytes[i] >> 4] : '.';
        at[1] = is_given ? "0123456789abcdef"[bytes[i] & 15] : '.';
    }
    return at;
}

/* The value of a digit; -1 where it is none. */
static inline int pcm__digit(char c)
{
    return c >= '0' && c <= '9' ? c - '0' : c >= 'a' && c <= 'f' ? c - 'a' + 10 : -1;
}

/* The binary logarithm of a power of two. */
static inline uint32_t pcm__bits(uint32_t power)
{
    uint32_t bits = 0;
    while (bits < 31 && power >> bits > 1)
        bits++;
    return bits;
}

/* The randomiser of a module of so many banks, each of so many lines, by its seed. */
static inline struct pcm_randomiser pcm__randomiser(uint32_t banks, uint32_t lines, uint64_t seed)
{
    struct pcm_randomiser it;
    for (uint64_t i = 0; i < 3; i++) {
        uint64_t word = seed + (i + 1) * UINT64_C(0x9e3779b97f4a7c15);
        word = (word ^ word >> 30) * UINT64_C(0xbf58476d1ce4e5b9);
        word = (word ^ word >> 27) * UINT64_C(0x94d049bb133111eb);
        it.key[i] = (uint32_t)(word ^ word >> 31) & 0xffff;
    }
    it.bank_bits = pcm__bits(lines);
    it.low_bits = (pcm__bits(banks) + it.bank_bits) / 2;
    it.high_bits = pcm__bits(banks) + it.bank_bits - it.low_bits;
    return it;
}

/* A round: what a half of so many bits is xored with, by the other half and a key. (Halves have at most 13 bits, keys 16.) */
static inline uint32_t pcm__round(uint32_t half, uint32_t key, uint32_t bits)
{
    return (half ^ key) * (half ^ key) & ((UINT32_C(1) << bits) - 1);
}

/* The three rounds by the keys in their order (`first` is 0), which give where a line goes, counted through the banks, the regions of each and the
   lines of each of these; or from the last one (`first` is 2), which give the line that goes there. */
static inline uint32_t pcm__spread(const struct pcm_randomiser *it, uint32_t number, uint32_t first)
{
    uint32_t left = number >> it->low_bits, right = number ^ left << it->low_bits;
    left ^= pcm__round(right, it->key[first], it->high_bits);
    right ^= pcm__round(left, it->key[1], it->low_bits);
    left ^= pcm__round(right, it->key[2 - first], it->high_bits);
    return left << it->low_bits | right;
}

/* The bank of a line that the module has. */
static inline uint32_t pcm__bank_of(const struct pcm_randomiser *it, uint32_t line)
{
    return pcm__spread(it, line, 0) >> it->bank_bits;
}

static inline uint32_t pcm_bank_of(const struct pcm *pcm, uint32_t line)
{
    const struct pcm_shape *shape = &pcm->shape;
    int is_here = shape->version != 0 && line < shape->banks * shape->regions * shape->lines;
    return is_here ? pcm__bank_of(&pcm->randomiser, line) : PCM_NO_BANK;
}

/* Whether a row is a settle until any row has its outcome: it is one until (U) that names none. */
static inline int pcm__is_any(char op)
{
    return op == 'A';
}

/* Whether a row of this operation may name this number: a row that came before, a line, or nothing. */
static inline int pcm__is_known(const struct pcm *pcm, char op, uint32_t number)
{
    const struct pcm_shape *shape = &pcm->shape;
    if (op == 'U')
        return number > 0 && number <= pcm->rows;
    return pcm__is_any(op) || shape->version == 0 || number < (uint64_t)shape->banks * shape->regions * shape->lines;
}

/* A row that is handed in. */
struct pcm__row {
    uint64_t tick;
    char op;                     /* R, W, M or C, or S, Q, U, L or P of one that settles, or A of a settle until any row has its outcome */
    uint32_t number;             /* its line, or the row of a settle until; where it has none, 0 */
    const uint8_t *bytes, *given; /* of a write: its bytes, and of a masked one which of them it gives */
    size_t size;                 /* how many these are */
    const char *digits;          /* NULL, or what stands for them in its text, two for each byte */
};

static inline int pcm__settles(char op)
{
    return op == 'S' || op == 'Q' || op == 'U' || op == 'L' || op == 'P' || pcm__is_any(op);
}

/* Whether a row may come now. */
static inline int pcm__may_come(const struct pcm *pcm, const struct pcm__row *row)
{
    return pcm->to > 0 && row->tick >= pcm->tick && row->tick <= PCM_LAST_TICK && (pcm__settles(row->op) || pcm->rows < PCM_LAST_ROW)
           && pcm__is_known(pcm, row->op, row->number);
}

/* Puts the text of a row with its end, at most PCM_MOST_ROW bytes, and answers where it ends. */
static inline char *pcm__put_row(char *at, const struct pcm__row *row)
{
    at = pcm__put_number(at, row->tick);
    *at++ = ',';
    *at++ = pcm__is_any(row->op) ? 'U' : row->op;
    *at++ = ',';
    if (row->op == 'U' || row->op == 'P' || (row->op != 'C' && !pcm__settles(row->op)))
        at = pcm__put_number(at, row->number);
    *at++ = ',';
    if (row->digits == NULL)
        at = pcm__put_bytes(at, row->bytes, row->given, row->size);
    else
        at = (char *)memcpy(at, row->digits, 2 * row->size) + 2 * row->size;
    *at++ = '\n';
    return at;
}

/* A row is one of those that were handed in, and is logged by its text, of so many bytes. */
static inline void pcm__count(struct pcm *pcm, const struct pcm__row *row, const char *text, size_t size)
{
    if (row->op != 'U' && !pcm__is_any(row->op))
        pcm->tick = row->tick;
    if (pcm__settles(row->op))
        pcm->settles++;
    else
        pcm->rows++;
    if (pcm->log != NULL)
        pcm->log(pcm->context, pcm__is_any(row->op) ? 'U' : row->op, text, size);
}

/* What is known of a module by the words of pcm_open. PCM_REFUSED where they print anything but outcomes. */
static inline enum pcm_result pcm__begin(struct pcm *pcm, const char *const words[])
{
    memset(pcm, 0, PCM__CLEARED);
    pcm->to = pcm->from = -1;
    pcm->process = -1;
    pcm->line_size = strcmp(pcm__value(words, "--line", "64"), "128") == 0 ? 128 : 64; /* (all other values are refused) */
    pcm->tells_shape = strcmp(pcm__value(words, "--tell", "nothing"), "shape") == 0 || strcmp(pcm__value(words, "--tell", "nothing"), "module") == 0;
    pcm->seed = strtoull(pcm__value(words, "--seed", "0"), NULL, 10);
    if (strcmp(pcm__value(words, "--print", "rows"), "rows") == 0)
        return PCM_OK;
    errno = EINVAL;
    return PCM_REFUSED;
}

/* The module's shape is known. */
static inline void pcm__know(struct pcm *pcm, const struct pcm_shape *shape, const struct pcm_rest *rest)
{
    pcm->shape = *shape;
    pcm->rest = *rest;
    pcm->line_size = shape->line;
    if (shape->version > 1)
        pcm->seed = rest->seed;
    pcm->randomiser = pcm__randomiser(shape->banks, shape->regions * shape->lines, pcm->seed);
}

/* What a row that settles asks for besides, and where that is put. */
struct pcm__asks {
    char op;                /* S, Q, U, L, P or A */
    uint32_t row;           /* of U; of P the line; else 0 */
    struct pcm_bank *banks; /* of Q: the first `count` */
    size_t count;
    struct pcm_wear *wear;  /* of L */
    uint8_t *bytes;         /* of P */
};

#ifdef PCM_STREAM_LIBRARY
#include "pcm_stream_library.h"
#else

extern char **environ;

#ifdef SOCK_CLOEXEC
#define PCM__CLOEXEC SOCK_CLOEXEC
#else
#define PCM__CLOEXEC 0
#endif
/* (pipe2 is declared with _GNU_SOURCE alone, which C++ has by itself) */
#if defined(__linux__) && (defined(__USE_GNU) || (!defined(__GLIBC__) && defined(_GNU_SOURCE)))
#define PCM__PIPE(ends) pipe2(ends, O_CLOEXEC)
#else
#define PCM__PIPE(ends) socketpair(AF_UNIX, SOCK_STREAM | PCM__CLOEXEC, 0, ends)
#endif

/* Two ends that were made, or that couldn't be, as no other program gets them. Neither is 0, 1 or 2, which the caller may have closed: the program has
   its own there. */
static inline int pcm__ends(int ends[2], int status, const int made[2])
{
    ends[0] = ends[1] = -1;
    if (status != 0)
        return -1;
    for (int i = 0; i < 2; i++) {
        ends[i] = made[i] > 2 ? made[i] : fcntl(made[i], F_DUPFD, 3);
        if (ends[i] != made[i])
            close(made[i]);
    }
    if (ends[0] >= 0 && ends[1] >= 0 && fcntl(ends[0], F_SETFD, FD_CLOEXEC) == 0 && fcntl(ends[1], F_SETFD, FD_CLOEXEC) == 0)
        return 0;
    for (int i = 0; i < 2; i++)
        if (ends[i] >= 0)
            close(ends[i]);
    ends[0] = ends[1] = -1;
    return -1;
}

/* Two ends of a stream, to send by or to take by. (To send by, sockets: they are sent to without a signal where the program has ended. To take by, a
   pipe, where one can be made that no other thread's child gets: the program may write answers one by one, and that costs less there.) */
static inline int pcm__pair(int ends[2], int is_to_take)
{
    int made[2] = {-1, -1};
    int status = is_to_take ? PCM__PIPE(made) : socketpair(AF_UNIX, SOCK_STREAM | PCM__CLOEXEC, 0, made);
    return pcm__ends(ends, status, made);
}

/* How a program is started: in a group of its own, by these variables, and with a further descriptor, where that isn't 0. */
struct pcm__how {
    int is_apart;
    char *const *variables;
    int more;
};

/* Starts the program over its ends of the streams. 0, or a number of errno.h. */
static inline int pcm__start(struct pcm *pcm, const char *const words[], const struct pcm__how *as, int in, int out)
{
    posix_spawn_file_actions_t actions;
    posix_spawnattr_t how;
    int fault = posix_spawn_file_actions_init(&actions);
    if (fault != 0)
        return fault;
    fault = posix_spawnattr_init(&how);
    if (fault == 0) {
        fault = posix_spawn_file_actions_adddup2(&actions, in, 0);
        if (fault == 0)
            fault = posix_spawn_file_actions_adddup2(&actions, out, 1);
        if (fault == 0 && as->more != 0)
            fault = posix_spawn_file_actions_adddup2(&actions, as->more, as->more);
        if (fault == 0 && as->is_apart)
            fault = posix_spawnattr_setpgroup(&how, 0);
        if (fault == 0 && as->is_apart)
            fault = posix_spawnattr_setflags(&how, POSIX_SPAWN_SETPGROUP);
        /* (its words are only read, but its type doesn't say so) */
        char *const *lent;
        memcpy(&lent, &words, sizeof lent);
        if (fault == 0)
            fault = posix_spawnp(&pcm->process, words[0], &actions, &how, lent, as->variables);
        posix_spawnattr_destroy(&how);
    }
    posix_spawn_file_actions_destroy(&actions);
    return fault;
}

/* Closes the caller's ends of the streams; errno stays. */
static inline void pcm__shut(struct pcm *pcm)
{
    int fault = errno;
    if (pcm->to > 0)
        close(pcm->to);
    if (pcm->from > 0)
        close(pcm->from);
    pcm->to = pcm->from = -1;
    errno = fault;
}

static inline enum pcm_result pcm__open(struct pcm *pcm, const char *const words[], const struct pcm__how *how)
{
    int to[2], from[2];
    if (pcm__begin(pcm, words) != PCM_OK)
        return PCM_REFUSED;
    if (pcm__pair(to, 0) != 0)
        return PCM_FAILED;
    if (pcm__pair(from, 1) != 0) {
        close(to[0]);
        close(to[1]);
        return PCM_FAILED;
    }
    int fault = pcm__start(pcm, words, how, to[0], from[1]);
    close(to[0]);
    close(from[1]);
    pcm->to = to[1];
    pcm->from = from[0];
    if (fault != 0) {
        pcm->process = -1;
        errno = fault;
    }
    if (fault != 0 || fcntl(pcm->to, F_SETFL, O_NONBLOCK) != 0) {
        pcm__shut(pcm);
        return PCM_FAILED;
    }
    memcpy(pcm->out, "tick,op,arg,data\n", 17);
    pcm->held = 17;
    return PCM_OK;
}

static inline enum pcm_result pcm_open(struct pcm *pcm, const char *const words[])
{
    const struct pcm__how how = {0, environ, 0};
    return pcm__open(pcm, words, &how);
}

static inline enum pcm_result pcm_open_apart(struct pcm *pcm, const char *const words[])
{
    const struct pcm__how how = {1, environ, 0};
    return pcm__open(pcm, words, &how);
}

/* Takes answers into what room there is. */
static inline enum pcm_result pcm__take(struct pcm *pcm)
{
    if (pcm->begin > 0) {
        memmove(pcm->in, pcm->in + pcm->begin, pcm->end - pcm->begin);
        pcm->end -= pcm->begin;
        pcm->begin = 0;
    }
    ssize_t got = read(pcm->from, pcm->in + pcm->end, sizeof pcm->in - pcm->end);
    if (got > 0) {
        pcm->end += (size_t)got;
        return PCM_OK;
    }
    if (got < 0 && errno == EINTR)
        return PCM_OK;
    return got == 0 ? PCM_ENDED : PCM_FAILED;
}

static inline enum pcm_result pcm_flush(struct pcm *pcm)
{
    size_t sent = 0;
    enum pcm_result result = PCM_OK;
    if (pcm->from <= 0)
        return PCM_REFUSED;
    while (sent < pcm->held && result == PCM_OK) {
        ssize_t put = send(pcm->to, pcm->out + sent, pcm->held - sent, MSG_NOSIGNAL);
        if (put >= 0) {
            sent += (size_t)put;
        } else if (errno == EPIPE || errno == ECONNRESET) {
            result = PCM_ENDED;
        } else if (errno == EAGAIN) {
            /* the program waits for its answers to be taken, or is at work: take what comes while there is room */
            struct pollfd both[2] = {{pcm->to, POLLOUT, 0}, {pcm->from, POLLIN, 0}};
            if (pcm->end - pcm->begin > PCM_MOST_WAITING)
                result = PCM_FULL;
            else if (poll(both, 2, -1) < 0)
                result = errno == EINTR ? PCM_OK : PCM_FAILED;
            else if (both[1].revents & (POLLIN | POLLHUP))
                result = pcm__take(pcm);
        } else if (errno != EINTR) {
            result = PCM_FAILED;
        }
    }
    memmove(pcm->out, pcm->out + sent, pcm->held - sent);
    pcm->held -= sent;
    return result;
}

/* Sends a row. */
static inline enum pcm_result pcm__put(struct pcm *pcm, const struct pcm__row *row)
{
    if (!pcm__may_come(pcm, row))
        return PCM_REFUSED;
    if (sizeof pcm->out - pcm->held < PCM_MOST_ROW) {
        enum pcm_result result = pcm_flush(pcm);
        if (result != PCM_OK)
            return result;
    }
    char *text = pcm->out + pcm->held;
    size_t size = (size_t)(pcm__put_row(text, row) - text);
    pcm->held += size;
    pcm__count(pcm, row, text, size);
    return PCM_OK;
}

/* The next line of the stream, whose end is set to 0; NULL where `result` says why there is none. */
static inline const char *pcm__line(struct pcm *pcm, enum pcm_result *result)
{
    for (size_t looked = 0;;) {
        char *begin = pcm->in + pcm->begin;
        char *end = (char *)memchr(begin + looked, '\n', pcm->end - pcm->begin - looked);
        if (end != NULL) {
            *end = 0;
            pcm->begin = (size_t)(end + 1 - pcm->in);
            return begin;
        }
        looked = pcm->end - pcm->begin;
        if (looked >= PCM_MOST_ROW) {
            *result = PCM_GARBLED;
            return NULL;
        }
        *result = pcm__take(pcm);
        if (*result != PCM_OK)
            return NULL;
    }
}

/* Reads the digits of bytes, up to the end of a line; how many bytes, or -1 where one is none or there are too many. */
static inline int pcm__get_bytes(const char *at, uint8_t *bytes)
{
    size_t digits = strlen(at), i = 0;
    if (digits % 2 != 0 || digits > 2 * PCM_MOST_BYTES)
        return -1;
#ifdef __SSE2__
    __m128i are_digits = _mm_set1_epi8(-1);
    for (; i + 32 <= digits; i += 32)
        _mm_storeu_si128((__m128i *)(bytes + i / 2), pcm__sixteen(at + i, &are_digits));
    if (_mm_movemask_epi8(are_digits) != 0xffff)
        return -1;
#endif
    for (; i < digits; i += 2) {
        int high = pcm__digit(at[i]), low = pcm__digit(at[i + 1]);
        if (high < 0 || low < 0)
            return -1;
        bytes[i / 2] = (uint8_t)(16 * high + low);
    }
    return (int)(digits / 2);
}

/* Reads the digits of a field, which may be empty, and what ends it (a comma, or a space within a field); NULL where it is none. */
static inline const char *pcm__number(const char *at, char end, uint64_t *number)
{
    for (*number = 0; *at >= '0' && *at <= '9'; at++)
        *number = 10 * *number + (uint64_t)(*at - '0');
    return *at == end ? at + 1 : NULL;
}

/* Reads so many numbers with a blank between any two, up to the end of a line. */
static inline enum pcm_result pcm__numbers(const char *at, uint64_t *numbers, int count)
{
    for (int i = 0; i < count; i++)
        if (*at < '0' || *at > '9' || (at = pcm__number(at, i + 1 < count ? ' ' : 0, &numbers[i])) == NULL)
            return PCM_GARBLED;
    return PCM_OK;
}

/* Reads how worn the module is, behind the word of its line, and puts it where it is wanted. */
static inline enum pcm_result pcm__wear(const char *at, struct pcm_wear *wear)
{
    uint64_t tick, place, it[7];
    if ((at = pcm__number(at, ',', &tick)) == NULL || (at = pcm__number(at, ',', &place)) == NULL || pcm__numbers(at, it, 7) != PCM_OK)
        return PCM_GARBLED;
    if (wear != NULL) {
        const struct pcm_wear found = {it[0], it[1], it[2], it[3], it[4], it[5], it[6]};
        *wear = found;
    }
    return PCM_OK;
}

/* Which of some words stands here, up to this end; NULL where none does, or behind it. */
static inline const char *pcm__word(const char *at, char end, const char *const words[], int count, int *which)
{
    for (*which = 0; *which < count; ++*which) {
        size_t size = strlen(words[*which]);
        if (strncmp(at, words[*which], size) == 0 && at[size] == end)
            return at + size + (end != 0);
    }
    return NULL;
}

/* Reads what a module is besides its shape, up to the end of a line. */
static inline enum pcm_result pcm__besides(const char *at, struct pcm_rest *rest)
{
    static const char *const policies[] = {"pause", "plain", "cancel"}, *const homes[] = {"guarded", "array"};
    uint64_t it[4];
    int policy, home;
    for (int i = 0; i < 4; i++)
        if (*at < '0' || *at > '9' || (at = pcm__number(at, ' ', &it[i])) == NULL)
            return PCM_GARBLED;
    if ((at = pcm__word(at, ' ', policies, 3, &policy)) == NULL || pcm__word(at, 0, homes, 2, &home) == NULL)
        return PCM_GARBLED;
    rest->seed = it[0];
    rest->psi = (uint32_t)it[1];
    rest->read_ticks = (uint32_t)it[2];
    rest->iter_ticks = (uint32_t)it[3];
    rest->policy = (enum pcm_policy)policy;
    rest->home = (enum pcm_home)home;
    return PCM_OK;
}

/* Reads what the module is, behind the word of its line. */
static inline enum pcm_result pcm__shape(struct pcm *pcm, const char *at)
{
    struct pcm_rest rest;
    uint64_t tick, version, it[7];
    memset(&rest, 0, sizeof rest);
    if ((at = pcm__number(at, ',', &tick)) == NULL || (at = pcm__number(at, ',', &version)) == NULL || version == 0)
        return PCM_GARBLED;
    for (int i = 0; i < 7; i++)
        if (*at < '0' || *at > '9' || (at = pcm__number(at, version > 1 || i < 6 ? ' ' : 0, &it[i])) == NULL)
            return PCM_GARBLED;
    if (it[4] == 0 || it[4] > PCM_MOST_BYTES || (version > 1 && pcm__besides(at, &rest) != PCM_OK))
        return PCM_GARBLED;
    const struct pcm_shape found = {(uint32_t)version, (uint32_t)it[0], (uint32_t)it[1], (uint32_t)it[2],
                                    (uint32_t)it[3],   (uint32_t)it[4], (uint32_t)it[5], (uint32_t)it[6]};
    pcm__know(pcm, &found, &rest);
    return PCM_OK;
}

/* Reads the newest bytes of a line, behind the word of their own, and puts them where they are wanted. */
static inline enum pcm_result pcm__newest(const struct pcm *pcm, const char *at, uint8_t *bytes)
{
    uint64_t tick, line;
    uint8_t found[PCM_MOST_BYTES];
    if ((at = pcm__number(at, ',', &tick)) == NULL || (at = pcm__number(at, ',', &line)) == NULL)
        return PCM_GARBLED;
    int size = pcm__get_bytes(at, found);
    if (size <= 0 || (pcm->line_size != 0 && (uint32_t)size != pcm->line_size))
        return PCM_GARBLED;
    if (bytes != NULL)
        memcpy(bytes, found, (size_t)size);
    return PCM_OK;
}

/* Reads what waits in a bank, behind the word of its line, and puts it where it is wanted. */
static inline enum pcm_result pcm__bank(const char *at, struct pcm_bank *banks, size_t count)
{
    static const char *const words[] = {"going", "exhausted", "halted"};
    uint64_t tick, bank, writes, reads;
    int mark = 0;
    if ((at = pcm__number(at, ',', &tick)) == NULL || (at = pcm__number(at, ',', &bank)) == NULL || (at = pcm__number(at, ' ', &writes)) == NULL
        || (at = pcm__number(at, ' ', &reads)) == NULL)
        return PCM_GARBLED;
    while (mark <= PCM_HALTED && strcmp(at, words[mark]) != 0)
        mark++;
    if (mark > PCM_HALTED)
        return PCM_GARBLED;
    if (bank < count) {
        banks[bank].waiting_writes = (uint32_t)writes;
        banks[bank].waiting_reads = (uint32_t)reads;
        banks[bank].mark = (enum pcm_mark)mark;
    }
    return PCM_OK;
}

/* Reads a line of the stream. */
static inline enum pcm_result pcm__outcome(const char *at, struct pcm_outcome *outcome)
{
    static const char *const words[] = {"stored,", "merged,", "queued,", "full,", "worn,", "read,", "forwarded,", "busy,", "lost,", "cut,", "settled,"};
    uint64_t row, place;
    int kind = 0;
    if ((at = pcm__number(at, ',', &row)) == NULL)
        return PCM_GARBLED;
    while (kind <= PCM_SETTLED && (*at != *words[kind] || strncmp(at, words[kind], strlen(words[kind])) != 0))
        kind++;
    if (kind > PCM_SETTLED || (at = pcm__number(at + strlen(words[kind]), ',', &outcome->tick)) == NULL
        || (at = pcm__number(at, ',', &place)) == NULL)
        return PCM_GARBLED;
    outcome->kind = (enum pcm_kind)kind;
    outcome->row = (uint32_t)row;
    outcome->place = (uint32_t)place;
    int size = pcm__get_bytes(at, outcome->bytes);
    outcome->size = size < 0 ? 0 : (uint32_t)size;
    return size < 0 ? PCM_GARBLED : PCM_OK;
}

/* Reads a line of the stream that isn't an outcome: whether it is one. What it tells is put where it is asked for. */
static inline int pcm__is_aside(struct pcm *pcm, const char *line, const struct pcm__asks *asks, enum pcm_result *result)
{
    *result = PCM_OK;
    if (*line >= '0' && *line <= '9')
        return 0;
    if (strncmp(line, ",bank,", 6) == 0)
        *result = pcm__bank(line + 6, asks == NULL ? NULL : asks->banks, asks == NULL ? 0 : asks->count);
    else if (strncmp(line, ",wear,", 6) == 0)
        *result = pcm__wear(line + 6, asks == NULL ? NULL : asks->wear);
    else if (strncmp(line, ",bytes,", 7) == 0)
        *result = pcm__newest(pcm, line + 7, asks == NULL ? NULL : asks->bytes);
    else if (strncmp(line, ",shape,", 7) == 0)
        *result = pcm__shape(pcm, line + 7);
    else
        return strncmp(line, "row,", 4) == 0;
    return 1;
}

/* The next outcome; what comes before it and was asked for is put where that is wanted. */
static inline enum pcm_result pcm__next(struct pcm *pcm, struct pcm_outcome *outcome, const struct pcm__asks *asks)
{
    enum pcm_result result = pcm_flush(pcm);
    const char *line;
    if (result == PCM_FAILED || result == PCM_REFUSED)
        return result;
    do {
        if ((line = pcm__line(pcm, &result)) == NULL)
            return result;
    } while (pcm__is_aside(pcm, line, asks, &result) && result == PCM_OK);
    if (result == PCM_OK)
        result = pcm__outcome(line, outcome);
    if (result == PCM_OK && outcome->kind == PCM_SETTLED && pcm->settles > 0)
        pcm->settles--;
    return result;
}

/* Waits for the shape. */
static inline enum pcm_result pcm__await_shape(struct pcm *pcm)
{
    enum pcm_result result = pcm_flush(pcm);
    if (result == PCM_FAILED)
        return result;
    while (pcm->shape.version == 0) {
        const char *line = pcm__line(pcm, &result);
        if (line == NULL)
            return result;
        if (!pcm__is_aside(pcm, line, NULL, &result) || result != PCM_OK)
            return PCM_GARBLED;
    }
    return PCM_OK;
}

static inline enum pcm_result pcm_finish(struct pcm *pcm)
{
    enum pcm_result result = pcm_flush(pcm);
    if (result != PCM_OK && result != PCM_ENDED)
        return result;
    if (pcm->to > 0)
        close(pcm->to);
    pcm->to = -1;
    pcm->held = 0;
    return PCM_OK;
}

/* Closes what copies are asked by, once the program has ended: the status that it told of itself, -1 where it told none, and -2 where it was
   broken off. */
static inline int pcm__part(struct pcm *pcm)
{
    unsigned char told[16];
    int status = -1;
    ssize_t got;
    /* (a reset is told before what came before it, where the program didn't take what it was asked) */
    while (pcm->control > 0 && ((got = recv(pcm->control, told, sizeof told, 0)) > 0 || (got < 0 && (errno == EINTR || errno == ECONNRESET))))
        status = got == 2 && told[0] == 'e' ? told[1] : got == 1 && told[0] == 'q' ? -2 : status;
    if (pcm->control > 0)
        close(pcm->control);
    pcm->control = pcm->is_heard = 0;
    return status;
}

/* Takes what the program still says, and drops it, up to so many bytes: so it goes on to its end. */
static inline void pcm__drop(struct pcm *pcm, size_t most)
{
    ssize_t got = 1;
    for (size_t all = 0; all < most && (got > 0 || (got < 0 && errno == EINTR)); all += got > 0 ? (size_t)got : 0)
        got = read(pcm->from, pcm->in, sizeof pcm->in);
}

static inline int pcm_close(struct pcm *pcm)
{
    int status = 0, is_finished = pcm->to <= 0;
    /* (a module that can be copied ends as it is asked to; another goes on to its end, as long as somebody takes what it says) */
    int is_asked = !is_finished && pcm->control > 0 && send(pcm->control, "q", 1, MSG_NOSIGNAL) == 1;
    if (!is_finished)
        close(pcm->to);
    pcm->to = -1;
    if (pcm->from > 0 && !is_asked)
        pcm__drop(pcm, is_finished ? SIZE_MAX : PCM_MOST_LEFT);
    pcm__shut(pcm);
    int told = pcm__part(pcm);
    pid_t ended = -1;
    while (pcm->process > 0 && (ended = waitpid(pcm->process, &status, 0)) < 0 && errno == EINTR)
        ;
    if (pcm->process <= 0 || told == -2)
        status = told < 0 ? -1 : told;
    else
        status = ended > 0 && WIFEXITED(status) ? WEXITSTATUS(status) : -1;
    pcm->process = -1;
    return status;
}

#endif /* PCM_STREAM_LIBRARY */

/* Whether a line may have so many bytes. */
static inline int pcm__is_line(const struct pcm *pcm, size_t size)
{
    return size == pcm->line_size || (pcm->line_size == 0 && size > 0 && size <= PCM_MOST_BYTES);
}

static inline enum pcm_result pcm_write(struct pcm *pcm, uint64_t tick, uint32_t line, const uint8_t *bytes, size_t size)
{
    const struct pcm__row row = {tick, 'W', line, bytes, NULL, size, NULL};
    return pcm__is_line(pcm, size) ? pcm__put(pcm, &row) : PCM_SIZE;
}

static inline enum pcm_result pcm_write_masked(struct pcm *pcm, uint64_t tick, uint32_t line, const uint8_t *bytes, const uint8_t *given,
                                               size_t size)
{
    const struct pcm__row row = {tick, 'M', line, bytes, given, size, NULL};
    size_t first = 0;
    if (!pcm__is_line(pcm, size))
        return PCM_SIZE;
    while (first < size && given[first] == 0)
        first++;
    return first < size ? pcm__put(pcm, &row) : PCM_REFUSED;
}

static inline enum pcm_result pcm_read(struct pcm *pcm, uint64_t tick, uint32_t line)
{
    const struct pcm__row row = {tick, 'R', line, NULL, NULL, 0, NULL};
    return pcm__put(pcm, &row);
}

static inline enum pcm_result pcm_cut(struct pcm *pcm, uint64_t tick)
{
    const struct pcm__row row = {tick, 'C', 0, NULL, NULL, 0, NULL};
    return pcm__put(pcm, &row);
}

/* Settles. */
static inline enum pcm_result pcm__settle(struct pcm *pcm, uint64_t tick, const struct pcm__asks *asks)
{
    const struct pcm__row row = {tick, asks->op, asks->row, NULL, NULL, 0, NULL};
    enum pcm_result result = pcm__put(pcm, &row);
    if (result != PCM_OK)
        return result;
    /* (the row is taken now: what the stream doesn't hold yet pcm_next hands over) */
    result = pcm_flush(pcm);
    return result == PCM_FULL ? PCM_OK : result;
}

static inline enum pcm_result pcm_settle(struct pcm *pcm, uint64_t tick)
{
    const struct pcm__asks asks = {'S', 0, NULL, 0, NULL, NULL};
    return pcm__settle(pcm, tick, &asks);
}

static inline enum pcm_result pcm_next(struct pcm *pcm, struct pcm_outcome *outcome)
{
    return pcm__next(pcm, outcome, NULL);
}

/* The next outcome is handed to `take`. */
static inline enum pcm_result pcm__hand(struct pcm *pcm, pcm_taker take, void *context)
{
    struct pcm_outcome outcome;
    outcome.kind = PCM_SETTLED; /* (pcm_next sets it, which gcc with sanitizers doesn't see) */
    enum pcm_result result = pcm_next(pcm, &outcome);
    if (result == PCM_OK && take != NULL)
        take(context, &outcome);
    return result;
}

/* Behind PCM_ENDED of a row: what the program told before its end is handed to `take`. Answers PCM_ENDED behind the last outcome. */
static inline enum pcm_result pcm__rest(struct pcm *pcm, pcm_taker take, void *context)
{
    enum pcm_result result;
    while ((result = pcm__hand(pcm, take, context)) == PCM_OK)
        ;
    return result;
}

/* Settles, and takes all that is known then. The module stands then at the tick of the row, or at the one that was reached. */
static inline enum pcm_result pcm__settle_all(struct pcm *pcm, uint64_t tick, const struct pcm__asks *asks, pcm_taker take, void *context)
{
    struct pcm_outcome outcome;
    enum pcm_result result;
    while ((result = pcm__settle(pcm, tick, asks)) == PCM_FULL && (result = pcm__hand(pcm, take, context)) == PCM_OK)
        ;
    if (result == PCM_ENDED)
        return pcm__rest(pcm, take, context);
    while (result == PCM_OK && (result = pcm__next(pcm, &outcome, asks)) == PCM_OK) {
        if (outcome.kind == PCM_SETTLED && pcm->settles == 0) {
            if (outcome.tick < pcm->tick || outcome.tick > tick)
                return PCM_GARBLED;
            pcm->tick = outcome.tick;
            break;
        }
        if (take != NULL)
            take(context, &outcome);
    }
    return result;
}

static inline enum pcm_result pcm_settle_all(struct pcm *pcm, uint64_t tick, pcm_taker take, void *context)
{
    const struct pcm__asks asks = {'S', 0, NULL, 0, NULL, NULL};
    return pcm__settle_all(pcm, tick, &asks, take, context);
}

static inline enum pcm_result pcm_ask(struct pcm *pcm, uint64_t tick, struct pcm_bank *banks, size_t count, pcm_taker take, void *context)
{
    const struct pcm__asks asks = {'Q', 0, banks, count, NULL, NULL};
    return pcm__settle_all(pcm, tick, &asks, take, context);
}

static inline enum pcm_result pcm_settle_until(struct pcm *pcm, uint32_t row, uint64_t tick, pcm_taker take, void *context)
{
    const struct pcm__asks asks = {'U', row, NULL, 0, NULL, NULL};
    return pcm__settle_all(pcm, tick, &asks, take, context);
}

static inline enum pcm_result pcm_look(struct pcm *pcm, uint64_t tick, struct pcm_wear *wear, pcm_taker take, void *context)
{
    const struct pcm__asks asks = {'L', 0, NULL, 0, wear, NULL};
    return pcm__settle_all(pcm, tick, &asks, take, context);
}

static inline enum pcm_result pcm_settle_any(struct pcm *pcm, uint64_t tick, pcm_taker take, void *context)
{
    const struct pcm__asks asks = {'A', 0, NULL, 0, NULL, NULL};
    return pcm__settle_all(pcm, tick, &asks, take, context);
}

static inline enum pcm_result pcm_peek(struct pcm *pcm, uint64_t tick, uint32_t line, uint8_t *bytes, size_t size, pcm_taker take, void *context)
{
    const struct pcm__asks asks = {'P', line, NULL, 0, NULL, bytes};
    return pcm__is_line(pcm, size) && size == pcm->line_size ? pcm__settle_all(pcm, tick, &asks, take, context) : PCM_SIZE;
}

/* What pcm_write_sure hands outcomes through: it looks for a refusal of its row. */
struct pcm__watch {
    uint32_t row;
    int is_declined;
    pcm_taker take;
    void *context;
};
static inline void pcm__see(void *context, const struct pcm_outcome *outcome)
{
    struct pcm__watch *watch = (struct pcm__watch *)context;
    if (outcome->row == watch->row && (outcome->kind == PCM_FULL_QUEUE || outcome->kind == PCM_WORN))
        watch->is_declined = 1;
    if (watch->take != NULL)
        watch->take(watch->context, outcome);
}

static inline enum pcm_result pcm_write_sure(struct pcm *pcm, uint64_t tick, uint32_t line, const uint8_t *bytes, const uint8_t *given, size_t size,
                                             pcm_taker take, void *context)
{
    enum pcm_result result;
    while ((result = given == NULL ? pcm_write(pcm, tick, line, bytes, size) : pcm_write_masked(pcm, tick, line, bytes, given, size)) == PCM_FULL
           && (result = pcm__hand(pcm, take, context)) == PCM_OK)
        ;
    if (result == PCM_ENDED)
        return pcm__rest(pcm, take, context);
    if (result != PCM_OK)
        return result;
    struct pcm__watch watch = {pcm->rows, 0, take, context};
    result = pcm_settle_all(pcm, tick, pcm__see, &watch);
    return (result == PCM_OK || result == PCM_ENDED) && watch.is_declined ? PCM_DECLINED : result;
}

/* A row of a trace by its text. */
struct pcm__traced {
    uint64_t tick, line; /* the line is 0 of a cut */
    char op;             /* R, W, M or C, or a row's that settles, of which no more is read */
    size_t size;         /* of W and M: how many bytes; of which `given` has those that it gives */
    const char *digits;  /* of these: where they stand in the text */
    uint8_t bytes[PCM_MOST_BYTES], given[PCM_MOST_BYTES];
};

/* Reads a number of a row, of at most so many digits, and its comma; NULL where there is none. */
static inline const char *pcm__field(const char *at, uint64_t *number, int most)
{
    const char *begin = at;
    for (*number = 0; *at >= '0' && *at <= '9' && at - begin < most; at++)
        *number = 10 * *number + (uint64_t)(*at - '0');
    return at > begin && *at == ',' ? at + 1 : NULL;
}

/* The value of a digit of a trace, which may be an upper-case one; -1 where it is none. */
static inline int pcm__any_digit(char c)
{
    return pcm__digit(c >= 'A' && c <= 'F' ? (char)(c - 'A' + 'a') : c);
}

/* Reads the bytes of a row that writes, and answers where they end: behind the last one that is a byte. */
static inline const char *pcm__get_given(const char *at, struct pcm__traced *it)
{
    it->size = 0;
#ifdef __SSE2__
    /* (sixteen at once, as long as all their digits are lower-case ones) */
    for (size_t digits = strlen(at); digits >= 32 && it->size + 16 <= PCM_MOST_BYTES; it->size += 16, at += 32, digits -= 32) {
        __m128i are_digits = _mm_set1_epi8(-1);
        const __m128i bytes = pcm__sixteen(at, &are_digits);
        if (_mm_movemask_epi8(are_digits) != 0xffff)
            break;
        _mm_storeu_si128((__m128i *)(it->bytes + it->size), bytes);
        memset(it->given + it->size, 1, 16);
    }
#endif
    for (; it->size < PCM_MOST_BYTES; it->size++, at += 2) {
        int high = pcm__any_digit(at[0]), low = high < 0 ? -1 : pcm__any_digit(at[1]);
        if (low < 0 && (it->op == 'W' || at[0] != '.' || at[1] != '.'))
            break;
        it->given[it->size] = low >= 0;
        it->bytes[it->size] = 0;
        if (low >= 0)
            it->bytes[it->size] = (uint8_t)(16 * high + low);
    }
    return at;
}

/* Reads a row of a trace with its end; whether it is one. */
static inline int pcm__get_row(const char *row, struct pcm__traced *it)
{
    const char *at = pcm__field(row, &it->tick, 13);
    it->op = at != NULL ? *at : '?';
    it->line = it->size = 0;
    if (at == NULL || it->op == 0 || strchr("RWMCSQULP", it->op) == NULL || at[1] != ',')
        return 0;
    if (strchr("SQULP", it->op) != NULL)
        return 1;
    it->digits = at = it->op != 'C' ? pcm__field(at + 2, &it->line, 8) : at[2] == ',' ? at + 3 : NULL;
    if (at != NULL && (it->op == 'W' || it->op == 'M'))
        at = pcm__get_given(at, it);
    return at != NULL && strcmp(at, "\n") == 0;
}

/* Sends a row of a trace, its bytes as their digits stand. */
static inline enum pcm_result pcm__send(struct pcm *pcm, const struct pcm__traced *it)
{
    const struct pcm__row row = {it->tick, it->op, (uint32_t)it->line, it->bytes, it->op == 'M' ? it->given : NULL, it->size, it->digits}; /* (at most eight digits) */
    int is_write = it->op == 'W' || it->op == 'M';
    if (is_write && !pcm__is_line(pcm, it->size))
        return PCM_SIZE;
    if (is_write && memchr(it->given, 1, it->size) == NULL)
        return PCM_REFUSED;
    return pcm__put(pcm, &row);
}

static inline enum pcm_result pcm_replay(struct pcm *pcm, const char *row, pcm_taker take, void *context)
{
    struct pcm__traced it;
    enum pcm_result result;
    int is_header = strcmp(row, "tick,op,arg,data\n") == 0;
    if (pcm->to <= 0 || (!is_header && !pcm__get_row(row, &it)))
        return PCM_REFUSED;
    if (is_header || strchr("SQULP", it.op) != NULL)
        return PCM_OK;
    while ((result = pcm__send(pcm, &it)) == PCM_FULL && (result = pcm__hand(pcm, take, context)) == PCM_OK)
        ;
    return result == PCM_ENDED ? pcm__rest(pcm, take, context) : result;
}

static inline int pcm__is(uint32_t told, uint32_t wanted)
{
    return wanted == 0 || told == wanted;
}

/* Whether a module is the wanted one: of a number that is 0 any will do. */
static inline int pcm__is_wanted(const struct pcm_shape *told, const struct pcm_shape *wanted)
{
    return pcm__is(told->version, wanted->version) && pcm__is(told->banks, wanted->banks) && pcm__is(told->regions, wanted->regions)
           && pcm__is(told->lines, wanted->lines) && pcm__is(told->spares, wanted->spares) && pcm__is(told->line, wanted->line)
           && pcm__is(told->write_queue, wanted->write_queue) && pcm__is(told->read_queue, wanted->read_queue);
}

static inline enum pcm_result pcm_learn(struct pcm *pcm, const struct pcm_shape *wanted)
{
    enum pcm_result result = PCM_OK;
    if (pcm->shape.version == 0)
        result = pcm->from <= 0 || !pcm->tells_shape ? PCM_REFUSED : pcm__await_shape(pcm);
    if (result != PCM_OK)
        return result;
    return wanted == NULL || pcm__is_wanted(&pcm->shape, wanted) ? PCM_OK : PCM_OTHER;
}

#ifdef __cplusplus
}
#endif

#endif
