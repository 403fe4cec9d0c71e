/* The rows of a drawn trace, as drawn.py draws them (docs/FORMATS.md, 'The generated trace'), by xoshiro256++ (Blackman and Vigna, ACM TOMS
   2021), begun by SplitMix64 (Steele, Lea and Flood, OOPSLA 2014). */
#ifndef PCM_DRAWN_H
#define PCM_DRAWN_H

#include <stdint.h>
#include <stdlib.h>

static inline uint64_t split_mix(uint64_t *state)
{
    uint64_t z = *state += UINT64_C(0x9E3779B97F4A7C15);
    z = (z ^ z >> 30) * UINT64_C(0xBF58476D1CE4E5B9);
    z = (z ^ z >> 27) * UINT64_C(0x94D049BB133111EB);
    return z ^ z >> 31;
}

enum drawn_op { DRAWN_READ, DRAWN_WRITE, DRAWN_CUT, DRAWN_END };

/* A trace that is being drawn, and its last row's tick and line. Behind a write the caller draws its words. */
struct drawn {
    uint64_t state[4], tick, line;
    uint64_t left, steps, percent, hot, lines, words; /* (rows to come; words of a write) */
    uint64_t cuts, apart, to_cut;                     /* (cuts to come; rows from one to the next, and up to that) */
};

static inline uint64_t rotated(uint64_t word, int by) { return word << by | word >> (64 - by); }

static inline uint64_t drawn_word(struct drawn *it)
{
    uint64_t *state = it->state, found = rotated(state[0] + state[3], 23) + state[0], kept = state[1] << 17;
    state[2] ^= state[0];
    state[3] ^= state[1];
    state[1] ^= state[2];
    state[0] ^= state[3];
    state[2] ^= kept;
    state[3] = rotated(state[3], 45);
    return found;
}

/* Begins a trace by SEED,ROWS,PERCENT,CUTS,STEP,HOT,LINES,BYTES, of which LINES is a power of two; whether that is what the text says. */
static inline int drawn_by(struct drawn *it, const char *text)
{
    uint64_t of[8];
    for (int i = 0; i < 8; i++) {
        char *end;
        of[i] = strtoull(text, &end, 10);
        if (end == text || *end != (i < 7 ? ',' : 0))
            return 0;
        text = end + 1;
    }
    for (int i = 0; i < 4; i++)
        it->state[i] = split_mix(&of[0]);
    it->tick = it->line = 0;
    it->left = of[1];
    it->percent = of[2];
    it->cuts = of[3];
    it->apart = of[1] / (of[3] + 1) ? of[1] / (of[3] + 1) : 1;
    it->to_cut = it->apart;
    it->steps = of[4] + 1;
    it->lines = of[6];
    it->hot = of[5] < of[6] ? of[5] : of[6];
    it->words = of[7] / 8;
    return of[6] != 0 && !(of[6] & (of[6] - 1));
}

static inline enum drawn_op drawn_row(struct drawn *it)
{
    if (!it->left)
        return DRAWN_END;
    it->left--;
    it->tick += drawn_word(it) % it->steps;
    if (it->cuts && !--it->to_cut) {
        it->cuts--;
        it->to_cut = it->apart;
        return DRAWN_CUT;
    }
    uint64_t which = drawn_word(it);
    it->line = it->hot && (which >> 40) % 10 < 9 ? which % it->hot : which & (it->lines - 1);
    return (which >> 32) % 100 < it->percent ? DRAWN_WRITE : DRAWN_READ;
}

#endif
