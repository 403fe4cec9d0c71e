/* pcm_stream_library.h: the module of pcm_stream.h in the caller's own process, by pcm.h. pcm_stream.h includes it where PCM_STREAM_LIBRARY is defined;
   it isn't to be included by itself. */
#ifndef PCM_STREAM_LIBRARY_H
#define PCM_STREAM_LIBRARY_H

/* An option of a stream's words: its place in the module's options, and the words that its values are, with a blank between any two. The first ones
   stand as in enum pcm_module_option, from PCM_MODULE_BANKS on. */
struct pcm__option {
    const char *name;
    size_t at;
    const char *values;
};
#define PCM__AT(field) offsetof(struct pcm_module_options, field)
static const struct pcm__option pcm__options[] = {
    {"banks", PCM__AT(banks), NULL},
    {"regions", PCM__AT(regions), NULL},
    {"lines", PCM__AT(lines), NULL},
    {"lines", PCM__AT(lines), NULL}, /* (of all together) */
    {"line", PCM__AT(line), NULL},
    {"spares", PCM__AT(spares), NULL},
    {"write-queue", PCM__AT(write_queue), NULL},
    {"read-queue", PCM__AT(read_queue), NULL},
    {"psi", PCM__AT(psi), NULL},
    {"read-ticks", PCM__AT(read_ticks), NULL},
    {"iter-ticks", PCM__AT(iter_ticks), NULL},
    {"policy", PCM__AT(policy), "pause plain cancel"},
    {"registers", PCM__AT(registers), "guarded array"},
    {"misses", PCM__AT(misses), NULL},
    {"lo", PCM__AT(lo), NULL},
    {"hi", PCM__AT(hi), NULL},
    {"seed", PCM__AT(seed), NULL},
    /* (what the library does anyway) */
    {"input", 0, "source"},
    {"print", 0, "rows"},
    {"tell", 0, "nothing shape module"},
    {"end", 0, "drain"},
    {"until", 0, "end"},
};
#define PCM__OPTIONS (sizeof pcm__options / sizeof pcm__options[0])

/* The number of an option that a word names; PCM__OPTIONS where there is none of this name. */
static inline size_t pcm__named(const char *word)
{
    size_t i = 0, size;
    for (; i < PCM__OPTIONS; i++) {
        size = strlen(pcm__options[i].name);
        if (strncmp(word, "--", 2) == 0 && strncmp(word + 2, pcm__options[i].name, size) == 0 && (word[2 + size] == '=' || word[2 + size] == 0))
            break;
    }
    return i;
}

/* Which of some words this one is, from 0; -1 where it is none. */
static inline int pcm__which(const char *words, const char *word)
{
    size_t size = strlen(word);
    for (int i = 0; words != NULL; i++) {
        if (size > 0 && strncmp(words, word, size) == 0 && (words[size] == ' ' || words[size] == 0))
            return i;
        words = strchr(words, ' ');
        words += words != NULL;
    }
    return -1;
}

/* Sets an option; whether its field can have the value. */
static inline int pcm__set(struct pcm_module_options *options, const struct pcm__option *option, const char *value)
{
    size_t digits = strspn(value, "0123456789");
    uint64_t number;
    errno = 0;
    if (option->values == NULL) {
        number = strtoull(value, NULL, 10);
    } else {
        int which = pcm__which(option->values, value);
        if (which < 0)
            return 0;
        number = (uint64_t)which;
    }
    if (option->values == NULL && (digits == 0 || value[digits] != 0 || errno != 0))
        return 0;
    if (option->at == PCM__AT(seed)) {
        options->seed = number;
        return 1;
    }
    const uint32_t it = (uint32_t)number;
    if (option->at != 0)
        memcpy((char *)options + option->at, &it, sizeof it);
    return it == number;
}

/* Reads the words of pcm_open, from the first option on; whether all are for the library. If not, it is said on standard error. */
static inline int pcm__reads_words(struct pcm_module_options *options, const char *const words[])
{
    int is_given[PCM__OPTIONS] = {0};
    uint32_t bad;
    while (*words != NULL && strncmp(*words, "--", 2) != 0)
        words++;
    while (*words != NULL) {
        const char *word = *words++, *value = strchr(word, '=');
        size_t at = pcm__named(word);
        value = value != NULL ? value + 1 : *words != NULL ? *words++ : "";
        if (at == PCM__OPTIONS || is_given[at]++ || !pcm__set(options, &pcm__options[at], value)) {
            fprintf(stderr, "pcm: the library takes no %s%s%s here: USING.md tells its options\n", word, strchr(word, '=') == NULL ? " " : "",
                    strchr(word, '=') == NULL ? value : "");
            return 0;
        }
    }
    bad = pcm_module_bad_option(options);
    if (bad >= PCM_MODULE_BANKS)
        fprintf(stderr, "pcm: --%s is out of its range\n", pcm__options[bad - PCM_MODULE_BANKS].name);
    return bad == PCM_MODULE_ALL_RIGHT;
}

static inline enum pcm_result pcm_open(struct pcm *pcm, const char *const words[])
{
    struct pcm_module_options options = PCM_MODULE_DEFAULTS;
    enum pcm_result result = pcm__begin(pcm, words);
    if (result != PCM_OK)
        return result;
    pcm->to = pcm->from = 1;
    pcm->ends_with = pcm__reads_words(&options, words) ? 0 : 2;
    if (pcm->ends_with == 0 && pcm_module_open(&pcm->module, &options) != PCM_MODULE_OK)
        pcm->ends_with = 7;
    const int is_whole = strcmp(pcm__value(words, "--tell", "nothing"), "module") == 0;
    const struct pcm_shape shape = {is_whole ? 2u : 1u, options.banks, options.regions,     options.lines, options.spares,
                                    options.line,     options.write_queue, options.read_queue};
    const struct pcm_rest rest = {options.seed,       options.psi, options.read_ticks, options.iter_ticks, (enum pcm_policy)options.policy,
                                  (enum pcm_home)options.registers};
    if (is_whole)
        pcm->told_besides = rest;
    pcm->told = shape;
    return PCM_OK;
}

static inline enum pcm_result pcm_open_apart(struct pcm *pcm, const char *const words[])
{
    return pcm_open(pcm, words);
}

static inline enum pcm_result pcm_flush(struct pcm *pcm)
{
    return pcm->from <= 0 ? PCM_REFUSED : pcm->ends_with != 0 ? PCM_ENDED : PCM_OK;
}

/* Notes behind which outcome the module has settled. */
static inline void pcm__mark(struct pcm *pcm)
{
    uint32_t at = (pcm->first + pcm->settles) % PCM_MOST_SETTLES;
    pcm->marks[at].behind = pcm->taken + pcm_module_waiting(&pcm->module);
    pcm->marks[at].tick = pcm_module_tick(&pcm->module);
}

/* What the module answers to a row. */
static inline uint32_t pcm__serve(struct pcm *pcm, const struct pcm__row *row)
{
    bool given[PCM_MOST_BYTES];
    switch (row->op) {
    case 'R':
        return pcm_module_read(&pcm->module, row->tick, row->number);
    case 'W':
        return pcm_module_write(&pcm->module, row->tick, row->number, row->bytes, row->size);
    case 'M':
        for (size_t i = 0; i < row->size; i++)
            given[i] = row->given[i] != 0;
        return pcm_module_write_masked(&pcm->module, row->tick, row->number, row->bytes, row->size, given, row->size);
    case 'C':
        return pcm_module_cut(&pcm->module, row->tick);
    case 'U':
        return pcm_module_settle_until(&pcm->module, row->number, row->tick);
    case 'A':
        return pcm_module_settle_any(&pcm->module, row->tick);
    case 'P':
        return row->number < pcm_module_lines(&pcm->module) ? pcm_module_settle(&pcm->module, row->tick) : (uint32_t)PCM_MODULE_NO_LINE;
    default:
        return pcm_module_settle(&pcm->module, row->tick);
    }
}

/* Hands a row to the module. (One that the program would end at ends this module, too.) */
static inline enum pcm_result pcm__put(struct pcm *pcm, const struct pcm__row *row)
{
    char text[PCM_MOST_ROW];
    if (!pcm__may_come(pcm, row))
        return PCM_REFUSED;
    if (pcm->ends_with != 0)
        return PCM_ENDED;
    if (pcm__settles(row->op) && pcm->settles == PCM_MOST_SETTLES)
        return PCM_FULL;
    uint32_t status = pcm__serve(pcm, row);
    if (status == PCM_MODULE_NO_MEMORY) {
        pcm->ends_with = 7;
        return PCM_ENDED;
    }
    if (status != PCM_MODULE_OK)
        pcm->ends_with = 3;
    else if (pcm__settles(row->op))
        pcm__mark(pcm);
    pcm__count(pcm, row, text, pcm->log == NULL ? 0 : (size_t)(pcm__put_row(text, row) - text));
    return PCM_OK;
}

/* Tells what the module is, where that is asked for. */
static inline enum pcm_result pcm__await_shape(struct pcm *pcm)
{
    if (pcm->ends_with == 2 || pcm->ends_with == 7)
        return PCM_ENDED;
    pcm__know(pcm, &pcm->told, &pcm->told_besides);
    return PCM_OK;
}

/* How worn the module is. */
static inline void pcm__look(struct pcm *pcm, struct pcm_wear *wear)
{
    struct pcm_module_wear told;
    if (pcm_module_look(&pcm->module, &told) == PCM_MODULE_OK) {
        const struct pcm_wear it = {told.pulses, told.most, told.mean, told.pointers, told.senses, told.set, told.reset};
        *wear = it;
    }
}

/* The module has settled; what waits in its banks, how worn it is, and a line's newest bytes are put where they are asked for. */
static inline void pcm__tell_settled(struct pcm *pcm, struct pcm_outcome *outcome, const struct pcm__asks *asks)
{
    struct pcm_module_backlog told;
    outcome->kind = PCM_SETTLED;
    outcome->row = outcome->place = outcome->size = 0;
    outcome->tick = pcm->marks[pcm->first].tick;
    pcm->first = (pcm->first + 1) % PCM_MOST_SETTLES;
    pcm->settles--;
    for (uint32_t i = 0; asks != NULL && i < asks->count && pcm_module_bank(&pcm->module, i, &told) == PCM_MODULE_OK; i++) {
        const struct pcm_bank bank = {told.writes, told.reads, (enum pcm_mark)told.mark};
        asks->banks[i] = bank;
    }
    if (asks != NULL && asks->wear != NULL && pcm->settles == 0)
        pcm__look(pcm, asks->wear);
    if (asks != NULL && asks->bytes != NULL && pcm->settles == 0)
        pcm_module_newest(&pcm->module, asks->row, asks->bytes, pcm->told.line);
}

/* The next outcome. (None can come while nothing waits: where rows may come, that is refused.) */
static inline enum pcm_result pcm__next(struct pcm *pcm, struct pcm_outcome *outcome, const struct pcm__asks *asks)
{
    struct pcm_module_outcome told;
    if (pcm->from <= 0)
        return PCM_REFUSED;
    if (pcm->tells_shape && pcm->shape.version == 0)
        pcm__await_shape(pcm);
    if (pcm->settles > 0 && pcm->marks[pcm->first].behind == pcm->taken) {
        pcm__tell_settled(pcm, outcome, asks);
        return PCM_OK;
    }
    if (pcm_module_next(&pcm->module, &told) != PCM_MODULE_OK)
        return pcm->to <= 0 || pcm->ends_with != 0 ? PCM_ENDED : PCM_REFUSED;
    pcm->taken++;
    outcome->kind = (enum pcm_kind)told.kind;
    outcome->row = told.row;
    outcome->tick = told.tick;
    outcome->place = told.place;
    outcome->size = told.size;
    memcpy(outcome->bytes, told.bytes, told.size);
    pcm->falls_short |= told.kind >= PCM_MODULE_QUEUED && told.kind <= PCM_MODULE_LOST && told.size == 0;
    return PCM_OK;
}

static inline enum pcm_result pcm_finish(struct pcm *pcm)
{
    if (pcm->from <= 0)
        return PCM_REFUSED;
    if (pcm->ends_with == 0)
        pcm_module_finish(&pcm->module);
    pcm->to = -1;
    return PCM_OK;
}

static inline int pcm_close(struct pcm *pcm)
{
    struct pcm_outcome left;
    int is_open = pcm_finish(pcm) == PCM_OK;
    while (is_open && pcm__next(pcm, &left, NULL) == PCM_OK)
        ;
    pcm_module_close(&pcm->module);
    pcm->to = pcm->from = -1;
    return !is_open ? -1 : pcm->ends_with != 0 ? pcm->ends_with : pcm->falls_short;
}
#endif
