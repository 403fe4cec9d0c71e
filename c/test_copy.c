/* Tests of pcm_copy.h over the program that the further words name; the first word is the library. Prints 'N passed, M failed'. */
#ifndef _GNU_SOURCE
#define _GNU_SOURCE /* for this test alone: kill, usleep */
#endif
#include "pcm_copy.h"
#include "test_checks.h"

#include <dirent.h>

/* What rows get, as one text. */
struct told {
    size_t size;
    char text[65536];
};
static void keep(void *context, const struct pcm_outcome *it)
{
    struct told *told = (struct told *)context;
    uint32_t sum = 0;
    for (uint32_t i = 0; i < it->size; i++)
        sum = 31 * sum + it->bytes[i];
    if (told->size + 64 < sizeof told->text)
        told->size += (size_t)snprintf(told->text + told->size, 64, "%u,%d,%llu,%u,%u\n", it->row, (int)it->kind, (unsigned long long)it->tick, it->place, sum);
}

/* A row of a life that goes by its number: writes of few lines, masked ones, reads, now and then a cut. */
static void row(struct pcm *pcm, uint32_t number, struct told *told)
{
    uint8_t bytes[64], given[64] = {0};
    uint64_t tick = pcm->tick + number % 7;
    uint32_t line = number * 5 % 8;
    for (uint32_t i = 0; i < 64; i++)
        bytes[i] = (uint8_t)(number * (i + 3));
    given[number % 64] = given[0] = 1;
    enum pcm_result result = number % 11 == 10 ? pcm_cut(pcm, tick)
                             : number % 3 == 0 ? pcm_read(pcm, tick, line)
                             : number % 3 == 1 ? pcm_write(pcm, tick, line, bytes, 64)
                                               : pcm_write_masked(pcm, tick, line, bytes, given, 64);
    if (result != PCM_OK || (number % 20 == 19 && pcm_settle_all(pcm, tick, keep, told) != PCM_OK))
        check(0, "a row is taken");
}

/* What is told of the rows from one number to another, and the wear in the end. */
static void life(struct pcm *pcm, uint32_t from, uint32_t to, struct told *told)
{
    struct pcm_wear wear;
    for (uint32_t number = from; number < to; number++)
        row(pcm, number, told);
    check(pcm_look(pcm, pcm->tick + 5000, &wear, keep, told) == PCM_OK, "a look");
    told->size += (size_t)snprintf(told->text + told->size, 64, "%llu %llu %llu\n", (unsigned long long)wear.pulses, (unsigned long long)wear.senses,
                                   (unsigned long long)wear.reset);
}

static int are_same(const struct told *one, const struct told *other)
{
    return one->size == other->size && memcmp(one->text, other->text, one->size) == 0;
}

static char logged[1 << 20];
static size_t logged_size;
static void log_row(void *context, char op, const char *text, size_t size)
{
    (void)context;
    if (strchr("RWMC", op) != NULL && logged_size + size < sizeof logged) {
        memcpy(logged + logged_size, text, size);
        logged_size += size;
    }
}

/* A module that plays the rows that were logged. */
static void replayed(struct pcm *pcm, const char *const words[])
{
    check(pcm_open(pcm, words) == PCM_OK, "a new module");
    for (size_t at = 0; at < logged_size;) {
        char line[PCM_MOST_ROW] = {0};
        size_t size = (size_t)((char *)memchr(logged + at, '\n', logged_size - at) - (logged + at)) + 1;
        memcpy(line, logged + at, size);
        check(pcm_replay(pcm, line, NULL, NULL) == PCM_OK, "a row of the log");
        at += size;
    }
}

static struct pcm whole, copy, second, again;
static struct told by_copy, by_second, by_replay, by_whole;

/* What a copy goes on with is what a new module does that plays the same rows, whenever it was copied; so is what a copy of it does, and the
   module itself. */
static void a_copy_stands_as_its_module_does(const char *library, const char *const words[])
{
    for (uint32_t at = 1; at < 200; at += 33) {
        by_copy.size = by_second.size = by_replay.size = by_whole.size = logged_size = 0;
        check(pcm_open_copied(&whole, words, library) == PCM_OK, "a module that can be copied");
        whole.log = log_row;
        for (uint32_t number = 0; number < at; number++)
            row(&whole, number, &by_whole);
        check(pcm_copy(&whole, &copy, NULL, NULL) == PCM_OK && copy.rows == whole.rows && copy.tick == whole.tick && copy.log == NULL, "a copy");
        check(pcm_copy(&copy, &second, NULL, NULL) == PCM_OK, "a copy of the copy");
        replayed(&again, words);
        check(pcm_settle_all(&again, whole.tick, NULL, NULL) == PCM_OK, "the other stands where the module does");
        by_whole.size = 0;
        life(&copy, at, 260, &by_copy);
        life(&again, at, 260, &by_replay);
        life(&second, at, 260, &by_second);
        life(&whole, at, 260, &by_whole);
        check(are_same(&by_copy, &by_replay), "the copy goes on as one that plays the log");
        check(are_same(&by_second, &by_replay), "so does the copy of the copy");
        check(are_same(&by_whole, &by_replay), "so does the module");
        int wanted = (pcm_finish(&again), pcm_close(&again));
        check(wanted >= 0 && pcm_finish(&copy) == PCM_OK && pcm_close(&copy) == wanted, "a copy's status");
        check(pcm_finish(&second) == PCM_OK && pcm_close(&second) == wanted, "that of a copy's copy");
        check(pcm_finish(&whole) == PCM_OK && pcm_close(&whole) == wanted, "the module's own");
    }
}

/* How many processes of this test's group run (those that have ended and that nobody has waited for yet don't). */
static int processes(void)
{
    int count = 0;
    DIR *all = opendir("/proc");
    for (struct dirent *entry; all != NULL && (entry = readdir(all)) != NULL;) {
        char path[300], text[512] = {0}, state = 'Z';
        int group = 0;
        snprintf(path, sizeof path, "/proc/%s/stat", entry->d_name);
        FILE *file = fopen(path, "r");
        if (file == NULL)
            continue;
        const char *behind = fgets(text, sizeof text, file) != NULL ? strrchr(text, ')') : NULL;
        if (behind != NULL && sscanf(behind, ") %c %*d %d", &state, &group) == 2)
            count += group == (int)getpgrp() && state != 'Z' && state != 'X';
        fclose(file);
    }
    if (all != NULL)
        closedir(all);
    return count;
}

static int descriptors(void)
{
    int count = 0;
    for (int fd = 0; fd < 1024; fd++)
        count += fcntl(fd, F_GETFD) >= 0;
    return count;
}

/* Whether so many processes are left, now or within two seconds. */
static int are_left(int wanted)
{
    for (int tries = 0; tries < 40; tries++) {
        if (processes() == wanted)
            return 1;
        usleep(50000);
    }
    return 0;
}

static void many_copies_leave_nothing(const char *library, const char *const words[], int count)
{
    int before = processes(), open_before = descriptors(), right = 0, ended = 0;
    check(pcm_open_copied(&whole, words, library) == PCM_OK, "a module");
    for (int i = 0; i < count; i++) {
        right += pcm_copy(&whole, &copy, NULL, NULL) == PCM_OK && pcm_cut(&copy, copy.tick) == PCM_OK && pcm_settle_all(&copy, copy.tick, NULL, NULL) == PCM_OK;
        if (i % 2 == 0)
            ended += pcm_close(&copy) == -1;
        else
            ended += pcm_finish(&copy) == PCM_OK && pcm_close(&copy) == 0;
    }
    check(right == count, "all copies go on");
    check(ended == count, "those that were finished tell their status, others none");
    check(are_left(before + 1), "of the processes the module's is left");
    check(pcm_copy(&whole, &copy, NULL, NULL) == PCM_OK && pcm_close(&whole) == -1, "a module ends before its copy");
    check(pcm_settle_all(&copy, 5, NULL, NULL) == PCM_OK && pcm_finish(&copy) == PCM_OK && pcm_close(&copy) == 0, "which goes on");
    check(are_left(before) , "no process is left"); check(descriptors() == open_before, "nor a descriptor");
}

/* Where the caller ends without a word, its module and copies do. */
static void copies_end_with_their_caller(const char *library, const char *const words[])
{
    int before = processes(), status = 0;
    pid_t child = fork();
    if (child == 0) {
        if (pcm_open_copied(&whole, words, library) != PCM_OK || pcm_copy(&whole, &copy, NULL, NULL) != PCM_OK || pcm_copy(&copy, &second, NULL, NULL) != PCM_OK)
            _exit(1);
        raise(SIGKILL);
    }
    check(child > 0 && waitpid(child, &status, 0) == child && WIFSIGNALED(status), "a caller that is killed");
    check(are_left(before), "leaves nothing");
}

static int is_closed(struct pcm *pcm)
{
    return pcm_read(pcm, 0, 0) == PCM_REFUSED && pcm_close(pcm) == -1;
}

static void what_cannot_be_copied_is_told(const char *library, const char *const words[])
{
    const char *ends[] = {"false", NULL}, *wrong[] = {words[0], "stream", "--none", NULL}, *none[] = {"/nowhere/pcm", NULL};
    int before = descriptors();
    check(pcm_open(&whole, words) == PCM_OK && pcm_copy(&whole, &copy, NULL, NULL) == PCM_FAILED && errno == ENOTSUP && is_closed(&copy), "a module of pcm_open");
    check(pcm_read(&whole, 0, 0) == PCM_OK && pcm_finish(&whole) == PCM_OK && pcm_close(&whole) == 0, "it goes on");
    check(pcm_copy(&whole, &copy, NULL, NULL) == PCM_REFUSED && is_closed(&copy), "a closed module");
    check(pcm_open_copied(&whole, words, "/nowhere/pcm_copy.so") == PCM_FAILED && errno == ENOENT && is_closed(&whole), "a library that isn't there");
    check(pcm_open_copied(&whole, words, "pcm_copy.so") == PCM_FAILED && errno == EINVAL && is_closed(&whole), "a library by its name alone");
    check(pcm_open_copied(&whole, none, library) == PCM_FAILED && errno == ENOENT && is_closed(&whole), "a program that isn't there");
    check(pcm_open_copied(&whole, ends, library) == PCM_OK && pcm_copy(&whole, &copy, NULL, NULL) == PCM_ENDED && is_closed(&copy), "a program that ends");
    check(pcm_close(&whole) == 1, "its status");
    check(pcm_open_copied(&whole, wrong, library) == PCM_OK && pcm_copy(&whole, &copy, NULL, NULL) == PCM_ENDED && is_closed(&copy), "wrong words");
    check(pcm_finish(&whole) == PCM_OK && pcm_close(&whole) == 2, "their status");
    check(pcm_open_copied(&whole, words, "/dev/null") == PCM_OK && pcm_copy(&whole, &copy, NULL, NULL) == PCM_FAILED && errno == ENOTSUP && is_closed(&copy), "a library that is none");
    check(pcm_finish(&whole) == PCM_OK && pcm_close(&whole) == 0, "the module goes on");
    check(pcm_open_copied(&whole, words, library) == PCM_OK && pcm_finish(&whole) == PCM_OK && pcm_copy(&whole, &copy, NULL, NULL) == PCM_REFUSED && is_closed(&copy), "behind a finish");
    check(pcm_close(&whole) == 0, "its status");
    check(pcm_open_copied(&whole, words, library) == PCM_OK && pcm_read(&whole, 0, 99999) == PCM_OK && pcm_copy(&whole, &copy, NULL, NULL) == PCM_ENDED && is_closed(&copy), "a faulty row");
    check(pcm_finish(&whole) == PCM_OK && pcm_close(&whole) == 3, "its status");
    check(descriptors() == before, "no descriptor stays open");
}

static void a_copy_without_processes(const char *library, const char *const words[])
{
    int before = descriptors();
    struct pcm_outcome none;
    check(pcm_open_copied(&whole, words, library) == PCM_OK && pcm_settle_all(&whole, 0, NULL, NULL) == PCM_OK, "a module");
    kill(whole.process, SIGKILL);
    waitpid(whole.process, NULL, 0);
    whole.process = -1;
    check(pcm_copy(&whole, &copy, NULL, NULL) == PCM_ENDED && is_closed(&copy) && pcm_next(&whole, &none) == PCM_ENDED, "a program that was killed");
    check(pcm_close(&whole) == -1 && descriptors() == before, "no descriptor stays open");
}

static void standard_descriptors_may_be_closed(const char *library, const char *const words[])
{
    int status = 0;
    fflush(NULL);
    pid_t child = fork();
    if (child == 0) {
        close(0);
        close(1);
        close(2);
        int told = pcm_open_copied(&whole, words, library) == PCM_OK && whole.control > 2 && pcm_copy(&whole, &copy, NULL, NULL) == PCM_OK;
        told = told && copy.control > 2 && pcm_copy(&copy, &second, NULL, NULL) == PCM_OK && second.to > 2 && second.from > 2 && second.control > 2;
        told = told && pcm_read(&second, 5, 1) == PCM_OK && pcm_finish(&second) == PCM_OK && pcm_close(&second) == 0;
        told = told && pcm_finish(&copy) == PCM_OK && pcm_close(&copy) == 0 && pcm_finish(&whole) == PCM_OK && pcm_close(&whole) == 0;
        _exit(told ? 0 : 1);
    }
    check(child > 0 && waitpid(child, &status, 0) == child && status == 0, "a caller without standard input and output");
}

int main(int count, char **words)
{
    const char *all[20] = {0};
    const char *options[] = {"stream", "--banks", "2", "--regions", "1", "--lines", "4", "--misses", "3", "--psi", "5"};
    int n = 0;
    if (count < 3)
        return 2;
    for (int i = 2; i < count && n < 4; i++)
        all[n++] = words[i];
    for (int i = 0; i < 11; i++)
        all[n++] = options[i];
    a_copy_stands_as_its_module_does(words[1], all);
    many_copies_leave_nothing(words[1], all, 1000);
    copies_end_with_their_caller(words[1], all);
    what_cannot_be_copied_is_told(words[1], all);
    a_copy_without_processes(words[1], all);
    standard_descriptors_may_be_closed(words[1], all);
    return checked();
}
