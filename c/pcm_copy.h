/* pcm_copy.h: copies of a module at a moment, beside pcm_stream.h: each goes on by itself, from the state in which the module stood.

       struct pcm pcm, copy;
       if (pcm_open_copied(&pcm, words, "c/out/pcm_copy.so") != PCM_OK) ..
       pcm_write(&pcm, 0, 7, bytes, 64);
       if (pcm_copy(&pcm, &copy, NULL, NULL) == PCM_OK)       // it stands where pcm does
           pcm_cut(&copy, 9);                                 // of which pcm hears nothing
       pcm_close(&copy);

   A copy is a fork of the program where it waits for rows, so it takes as long for a module of a million rows as for a new one. The program
   is as it was proved: pcm_copy.so (`make -C c copies`) stands in the place of its read of standard input alone, preloaded. Over the library
   (PCM_STREAM_LIBRARY) there is no program to fork: both calls answer PCM_FAILED, with ENOTSUP. */
#ifndef PCM_COPY_H
#define PCM_COPY_H

#include "pcm_stream.h"

#ifndef PCM_STREAM_LIBRARY
#include <sys/uio.h>
#endif

#ifdef __cplusplus
extern "C" {
#endif

/* Starts a program as pcm_open does, with the library of this path in it. Whether that took hold shows at the first copy. */
static inline enum pcm_result pcm_open_copied(struct pcm *pcm, const char *const words[], const char *library);
/* Settles `from` at its own tick, whose outcomes are handed to `take` as by pcm_settle_all, and lets `to` stand as it does: by rows, ticks
   and all that the cells hold. From then on neither knows of the other: each is closed by itself, and may be copied again. The copy's `log`
   is NULL. Its process isn't the caller's child, so `to->process` is -1; but pcm_close waits for it, and answers its status. PCM_REFUSED where
   `from` is closed or takes no more rows; PCM_FAILED with ENOTSUP where it wasn't opened by pcm_open_copied, or has no library in it (a static
   program can't have one), with EAGAIN or ENOMEM where the system gives no process; PCM_ENDED where the program has ended. `to` is then
   closed. */
static inline enum pcm_result pcm_copy(struct pcm *from, struct pcm *to, pcm_taker take, void *context);

#ifdef PCM_STREAM_LIBRARY
static inline enum pcm_result pcm_open_copied(struct pcm *pcm, const char *const words[], const char *library)
{
    (void)words;
    (void)library;
    memset(pcm, 0, sizeof *pcm);
    errno = ENOTSUP;
    return PCM_FAILED;
}

static inline enum pcm_result pcm_copy(struct pcm *from, struct pcm *to, pcm_taker take, void *context)
{
    memset(to, 0, sizeof *to);
    enum pcm_result result = pcm_settle_all(from, from->tick, take, context);
    errno = ENOTSUP;
    return result == PCM_OK ? PCM_FAILED : result;
}
#else
/* From here on: how. Messages go over a socket that keeps them apart. To the program: `f`, with the descriptors of a copy: its standard input,
   its standard output, its own such socket, and perhaps its standard error; and `q`: it ends at once. From it: `h` once it can be copied; of a
   copy its process and the number of an error; as it ends `e` and its status, or `q` where it was broken off. */

/* What the program says of a copy. */
struct pcm__copied {
    int32_t process, fault;
};

/* The variables of the environment, with these two in front. */
static inline char **pcm__variables(char *one, char *two)
{
    size_t count = 0, kept = 2;
    while (environ != NULL && environ[count] != NULL)
        count++;
    char **all = (char **)malloc((count + 3) * sizeof *all);
    if (all == NULL)
        return NULL;
    all[0] = one;
    all[1] = two;
    for (size_t i = 0; i < count; i++)
        if (strncmp(environ[i], "LD_PRELOAD=", 11) != 0 && strncmp(environ[i], "PCM_COPY=", 9) != 0)
            all[kept++] = environ[i];
    all[kept] = NULL;
    return all;
}

/* Two ends of a socket that keeps messages apart. */
static inline int pcm__asked_by(int ends[2])
{
    int made[2] = {-1, -1};
    int status = socketpair(AF_UNIX, SOCK_SEQPACKET | PCM__CLOEXEC, 0, made);
    return pcm__ends(ends, status, made);
}

static inline enum pcm_result pcm_open_copied(struct pcm *pcm, const char *const words[], const char *library)
{
    char number[32], path[4096];
    const char *others = getenv("LD_PRELOAD"); /* (they stay) */
    int ends[2], size = snprintf(path, sizeof path, "LD_PRELOAD=%s%s%s", library, others != NULL ? ":" : "", others != NULL ? others : "");
    enum pcm_result result = PCM_FAILED;
    memset(pcm, 0, offsetof(struct pcm, out));
    /* (the loader takes a blank or a colon for an end, passes a library over that it doesn't find, and searches for one without a slash) */
    if (size < 0 || (size_t)size >= sizeof path || strpbrk(library, " :") != NULL || strchr(library, '/') == NULL || access(library, R_OK) != 0) {
        errno = strpbrk(library, " :") != NULL || strchr(library, '/') == NULL ? EINVAL : ENOENT;
        return PCM_FAILED;
    }
    if (pcm__asked_by(ends) != 0)
        return PCM_FAILED;
    snprintf(number, sizeof number, "PCM_COPY=%d", ends[1]);
    char **variables = pcm__variables(path, number);
    const struct pcm__how how = {0, variables, ends[1]};
    if (variables != NULL)
        result = pcm__open(pcm, words, &how);
    int fault = errno;
    free(variables);
    close(ends[1]);
    if (result == PCM_OK)
        pcm->control = ends[0];
    else
        close(ends[0]);
    errno = fault;
    return result;
}

/* Whether the program has said that it can be copied: it does as it first waits for rows, so before any of its answers. */
static inline int pcm__is_heard(struct pcm *pcm)
{
    char told = 0;
    if (pcm->control > 0 && !pcm->is_heard)
        pcm->is_heard = recv(pcm->control, &told, 1, MSG_DONTWAIT) == 1 && told == 'h';
    return pcm->control > 0 && pcm->is_heard;
}

/* Asks the program for a copy over these descriptors. */
static inline enum pcm_result pcm__ask_copy(int control, const int fds[3])
{
    union {
        struct cmsghdr align;
        char bytes[CMSG_SPACE(3 * sizeof(int))];
    } space;
    char byte = 'f';
    struct iovec piece = {&byte, 1};
    struct msghdr message;
    struct pcm__copied told = {-1, EIO};
    memset(&message, 0, sizeof message);
    memset(&space, 0, sizeof space);
    message.msg_iov = &piece;
    message.msg_iovlen = 1;
    message.msg_control = space.bytes;
    message.msg_controllen = sizeof space.bytes;
    struct cmsghdr *with = CMSG_FIRSTHDR(&message);
    with->cmsg_level = SOL_SOCKET;
    with->cmsg_type = SCM_RIGHTS;
    with->cmsg_len = CMSG_LEN(3 * sizeof(int));
    memcpy(CMSG_DATA(with), fds, 3 * sizeof(int));
    ssize_t got;
    while ((got = sendmsg(control, &message, MSG_NOSIGNAL)) < 0 && errno == EINTR)
        ;
    if (got != 1)
        return errno == EPIPE || errno == ECONNRESET ? PCM_ENDED : PCM_FAILED;
    while ((got = recv(control, &told, sizeof told, 0)) < 0 && errno == EINTR)
        ;
    if (got >= 0 && got != (ssize_t)sizeof told)
        return PCM_ENDED;
    if (got > 0 && told.process <= 0)
        errno = told.fault;
    return got > 0 && told.process > 0 ? PCM_OK : PCM_FAILED;
}

static inline enum pcm_result pcm_copy(struct pcm *from, struct pcm *to, pcm_taker take, void *context)
{
    int in[2], out[2] = {-1, -1}, more[2] = {-1, -1};
    memset(to, 0, offsetof(struct pcm, out));
    enum pcm_result result = pcm_settle_all(from, from->tick, take, context);
    if (result != PCM_OK)
        return result;
    if (!pcm__is_heard(from)) {
        errno = ENOTSUP;
        return PCM_FAILED;
    }
    if (pcm__pair(in, 0) != 0)
        return PCM_FAILED;
    result = PCM_FAILED;
    if (pcm__pair(out, 1) == 0 && pcm__asked_by(more) == 0 && fcntl(in[1], F_SETFL, O_NONBLOCK) == 0) {
        const int fds[3] = {in[0], out[1], more[1]};
        result = pcm__ask_copy(from->control, fds);
    }
    int fault = errno, theirs[3] = {in[0], out[1], more[1]}, ours[3] = {in[1], out[0], more[0]};
    for (int i = 0; i < 3; i++) {
        if (theirs[i] >= 0)
            close(theirs[i]);
        if (ours[i] >= 0 && result != PCM_OK)
            close(ours[i]);
    }
    errno = fault;
    if (result != PCM_OK)
        return result;
    /* (all rows were sent, and all answers taken: nothing is held on either side) */
    memcpy(to, from, offsetof(struct pcm, out));
    to->held = to->begin = to->end = 0;
    to->to = ours[0];
    to->from = ours[1];
    to->control = ours[2];
    to->is_heard = 1;
    to->process = -1;
    to->log = NULL;
    to->context = NULL;
    return PCM_OK;
}
#endif /* PCM_STREAM_LIBRARY */

#ifdef __cplusplus
}
#endif

#endif
