/* Runs a program and writes to a descriptor what it took: microseconds of the processor, and peak memory in KB. The system tells a program's
   memory with that of what began it, so it is begun from here, which is small. usage: used DESCRIPTOR PROGRAM [WORD ..] */
#include <fcntl.h>
#include <stdio.h>
#include <stdlib.h>
#include <sys/resource.h>
#include <sys/wait.h>
#include <unistd.h>

static long long microseconds(struct timeval it) { return it.tv_sec * 1000000LL + it.tv_usec; }

int main(int count, char **words)
{
    struct rusage used;
    int status, told = count > 2 ? atoi(words[1]) : -1;
    if (told < 0 || fcntl(told, F_SETFD, FD_CLOEXEC) != 0) return 2;
    pid_t child = fork();
    if (child == 0) {
        execv(words[2], words + 2);
        _exit(127);
    }
    if (child < 0 || wait4(child, &status, 0, &used) != child) return 2;
    dprintf(told, "%lld %ld\n", microseconds(used.ru_utime) + microseconds(used.ru_stime), used.ru_maxrss);
    return WIFEXITED(status) ? WEXITSTATUS(status) : 128 + WTERMSIG(status);
}
