/* launch FD PROGRAM WORDS..: runs a program on this process's own input and output, and writes one line to the file
 * descriptor FD: microseconds from its start to its end, microseconds of processor that it and its threads took, its
 * peak memory in KB, and its status as waiting tells it. A program's peak is never told below what its parent holds;
 * this one is small, so what the bench itself holds isn't counted. */
#define _GNU_SOURCE
#include <fcntl.h>
#include <stdio.h>
#include <stdlib.h>
#include <sys/resource.h>
#include <sys/wait.h>
#include <time.h>
#include <unistd.h>

static long long micros(struct timeval t) { return t.tv_sec * 1000000LL + t.tv_usec; }

int main(int count, char **words) {
    if (count < 3) return 125;
    int told = atoi(words[1]);
    fcntl(told, F_SETFD, FD_CLOEXEC);
    struct timespec begin, end;
    clock_gettime(CLOCK_MONOTONIC, &begin);
    pid_t child = fork();
    if (child == 0) {
        execv(words[2], words + 2);
        _exit(127);
    }
    int status;
    struct rusage usage;
    if (child < 0 || wait4(child, &status, 0, &usage) != child) return 126;
    clock_gettime(CLOCK_MONOTONIC, &end);
    long long wall = (end.tv_sec - begin.tv_sec) * 1000000LL + (end.tv_nsec - begin.tv_nsec) / 1000;
    dprintf(told, "%lld %lld %ld %d\n", wall, micros(usage.ru_utime) + micros(usage.ru_stime), usage.ru_maxrss, status);
    return 0;
}
