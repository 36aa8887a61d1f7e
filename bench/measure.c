// Runs a program and writes its processor seconds, its peak memory in KiB and the seconds that passed on standard error:
// `measure PROGRAM WORDS..`.
#include <stdio.h>
#include <sys/resource.h>
#include <sys/wait.h>
#include <time.h>
#include <unistd.h>

int main(int count, char **words) {
    if (count < 2) return 2;
    struct timespec began, ended;
    clock_gettime(CLOCK_MONOTONIC, &began);
    const pid_t child = fork();
    if (child < 0) return 70;
    if (child == 0) {
        execv(words[1], words + 1);
        _exit(70);
    }
    int status;
    struct rusage used;
    if (wait4(child, &status, 0, &used) != child) return 70;
    clock_gettime(CLOCK_MONOTONIC, &ended);
    const double passed = (ended.tv_sec - began.tv_sec) + (ended.tv_nsec - began.tv_nsec) / 1e9;
    const double seconds = used.ru_utime.tv_sec + used.ru_stime.tv_sec
        + (used.ru_utime.tv_usec + used.ru_stime.tv_usec) / 1e6;
    fprintf(stderr, "%.4f %ld %.4f\n", seconds, used.ru_maxrss, passed);
    return WIFEXITED(status) ? WEXITSTATUS(status) : 70;
}
