// Runs a program with its output thrown away, and prints the seconds that it took, its peak memory in KiB and the
// seconds of the processor: run_once PROGRAM WORD .. It takes little memory itself, since a program's peak is told as
// that of who started it where this is greater.
#include <fcntl.h>
#include <stdio.h>
#include <sys/resource.h>
#include <sys/wait.h>
#include <time.h>
#include <unistd.h>

static double seconds_of(struct timeval at) {
    return at.tv_sec + at.tv_usec / 1e6;
}

int main(int count, char **words) {
    struct timespec from, to;
    struct rusage used;
    int status;
    if (count < 2) return 2;
    clock_gettime(CLOCK_MONOTONIC, &from);
    pid_t child = fork();
    if (child == 0) {
        dup2(open("/dev/null", O_WRONLY), 1);
        execv(words[1], words + 1);
        _exit(127);
    }
    if (child < 0 || wait4(child, &status, 0, &used) < 0 || status != 0) return 1;
    clock_gettime(CLOCK_MONOTONIC, &to);
    printf("%.6f %ld %.6f\n", (to.tv_sec - from.tv_sec) + (to.tv_nsec - from.tv_nsec) / 1e9, used.ru_maxrss,
           seconds_of(used.ru_utime) + seconds_of(used.ru_stime));
    return 0;
}
