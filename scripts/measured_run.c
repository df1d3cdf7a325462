/* Runs a program and says what it took. scripts/bench compiles it.

       measured_run PROGRAM WORD ..

   says "WALL PROCESSOR MEMORY" of this one run as the last line on standard error, and ends as the program does. Both times are
   in microseconds, and the second one is that of user and system together. The memory is the largest resident one, in KiB. */
#include <stdio.h>
#include <sys/resource.h>
#include <sys/wait.h>
#include <time.h>
#include <unistd.h>

static double now(void) {
    struct timespec at;
    clock_gettime(CLOCK_MONOTONIC, &at);
    return 1e6 * (double)at.tv_sec + 1e-3 * (double)at.tv_nsec;
}

static double micros(struct timeval span) { return 1e6 * (double)span.tv_sec + (double)span.tv_usec; }

int main(int count, char **words) {
    if (count < 2) return 2;
    int status;
    struct rusage used;
    double start = now();
    pid_t child = fork();
    if (child < 0) return 2;
    if (child == 0) {
        execv(words[1], words + 1);
        _exit(127);
    }
    if (wait4(child, &status, 0, &used) != child) return 2;
    double wall = now() - start;
    fprintf(stderr, "%.0f %.0f %ld\n", wall, micros(used.ru_utime) + micros(used.ru_stime), used.ru_maxrss);
    return WIFEXITED(status) ? WEXITSTATUS(status) : 1;
}
