/* measured OUT PROGRAM WORDS..: runs the program and writes its seconds by the clock, its seconds of processor time and
 * its peak in kilobytes to the file OUT. The library that PRELOAD names, if any, is loaded before it. The peak that the
 * system reports is at least the one of the process that starts the program: so this one is small. Ends as the program
 * does.
 */
#define _GNU_SOURCE
#include <stdio.h>
#include <stdlib.h>
#include <sys/resource.h>
#include <sys/wait.h>
#include <time.h>
#include <unistd.h>

static double seconds(struct timeval time)
{
    return (double)time.tv_sec + (double)time.tv_usec * 1e-6;
}

int main(int count, char **words)
{
    struct timespec start, end;
    struct rusage used;
    int status;
    if (count < 3)
        return 2;
    clock_gettime(CLOCK_MONOTONIC, &start);
    pid_t child = fork();
    if (child == 0) {
        if (getenv("PRELOAD"))
            setenv("LD_PRELOAD", getenv("PRELOAD"), 1);
        execv(words[2], words + 2);
        perror(words[2]);
        _exit(127);
    }
    if (child < 0 || wait4(child, &status, 0, &used) != child)
        return 1;
    clock_gettime(CLOCK_MONOTONIC, &end);
    FILE *out = fopen(words[1], "w");
    if (!out)
        return 1;
    double clock = (double)(end.tv_sec - start.tv_sec) + (double)(end.tv_nsec - start.tv_nsec) * 1e-9;
    fprintf(out, "%.6f %.6f %ld\n", clock, seconds(used.ru_utime) + seconds(used.ru_stime), used.ru_maxrss);
    fclose(out);
    return WIFEXITED(status) ? WEXITSTATUS(status) : 1;
}
