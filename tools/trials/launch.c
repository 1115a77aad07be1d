/* Runs programs one after another, and says how each ended. A line of standard input has the files for the program's
 * output and errors, the program, and its words, with a byte 1 between them. For each a line is written: the status, or
 * the negated signal, the most memory in bytes, and the microseconds of the processor. A run is killed
 * behind 20 seconds of the processor, or five minutes.
 *
 * A child is counted the memory of whoever starts it, so this is a small process of its own. */
#define _GNU_SOURCE
#include <fcntl.h>
#include <signal.h>
#include <stdio.h>
#include <stdlib.h>
#include <string.h>
#include <sys/resource.h>
#include <sys/wait.h>
#include <unistd.h>

static volatile pid_t child;

static void stop(int signal) {
  (void)signal;
  kill(child, SIGKILL);
}

static void put(int to, const char *path, int flags) {
  int file = open(path, flags, 0600);
  if (file < 0 || dup2(file, to) < 0) _exit(127);
}

static void start(char **words) {
  put(0, "/dev/null", O_RDONLY);
  put(1, words[0], O_WRONLY | O_CREAT | O_TRUNC | O_CLOEXEC);
  put(2, words[1], O_WRONLY | O_CREAT | O_TRUNC | O_CLOEXEC);
  char *none[] = {NULL};
  struct rlimit seconds = {20, 20};
  setrlimit(RLIMIT_CPU, &seconds);
  execve(words[2], words + 2, none);
  _exit(127);
}

int main(void) {
  char *line = NULL, *words[256];
  size_t room = 0;
  signal(SIGALRM, stop);
  while (getline(&line, &room, stdin) > 0) {
    int count = 0, status;
    struct rusage used;
    line[strcspn(line, "\n")] = 0;
    for (char *rest = line; rest && count < 255;) words[count++] = strsep(&rest, "\1");
    words[count] = NULL;
    if (count < 3) return 1;
    if ((child = fork()) == 0) start(words);
    if (child < 0) return 1;
    alarm(300);
    while (wait4(child, &status, 0, &used) < 0) {
    }
    alarm(0);
    long seconds = used.ru_utime.tv_sec + used.ru_stime.tv_sec;
    printf("%d %ld %ld\n", WIFSIGNALED(status) ? -WTERMSIG(status) : WEXITSTATUS(status), used.ru_maxrss * 1024L,
           seconds * 1000000L + used.ru_utime.tv_usec + used.ru_stime.tv_usec);
    fflush(stdout);
  }
  return 0;
}
