/* Loaded before the C library: when the program ends, the file LONGEST has the processor time, in seconds, of its
 * longest way: of the first thread, which after it has joined another goes on from where the longer of both was. So it
 * is what the clock would show if each thread had a processor of its own and never waited for files.
 * Build: cc -O2 -shared -fPIC -o longest.so longest.c
 */
#define _GNU_SOURCE
#include <dlfcn.h>
#include <pthread.h>
#include <stdbool.h>
#include <stdio.h>
#include <stdlib.h>
#include <sys/syscall.h>
#include <time.h>
#include <unistd.h>

typedef struct Thread {
    void *(*run)(void *);
    void *argument;
    double start, end; /* how far the way was when it was made, and when it ended */
    pthread_t name;
    struct Thread *next;
} Thread;

typedef int (*Create)(pthread_t *, const pthread_attr_t *, void *(*)(void *), void *);
typedef int (*Join)(pthread_t, void **);

static __thread double before; /* how far this thread's way is, without its own processor time */
static Thread *threads;
static pthread_mutex_t lock = PTHREAD_MUTEX_INITIALIZER;

static double far(void)
{
    struct timespec spent;
    clock_gettime(CLOCK_THREAD_CPUTIME_ID, &spent);
    return before + (double)spent.tv_sec + (double)spent.tv_nsec * 1e-9;
}

static void *run(void *argument)
{
    Thread *self = argument;
    before = self->start;
    void *answer = self->run(self->argument);
    self->end = far();
    return answer;
}

int pthread_create(pthread_t *name, const pthread_attr_t *attributes, void *(*function)(void *), void *argument)
{
    static Create next;
    if (!next)
        next = (Create)dlsym(RTLD_NEXT, "pthread_create");
    Thread *made = malloc(sizeof *made);
    *made = (Thread){.run = function, .argument = argument, .start = far()};
    int failed = next(name, attributes, run, made);
    if (failed)
        return failed;
    made->name = *name;
    pthread_mutex_lock(&lock);
    made->next = threads;
    threads = made;
    pthread_mutex_unlock(&lock);
    return 0;
}

/* the thread of this name that was made last; names are used again */
static Thread *taken(pthread_t name)
{
    pthread_mutex_lock(&lock);
    Thread **at = &threads;
    while (*at && !pthread_equal((*at)->name, name))
        at = &(*at)->next;
    Thread *found = *at;
    if (found)
        *at = found->next;
    pthread_mutex_unlock(&lock);
    return found;
}

int pthread_join(pthread_t name, void **answer)
{
    static Join next;
    if (!next)
        next = (Join)dlsym(RTLD_NEXT, "pthread_join");
    int failed = next(name, answer);
    Thread *ended = failed ? NULL : taken(name);
    if (ended) {
        double here = far();
        if (ended->end > here)
            before += ended->end - here;
        free(ended);
    }
    return failed;
}

static void tell(void)
{
    const char *path = getenv("LONGEST");
    FILE *file = path ? fopen(path, "w") : NULL;
    if (file) {
        fprintf(file, "%.6f\n", far());
        fclose(file);
    }
}

static __attribute__((destructor)) void ended(void)
{
    tell();
}

/* a program that ends so runs no destructor */
void _exit(int status)
{
    tell();
    syscall(SYS_exit_group, status);
    __builtin_unreachable();
}
