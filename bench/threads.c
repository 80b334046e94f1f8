/* Stands between a program and its threads, by LD_PRELOAD: refuses some of them, and notes what each one took.
 *
 *   THREADS_REFUSED=N     each Nth thread can't be started
 *   THREADS_NOTED=FILE    at the program's end the file has a line for each thread that was started: the number of its
 *                         burst, nanoseconds of the program's clock at which it was started, ended and joined, and
 *                         nanoseconds of its processor time; all threads that are there together are of one burst
 */
#define _GNU_SOURCE
#include <dlfcn.h>
#include <errno.h>
#include <pthread.h>
#include <stdio.h>
#include <stdlib.h>
#include <sys/syscall.h>
#include <time.h>
#include <unistd.h>

#define MOST 65536

struct note {
    pthread_t thread;
    unsigned burst;
    unsigned long long started, ended, joined, processor;
    void *(*work)(void *);
    void *argument;
};

static struct note notes[MOST];
static unsigned asked, count, bursts, going;
static pthread_mutex_t lock = PTHREAD_MUTEX_INITIALIZER;

static unsigned long long now(clockid_t clock)
{
    struct timespec time;
    clock_gettime(clock, &time);
    return time.tv_sec * 1000000000ULL + time.tv_nsec;
}

static void *noted(void *argument)
{
    struct note *note = argument;
    void *result = note->work(note->argument);
    note->processor = now(CLOCK_THREAD_CPUTIME_ID);
    note->ended = now(CLOCK_MONOTONIC);
    return result;
}

int pthread_create(pthread_t *thread, const pthread_attr_t *attributes, void *(*work)(void *), void *argument)
{
    int (*create)(pthread_t *, const pthread_attr_t *, void *(*)(void *), void *) = dlsym(RTLD_NEXT, "pthread_create");
    const char *each = getenv("THREADS_REFUSED");
    pthread_mutex_lock(&lock);
    if (each && ++asked % atoi(each) == 0) {
        pthread_mutex_unlock(&lock);
        return EAGAIN;
    }
    if (!getenv("THREADS_NOTED") || count == MOST) {
        pthread_mutex_unlock(&lock);
        return create(thread, attributes, work, argument);
    }
    struct note *note = &notes[count];
    *note = (struct note){.started = now(CLOCK_MONOTONIC), .work = work, .argument = argument};
    int refused = create(thread, attributes, noted, note);
    if (!refused) {
        if (going++ == 0)
            bursts++;
        note->thread = *thread;
        note->burst = bursts;
        count++;
    }
    pthread_mutex_unlock(&lock);
    return refused;
}

/* The latest thread of this name is the one that was waited for. */
static void end(pthread_t thread)
{
    pthread_mutex_lock(&lock);
    for (unsigned i = count; i-- > 0;) {
        if (pthread_equal(notes[i].thread, thread)) {
            notes[i].joined = now(CLOCK_MONOTONIC);
            going--;
            break;
        }
    }
    pthread_mutex_unlock(&lock);
}

int pthread_join(pthread_t thread, void **result)
{
    int (*join)(pthread_t, void **) = dlsym(RTLD_NEXT, "pthread_join");
    int failed = join(thread, result);
    if (!failed)
        end(thread);
    return failed;
}

int pthread_detach(pthread_t thread)
{
    int (*detach)(pthread_t) = dlsym(RTLD_NEXT, "pthread_detach");
    end(thread);
    return detach(thread);
}

static void tell(void)
{
    const char *path = getenv("THREADS_NOTED");
    FILE *file = path ? fopen(path, "w") : NULL;
    if (!file)
        return;
    for (unsigned i = 0; i < count; i++) {
        struct note *note = &notes[i];
        fprintf(file, "%u %llu %llu %llu %llu\n", note->burst, note->started, note->ended, note->joined, note->processor);
    }
    fclose(file);
}

/* The program ends by this, and runs no destructor. */
void _exit(int status)
{
    tell();
    for (;;)
        syscall(SYS_exit_group, status);
}
