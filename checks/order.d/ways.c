/* Four threads that wait for each other in the way that the first word names. What is printed
 * depends on who came when. */
#define _GNU_SOURCE
#include <pthread.h>
#include <sched.h>
#include <semaphore.h>
#include <signal.h>
#include <stdatomic.h>
#include <stdio.h>
#include <string.h>
#include <time.h>
#include <unistd.h>

#define THREADS 4
#define MOST 4000

static pthread_mutex_t mutex = PTHREAD_MUTEX_INITIALIZER;
static pthread_cond_t condition = PTHREAD_COND_INITIALIZER;
static pthread_rwlock_t lock = PTHREAD_RWLOCK_INITIALIZER;
static pthread_barrier_t barrier;
static sem_t full, vacant;
static atomic_int baton;
static atomic_long noted;
static long who[MOST];
static pthread_t main_thread;

static void note(long thread) {
    long at = atomic_fetch_add(&noted, 1);
    if (at < MOST) who[at] = thread;
}
static void work(long turns) {
    for (volatile long i = 0; i < turns; i++) {}
}
static void on_signal(int number) { note(number); }

static void by_mutex(long me, int turn) {
    (void)turn;
    pthread_mutex_lock(&mutex);
    note(me);
    work(100 + 37 * me);
    pthread_mutex_unlock(&mutex);
    work(50);
}
static void by_rwlock(long me, int turn) {
    if ((turn + me) % 4) pthread_rwlock_rdlock(&lock);
    else pthread_rwlock_wrlock(&lock);
    work(60);
    note(me);
    pthread_rwlock_unlock(&lock);
    work(13 * me);
}
static void by_barrier(long me, int turn) {
    (void)turn;
    work(100 * me);
    note(me);
    pthread_barrier_wait(&barrier);
}
static void by_semaphore(long me, int turn) {
    (void)turn;
    sem_wait(me % 2 ? &vacant : &full);
    note(me);
    work(30 * me);
    sem_post(me % 2 ? &full : &vacant);
}
static void by_condition(long me, int turn) {
    pthread_mutex_lock(&mutex);
    if (turn % 4 == me) pthread_cond_broadcast(&condition);
    else if (turn % 3 == 0) {
        struct timespec until;
        clock_gettime(CLOCK_REALTIME, &until);
        until.tv_nsec += 1000000 + me * 170000;
        if (until.tv_nsec >= 1000000000) until.tv_sec++, until.tv_nsec -= 1000000000;
        pthread_cond_timedwait(&condition, &mutex, &until);
    }
    note(me);
    work(300);
    pthread_mutex_unlock(&mutex);
}
static void passes(long me) {
    note(me);
    work(20);
    atomic_store(&baton, (int)(me + 1) % THREADS);
}
static void by_spinning(long me, int turn) {
    (void)turn;
    while (atomic_load(&baton) != me) {}
    passes(me);
}
static void by_pause(long me, int turn) {
    (void)turn;
    while (atomic_load(&baton) != me) __builtin_ia32_pause();
    passes(me);
}
static void by_yield(long me, int turn) {
    (void)turn;
    while (atomic_load(&baton) != me) sched_yield();
    passes(me);
}
static void by_sleep(long me, int turn) {
    if (turn % 4) return;
    usleep((useconds_t)(500 + 100 * me));
    note(me);
    work(300);
}
static void by_signal(long me, int turn) {
    if (turn % 20 == me) pthread_kill(main_thread, SIGUSR1);
    work(100);
    note(me);
}
static void by_kill(long me, int turn) {
    if (turn % 20 == me) kill(getpid(), SIGUSR1);
    work(100);
    note(me);
}
static void by_atomics(long me, int turn) {
    static atomic_long sum;
    (void)turn;
    for (int i = 0; i < 50; i++) {
        long seen = atomic_load(&sum);
        work(3);
        if (!atomic_compare_exchange_strong(&sum, &seen, seen + me)) note(me);
    }
}

static const struct {
    const char *name;
    void (*wait)(long me, int turn);
} ways[] = {
    {"mutex", by_mutex},         {"rwlock", by_rwlock},       {"barrier", by_barrier},
    {"semaphore", by_semaphore}, {"condition", by_condition}, {"spinning", by_spinning},
    {"pause", by_pause},         {"yield", by_yield},         {"sleep", by_sleep},
    {"signal", by_signal},       {"kill", by_kill},           {"atomics", by_atomics},
};
static int way = -1;

static void *run(void *me) {
    for (int turn = 0; turn < 100; turn++) ways[way].wait((long)me, turn);
    return NULL;
}

int main(int count, char **words) {
    pthread_t threads[THREADS];
    struct sigaction action = {.sa_handler = on_signal, .sa_flags = SA_RESTART};
    unsigned long sum = 0;
    for (int i = 0; count == 2 && i < (int)(sizeof ways / sizeof *ways); i++)
        if (!strcmp(words[1], ways[i].name)) way = i;
    if (way < 0) return 2;
    main_thread = pthread_self();
    sigaction(SIGUSR1, &action, NULL);
    pthread_barrier_init(&barrier, NULL, THREADS);
    sem_init(&full, 0, 0);
    sem_init(&vacant, 0, 3);
    for (long i = 0; i < THREADS; i++) pthread_create(&threads[i], NULL, run, (void *)i);
    for (int i = 0; i < THREADS; i++) pthread_join(threads[i], NULL);
    for (long i = 0; i < noted && i < MOST; i++) sum = sum * 31 + (unsigned long)who[i];
    printf("%ld %lx\n", (long)noted, sum);
    return 0;
}
