/* Carries out scripts of calls on PAPI 7, for checks/steps. Scripts come on standard input, each
 * ended by an empty line. A line is `THREAD CALL ARGUMENT..`, as in docs/FORMATS.md. Each script
 * has a process of its own, in which each of its threads is a thread. A line of the output is the
 * answer to each call: PAPI's number, and what it gave but counts. The line `end STATUS`
 * follows. */

#define _GNU_SOURCE
#include <dlfcn.h>
#include <linux/perf_event.h>
#include <papi.h>
#include <pthread.h>
#include <sde_lib.h>
#include <semaphore.h>
#include <stdarg.h>
#include <stdio.h>
#include <stdlib.h>
#include <string.h>
#include <sys/syscall.h>
#include <sys/wait.h>
#include <unistd.h>

enum {
    THREADS = 8,
    SETS = 64,
    NO_SET = 1000,
    EVENTS = 64,
    CALLS = 256,
    LENGTH = 128,
    SECONDS = 10,
    MAIN = 1000,
    WORK = 20000
};

typedef struct {
    char thread[8], call[16], first[LENGTH], second[LENGTH], third[LENGTH];
} Line;

typedef struct {
    pthread_t thread;
    sem_t begin, end;
    int is_there;
    int sets[SETS]; /* PAPI's numbers, or PAPI_NULL */
    const Line *line;
} Thread;

static Thread threads[THREADS];
static _Thread_local unsigned long own = MAIN;
static char names[EVENTS][LENGTH]; /* of the events that were added, and their codes */
static int codes[EVENTS], named;
static long long values[EVENTS];
static papi_handle_t sde;
static void *counters[2];

/* Before PAPI takes a domain, or has events take turns, it opens a hardware event to see whether it
 * may. Where there is none, as on most virtual machines, it would refuse both. So the kernel opens
 * a software event in place of it. Scripts have no hardware events. */
long syscall(long number, ...) {
    typedef long Call(long, ...);
    static Call *call;
    long given[6];
    va_list rest;
    va_start(rest, number);
    for (int place = 0; place < 6; place++) given[place] = va_arg(rest, long);
    va_end(rest);
    if (!call) call = (Call *) dlsym(RTLD_NEXT, "syscall");
    struct perf_event_attr *event =
        number == SYS_perf_event_open ? (struct perf_event_attr *)given[0] : NULL;
    if (event && event->type == PERF_TYPE_HARDWARE)
        event->type = PERF_TYPE_SOFTWARE, event->config = PERF_COUNT_SW_CPU_CLOCK;
    return call(number, given[0], given[1], given[2], given[3], given[4], given[5]);
}

static unsigned long own_number(void) { return own; }

static void take_nothing(int set, void *address, long long events, void *context) {
    (void) set, (void) address, (void) events, (void) context;
}

/* The component of the unit of checks/steps with this number. */
static int component(int number) {
    static const char *const known[] = {"perf_event", "sde"};
    return number < 2 ? PAPI_get_component_index(known[number])
                      : PAPI_num_components() + number - 2;
}

static int set_of(const Thread *thread, const char *word) {
    unsigned long number = strtoul(word, NULL, 10);
    return number < SETS && thread->sets[number] != PAPI_NULL ? thread->sets[number]
                                                              : NO_SET + (int)(number % SETS);
}

static int code_of(const char *name, int *code) {
    int status = PAPI_event_name_to_code(name, code);
    for (int place = 0; status == PAPI_OK && place < EVENTS; place++) {
        if (place == named) strcpy(names[named++], name), codes[place] = *code;
        if (codes[place] == *code) break;
    }
    return status;
}

static const char *name_of(int code) {
    for (int place = 0; place < named; place++)
        if (codes[place] == code) return names[place];
    return "?";
}

static void create(Thread *thread) {
    int number = 0, set = PAPI_NULL, status = PAPI_create_eventset(&set);
    while (number < SETS - 1 && thread->sets[number] != PAPI_NULL) number++;
    if (status == PAPI_OK) thread->sets[number] = set;
    printf("%d %d\n", status, number);
}

/* PAPI destroys the sets of the thread. They keep their numbers here. */
static int unregister(Thread *thread) {
    int status = PAPI_unregister_thread();
    for (int number = 0; status == PAPI_OK && number < SETS; number++)
        if (thread->sets[number] != PAPI_NULL) thread->sets[number] = NO_SET + number;
    return status;
}

static int destroy(Thread *thread, const char *word) {
    int set = set_of(thread, word), status = PAPI_destroy_eventset(&set);
    if (status == PAPI_OK) thread->sets[atoi(word)] = PAPI_NULL;
    return status;
}

static int set_domain(int set, int bits) {
    PAPI_option_t option = {0};
    option.domain.eventset = set;
    option.domain.domain = bits;
    return PAPI_set_opt(PAPI_DOMAIN, &option);
}

static int overflow(int set, const Line *line) {
    int code = 0, status = code_of(line->second, &code);
    return status == PAPI_OK ? PAPI_overflow(set, code, atoi(line->third), 0, take_nothing)
                             : status;
}

static int add(int set, const char *name) {
    int code = 0, status = PAPI_add_named_event(set, name);
    if (status == PAPI_OK) code_of(name, &code);
    return status;
}

static void list_events(int set) {
    int found[EVENTS], count = EVENTS, status = PAPI_list_events(set, found, &count);
    printf("%d", status);
    for (int place = 0; status == PAPI_OK && place < count; place++)
        printf(" %s", name_of(found[place]));
    printf("\n");
}

static void list_threads(void) {
    PAPI_thread_id_t found[THREADS + 1];
    int count = THREADS + 1, status = PAPI_list_threads(found, &count);
    printf("%d", status);
    for (unsigned long number = 0; status == PAPI_OK && number < THREADS; number++)
        for (int place = 0; place < count; place++)
            if (found[place] == number) printf(" %lu", number);
    printf("\n");
}

static void tell_state(int set) {
    int state = 0, status = PAPI_state(set, &state);
    printf("%d 0x%02x\n", status, state);
}

/* How many values there are stands for them. */
static void tell_values(int set, int status) { printf("%d %d\n", status, PAPI_num_events(set)); }

static void tell_code(const char *name) {
    int code = 0, status = code_of(name, &code);
    printf("%d 0x%08x\n", status, (unsigned) code);
}

static void tell_name(const char *code) {
    char name[PAPI_MAX_STR_LEN] = "";
    int status = PAPI_event_code_to_name((int) strtoul(code, NULL, 16), name);
    printf("%d %s\n", status, name);
}

static int work(void) {
    for (volatile int turn = 0; turn < WORK; turn++) continue;
    papi_sde_inc_counter(counters[0], 1);
    papi_sde_inc_counter(counters[1], 2);
    return PAPI_OK;
}

/* The calls that give nothing but their code. */
static int plain(Thread *thread, const Line *line, const char *call, int set) {
    if (!strcmp(call, "register")) return PAPI_register_thread();
    if (!strcmp(call, "unregister")) return unregister(thread);
    if (!strcmp(call, "destroy")) return destroy(thread, line->first);
    if (!strcmp(call, "cleanup")) return PAPI_cleanup_eventset(set);
    if (!strcmp(call, "add")) return add(set, line->second);
    if (!strcmp(call, "remove")) return PAPI_remove_named_event(set, line->second);
    if (!strcmp(call, "component"))
        return PAPI_assign_eventset_component(set, component(atoi(line->second)));
    if (!strcmp(call, "domain")) return set_domain(set, atoi(line->second));
    if (!strcmp(call, "multiplex")) return PAPI_set_multiplex(set);
    if (!strcmp(call, "overflow")) return overflow(set, line);
    if (!strcmp(call, "start")) return PAPI_start(set);
    if (!strcmp(call, "reset")) return PAPI_reset(set);
    if (!strcmp(call, "run")) return work();
    fprintf(stderr, "step_calls: no call: %s\n", call);
    _exit(1);
}

static void carry_out(Thread *thread, const Line *line) {
    const char *call = line->call;
    int set = set_of(thread, line->first);
    if (!strcmp(call, "create")) create(thread);
    else if (!strcmp(call, "events")) list_events(set);
    else if (!strcmp(call, "threads")) list_threads();
    else if (!strcmp(call, "state")) tell_state(set);
    else if (!strcmp(call, "stop")) tell_values(set, PAPI_stop(set, values));
    else if (!strcmp(call, "read")) tell_values(set, PAPI_read(set, values));
    else if (!strcmp(call, "accum")) tell_values(set, PAPI_accum(set, values));
    else if (!strcmp(call, "code")) tell_code(line->first);
    else if (!strcmp(call, "name")) tell_name(line->first);
    else printf("%d\n", plain(thread, line, call, set));
    fflush(stdout);
}

static void *live(void *given) {
    Thread *thread = given;
    own = (unsigned long) (thread - threads);
    for (;;) {
        sem_wait(&thread->begin);
        carry_out(thread, thread->line);
        sem_post(&thread->end);
    }
    return NULL;
}

/* A thread begins with its first call. */
static Thread *thread_of(const Line *line) {
    Thread *thread = &threads[atoi(line->thread) % THREADS];
    if (thread->is_there) return thread;
    for (int number = 0; number < SETS; number++) thread->sets[number] = PAPI_NULL;
    sem_init(&thread->begin, 0, 0);
    sem_init(&thread->end, 0, 0);
    thread->is_there = !pthread_create(&thread->thread, NULL, live, thread);
    return thread;
}

static void begin(void) {
    sde = papi_sde_init("steps");
    papi_sde_create_counter(sde, "ONE", PAPI_SDE_DELTA, &counters[0]);
    papi_sde_create_counter(sde, "TWO", PAPI_SDE_DELTA, &counters[1]);
    if (PAPI_library_init(PAPI_VER_CURRENT) == PAPI_VER_CURRENT &&
        PAPI_multiplex_init() == PAPI_OK && PAPI_thread_init(own_number) == PAPI_OK)
        return;
    fprintf(stderr, "step_calls: PAPI does not begin\n");
    _exit(1);
}

static void carry_out_all(const Line *lines, int count) {
    alarm(SECONDS);
    begin();
    for (int number = 0; number < count; number++) {
        Thread *thread = thread_of(&lines[number]);
        thread->line = &lines[number];
        sem_post(&thread->begin);
        sem_wait(&thread->end);
    }
    _exit(0);
}

static void in_a_process(const Line *lines, int count) {
    int status = 0;
    pid_t child = fork();
    if (!child) carry_out_all(lines, count);
    waitpid(child, &status, 0);
    printf("end %d\n", WIFSIGNALED(status) ? -WTERMSIG(status) : WEXITSTATUS(status));
    fflush(stdout);
}

int main(void) {
    static Line lines[CALLS];
    char text[4 * LENGTH];
    int count = 0;
    while (fgets(text, sizeof text, stdin)) {
        Line *line = &lines[count % CALLS];
        memset(line, 0, sizeof *line);
        if (sscanf(text, "%7s %15s %127s %127s %127s", line->thread, line->call, line->first,
                   line->second, line->third) > 1)
            count++;
        else in_a_process(lines, count), count = 0;
    }
    return 0;
}
