/* Handlers jump out of calls at one place of the program, again and again: time stands in each of
 * them, and goes on after it. */
#define _DEFAULT_SOURCE
#include "papi.h"
#include "wanted.h"
#include <setjmp.h>
#include <unistd.h>

#define JUMPS 40
#define INSTRUCTIONS 200

static jmp_buf before;
static int told;

static void handler(int set, void *address, long long vector, void *context) {
    uint32_t went = 1;
    (void)set; (void)address; (void)vector; (void)context;
    told++;
    WANT(kistalub_go(1, &went), PAPI_EISRUN);
    WANT(went, 0);
    longjmp(before, 1);
}

int main(void) {
    char stream[] = "/tmp/kistalub_jumps_XXXXXX";
    FILE *f = fdopen(mkstemp(stream), "w");
    int set = PAPI_NULL, event;
    long long count;
    WANT(f != NULL, 1);
    for (int i = 0; i < 2 * JUMPS; i++) fprintf(f, "0 c0 00 u %d 1\n", INSTRUCTIONS);
    WANT(fclose(f), 0);
    setenv("KISTALUB_STREAM", stream, 1);
    WANT(PAPI_library_init(PAPI_VER_CURRENT), PAPI_VER_CURRENT);
    WANT(PAPI_create_eventset(&set), PAPI_OK);
    WANT(PAPI_event_name_to_code("INST_RETIRED", &event), PAPI_OK);
    WANT(PAPI_add_event(set, event), PAPI_OK);
    WANT(PAPI_overflow(set, event, 2 * INSTRUCTIONS, 0, handler), PAPI_OK);
    WANT(PAPI_start(set), PAPI_OK);
    setjmp(before);
    if (told < JUMPS) kistalub_go(2 * JUMPS, NULL);
    WANT(told, JUMPS);
    WANT(PAPI_stop(set, &count), PAPI_OK);
    WANT(count, 2 * JUMPS * INSTRUCTIONS);
    PAPI_shutdown();
    unlink(stream);
    puts("time stands in each handler");
    return 0;
}
