/* Intervals of multiplexed sets: one that is too long or too short is the nearest that can be, and
 * the program is told which one it is. */
#include "papi.h"
#include "wanted.h"
#include <limits.h>

#define LONGEST 1000000 /* ticks */
#define USUAL 100

static int multiplexed(int ns) {
    PAPI_option_t o = { .multiplex = {
                            .eventset = PAPI_NULL, .ns = ns, .flags = PAPI_MULTIPLEX_DEFAULT } };
    WANT(PAPI_create_eventset(&o.multiplex.eventset), PAPI_OK);
    WANT(PAPI_set_opt(PAPI_MULTIPLEX, &o), PAPI_OK);
    PAPI_option_t got = { .multiplex = { .eventset = o.multiplex.eventset } };
    WANT(PAPI_get_opt(PAPI_MULTIPLEX, &got), 1);
    WANT(got.multiplex.ns, o.multiplex.ns);
    WANT(PAPI_destroy_eventset(&o.multiplex.eventset), PAPI_OK);
    return o.multiplex.ns;
}

static int usual(int option, int ns) {
    PAPI_option_t o = { .multiplex = { .ns = 0 } }, got;
    if (option == PAPI_DEF_MPX_NS) o.multiplex.ns = ns;
    else o.itimer.ns = ns;
    WANT(PAPI_set_opt(option, &o), PAPI_OK);
    WANT(PAPI_get_opt(PAPI_DEF_MPX_NS, &got), PAPI_OK);
    WANT(got.multiplex.ns, option == PAPI_DEF_MPX_NS ? o.multiplex.ns : o.itimer.ns);
    return multiplexed(0);
}

static void at(const char *mhz) {
    int rate = atoi(mhz), least = rate > 1000 ? 1 : 1000 / rate,
        longest = (int)(LONGEST * 1000LL / rate);
    PAPI_option_t below = { .multiplex = { .ns = -1 } };
    setenv("KISTALUB_MHZ", mhz, 1);
    WANT(PAPI_library_init(PAPI_VER_CURRENT), PAPI_VER_CURRENT);
    WANT(multiplexed(INT_MAX), longest);
    WANT(multiplexed(1431655766), longest); /* at 3,000 MHz two ticks more than 32 bits have */
    WANT(multiplexed(10000000), longest < 10000000 ? longest : 10000000);
    WANT(multiplexed(1), least);
    WANT(multiplexed(0), USUAL * 1000 / rate);
    WANT(usual(PAPI_DEF_MPX_NS, 10000000), longest < 10000000 ? longest : 10000000);
    WANT(usual(PAPI_DEF_MPX_NS, 0), USUAL * 1000 / rate);
    WANT(usual(PAPI_DEF_ITIMER_NS, 10000000), longest < 10000000 ? longest : 10000000);
    WANT(usual(PAPI_DEF_ITIMER_NS, 0), USUAL * 1000 / rate);
    WANT(PAPI_set_opt(PAPI_DEF_MPX_NS, &below), PAPI_EINVAL);
    below.itimer.ns = -1;
    WANT(PAPI_set_opt(PAPI_DEF_ITIMER_NS, &below), PAPI_EINVAL);
    PAPI_shutdown();
}

int main(void) {
    at("1000");
    at("100");
    at("3000");
    puts("each interval is taken");
    return 0;
}
