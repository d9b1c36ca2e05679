/* Options, domains, granularities and multiplexing. */
#include "papi.h"
#include "wanted.h"
#include <pthread.h>
#include <string.h>

static PAPI_option_t o;

void papif_get_domain_(const int *set, int *domain, const int *mode, int *check); /* for Fortran */

static void has_domain(int set, int mode, int code, int wanted) {
    int domain = -1, check = 1;
    papif_get_domain_(&set, &domain, &mode, &check);
    WANT(check, code);
    WANT(domain, wanted);
}

/* A set that this thread makes has the domain that another one asked for. */
static void *makes_a_set(void *unused) {
    int set = PAPI_NULL;
    WANT(PAPI_create_eventset(&set), PAPI_OK);
    o.domain.eventset = set;
    WANT(PAPI_get_opt(PAPI_DOMAIN, &o), PAPI_OK);
    WANT(o.domain.domain, PAPI_DOM_USER | PAPI_DOM_KERNEL);
    return unused;
}

static void domains(int set) {
    pthread_t thread;
    o.domain.eventset = set;
    WANT(PAPI_get_opt(PAPI_DOMAIN, &o), PAPI_OK);
    WANT(o.domain.domain, PAPI_DOM_USER);
    o.domain.domain = PAPI_DOM_KERNEL;
    WANT(PAPI_set_opt(PAPI_DOMAIN, &o), PAPI_OK);
    o.domain.domain = PAPI_DOM_OTHER;
    WANT(PAPI_set_opt(PAPI_DOMAIN, &o), PAPI_EINVAL_DOM);
    o.domain.domain = 0;
    WANT(PAPI_set_opt(PAPI_DOMAIN, &o), PAPI_EINVAL_DOM);
    WANT(PAPI_get_opt(PAPI_DOMAIN, &o), PAPI_OK);
    WANT(o.domain.domain, PAPI_DOM_KERNEL);
    has_domain(set, PAPI_DOMAIN, PAPI_OK, PAPI_DOM_KERNEL);
    has_domain(set, PAPI_DEFDOM, PAPI_OK, PAPI_DOM_USER);
    has_domain(set, PAPI_GRANUL, PAPI_EINVAL, -1);
    o.domain.eventset = 7;
    o.domain.domain = PAPI_DOM_USER;
    WANT(PAPI_set_opt(PAPI_DOMAIN, &o), PAPI_ENOEVST);
    WANT(PAPI_get_opt(PAPI_DOMAIN, &o), PAPI_ENOEVST);
    WANT(PAPI_set_domain(0), PAPI_EINVAL);
    WANT(PAPI_set_domain(PAPI_DOM_MAX + 1), PAPI_EINVAL);
    WANT(PAPI_set_domain(PAPI_DOM_SUPERVISOR), PAPI_ENOSUPP);
    WANT(PAPI_set_cmp_domain(PAPI_DOM_USER, 9), PAPI_ENOCMP);
    WANT(PAPI_get_opt(PAPI_DEFDOM, NULL), PAPI_DOM_USER);
    WANT(PAPI_set_domain(PAPI_DOM_ALL), PAPI_OK);
    WANT(PAPI_get_opt(PAPI_DEFDOM, NULL), PAPI_DOM_USER | PAPI_DOM_KERNEL);
    WANT(PAPI_set_cmp_domain(PAPI_DOM_KERNEL, 1), PAPI_OK);
    WANT(PAPI_get_cmp_opt(PAPI_DEFDOM, NULL, 1), PAPI_DOM_KERNEL);
    WANT(pthread_create(&thread, NULL, makes_a_set, NULL), 0);
    WANT(pthread_join(thread, NULL), 0);
}

static void granularities(int set) {
    WANT(PAPI_set_granularity(PAPI_GRN_THR), PAPI_OK);
    WANT(PAPI_set_granularity(PAPI_GRN_SYS), PAPI_EINVAL);
    WANT(PAPI_set_granularity(0), PAPI_EINVAL);
    WANT(PAPI_set_cmp_granularity(PAPI_GRN_THR, 9), PAPI_ENOCMP);
    WANT(PAPI_get_opt(PAPI_DEFGRN, NULL), PAPI_GRN_THR);
    o.granularity.eventset = set;
    o.granularity.granularity = PAPI_GRN_PROC;
    WANT(PAPI_set_opt(PAPI_GRANUL, &o), PAPI_EINVAL);
    WANT(PAPI_get_opt(PAPI_GRANUL, &o), PAPI_OK);
    WANT(o.granularity.granularity, PAPI_GRN_THR);
    WANT(PAPI_set_opt(PAPI_GRANUL, &o), PAPI_OK);
    o.granularity.eventset = 99;
    o.granularity.granularity = PAPI_GRN_MAX;
    WANT(PAPI_set_opt(PAPI_GRANUL, &o), PAPI_ENOEVST);
}

static void multiplexing(int set) {
    WANT(PAPI_multiplex_init(), PAPI_OK);
    WANT(PAPI_get_multiplex(set), 0);
    WANT(PAPI_get_multiplex(7), 0);
    WANT(PAPI_get_opt(PAPI_DEF_MPX_NS, &o), PAPI_OK);
    WANT(o.multiplex.ns, 100);
    o.multiplex.ns = -1;
    WANT(PAPI_set_opt(PAPI_DEF_MPX_NS, &o), PAPI_EINVAL);
    o.multiplex.ns = 250;
    WANT(PAPI_set_opt(PAPI_DEF_MPX_NS, &o), PAPI_OK);
    o.multiplex.eventset = 7;
    WANT(PAPI_set_opt(PAPI_MULTIPLEX, &o), PAPI_ENOEVST);
    o.multiplex.eventset = set;
    o.multiplex.ns = -1;
    WANT(PAPI_set_opt(PAPI_MULTIPLEX, &o), PAPI_EINVAL);
    o.multiplex.ns = 0;
    o.multiplex.flags = PAPI_MULTIPLEX_DEFAULT;
    WANT(PAPI_set_opt(PAPI_MULTIPLEX, &o), PAPI_OK);
    WANT(o.multiplex.ns, 250);
    WANT(PAPI_set_opt(PAPI_MULTIPLEX, &o), PAPI_EINVAL);
    WANT(PAPI_set_multiplex(set), PAPI_EINVAL);
    WANT(PAPI_get_multiplex(set), 1);
    o.multiplex.ns = 0;
    WANT(PAPI_get_opt(PAPI_MULTIPLEX, &o), 1);
    WANT(o.multiplex.ns, 250);
}

/* What there is to ask of a library, and what has no meaning here. */
static void others(int set) {
    WANT(PAPI_get_opt(PAPI_LIB_VERSION, NULL), PAPI_VERSION);
    WANT(PAPI_get_opt(PAPI_MAX_HWCTRS, NULL), 3);
    WANT(PAPI_get_cmp_opt(PAPI_MAX_HWCTRS, NULL, 1), 1);
    WANT(PAPI_get_opt(PAPI_MAX_MPX_CTRS, NULL), 32);
    WANT(PAPI_get_cmp_opt(PAPI_MAX_HWCTRS, NULL, 9), PAPI_ECMP);
    WANT(PAPI_get_cmp_opt(PAPI_DOMAIN, NULL, 0), PAPI_EINVAL);
    WANT(PAPI_get_opt(PAPI_PRELOAD, &o), PAPI_OK);
    WANT(strcmp(o.preload.lib_preload_env, "LD_PRELOAD"), 0);
    WANT(PAPI_get_opt(PAPI_PRELOAD, NULL), PAPI_EINVAL);
    WANT(PAPI_get_opt(PAPI_EXEINFO, &o), PAPI_OK);
    WANT(o.exe_info == PAPI_get_executable_info(), 1);
    WANT(PAPI_get_opt(PAPI_HWINFO, &o), PAPI_OK);
    WANT(o.hw_info == PAPI_get_hardware_info(), 1);
    WANT(PAPI_set_opt(PAPI_PRELOAD, &o), PAPI_EINVAL);
    WANT(PAPI_set_opt(PAPI_DOMAIN, NULL), PAPI_EINVAL);
    WANT(PAPI_get_opt(9999, &o), PAPI_EINVAL);
    WANT(PAPI_set_opt(9999, &o), PAPI_EINVAL);
    o.itimer.itimer_num = 1;
    o.itimer.itimer_sig = 26;
    o.itimer.ns = 400;
    WANT(PAPI_set_opt(PAPI_DEF_ITIMER, &o), PAPI_OK);
    memset(&o, 0, sizeof o);
    WANT(PAPI_get_opt(PAPI_DEF_ITIMER, &o), PAPI_OK);
    WANT(o.itimer.itimer_sig, 26);
    WANT(o.itimer.ns, 400);
    o.inherit.eventset = set;
    o.inherit.inherit = 1;
    WANT(PAPI_set_opt(PAPI_INHERIT, &o), PAPI_ECMP);
    WANT(PAPI_get_opt(PAPI_INHERIT, &o), PAPI_OK);
    WANT(o.inherit.inherit, 0);
    WANT(PAPI_set_opt(PAPI_DATA_ADDRESS, &o), PAPI_ENOSUPP);
    WANT(PAPI_set_opt(PAPI_ATTACH, &o), PAPI_ENOSUPP);
}

int main(void) {
    int set = PAPI_NULL, later = PAPI_NULL;
    void *device = NULL;
    WANT(PAPI_get_opt(PAPI_LIB_VERSION, NULL), PAPI_VERSION);
    WANT(PAPI_get_opt(PAPI_MAX_HWCTRS, NULL), PAPI_ENOINIT);
    WANT(PAPI_set_opt(PAPI_DOMAIN, &o), PAPI_ENOINIT);
    WANT(PAPI_multiplex_init(), PAPI_ENOINIT);
    WANT(PAPI_enum_dev_type(PAPI_DEV_TYPE_ENUM__CPU, &device), PAPI_ENOINIT);
    WANT(PAPI_library_init(PAPI_VERSION_NUMBER(7, 2, 0, 0)), PAPI_VERSION_NUMBER(7, 2, 0, 0));
    WANT(PAPI_create_eventset(&set), PAPI_OK);
    domains(set);
    granularities(set);
    multiplexing(set);
    others(set);
    /* a set takes the domain of the component that it is bound to */
    WANT(PAPI_create_eventset(&later), PAPI_OK);
    WANT(PAPI_assign_eventset_component(later, 1), PAPI_OK);
    o.domain.eventset = later;
    WANT(PAPI_get_opt(PAPI_DOMAIN, &o), PAPI_OK);
    WANT(o.domain.domain, PAPI_DOM_KERNEL);
    PAPI_shutdown();
    puts("each as wanted");
    return 0;
}
