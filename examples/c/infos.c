/* Threads ask for what is known of the components, and read it. One component is disabled, and none
 * of them gets an event of it. */
#include "papi.h"
#include "wanted.h"
#include <pthread.h>

#define THREADS 4
#define TURNS 200

static void *read_infos(void *unused) {
    int set = PAPI_NULL;
    WANT(PAPI_create_eventset(&set), PAPI_OK);
    for (int i = 0; i < TURNS; i++) {
        const PAPI_component_info_t *info = PAPI_get_component_info(0);
        WANT(info != NULL, 1);
        WANT(info->default_domain, PAPI_DOM_USER);
        WANT(info->num_cntrs, 3);
        WANT(info->initialized, 1);
        WANT(PAPI_add_named_event(set, "PACKETS"), PAPI_ENOEVNT);
        WANT(PAPI_get_hardware_info()->ncpu, 1);
        WANT(PAPI_get_shared_lib_info() != NULL, 1);
        WANT(PAPI_get_executable_info()->fullname[0] == '/', 1);
    }
    WANT(PAPI_destroy_eventset(&set), PAPI_OK);
    return unused;
}

int main(void) {
    pthread_t threads[THREADS];
    WANT(PAPI_disable_component_by_name("net"), PAPI_OK);
    WANT(PAPI_disable_component(15), PAPI_OK); /* which is not there */
    WANT(PAPI_library_init(PAPI_VER_CURRENT), PAPI_VER_CURRENT);
    for (int i = 0; i < THREADS; i++) WANT(pthread_create(&threads[i], NULL, read_infos, NULL), 0);
    for (int i = 0; i < THREADS; i++) WANT(pthread_join(threads[i], NULL), 0);
    PAPI_shutdown();
    puts("each is as it was");
    return 0;
}
