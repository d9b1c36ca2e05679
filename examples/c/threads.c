/* Eight threads, each with its stream and its sets. */
#include "papi.h"
#include "wanted.h"
#include <pthread.h>

static unsigned long own_id(void) { return (unsigned long)pthread_self(); }

static void *work(void *result) {
    int set = PAPI_NULL;
    WANT(PAPI_register_thread(), PAPI_OK);
    WANT(PAPI_create_eventset(&set), PAPI_OK);
    WANT(PAPI_add_named_event(set, "INST_RETIRED"), PAPI_OK);
    WANT(PAPI_start(set), PAPI_OK);
    WANT(PAPI_unregister_thread(), PAPI_EISRUN);
    WANT(kistalub_go(5, NULL), PAPI_OK);
    WANT(PAPI_stop(set, result), PAPI_OK);
    WANT(PAPI_unregister_thread(), PAPI_OK);
    return NULL;
}

int main(void) {
    pthread_t threads[8];
    long long counts[8];
    int number = 0;
    long long sum = 0;
    WANT(PAPI_library_init(PAPI_VER_CURRENT), PAPI_VER_CURRENT);
    WANT(PAPI_thread_init(own_id), PAPI_OK);
    WANT(PAPI_register_thread(), PAPI_OK);
    for (int i = 0; i < 8; i++) WANT(pthread_create(&threads[i], NULL, work, &counts[i]), 0);
    for (int i = 0; i < 8; i++) WANT(pthread_join(threads[i], NULL), 0);
    for (int i = 0; i < 8; i++) sum += counts[i];
    WANT(PAPI_list_threads(NULL, &number), PAPI_OK);
    printf("%lld instructions in eight threads, %d thread registered\n", sum, number);
    PAPI_shutdown();
    return 0;
}
