/* One package on many threads, in both ways of docs/C.md ("Threads"): a handle that goes from thread to thread, one call at a time under a
 * lock, and handles of each thread's own. It is built under the thread sanitizer, and run under helgrind.
 */
#include "shop.h"
#include "witcall.h"
#include <pthread.h>
#include <stdbool.h>
#include <stdio.h>
#include <stdlib.h>
#include <string.h>

#define BYTES(text) (const uint8_t *)(text), strlen(text)
#define THREADS 4
#define CALLS 200

static pthread_mutex_t lock = PTHREAD_MUTEX_INITIALIZER;
static witcall_package shared = WITCALL_NONE;

/* Whether what the package has is told, and a call asks for its blocks. */
static bool works(witcall_package *package) {
    uint8_t memory[64] = "tea", name[64];
    witcall_value flats[DEMO_SHOP_DESK_ORDER_FLATS];
    demo_shop_desk_order_parameters given = {.customer = {.address = 0, .length = 3}};
    demo_shop_desk_order_fill(flats, &given, 16);
    witcall_status found = witcall_find(package, BYTES(DEMO_SHOP_DESK_INTERFACE), BYTES(DEMO_SHOP_DESK_ORDER_NAME));
    witcall_status asked = witcall_enter_requests(
        package, found.count, flats, DEMO_SHOP_DESK_ORDER_FLATS, memory, sizeof memory, NULL, 0, sizeof memory);
    witcall_status owner = witcall_owner_name(package, WITCALL_INTERFACE, 0, name, sizeof name);
    return found.code == WITCALL_DONE && asked.code == WITCALL_DONE && owner.code == WITCALL_DONE;
}

static void *use_shared(void *failed) {
    for (int i = 0; i < CALLS; i++) {
        pthread_mutex_lock(&lock);
        if (!works(&shared))
            *(bool *)failed = true;
        pthread_mutex_unlock(&lock);
    }
    return NULL;
}

static void *use_own(void *failed) {
    witcall_package own = WITCALL_NONE;
    witcall_open(BYTES(demo_shop_text), &own);
    for (int i = 0; i < CALLS; i++)
        if (!works(&own))
            *(bool *)failed = true;
    witcall_close(&own);
    return NULL;
}

/* A thread opens the shared handle, which another one closes. */
static void *open_shared(void *failed) {
    if (witcall_open(BYTES(demo_shop_text), &shared).code != WITCALL_DONE)
        *(bool *)failed = true;
    return NULL;
}

static void *close_shared(void *failed) {
    if (!works(&shared))
        *(bool *)failed = true;
    witcall_close(&shared);
    return NULL;
}

static bool all_work(const char *name, void *(*run)(void *), int count) {
    pthread_t threads[THREADS];
    bool failed[THREADS] = {false}, any = false;
    for (int i = 0; i < count; i++)
        if (pthread_create(&threads[i], NULL, run, &failed[i]) != 0)
            exit(2);
    for (int i = 0; i < count; i++) {
        pthread_join(threads[i], NULL);
        any |= failed[i];
    }
    printf("%s: %s\n", name, any ? "FAILED" : "ok");
    return !any;
}

int main(void) {
    bool opened = all_work("opened by a thread", open_shared, 1);
    bool used = all_work("one handle under a lock", use_shared, THREADS);
    bool closed = all_work("closed by another thread", close_shared, 1);
    bool own = all_work("a handle of each thread", use_own, THREADS);
    return !(opened && used && closed && own);
}
