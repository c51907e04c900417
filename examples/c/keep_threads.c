/* Two threads, each with a keeper of its own, make updates at the same time; then they hand the keepers to each other, and go on. Each keeper
 * has to have the core numbers of the edges that were put there, as kcore_core_numbers finds them. */
#define _POSIX_C_SOURCE 200809L /* barriers */
#include "kcore.h"
#include <pthread.h>
#include <stdio.h>
#include <stdlib.h>
#include <string.h>

enum { VERTICES = 200, ROUNDS = 40, UPDATES = 50 };

/* A keeper and the edges that it is to have: there[u][v] where u < v. */
struct kept {
    struct kcore_keeper *keeper;
    unsigned char there[VERTICES][VERTICES];
};

/* What a thread works on, first and after the keepers were handed on, and where its random numbers stand. */
struct worker {
    struct kept *first, *second;
    unsigned long long draw;
    size_t wrong;
};

static pthread_barrier_t handed_on;

static uint32_t drawn(struct worker *worker, uint32_t below) {
    worker->draw = worker->draw * 6364136223846793005ULL + 1442695040888963407ULL;
    return (uint32_t)(worker->draw >> 33) % below;
}

/* A batch of random updates, and whether the keeper has the right numbers after it. */
static int follows(struct worker *worker, struct kept *kept) {
    struct kcore_update updates[UPDATES];
    static _Thread_local struct kcore_edge edges[VERTICES * VERTICES];
    uint32_t core[VERTICES] = {0}, wanted[VERTICES] = {0};
    size_t len = 0;
    for (int i = 0; i < UPDATES; i++) {
        uint32_t u = drawn(worker, VERTICES), v = drawn(worker, VERTICES), add = drawn(worker, 3) != 0;
        updates[i] = (struct kcore_update){u, v, add};
        if (u != v)
            kept->there[u < v ? u : v][u < v ? v : u] = (unsigned char)add;
    }
    for (uint32_t u = 0; u < VERTICES; u++)
        for (uint32_t v = u + 1; v < VERTICES; v++)
            if (kept->there[u][v])
                edges[len++] = (struct kcore_edge){u, v};
    return kcore_keeper_apply(kept->keeper, updates, UPDATES).status == KCORE_DONE &&
           kcore_keeper_core_numbers(kept->keeper, core, VERTICES).status == KCORE_DONE &&
           kcore_core_numbers(VERTICES, edges, len, wanted, VERTICES).status == KCORE_DONE && memcmp(core, wanted, sizeof core) == 0;
}

static void *work(void *given) {
    struct worker *worker = given;
    for (int i = 0; i < ROUNDS; i++)
        worker->wrong += !follows(worker, worker->first);
    /* Here each keeper changes hands: what one thread did before the barrier, the other sees after it. */
    pthread_barrier_wait(&handed_on);
    for (int i = 0; i < ROUNDS; i++)
        worker->wrong += !follows(worker, worker->second);
    return NULL;
}

int main(void) {
    static struct kept kept[2];
    for (int i = 0; i < 2; i++) {
        struct kcore_edge none = {0, 0};
        kept[i].keeper = malloc(kcore_keeper_size());
        if (!kept[i].keeper || kcore_keeper_open(kept[i].keeper, VERTICES, &none, 0).status != KCORE_DONE)
            return EXIT_FAILURE;
    }
    struct worker workers[2] = {{&kept[0], &kept[1], 1, 0}, {&kept[1], &kept[0], 2, 0}};
    pthread_t threads[2];
    if (pthread_barrier_init(&handed_on, NULL, 2) != 0)
        return EXIT_FAILURE;
    for (int i = 0; i < 2; i++)
        if (pthread_create(&threads[i], NULL, work, &workers[i]) != 0)
            return EXIT_FAILURE;
    for (int i = 0; i < 2; i++)
        pthread_join(threads[i], NULL);
    /* Both keepers end in the thread that opened them, after others worked on them. */
    for (int i = 0; i < 2; i++) {
        kcore_keeper_end(kept[i].keeper);
        free(kept[i].keeper);
    }
    pthread_barrier_destroy(&handed_on);
    printf("two threads, two keepers, %d batches of %d updates: %zu are wrong\n", 4 * ROUNDS, UPDATES, workers[0].wrong + workers[1].wrong);
    return workers[0].wrong + workers[1].wrong != 0;
}
