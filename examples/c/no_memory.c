/* Lets each allocation of each call fail in turn. The call has to answer KCORE_NO_MEMORY, leave the results as they were, and free what
 * it took. Linked with --wrap=malloc, --wrap=realloc and --wrap=free. */
#include "kcore.h"
#include <stdio.h>
#include <stdlib.h>

enum { VERTICES = 100, EDGES = 1000, UNTOUCHED = 9999 };

void *__real_malloc(size_t size);
void *__real_realloc(void *block, size_t size);
void __real_free(void *block);
void *__wrap_malloc(size_t size);
void *__wrap_realloc(void *block, size_t size);
void __wrap_free(void *block);

/* How many allocations were asked for in this call, which of them fails, and how many blocks are held. */
static long turn, failing, held;

void *__wrap_malloc(size_t size) {
    if (++turn == failing)
        return NULL;
    void *block = __real_malloc(size);
    held += block != NULL;
    return block;
}

void *__wrap_realloc(void *block, size_t size) {
    if (++turn == failing)
        return NULL;
    void *moved = __real_realloc(block, size);
    held += moved != NULL && block == NULL;
    return moved;
}

void __wrap_free(void *block) {
    held -= block != NULL;
    __real_free(block);
}

static struct kcore_edge edges[EDGES];
static uint64_t offsets[VERTICES + 1];
static uint32_t neighbours[EDGES], core[VERTICES], order[VERTICES];

static struct kcore_answer core_numbers(void) { return kcore_core_numbers(VERTICES, edges, EDGES, core, VERTICES); }
static struct kcore_answer degeneracy_order(void) { return kcore_degeneracy_order(VERTICES, edges, EDGES, core, VERTICES, order, VERTICES); }
static struct kcore_answer check(void) { return kcore_check(VERTICES, edges, EDGES, core, VERTICES, order, VERTICES); }
static struct kcore_answer k_core(void) { return kcore_k_core(VERTICES, edges, EDGES, 3, core, VERTICES); }

static struct kcore_answer core_numbers_csr(void) {
    return kcore_core_numbers_csr(VERTICES, offsets, VERTICES + 1, neighbours, EDGES, core, VERTICES);
}
static struct kcore_answer degeneracy_order_csr(void) {
    return kcore_degeneracy_order_csr(VERTICES, offsets, VERTICES + 1, neighbours, EDGES, core, VERTICES, order, VERTICES);
}
static struct kcore_answer check_csr(void) {
    return kcore_check_csr(VERTICES, offsets, VERTICES + 1, neighbours, EDGES, core, VERTICES, order, VERTICES);
}
static struct kcore_answer k_core_csr(void) {
    return kcore_k_core_csr(VERTICES, offsets, VERTICES + 1, neighbours, EDGES, 3, core, VERTICES);
}

/* The edges as rows, each in that of its first end. */
static void fill_rows(void) {
    uint64_t place = 0;
    for (uint32_t v = 0; v < VERTICES; v++) {
        for (int i = 0; i < EDGES; i++)
            if (edges[i].u == v)
                neighbours[place++] = edges[i].v;
        offsets[v + 1] = place;
    }
}

static int fails_well(const char *name, struct kcore_answer (*call)(void), uint32_t last) {
    for (failing = 1;; failing++) {
        for (int v = 0; v < VERTICES; v++)
            core[v] = order[v] = UNTOUCHED;
        turn = held = 0;
        struct kcore_answer answer = call();
        if (held != 0)
            return printf("%s, allocation %ld fails: %ld blocks are left\n", name, failing, held), 0;
        if (turn < failing && answer.status == last)
            break;
        if (answer.status != KCORE_NO_MEMORY || answer.number != 0)
            return printf("%s, allocation %ld fails: status %u\n", name, failing, (unsigned)answer.status), 0;
        for (int v = 0; v < VERTICES; v++)
            if (core[v] != UNTOUCHED || order[v] != UNTOUCHED)
                return printf("%s, allocation %ld fails: a result is written\n", name, failing), 0;
    }
    printf("%s: each of %ld allocations failed once\n", name, failing - 1);
    return 1;
}

int main(void) {
    for (int i = 0; i < EDGES; i++)
        edges[i] = (struct kcore_edge){(uint32_t)(rand() % VERTICES), (uint32_t)(rand() % VERTICES)};
    fill_rows();
    int well = fails_well("kcore_core_numbers", core_numbers, KCORE_DONE);
    well &= fails_well("kcore_degeneracy_order", degeneracy_order, KCORE_DONE);
    well &= fails_well("kcore_check", check, KCORE_NOT_CERTIFIED);
    well &= fails_well("kcore_k_core", k_core, KCORE_DONE);
    well &= fails_well("kcore_core_numbers_csr", core_numbers_csr, KCORE_DONE);
    well &= fails_well("kcore_degeneracy_order_csr", degeneracy_order_csr, KCORE_DONE);
    well &= fails_well("kcore_check_csr", check_csr, KCORE_NOT_CERTIFIED);
    well &= fails_well("kcore_k_core_csr", k_core_csr, KCORE_DONE);
    return !well;
}
