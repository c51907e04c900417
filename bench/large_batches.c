/* Times batches of a keeper by their length: as one batch, and cut into batches of fifty, which a keeper enters update by update.
 * usage: large_batches FILE RUNS    (an edge list; the least processor time of so many runs counts)
 * Some of the edges, drawn without order, are left out at the start and added by the batch. A line for each share of the edges tells how
 * many updates there are, and how many milliseconds and microseconds an update both ways take.
 *
 *     c/build.sh && cc -O2 -Iinclude bench/large_batches.c build/libkcore.a -o bench/build/large_batches
 */
#include "kcore.h"

#include <stdio.h>
#include <stdlib.h>
#include <string.h>
#include <time.h>

enum { CUT = 50 };

static struct kcore_edge *edges;
static size_t edge_count;
static uint32_t vertices;

static void fail(const char *why) {
    fprintf(stderr, "large_batches: %s\n", why);
    exit(1);
}

static double processor_seconds(void) {
    struct timespec now;
    if (clock_gettime(CLOCK_PROCESS_CPUTIME_ID, &now) != 0) fail("there is no clock");
    return (double)now.tv_sec + (double)now.tv_nsec * 1e-9;
}

/* xorshift64 (Marsaglia 2003) */
static uint64_t draw(void) {
    static uint64_t state = 88172645463325252u;
    state ^= state << 13;
    state ^= state >> 7;
    state ^= state << 17;
    return state;
}

static int compare(const void *a, const void *b) {
    const struct kcore_edge *e = a, *f = b;
    return e->u != f->u ? (e->u > f->u) - (e->u < f->u) : (e->v > f->v) - (e->v < f->v);
}

/* Reads the edges, each once, and puts them in a drawn order. */
static void read_edges(const char *name) {
    FILE *file = fopen(name, "r");
    if (file == NULL) fail("the file can't be opened");
    size_t room = 1 << 20, kept = 0;
    char line[256];
    edges = malloc(room * sizeof *edges);
    while (edges != NULL && fgets(line, sizeof line, file) != NULL) {
        unsigned a, b;
        if (sscanf(line, "%u %u", &a, &b) != 2 || a == b) continue;
        if (edge_count == room) edges = realloc(edges, (room *= 2) * sizeof *edges);
        if (edges == NULL) break;
        edges[edge_count].u = a < b ? a : b;
        edges[edge_count].v = a < b ? b : a;
        if (edges[edge_count].v >= vertices) vertices = edges[edge_count].v + 1;
        edge_count++;
    }
    fclose(file);
    if (edges == NULL || edge_count == 0) fail("there are no edges, or there is no memory for them");
    qsort(edges, edge_count, sizeof *edges, compare);
    for (size_t i = 0; i < edge_count; i++)
        if (i == 0 || compare(&edges[i], &edges[kept - 1]) != 0) edges[kept++] = edges[i];
    edge_count = kept;
    for (size_t i = edge_count - 1; i > 0; i--) {
        size_t j = (size_t)(draw() % (i + 1));
        struct kcore_edge other = edges[i];
        edges[i] = edges[j];
        edges[j] = other;
    }
}

/* The seconds that a keeper takes to add the last edges in batches of at most `size`. */
static double seconds_of(const struct kcore_update *updates, size_t count, size_t size) {
    size_t align = kcore_keeper_align();
    char *bytes = malloc(kcore_keeper_size() + align);
    if (bytes == NULL) fail("there is no memory");
    struct kcore_keeper *keeper = (struct kcore_keeper *)(((uintptr_t)bytes + align - 1) / align * align);
    if (kcore_keeper_open(keeper, vertices, edges, edge_count - count).status != KCORE_DONE) fail("the keeper was not opened");
    double begun = processor_seconds();
    for (size_t i = 0; i < count; i += size)
        if (kcore_keeper_apply(keeper, updates + i, count - i < size ? count - i : size).status != KCORE_DONE) fail("a batch was not made");
    double taken = processor_seconds() - begun;
    kcore_keeper_end(keeper);
    free(bytes);
    return taken;
}

static double least_of(int runs, const struct kcore_update *updates, size_t count, size_t size) {
    double least = seconds_of(updates, count, size);
    for (int run = 1; run < runs; run++) {
        double taken = seconds_of(updates, count, size);
        if (taken < least) least = taken;
    }
    return least;
}

int main(int argc, char **argv) {
    static const size_t shares[] = {400, 200, 100, 60, 45, 38, 30, 20, 10, 5, 1};
    if (argc != 3 || atoi(argv[2]) < 1) fail("usage: large_batches FILE RUNS");
    read_edges(argv[1]);
    struct kcore_update *updates = malloc(edge_count * sizeof *updates);
    if (updates == NULL) fail("there is no memory");
    printf("%s: %u vertices, %zu edges\n", argv[1], vertices, edge_count);
    for (size_t i = 0; i < sizeof shares / sizeof *shares; i++) {
        size_t count = edge_count / shares[i];
        if (count == 0) continue;
        for (size_t k = 0; k < count; k++) {
            struct kcore_edge edge = edges[edge_count - count + k];
            updates[k] = (struct kcore_update){edge.u, edge.v, 1};
        }
        double one = least_of(atoi(argv[2]), updates, count, count), cut = least_of(atoi(argv[2]), updates, count, CUT);
        printf("1/%zu: %zu updates, as one batch %.1f ms, %.2f us each; in batches of %d %.1f ms, %.2f us each\n", shares[i], count, one * 1e3,
               one * 1e6 / (double)count, CUT, cut * 1e3, cut * 1e6 / (double)count);
        fflush(stdout);
    }
    free(updates);
    free(edges);
    return 0;
}
