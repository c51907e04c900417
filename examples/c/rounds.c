/* Reads lines `u v` from standard input; others are passed over. Finds the core numbers by rounds of h-indices in two shards, as two machines
 * would make them, and writes a line `v number` for each vertex, and how many rounds there were. Then each shard that is wrong has to be
 * refused. */
#include "kcore.h"
#include <inttypes.h>
#include <stdio.h>
#include <stdlib.h>
#include <string.h>

enum { MOST = 1 << 20 }; /* edges and vertices */

/* The rows of the vertices from `first` on. */
struct shard {
    uint32_t first, rows;
    uint64_t *offsets;
    uint32_t *neighbours, *next;
};

static int by_ends(const void *first, const void *second) {
    const struct kcore_edge *e = first, *f = second;
    if (e->u != f->u)
        return e->u < f->u ? -1 : 1;
    return (e->v > f->v) - (e->v < f->v);
}

/* Each edge in both directions, ascending, without loops and repeats. Returns how many these are. */
static size_t put_both_ways(struct kcore_edge *edges, size_t len) {
    size_t kept = 0, ends;
    for (size_t i = 0; i < len; i++)
        if (edges[i].u != edges[i].v)
            edges[kept++] = edges[i];
    for (size_t i = 0; i < kept; i++)
        edges[kept + i] = (struct kcore_edge){edges[i].v, edges[i].u};
    ends = 2 * kept;
    qsort(edges, ends, sizeof *edges, by_ends);
    kept = 0;
    for (size_t i = 0; i < ends; i++)
        if (kept == 0 || by_ends(&edges[kept - 1], &edges[i]) != 0)
            edges[kept++] = edges[i];
    return kept;
}

static void *room(size_t len, size_t size) {
    void *made = calloc(len + 1, size);
    if (!made)
        exit(EXIT_FAILURE);
    return made;
}

/* The shard of so many rows from `first` on. Its vertices begin with their degrees. */
static struct shard shard_of(const struct kcore_edge *ends, size_t len, uint32_t first, uint32_t rows) {
    struct shard shard = {first, rows, room((size_t)rows + 1, 8), room(len, 4), room(rows, 4)};
    uint64_t entries = 0;
    size_t i = 0;
    while (i < len && ends[i].u < first)
        i++;
    for (uint32_t row = 0; row < rows; row++) {
        for (; i < len && ends[i].u == first + row; i++)
            shard.neighbours[entries++] = ends[i].v;
        shard.offsets[row + 1] = entries;
        shard.next[row] = (uint32_t)(entries - shard.offsets[row]);
    }
    return shard;
}

/* A round of a shard, and how many of its numbers changed. */
static size_t changed_in(struct shard *shard, const uint32_t *numbers, uint32_t vertices) {
    struct kcore_answer answer = kcore_h_index_round(shard->offsets, (size_t)shard->rows + 1, shard->neighbours, shard->offsets[shard->rows],
                                                     numbers, vertices, shard->next, shard->rows);
    if (answer.status != KCORE_DONE)
        exit(EXIT_FAILURE);
    return answer.number;
}

/* What the machines send to all others between two rounds. */
static void gather(uint32_t *numbers, const struct shard *shards) {
    for (int i = 0; i < 2; i++)
        memcpy(numbers + shards[i].first, shards[i].next, shards[i].rows * sizeof *numbers);
}

/* The status for two rows with three entries, of a graph with three vertices, and the number that goes with it. */
static void show_wrong(const char *what, const uint64_t *offsets, size_t len) {
    uint32_t neighbours[3] = {0, 2, 3}, numbers[3] = {1, 1, 1}, next[2] = {7, 7};
    struct kcore_answer answer = kcore_h_index_round(offsets, len, neighbours, 3, numbers, 3, next, 2);
    printf("%s %" PRIu32 " %zu\n", what, answer.status, answer.number);
    if (next[0] != 7 || next[1] != 7)
        printf("a round of a wrong shard was written\n");
}

int main(void) {
    static struct kcore_edge edges[2 * MOST], e;
    static uint32_t numbers[MOST], core[MOST];
    uint32_t n = 0;
    size_t len = 0, rounds = 0, changed = 1;
    char line[256];
    while (len < MOST && fgets(line, sizeof line, stdin))
        if (sscanf(line, "%" SCNu32 " %" SCNu32, &e.u, &e.v) == 2 && e.u < MOST && e.v < MOST) {
            edges[len++] = e;
            n = e.u >= n ? e.u + 1 : n;
            n = e.v >= n ? e.v + 1 : n;
        }
    if (kcore_core_numbers(n, edges, len, core, n).status != KCORE_DONE)
        return EXIT_FAILURE;
    len = put_both_ways(edges, len);
    struct shard shards[2] = {shard_of(edges, len, 0, n / 3), shard_of(edges, len, n / 3, n - n / 3)};
    gather(numbers, shards);
    for (; changed != 0; rounds++) {
        changed = changed_in(&shards[0], numbers, n) + changed_in(&shards[1], numbers, n);
        gather(numbers, shards);
    }
    for (uint32_t v = 0; v < n; v++)
        printf("%" PRIu32 " %" PRIu32 "\n", v, numbers[v]);
    printf("rounds %zu%s\n", rounds, memcmp(numbers, core, n * sizeof *core) == 0 ? "" : ", and these are not the core numbers");
    show_wrong("no offsets", (uint64_t[]){0}, 0);
    show_wrong("few offsets", (uint64_t[]){0, 3}, 2);
    show_wrong("not from zero", (uint64_t[]){1, 1, 3}, 3);
    show_wrong("descending", (uint64_t[]){0, 2, 1}, 3);
    show_wrong("a long row", (uint64_t[]){0, 0, UINT64_C(1) << 32}, 3);
    show_wrong("not to the end", (uint64_t[]){0, 1, 2}, 3);
    show_wrong("past the end", (uint64_t[]){0, 1, 4}, 3);
    show_wrong("no vertex", (uint64_t[]){0, 1, 3}, 3);
    for (int i = 0; i < 2; i++) {
        free(shards[i].offsets);
        free(shards[i].neighbours);
        free(shards[i].next);
    }
    return EXIT_SUCCESS;
}
