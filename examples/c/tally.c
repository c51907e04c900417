/* Reads lines `u v` from standard input; others are passed over. The core numbers are certified in two pieces, each with counts of its own,
 * as two machines would have them. Then each number is changed by one, and has to be refused; and so has each edge that is wrong. */
#include "kcore.h"
#include <inttypes.h>
#include <stdio.h>
#include <stdlib.h>

enum { MOST = 1 << 20 }; /* edges and vertices */

/* A list of edges and the claim on their graph. */
struct claim {
    uint32_t vertices;
    const struct kcore_edge *edges;
    size_t len;
    uint32_t *core, *rank;
};

static int by_ends(const void *first, const void *second) {
    const struct kcore_edge *e = first, *f = second;
    if (e->u != f->u)
        return e->u < f->u ? -1 : 1;
    return (e->v > f->v) - (e->v < f->v);
}

/* Ascending, the lesser end first, without loops and repeats. Returns how many are left. */
static size_t put_in_order(struct kcore_edge *edges, size_t len) {
    size_t kept = 0;
    for (size_t i = 0; i < len; i++)
        if (edges[i].u != edges[i].v) {
            struct kcore_edge e = edges[i];
            edges[kept++] = e.u < e.v ? e : (struct kcore_edge){e.v, e.u};
        }
    qsort(edges, kept, sizeof *edges, by_ends);
    len = kept;
    kept = 0;
    for (size_t i = 0; i < len; i++)
        if (kept == 0 || by_ends(&edges[kept - 1], &edges[i]) != 0)
            edges[kept++] = edges[i];
    return kept;
}

/* Counts one piece. */
static struct kcore_answer count(const struct claim *claim, struct kcore_edge after, const struct kcore_edge *edges, size_t len,
                                 uint32_t *counts) {
    uint32_t n = claim->vertices;
    return kcore_tally(n, after, edges, len, claim->core, n, claim->rank, n, counts, 2 * (size_t)n);
}

/* The verdict on the sums of the counts of two pieces: the edges whose lesser end is below a quarter of the vertices, and the others. */
static uint32_t in_two_pieces(const struct claim *claim) {
    uint32_t n = claim->vertices, quarter = n / 4;
    size_t cut = 0;
    while (cut < claim->len && claim->edges[cut].u < quarter)
        cut++;
    size_t places = 2 * (size_t)n;
    uint32_t *counts = calloc(2 * places + 1, sizeof *counts);
    if (!counts)
        exit(EXIT_FAILURE);
    uint32_t *others = counts + places;
    struct kcore_edge begin = {0, 0}, gate = {quarter, 0};
    struct kcore_answer answer = count(claim, begin, claim->edges, cut, counts);
    if (answer.status == KCORE_DONE)
        answer = count(claim, gate, claim->edges + cut, claim->len - cut, others);
    for (size_t i = 0; i < places; i++)
        counts[i] += others[i];
    if (answer.status == KCORE_DONE)
        answer = kcore_verdict(n, claim->core, n, counts, places);
    free(counts);
    return answer.status;
}

/* How many verdicts are refused when one number is one less or one more. Of 0 it becomes the greatest number. */
static uint32_t wrong_numbers_refused(const struct claim *claim) {
    uint32_t refused = 0;
    for (uint32_t v = 0; v < claim->vertices; v++) {
        uint32_t right = claim->core[v];
        claim->core[v] = right - 1;
        refused += in_two_pieces(claim) == KCORE_NOT_AGREED;
        claim->core[v] = right + 1;
        refused += in_two_pieces(claim) == KCORE_NOT_AGREED;
        claim->core[v] = right;
    }
    return refused;
}

/* Each wrong piece gets its status, and nothing is counted. */
static void show_wrong_pieces(const struct claim *claim) {
    uint32_t n = claim->vertices;
    struct kcore_edge begin = {0, 0}, gate = {1, 0}, twice[] = {{0, 1}, {0, 1}}, loop[] = {{1, 1}}, turned[] = {{1, 0}}, past[] = {{0, n}};
    uint32_t *zeros = calloc(2 * (size_t)n + 1, sizeof *zeros);
    if (!zeros)
        exit(EXIT_FAILURE);
    printf("edge twice %" PRIu32, count(claim, begin, twice, 2, zeros).status);
    printf(" loop %" PRIu32, count(claim, begin, loop, 1, zeros).status);
    printf(" turned %" PRIu32, count(claim, begin, turned, 1, zeros).status);
    printf(" past the vertices %" PRIu32, count(claim, begin, past, 1, zeros).status);
    printf(" before its range %" PRIu32 "\n", count(claim, gate, twice, 1, zeros).status);
    for (size_t i = 0; i < 2 * (size_t)n; i++)
        if (zeros[i] != 0)
            printf("an edge of a refused piece was counted\n");
    printf("few counts %" PRIu32, kcore_tally(n, begin, loop, 1, claim->core, n, claim->rank, n, zeros, n).status);
    printf(" verdict %" PRIu32 "\n", kcore_verdict(n, claim->core, n, zeros, n).status);
    free(zeros);
}

int main(void) {
    static struct kcore_edge edges[MOST], e;
    static uint32_t core[MOST], order[MOST], rank[MOST];
    struct claim claim = {0, edges, 0, core, rank};
    char line[256];
    while (claim.len < MOST && fgets(line, sizeof line, stdin))
        if (sscanf(line, "%" SCNu32 " %" SCNu32, &e.u, &e.v) == 2 && e.u < MOST && e.v < MOST) {
            edges[claim.len++] = e;
            claim.vertices = e.u >= claim.vertices ? e.u + 1 : claim.vertices;
            claim.vertices = e.v >= claim.vertices ? e.v + 1 : claim.vertices;
        }
    uint32_t n = claim.vertices;
    if (kcore_degeneracy_order(n, edges, claim.len, core, n, order, n).status != KCORE_DONE)
        return EXIT_FAILURE;
    for (uint32_t place = 0; place < n; place++)
        rank[order[place]] = place;
    claim.len = put_in_order(edges, claim.len);
    printf("vertices %" PRIu32 " edges %zu verdict %" PRIu32, n, claim.len, in_two_pieces(&claim));
    printf(" wrong numbers refused %" PRIu32 " of %" PRIu32 "\n", wrong_numbers_refused(&claim), 2 * n);
    show_wrong_pieces(&claim);
    return EXIT_SUCCESS;
}
