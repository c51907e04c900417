/* Reads lines `u v` from standard input and writes a line `vertex core` for each vertex up to the greatest that is named. Blank lines and
 * lines that begin with # or % are passed over; any other line that is not two vertices is refused, and nothing is written then. The
 * numbers come with an order that certifies them, and the certificate is checked. */
#define _POSIX_C_SOURCE 200809L
#include "kcore.h"
#include <errno.h>
#include <inttypes.h>
#include <stdio.h>
#include <stdlib.h>
#include <string.h>
#include <sys/types.h>

/* A list of edges that grows, and one more than the greatest vertex that is named. */
struct graph {
    struct kcore_edge *edges;
    size_t len, room;
    uint32_t vertices;
};

static const char *text_of(uint32_t status) {
    switch (status) {
    case KCORE_NOT_A_VERTEX:
        return "an end of an edge is no vertex";
    case KCORE_NO_MEMORY:
        return "no memory";
    case KCORE_NOT_CERTIFIED:
        return "the order does not certify the numbers";
    default:
        return "a list has the wrong length";
    }
}

static int told(const char *call, struct kcore_answer answer) {
    if (answer.status != KCORE_DONE)
        fprintf(stderr, "%s: %s (%zu)\n", call, text_of(answer.status), answer.number);
    return answer.status == KCORE_DONE;
}

/* The vertex that the text begins with, after blanks, and where the text goes on; 0 where there is none. The greatest number of 32 bits
 * is none, since there can be as many vertices only, and the first is 0. */
static int vertex_of(const char **text, uint32_t *vertex) {
    const char *from = *text + strspn(*text, " \t");
    char *end;
    if (*from < '0' || *from > '9')
        return 0;
    errno = 0;
    unsigned long long number = strtoull(from, &end, 10);
    if (errno != 0 || number >= UINT32_MAX)
        return 0;
    *vertex = (uint32_t)number;
    *text = end;
    return 1;
}

/* The edge of a line that has two vertices and nothing else; 0 where it has not. */
static int edge_of(const char *line, struct kcore_edge *edge) {
    if (!vertex_of(&line, &edge->u) || (*line != ' ' && *line != '\t') || !vertex_of(&line, &edge->v))
        return 0;
    return line[strspn(line, " \t\r\n")] == '\0';
}

/* Adds an edge at the end; 0 where there is no memory. */
static int add(struct graph *graph, struct kcore_edge edge) {
    if (graph->len == graph->room) {
        size_t room = 2 * graph->room;
        struct kcore_edge *more = realloc(graph->edges, room * sizeof *more);
        if (!more)
            return 0;
        graph->edges = more;
        graph->room = room;
    }
    graph->edges[graph->len++] = edge;
    if (edge.u >= graph->vertices)
        graph->vertices = edge.u + 1;
    if (edge.v >= graph->vertices)
        graph->vertices = edge.v + 1;
    return 1;
}

/* Reads all lines; 0, and a message, where one is refused, memory runs out or the input can't be read to its end. */
static int read_all(struct graph *graph) {
    char *line = NULL;
    size_t room = 0, number = 0;
    ssize_t len;
    int well = 1;
    while (well && (errno = 0, len = getline(&line, &room, stdin)) >= 0) {
        struct kcore_edge edge;
        number++;
        if (line[0] == '#' || line[0] == '%' || (size_t)len == strspn(line, " \t\r\n"))
            continue;
        if (strlen(line) != (size_t)len || !edge_of(line, &edge))
            well = 0, fprintf(stderr, "line %zu: this is not two vertices, which are numbers from 0 to 4294967294\n", number);
        else if (!add(graph, edge))
            well = 0, fprintf(stderr, "line %zu: there is no memory for its edge\n", number);
    }
    if (well && !feof(stdin))
        well = 0, fprintf(stderr, "standard input: %s after line %zu\n", strerror(errno), number);
    free(line);
    return well;
}

/* Writes the core numbers; 0, and a message, where a call is refused or a write fails. */
static int write_numbers(const struct graph *graph) {
    /* One place more, so that neither pointer is null where there is no vertex. calloc, since results have to hold numbers already. */
    uint32_t vertices = graph->vertices;
    uint32_t *core = calloc((size_t)vertices + 1, sizeof *core);
    uint32_t *order = calloc((size_t)vertices + 1, sizeof *order);
    int well = core && order;
    if (!well)
        fprintf(stderr, "there is no memory for the numbers of %" PRIu32 " vertices\n", vertices);
    well = well
           && told("kcore_degeneracy_order",
                   kcore_degeneracy_order(vertices, graph->edges, graph->len, core, vertices, order, vertices))
           && told("kcore_check", kcore_check(vertices, graph->edges, graph->len, core, vertices, order, vertices));
    for (uint32_t v = 0; well && v < vertices; v++)
        printf("%" PRIu32 " %" PRIu32 "\n", v, core[v]);
    if (well && fflush(stdout) != 0)
        well = 0, fprintf(stderr, "standard output: %s\n", strerror(errno));
    free(order);
    free(core);
    return well;
}

int main(void) {
    if (kcore_version() != KCORE_VERSION)
        return fprintf(stderr, "the library is of version %#" PRIx32 ", and this program is for %#x\n", kcore_version(), KCORE_VERSION), 1;
    struct graph graph = {malloc(sizeof *graph.edges), 0, 1, 0};
    if (!graph.edges)
        return fprintf(stderr, "there is no memory for the edges\n"), 1;
    int well = read_all(&graph) && write_numbers(&graph);
    free(graph.edges);
    return well ? 0 : 1;
}
