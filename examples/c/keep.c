/* Keeps a graph from standard input. A line `+ a b` adds the edge between two vertices, a line `- a b` removes it, and a blank line ends a
 * batch, as does the end of the input. Lines that begin with # are passed over; any other line is refused. After each batch it writes a
 * line `batch NUMBER changed COUNT`, with how many of its lines changed the graph, and a line `vertex before after` for each vertex whose
 * core number is another one now. Vertices are numbers below KCORE_KEEPER_VERTICES, and a vertex that was not named has core number 0. */
#define _POSIX_C_SOURCE 200809L
#include "kcore.h"
#include <errno.h>
#include <inttypes.h>
#include <stdio.h>
#include <stdlib.h>
#include <string.h>
#include <sys/types.h>

/* The keeper, and the updates of this batch. */
struct kept {
    struct kcore_keeper *keeper;
    uint32_t vertices, wanted; /* how many there are, and how many the updates need */
    struct kcore_update *updates;
    size_t len, room;
    size_t batch;
};

static const char *text_of(uint32_t status) {
    switch (status) {
    case KCORE_NO_MEMORY:
        return "no memory";
    case KCORE_NOT_A_VERTEX:
        return "an end of an update is no vertex";
    case KCORE_TOO_MANY_VERTICES:
        return "too many vertices";
    default:
        return "this call is wrong here";
    }
}

static int told(const char *call, struct kcore_answer answer) {
    if (answer.status != KCORE_DONE)
        fprintf(stderr, "%s: %s (%zu)\n", call, text_of(answer.status), answer.number);
    return answer.status == KCORE_DONE;
}

/* The vertex that the text begins with, after blanks, and where the text goes on; 0 where there is none. */
static int vertex_of(const char **text, uint32_t *vertex) {
    const char *from = *text + strspn(*text, " \t");
    char *end;
    if (*from < '0' || *from > '9')
        return 0;
    errno = 0;
    unsigned long number = strtoul(from, &end, 10);
    if (errno != 0 || number >= KCORE_KEEPER_VERTICES)
        return 0;
    *vertex = (uint32_t)number;
    *text = end;
    return 1;
}

/* The update of a line `+ a b` or `- a b`; 0 where it is none. */
static int update_of(const char *line, struct kcore_update *update) {
    if ((line[0] != '+' && line[0] != '-') || (line[1] != ' ' && line[1] != '\t'))
        return 0;
    update->add = line[0] == '+';
    line++;
    if (!vertex_of(&line, &update->u) || (*line != ' ' && *line != '\t') || !vertex_of(&line, &update->v))
        return 0;
    return line[strspn(line, " \t\r\n")] == '\0';
}

/* Puts an update behind the others of its batch; 0 where there is no memory. */
static int put(struct kept *kept, struct kcore_update update) {
    if (kept->len == kept->room) {
        size_t room = 2 * kept->room;
        struct kcore_update *more = realloc(kept->updates, room * sizeof *more);
        if (!more)
            return 0;
        kept->updates = more;
        kept->room = room;
    }
    kept->updates[kept->len++] = update;
    if (update.u >= kept->wanted)
        kept->wanted = update.u + 1;
    if (update.v >= kept->wanted)
        kept->wanted = update.v + 1;
    return 1;
}

/* Adds the vertices that the batch needs, with core number 0. */
static int grow(struct kept *kept) {
    if (kept->wanted <= kept->vertices)
        return 1;
    if (!told("kcore_keeper_grow", kcore_keeper_grow(kept->keeper, kept->wanted)))
        return 0;
    kept->vertices = kept->wanted;
    return 1;
}

/* Writes whose core number changed, as many at a time as there is room for. */
static int write_changes(const struct kept *kept) {
    enum { ROOM = 256 };
    struct kcore_change changes[ROOM] = {{0}};
    size_t from = 0;
    for (;;) {
        struct kcore_answer answer = kcore_keeper_changes(kept->keeper, from, changes, ROOM);
        if (!told("kcore_keeper_changes", answer))
            return 0;
        size_t left = answer.number - from, len = left < ROOM ? left : ROOM;
        for (size_t i = 0; i < len; i++)
            printf("%" PRIu32 " %" PRIu32 " %" PRIu32 "\n", changes[i].vertex, changes[i].before, changes[i].now);
        from += len;
        if (from == answer.number)
            return 1;
    }
}

/* Makes the batch, and writes what changed; 0, and a message, where a call is refused or a write fails. */
static int end_batch(struct kept *kept) {
    if (kept->len == 0)
        return 1;
    if (!grow(kept))
        return 0;
    struct kcore_answer answer = kcore_keeper_apply(kept->keeper, kept->updates, kept->len);
    if (!told("kcore_keeper_apply", answer))
        return 0;
    printf("batch %zu changed %zu\n", ++kept->batch, answer.number);
    kept->len = 0;
    if (!write_changes(kept))
        return 0;
    return fflush(stdout) == 0 || (fprintf(stderr, "standard output: %s\n", strerror(errno)), 0);
}

/* Reads all lines, and makes each batch as it ends. */
static int read_all(struct kept *kept) {
    char *line = NULL;
    size_t room = 0, number = 0;
    ssize_t len;
    int well = 1;
    while (well && (errno = 0, len = getline(&line, &room, stdin)) >= 0) {
        struct kcore_update update;
        number++;
        if (line[0] == '#')
            continue;
        if ((size_t)len == strspn(line, " \t\r\n"))
            well = end_batch(kept);
        else if (strlen(line) != (size_t)len || !update_of(line, &update))
            well = 0, fprintf(stderr, "line %zu: this is not '+ a b' or '- a b' of vertices below %u\n", number, KCORE_KEEPER_VERTICES);
        else if (!put(kept, update))
            well = 0, fprintf(stderr, "line %zu: there is no memory for its update\n", number);
    }
    if (well && !feof(stdin))
        well = 0, fprintf(stderr, "standard input: %s after line %zu\n", strerror(errno), number);
    free(line);
    return well && end_batch(kept);
}

int main(void) {
    if (kcore_version() != KCORE_VERSION)
        return fprintf(stderr, "the library is of version %#" PRIx32 ", and this program is for %#x\n", kcore_version(), KCORE_VERSION), 1;
    /* malloc aligns to any kcore_keeper_align() that can be: at most 16. */
    struct kept kept = {malloc(kcore_keeper_size()), 0, 0, malloc(sizeof *kept.updates), 0, 1, 0};
    struct kcore_edge none = {0, 0};
    int well = kept.keeper && kept.updates;
    if (!well)
        fprintf(stderr, "there is no memory for a keeper\n");
    if (well) {
        well = told("kcore_keeper_open", kcore_keeper_open(kept.keeper, 0, &none, 0)) && read_all(&kept);
        kcore_keeper_end(kept.keeper);
    }
    free(kept.updates);
    free(kept.keeper);
    return !well;
}
