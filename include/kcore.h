/* Core numbers by proved code.
 *
 * The core number of a vertex is the greatest k for which some set of vertices has it, and gives each member at least k neighbours inside
 * the set (Seidman 1983). Each function below is a thin layer over one whose contract is proved for all inputs.
 *
 * A graph is its number of vertices, which are then the numbers below it, and a list of edges. Loops are dropped, and an edge that is
 * listed again, in either direction, counts once. The list may be in any order. At most 4,294,967,295 vertices are allowed. The functions
 * whose names end with _csr take a graph by rows of neighbours instead. kcore_tally alone takes pieces of a list, in which each edge stands
 * once and in order, and kcore_h_index_round takes some of the rows.
 *
 * What a caller owes, and nothing checks:
 *   - each pointer leads to as many initialized values as the length beside it says, is aligned for their type, and is not null, even
 *     where the length is 0. This holds of results too, since the proof is over places that have values: set them, say to 0, before the
 *     first call, as by `= {0}` or by calloc;
 *   - what a function writes overlaps nothing else that it is given;
 *   - during a call no other thread writes what it is given, or reads what it writes;
 *   - malloc, realloc and free of the program belong together and align to 16;
 *   - no call is made from a signal handler, or in the child of a fork of a process with several threads.
 * All else is tested: no values of the arguments are wrong to pass. A function keeps nothing between calls, but for what lies at the place
 * of a keeper, which has duties of its own (below). Several threads may call at the same time.
 *
 * Each function but kcore_version and three of the keeper's answers a status and a number. Where the status is not KCORE_DONE, nothing was
 * written to the results.
 */
#ifndef KCORE_H
#define KCORE_H

#include <stddef.h>
#include <stdint.h>

#ifdef __cplusplus
extern "C" {
#endif

/* The version that this header is for, 0.1.0: 65536 times its first number, 256 times its second, and its third. */
#define KCORE_VERSION 0x000100u

/* What a compiler warns of where an answer is dropped. */
#if defined(__GNUC__)
#define KCORE_LOOK_AT_ANSWER __attribute__((warn_unused_result))
#else
#define KCORE_LOOK_AT_ANSWER
#endif

/* The version of the library that is linked or loaded. Where it is not KCORE_VERSION, call nothing else of it. */
KCORE_LOOK_AT_ANSWER uint32_t kcore_version(void);

/* Two vertices that are joined. */
struct kcore_edge {
    uint32_t u;
    uint32_t v;
};

/* How a call ended. */
enum kcore_status {
    KCORE_DONE = 0,                 /* The results are written; `number` is what the function says, else 0. */
    KCORE_WRONG_CORE_LENGTH = 1,    /* `core` has not one place for each vertex. */
    KCORE_WRONG_ORDER_LENGTH = 2,   /* `order` has not one place for each vertex. */
    KCORE_WRONG_MEMBERS_LENGTH = 3, /* `members` has not one place for each vertex. */
    KCORE_NOT_A_VERTEX = 4,         /* An end of edges[number] or updates[number], or neighbours[number], is no vertex: the first such. */
    KCORE_NO_MEMORY = 5,            /* There is no memory for the graph or the work. */
    KCORE_NOT_CERTIFIED = 6,        /* kcore_check, kcore_check_csr: the order does not certify the numbers. */
    KCORE_WRONG_RANK_LENGTH = 7,    /* `rank` has not one place for each vertex. */
    KCORE_WRONG_COUNTS_LENGTH = 8,  /* `counts` has not two places for each vertex. No status is 9. */
    KCORE_LOOP = 10,                /* kcore_tally: both ends of edges[number] are the same. */
    KCORE_GREATER_FIRST = 11,       /* kcore_tally: the greater end of edges[number] stands first. */
    KCORE_NOT_ABOVE = 12,           /* kcore_tally: edges[number] is not above the edge before it, or `after`. */
    KCORE_NOT_AGREED = 13,          /* kcore_verdict: the counts do not agree with the numbers. */
    KCORE_NOT_OPEN = 14,            /* kcore_keeper_..: no keeper lies at the place, since it could not be opened. */
    KCORE_TOO_MANY_VERTICES = 15,   /* kcore_keeper_..: there are more than KCORE_KEEPER_VERTICES vertices. */
    KCORE_TOO_FEW_VERTICES = 16,    /* kcore_keeper_grow: there are more vertices than these already. */
    KCORE_WRONG_OFFSETS_LENGTH = 17, /* Rows: `offsets` has not one place more than there are rows. */
    KCORE_NOT_FROM_ZERO = 18,       /* Rows: offsets[0] is not 0. */
    KCORE_DESCENDING = 19,          /* Rows: offsets[number] is less than the offset before it. */
    KCORE_LONG_ROW = 20,            /* kcore_h_index_round: the row `number` has 2^32 entries or more. */
    KCORE_WRONG_LAST_OFFSET = 21    /* Rows: the last offset is not neighbours_len. */
};

struct kcore_answer {
    uint32_t status; /* one of enum kcore_status */
    size_t number;
};

/* Writes the core number of each vertex.
 *
 *   vertices    how many vertices there are
 *   edges       edges_len edges; not null
 *   core        core_len places, where core_len has to be vertices; core[v] becomes the core number of v
 *
 * Statuses: KCORE_DONE, KCORE_WRONG_CORE_LENGTH, KCORE_NOT_A_VERTEX, KCORE_NO_MEMORY, tested in this order.
 * Cost: time linear in vertices and edges, but for sorting the neighbours of each vertex; memory of some 44 bytes a vertex and 12 bytes
 * an edge, and for a sparse graph the overhead of malloc for one or two blocks a vertex.
 *
 *     struct kcore_edge edges[] = {{0, 1}, {1, 2}, {2, 0}, {2, 3}};
 *     uint32_t core[4] = {0};
 *     struct kcore_answer answer = kcore_core_numbers(4, edges, 4, core, 4);
 *     // answer.status is KCORE_DONE, and core is 2, 2, 2, 1
 */
KCORE_LOOK_AT_ANSWER struct kcore_answer kcore_core_numbers(uint32_t vertices, const struct kcore_edge *edges, size_t edges_len,
                                                            uint32_t *core, size_t core_len);

/* Writes the core number of each vertex, and all vertices in an order that certifies these numbers: they never fall along it, and each
 * vertex has at most as many later neighbours as its number. Such an order is a degeneracy order. Which of several such orders it is, is
 * left open.
 *
 *   vertices    how many vertices there are
 *   edges       edges_len edges; not null
 *   core        core_len places, where core_len has to be vertices; core[v] becomes the core number of v
 *   order       order_len places, where order_len has to be vertices; becomes the vertices in order
 *
 * Statuses: KCORE_DONE, KCORE_WRONG_CORE_LENGTH, KCORE_WRONG_ORDER_LENGTH, KCORE_NOT_A_VERTEX, KCORE_NO_MEMORY, tested in this order.
 * Cost: that of kcore_core_numbers.
 *
 *     uint32_t core[4] = {0}, order[4] = {0};
 *     answer = kcore_degeneracy_order(4, edges, 4, core, 4, order, 4);
 *     // order begins with 3, the vertex of core number 1
 */
KCORE_LOOK_AT_ANSWER struct kcore_answer kcore_degeneracy_order(uint32_t vertices, const struct kcore_edge *edges, size_t edges_len,
                                                                uint32_t *core, size_t core_len, uint32_t *order, size_t order_len);

/* Whether `order` certifies that `core` has the core numbers, wherever both come from. KCORE_DONE says that it does: `core` has a number
 * for each vertex, `order` has each vertex once, the numbers never fall along it, and each vertex has at most as many later neighbours as
 * its number and at least as many neighbours whose number is no less. KCORE_NOT_CERTIFIED says that this does not hold; right numbers
 * with an order that does not certify them are answered so too.
 *
 *   vertices    how many vertices there are
 *   edges       edges_len edges; not null
 *   core        core_len numbers; any length and content; not null
 *   order       order_len numbers; any length and content; not null
 *
 * Statuses: KCORE_DONE, KCORE_NOT_A_VERTEX, KCORE_NO_MEMORY, KCORE_NOT_CERTIFIED.
 * Cost: that of kcore_core_numbers.
 *
 *     answer = kcore_check(4, edges, 4, core, 4, order, 4);
 *     // answer.status is KCORE_DONE
 */
KCORE_LOOK_AT_ANSWER struct kcore_answer kcore_check(uint32_t vertices, const struct kcore_edge *edges, size_t edges_len,
                                                     const uint32_t *core, size_t core_len, const uint32_t *order, size_t order_len);

/* Writes the vertices of the k-core, the greatest set of vertices that gives each member at least k neighbours inside, in ascending order
 * to the front of `members`. `number` is how many there are, which is at most members_len. What stands behind them in `members` stays as
 * it was.
 *
 *   vertices    how many vertices there are
 *   edges       edges_len edges; not null
 *   k           how many neighbours inside each member has to have
 *   members     members_len places, where members_len has to be vertices
 *
 * Statuses: KCORE_DONE, KCORE_WRONG_MEMBERS_LENGTH, KCORE_NOT_A_VERTEX, KCORE_NO_MEMORY, tested in this order.
 * Cost: that of kcore_core_numbers.
 *
 *     uint32_t members[4] = {0};
 *     answer = kcore_k_core(4, edges, 4, 2, members, 4);
 *     // answer.number is 3, and members begins with 0, 1, 2
 */
KCORE_LOOK_AT_ANSWER struct kcore_answer kcore_k_core(uint32_t vertices, const struct kcore_edge *edges, size_t edges_len, uint32_t k,
                                                      uint32_t *members, size_t members_len);

/* The same for a graph that is given by the neighbours of each vertex, in the form that is known as CSR. Each entry of a row is an edge
 * between the row's vertex and the entry: so the rows of a symmetric matrix are taken as they are, and so are those of a triangular one. A
 * row has its entries in any order, an edge stands in the rows of both its ends or in one of them, loops are dropped, and what comes again
 * counts once. Whether each edge stands in both rows is not looked at.
 *
 *   vertices    how many vertices there are, and so how many rows
 *   offsets     offsets_len places, where offsets_len has to be vertices + 1: 0, and then for each row before which entry it ends
 *   neighbours  the neighbours_len entries of all rows, one row after the other; not null
 *   core, order, k, members    as above
 *
 * Statuses: first those for the lengths of results, as above. Then KCORE_WRONG_OFFSETS_LENGTH, KCORE_NOT_FROM_ZERO, KCORE_DESCENDING,
 * KCORE_WRONG_LAST_OFFSET, KCORE_NOT_A_VERTEX, and KCORE_NO_MEMORY, tested in this order; and KCORE_DONE or, of kcore_check_csr,
 * KCORE_NOT_CERTIFIED.
 * Cost: that of the functions above for as many edges as there are entries, and memory of 8 bytes an entry more.
 *
 *     uint64_t offsets[] = {0, 2, 4, 7, 8};
 *     uint32_t neighbours[] = {1, 2, 0, 2, 0, 1, 3, 2}, core[4] = {0};
 *     answer = kcore_core_numbers_csr(4, offsets, 5, neighbours, 8, core, 4);
 *     // answer.status is KCORE_DONE, and core is 2, 2, 2, 1
 */
KCORE_LOOK_AT_ANSWER struct kcore_answer kcore_core_numbers_csr(uint32_t vertices, const uint64_t *offsets, size_t offsets_len,
                                                                const uint32_t *neighbours, size_t neighbours_len, uint32_t *core,
                                                                size_t core_len);
KCORE_LOOK_AT_ANSWER struct kcore_answer kcore_degeneracy_order_csr(uint32_t vertices, const uint64_t *offsets, size_t offsets_len,
                                                                    const uint32_t *neighbours, size_t neighbours_len, uint32_t *core,
                                                                    size_t core_len, uint32_t *order, size_t order_len);
KCORE_LOOK_AT_ANSWER struct kcore_answer kcore_check_csr(uint32_t vertices, const uint64_t *offsets, size_t offsets_len,
                                                         const uint32_t *neighbours, size_t neighbours_len, const uint32_t *core,
                                                         size_t core_len, const uint32_t *order, size_t order_len);
KCORE_LOOK_AT_ANSWER struct kcore_answer kcore_k_core_csr(uint32_t vertices, const uint64_t *offsets, size_t offsets_len,
                                                          const uint32_t *neighbours, size_t neighbours_len, uint32_t k,
                                                          uint32_t *members, size_t members_len);

/* A certificate that is a sum over edges, for a list of edges that is read in pieces, or lies on many machines. Each vertex v has a claimed
 * core number core[v] and any rank[v]. Its key is core[v], then rank[v], then v. Each edge gives the end with the lesser key a later
 * neighbour, and each end whose neighbour has no lesser core number a supporter. kcore_tally adds to `counts` what the edges of a piece
 * give. Counts of different pieces add up, place by place. They stay at UINT32_MAX where they would pass it, which the counts of a list
 * that has each edge once never do.
 *
 *   vertices    how many vertices there are
 *   after       the first edge has to be above it: by u, and then by v. {0, 0} leaves the first edge free, {from, 0} lets it begin at the
 *               vertex `from`, and the last edge of the piece before lets this piece go on after that one
 *   edges       edges_len edges, each with u < v, and each above the one before it; not null
 *   core        core_len claimed core numbers, where core_len has to be vertices
 *   rank        rank_len numbers, where rank_len has to be vertices: where in the order of removal each vertex stands, or in which round
 *               of its core number it is taken
 *   counts      counts_len places, where counts_len has to be 2 * vertices: how many later neighbours each vertex has, and behind these
 *               how many supporters each has, by the pieces so far; zeros at the beginning
 *
 * Statuses: KCORE_DONE, KCORE_WRONG_CORE_LENGTH, KCORE_WRONG_RANK_LENGTH, KCORE_WRONG_COUNTS_LENGTH, tested in this order. Then, of the
 * first edge that is wrong, the first of KCORE_NOT_A_VERTEX, KCORE_LOOP, KCORE_GREATER_FIRST and KCORE_NOT_ABOVE that applies. Where the status is not KCORE_DONE the counts are as they were.
 * Cost: time linear in the edges of the piece; no memory.
 *
 *     struct kcore_edge piece[] = {{0, 1}, {0, 2}, {1, 2}, {2, 3}}, begin = {0, 0};
 *     uint32_t core[4] = {2, 2, 2, 1}, rank[4] = {0}, counts[8] = {0};
 *     answer = kcore_tally(4, begin, piece, 4, core, 4, rank, 4, counts, 8);
 *     // counts is 2, 1, 0, 1, and then 2, 2, 2, 1
 */
KCORE_LOOK_AT_ANSWER struct kcore_answer kcore_tally(uint32_t vertices, struct kcore_edge after, const struct kcore_edge *edges,
                                                     size_t edges_len, const uint32_t *core, size_t core_len, const uint32_t *rank,
                                                     size_t rank_len, uint32_t *counts, size_t counts_len);

/* Whether each vertex has at most as many later neighbours as its number, and at least as many supporters. If the counts are those of
 * pieces that together have each edge of a graph once, all with the same `core` and `rank`, then KCORE_DONE says that `core` has the core
 * numbers of the graph. With an order of kcore_degeneracy_order, and the places in it as ranks, the answer is always KCORE_DONE.
 *
 *   vertices    how many vertices there are
 *   core        core_len claimed core numbers, where core_len has to be vertices
 *   counts      the counts of all pieces, as kcore_tally has them; counts_len has to be 2 * vertices
 *
 * Statuses: KCORE_DONE, KCORE_WRONG_CORE_LENGTH, KCORE_WRONG_COUNTS_LENGTH, KCORE_NOT_AGREED, tested in this order.
 * Cost: time linear in the vertices; no memory.
 *
 *     answer = kcore_verdict(4, core, 4, counts, 8);
 *     // answer.status is KCORE_DONE
 */
KCORE_LOOK_AT_ANSWER struct kcore_answer kcore_verdict(uint32_t vertices, const uint32_t *core, size_t core_len, const uint32_t *counts,
                                                       size_t counts_len);

/* A round of h-indices for some rows, as an engine makes it on each of its machines. A row has the neighbours of one vertex, in any order,
 * and next[i] becomes the h-index of their numbers: the greatest k for which at least k of them are at least k. Where the rows are those
 * of all vertices of a simple graph, the numbers begin at the degrees, and rounds are made until one changes no number, then they are the
 * core numbers. The rows may lie in any pieces; all rounds but the first have to be made from the numbers of the round before.
 *
 *   offsets     offsets_len places, where offsets_len has to be next_len + 1: 0, and then for each row before which entry it ends
 *   neighbours  the neighbours_len entries of all rows, one row after the other
 *   numbers     the present number of each vertex; numbers_len is how many vertices there are
 *   next        a place for each row. What it holds before matters only to the answer
 *
 * Statuses: KCORE_DONE, where `number` is how many places of `next` had another number before; so where the caller leaves there what the
 * round before wrote, it is 0 where the round changed nothing. KCORE_WRONG_OFFSETS_LENGTH, KCORE_NOT_FROM_ZERO; then of the first row that
 * is wrong KCORE_DESCENDING or KCORE_LONG_ROW; KCORE_WRONG_LAST_OFFSET, KCORE_NOT_A_VERTEX, KCORE_NO_MEMORY, tested in this order.
 * Cost: time linear in the rows and the entries; memory of 4 bytes for each entry of the longest row.
 *
 *     uint64_t offsets[] = {0, 2, 4, 7, 8};
 *     uint32_t neighbours[] = {1, 2, 0, 2, 0, 1, 3, 2}, numbers[4] = {2, 2, 3, 1}, next[4] = {2, 2, 3, 1};
 *     answer = kcore_h_index_round(offsets, 5, neighbours, 8, numbers, 4, next, 4);
 *     // answer.status is KCORE_DONE, answer.number is 1, and next is 2, 2, 2, 1
 */
KCORE_LOOK_AT_ANSWER struct kcore_answer kcore_h_index_round(const uint64_t *offsets, size_t offsets_len, const uint32_t *neighbours,
                                                             size_t neighbours_len, const uint32_t *numbers, size_t numbers_len,
                                                             uint32_t *next, size_t next_len);

/* A keeper: a graph that lives across calls, with core numbers that are kept right while edges come and go.
 *
 * It lies at a place that the caller owns. kcore_keeper_open puts it there, kcore_keeper_end takes it away, and between them each call
 * works on what lies there. What a caller owes beside the duties above, and nothing checks:
 *   - the place has kcore_keeper_size() bytes, and its address is a multiple of kcore_keeper_align(); what malloc gives for that size is
 *     such a place. Both stay the same for one version of the library;
 *   - kcore_keeper_open is called where nothing lies: at new memory, after kcore_keeper_end, or after an open that was not KCORE_DONE.
 *     At a place where a keeper lies it would lose that keeper's memory. The other functions are called after kcore_keeper_open, whatever
 *     it answered, and not after kcore_keeper_end;
 *   - from the opening to the end only these functions read or write the bytes, and they stay where they are: they are not copied, moved
 *     to another address (by realloc, say) or freed;
 *   - one call at a time uses a place, and kcore_keeper_core_numbers is one that uses it too: two threads that read one keeper at once are
 *     the caller's fault. Different places may be used by different threads at once, and a keeper may be handed from one thread to
 *     another, by a lock or by joining, say. A library call starts no thread.
 *
 *     struct kcore_keeper *keeper = malloc(kcore_keeper_size());        // and where it is not null:
 *     struct kcore_edge edges[] = {{0, 1}, {1, 2}, {2, 0}, {2, 3}};
 *     uint32_t core[4] = {0};
 *     struct kcore_answer answer = kcore_keeper_open(keeper, 4, edges, 4);
 *     answer = kcore_keeper_update(keeper, 3, 0, 1);                    // KCORE_DONE, and number is 1: the edge is new
 *     answer = kcore_keeper_core_numbers(keeper, core, 4);              // KCORE_DONE, and core is 2, 2, 2, 2
 *     kcore_keeper_end(keeper);
 *     free(keeper);
 */
struct kcore_keeper;

/* How many vertices a keeper can have. */
#define KCORE_KEEPER_VERTICES 16777216u

/* The edge between the vertices u and v, in either order, is to come, or is to go where `add` is 0. A loop is no edge: where u and v are
 * the same, nothing changes. */
struct kcore_update {
    uint32_t u;
    uint32_t v;
    uint32_t add;
};

/* How many bytes a place has, and what its address is a multiple of. */
KCORE_LOOK_AT_ANSWER size_t kcore_keeper_size(void);
KCORE_LOOK_AT_ANSWER size_t kcore_keeper_align(void);

/* Opens a keeper of the graph with these edges.
 *
 *   place       where nothing lies
 *   vertices    how many vertices there are
 *   edges       edges_len edges; not null
 *
 * Statuses: KCORE_DONE, KCORE_TOO_MANY_VERTICES, KCORE_NOT_A_VERTEX, KCORE_NO_MEMORY, tested in this order. Where it is not KCORE_DONE, an
 * empty keeper lies at the place. It holds no memory, answers KCORE_NOT_OPEN to each call, may be ended, and may be opened again.
 * Cost: that of kcore_degeneracy_order, and time and memory linear in the vertices.
 */
KCORE_LOOK_AT_ANSWER struct kcore_answer kcore_keeper_open(struct kcore_keeper *place, uint32_t vertices, const struct kcore_edge *edges,
                                                           size_t edges_len);

/* Adds the edge between u and v, or removes it where `add` is 0. `number` is 1 where the graph changed, and 0 where the edge was there
 * already, or was not there to be removed, or u and v are the same.
 *
 * Statuses: KCORE_NOT_OPEN, KCORE_NOT_A_VERTEX, KCORE_NO_MEMORY, KCORE_DONE, tested in this order. Where it is not KCORE_DONE, `number` is
 * 0 and nothing has changed.
 * Cost: that of the vertices which the update concerns and their neighbours: mostly some microseconds, at worst all of the graph. What was
 * entered is kept until it is more than the edges and 65,536; then one call forgets it, in time linear in the vertices.
 */
KCORE_LOOK_AT_ANSWER struct kcore_answer kcore_keeper_update(struct kcore_keeper *place, uint32_t u, uint32_t v, uint32_t add);

/* Makes updates in turn. `number` is how many of them changed the graph. kcore_keeper_changes tells which vertices have another core number
 * after the call than before it.
 *
 *   updates     updates_len updates; not null
 *
 * Statuses: KCORE_NOT_OPEN, KCORE_NOT_A_VERTEX, KCORE_NO_MEMORY, KCORE_DONE, tested in this order. At KCORE_NO_MEMORY the first `number`
 * updates are made, in turn, and the others are not; go on at updates[number] when there is memory. At the other two faults none is made.
 * Cost: that of as many calls of kcore_keeper_update, and the time of sorting the vertices whose core numbers they moved.
 *
 *     struct kcore_update updates[] = {{0, 3, 1}, {0, 1, 0}, {0, 3, 1}};
 *     answer = kcore_keeper_apply(keeper, updates, 3);      // KCORE_DONE, and number is 2 where 0 and 1 were joined and 0 and 3 not
 */
KCORE_LOOK_AT_ANSWER struct kcore_answer kcore_keeper_apply(struct kcore_keeper *place, const struct kcore_update *updates,
                                                            size_t updates_len);

/* A vertex whose core number is another one than before a call. */
struct kcore_change {
    uint32_t vertex;
    uint32_t before;
    uint32_t now;
};

/* Writes the vertices whose core numbers the last call of kcore_keeper_apply changed, each once and in ascending order, with the number
 * before the call and the one after it. The first one that is written is the one at the place `from` of all of them, and as many follow as
 * there are or as `changes` has room for; what stands behind these in `changes` stays as it was. `number` is how many there are in all, of
 * which none need be written: where it is more than from + changes_len, call again for the rest. There are none before the first call of
 * kcore_keeper_apply, and after one that answered KCORE_NOT_A_VERTEX. After KCORE_NO_MEMORY they are those of the updates that are made.
 * Other calls leave them as they are.
 *
 *   from        how many of them are passed over
 *   changes     changes_len places; not null
 *
 * Statuses: KCORE_NOT_OPEN, KCORE_DONE. The keeper stays as it is.
 * Cost: time linear in what is written; no memory.
 *
 *     struct kcore_change changes[8] = {{0}};
 *     answer = kcore_keeper_changes(keeper, 0, changes, 8);             // the first 8 of answer.number
 */
KCORE_LOOK_AT_ANSWER struct kcore_answer kcore_keeper_changes(struct kcore_keeper *place, size_t from, struct kcore_change *changes,
                                                              size_t changes_len);

/* Adds vertices until there are so many in all: those from the present number of vertices on. They have no edges and core number 0. The
 * others keep their core numbers, and the order in which they were removed.
 *
 *   vertices    how many vertices there are to be
 *
 * Statuses: KCORE_NOT_OPEN, KCORE_TOO_MANY_VERTICES, KCORE_TOO_FEW_VERTICES, KCORE_NO_MEMORY, KCORE_DONE, tested in this order. Where it is
 * not KCORE_DONE, nothing has changed. `number` is 0.
 * Cost: time and memory linear in the vertices, however few are added; no list of neighbours is copied.
 */
KCORE_LOOK_AT_ANSWER struct kcore_answer kcore_keeper_grow(struct kcore_keeper *place, uint32_t vertices);

/* Writes the core number of each vertex of the graph as it is now.
 *
 *   core        core_len places, where core_len has to be the number of vertices; core[v] becomes the core number of v
 *
 * Statuses: KCORE_NOT_OPEN, KCORE_WRONG_CORE_LENGTH, KCORE_DONE, tested in this order. `number` is 0. The keeper stays as it is.
 * Cost: time linear in the vertices; no memory.
 */
KCORE_LOOK_AT_ANSWER struct kcore_answer kcore_keeper_core_numbers(struct kcore_keeper *place, uint32_t *core, size_t core_len);

/* Answers the core number of one vertex of the graph as it is now: `number`.
 *
 * Statuses: KCORE_NOT_OPEN, KCORE_NOT_A_VERTEX, KCORE_DONE, tested in this order. Where it is not KCORE_DONE, `number` is 0. The keeper
 * stays as it is.
 * Cost: constant time; no memory.
 */
KCORE_LOOK_AT_ANSWER struct kcore_answer kcore_keeper_core(struct kcore_keeper *place, uint32_t v);

/* Answers whether u stands before v in an order that certifies the core numbers, as kcore_degeneracy_order writes one: `number` is 1 where
 * it does, and else 0, as where both are the same. Updates move vertices in the order.
 *
 * Statuses: KCORE_NOT_OPEN, KCORE_NOT_A_VERTEX, KCORE_DONE, tested in this order. Where it is not KCORE_DONE, `number` is 0. The keeper
 * stays as it is.
 * Cost: constant time; no memory.
 */
KCORE_LOOK_AT_ANSWER struct kcore_answer kcore_keeper_before(struct kcore_keeper *place, uint32_t u, uint32_t v);

/* Writes the vertices of the k-core of the graph as it is now, in ascending order to the front of `members`. `number` is how many there are,
 * which is at most members_len. What stands behind them in `members` stays as it was.
 *
 *   k           how many neighbours inside each member has to have
 *   members     members_len places, where members_len has to be the number of vertices
 *
 * Statuses: KCORE_NOT_OPEN, KCORE_WRONG_MEMBERS_LENGTH, KCORE_DONE, tested in this order. Where it is not KCORE_DONE, `number` is 0. The
 * keeper stays as it is.
 * Cost: time linear in the vertices; no memory.
 */
KCORE_LOOK_AT_ANSWER struct kcore_answer kcore_keeper_members(struct kcore_keeper *place, uint32_t k, uint32_t *members,
                                                              size_t members_len);

/* Writes all vertices in the order that certifies the core numbers as they are now, as kcore_degeneracy_order writes one.
 *
 *   order       order_len places, where order_len has to be the number of vertices
 *
 * Statuses: KCORE_NOT_OPEN, KCORE_WRONG_ORDER_LENGTH, KCORE_NO_MEMORY, KCORE_DONE, tested in this order. `number` is 0. The keeper stays
 * as it is.
 * Cost: time and memory linear in the vertices.
 */
KCORE_LOOK_AT_ANSWER struct kcore_answer kcore_keeper_order(struct kcore_keeper *place, uint32_t *order, size_t order_len);

/* Gives back all memory that the keeper at the place holds. Nothing lies there then: free the place, or open another keeper there.
 * Cost: time linear in vertices and edges.
 */
void kcore_keeper_end(struct kcore_keeper *place);

#ifdef __cplusplus
}
#endif

#endif
