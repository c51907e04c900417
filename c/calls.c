/* The calls that keep nothing, each on small graphs whose answers are worked out by hand: results, statuses, numbers, and that a refused call
 * writes nothing. It writes how many cases held, and ends with status 1 where one did not. */
#include "kcore.h"
#include <stdio.h>
#include <string.h>

static unsigned cases, wrong;

static void hold(const char *what, int holds) {
    cases++;
    if (!holds) {
        wrong++;
        fprintf(stderr, "calls: %s\n", what);
    }
}

static void answers(const char *what, struct kcore_answer found, uint32_t status, size_t number) {
    if (found.status != status || found.number != number)
        fprintf(stderr, "calls: status %u, number %zu\n", found.status, found.number);
    hold(what, found.status == status && found.number == number);
}

#define SAME(found, ...)                                                                                                                   \
    do {                                                                                                                                   \
        const uint32_t wanted[] = {__VA_ARGS__};                                                                                           \
        hold(#found " is " #__VA_ARGS__, sizeof wanted == sizeof(found) && memcmp(found, wanted, sizeof wanted) == 0);                     \
    } while (0)

/* A triangle with a tail, listed with a loop, a repeat and a repeat the other way round, and a vertex that has a loop alone. */
static const struct kcore_edge tailed[7] = {{0, 1}, {1, 0}, {4, 4}, {2, 0}, {1, 2}, {1, 2}, {3, 2}};

static void numbers_and_orders(void) {
    uint32_t core[5] = {9, 9, 9, 9, 9}, order[5] = {9, 9, 9, 9, 9};
    answers("core numbers", kcore_core_numbers(5, tailed, 7, core, 5), KCORE_DONE, 0);
    SAME(core, 2, 2, 2, 1, 0);
    memset(core, 0, sizeof core);
    answers("an order", kcore_degeneracy_order(5, tailed, 7, core, 5, order, 5), KCORE_DONE, 0);
    SAME(core, 2, 2, 2, 1, 0);
    answers("the order certifies", kcore_check(5, tailed, 7, core, 5, order, 5), KCORE_DONE, 0);
    answers("no vertices", kcore_core_numbers(0, tailed, 0, core, 0), KCORE_DONE, 0);
    hold("the version is that of the header", kcore_version() == KCORE_VERSION && KCORE_VERSION == 256);
}

static void wrong_certificates(void) {
    const uint32_t right[5] = {2, 2, 2, 1, 0}, high[5] = {2, 2, 2, 2, 0}, low[5] = {2, 2, 1, 1, 0};
    const uint32_t order[5] = {4, 3, 0, 1, 2}, falling[5] = {3, 4, 0, 1, 2};
    answers("right numbers", kcore_check(5, tailed, 7, right, 5, order, 5), KCORE_DONE, 0);
    answers("a number too high", kcore_check(5, tailed, 7, high, 5, order, 5), KCORE_NOT_CERTIFIED, 0);
    answers("a number too low", kcore_check(5, tailed, 7, low, 5, order, 5), KCORE_NOT_CERTIFIED, 0);
    answers("the order falls", kcore_check(5, tailed, 7, right, 5, falling, 5), KCORE_NOT_CERTIFIED, 0);
    answers("short lists", kcore_check(5, tailed, 7, right, 2, order, 1), KCORE_NOT_CERTIFIED, 0);
    answers("no vertex", kcore_check(4, tailed, 7, right, 5, order, 5), KCORE_NOT_A_VERTEX, 2);
}

static void members_of_cores(void) {
    uint32_t members[5] = {9, 9, 9, 9, 9};
    answers("the 3-core", kcore_k_core(5, tailed, 7, 3, members, 5), KCORE_DONE, 0);
    SAME(members, 9, 9, 9, 9, 9);
    answers("the 2-core", kcore_k_core(5, tailed, 7, 2, members, 5), KCORE_DONE, 3);
    SAME(members, 0, 1, 2, 9, 9);
    answers("the 1-core", kcore_k_core(5, tailed, 7, 1, members, 5), KCORE_DONE, 4);
    SAME(members, 0, 1, 2, 3, 9);
    answers("the 0-core", kcore_k_core(5, tailed, 7, 0, members, 5), KCORE_DONE, 5);
    SAME(members, 0, 1, 2, 3, 4);
}

static void refused_calls(void) {
    uint32_t core[5] = {9, 9, 9, 9, 9}, order[6] = {9, 9, 9, 9, 9, 9};
    answers("few numbers", kcore_core_numbers(6, tailed, 7, core, 5), KCORE_WRONG_CORE_LENGTH, 0);
    answers("no vertex", kcore_core_numbers(4, tailed, 7, core, 4), KCORE_NOT_A_VERTEX, 2);
    answers("many numbers", kcore_degeneracy_order(4, tailed, 7, core, 5, order, 6), KCORE_WRONG_CORE_LENGTH, 0);
    answers("a long order", kcore_degeneracy_order(5, tailed, 7, core, 5, order, 6), KCORE_WRONG_ORDER_LENGTH, 0);
    answers("no vertex in order", kcore_degeneracy_order(4, tailed, 7, core, 4, order, 4), KCORE_NOT_A_VERTEX, 2);
    answers("many members", kcore_k_core(5, tailed, 7, 1, order, 6), KCORE_WRONG_MEMBERS_LENGTH, 0);
    answers("no vertex in a core", kcore_k_core(4, tailed, 7, 1, order, 4), KCORE_NOT_A_VERTEX, 2);
    SAME(core, 9, 9, 9, 9, 9);
    SAME(order, 9, 9, 9, 9, 9, 9);
}

/* The edges of the triangle with a tail in two pieces: those whose lesser end is 0, and the others. */
static const struct kcore_edge begin = {0, 0}, gate = {1, 0}, first[2] = {{0, 1}, {0, 2}}, second[2] = {{1, 2}, {2, 3}};
static const uint32_t certified[5] = {2, 2, 2, 1, 0}, rank[5] = {0};

static void verdicts(void) {
    const uint32_t claims[3][5] = {{2, 2, 2, 1, 0}, {2, 2, 2, 2, 0}, {2, 2, 2, 0, 0}};
    for (int i = 0; i < 3; i++) {
        uint32_t counts[10] = {0};
        answers("the first piece", kcore_tally(5, begin, first, 2, claims[i], 5, rank, 5, counts, 10), KCORE_DONE, 0);
        answers("the second piece", kcore_tally(5, gate, second, 2, claims[i], 5, rank, 5, counts, 10), KCORE_DONE, 0);
        answers("the verdict", kcore_verdict(5, claims[i], 5, counts, 10), i == 0 ? KCORE_DONE : KCORE_NOT_AGREED, 0);
    }
}

static void refused_pieces(void) {
    const struct kcore_edge pieces[4][2] = {{{0, 1}, {1, 5}}, {{0, 1}, {1, 1}}, {{0, 1}, {2, 1}}, {{0, 1}, {0, 1}}};
    const uint32_t statuses[4] = {KCORE_NOT_A_VERTEX, KCORE_LOOP, KCORE_GREATER_FIRST, KCORE_NOT_ABOVE};
    uint32_t counts[10] = {7, 7, 7, 7, 7, 7, 7, 7, 7, 7};
    for (int i = 0; i < 4; i++)
        answers("a wrong edge", kcore_tally(5, begin, pieces[i], 2, certified, 5, rank, 5, counts, 10), statuses[i], 1);
    answers("few numbers", kcore_tally(6, begin, first, 0, certified, 5, rank, 5, counts, 10), KCORE_WRONG_CORE_LENGTH, 0);
    answers("few ranks", kcore_tally(5, begin, first, 0, certified, 5, rank, 4, counts, 10), KCORE_WRONG_RANK_LENGTH, 0);
    answers("few counts", kcore_tally(5, begin, first, 0, certified, 5, rank, 5, counts, 9), KCORE_WRONG_COUNTS_LENGTH, 0);
    answers("few counts at the end", kcore_verdict(5, certified, 5, counts, 9), KCORE_WRONG_COUNTS_LENGTH, 0);
    SAME(counts, 7, 7, 7, 7, 7, 7, 7, 7, 7, 7);
}

/* A triangle with a tail by rows: each edge in the rows of both ends, and in some order in one of them, with a loop and a repeat. */
static void right_rows(void) {
    const uint64_t offsets[2][5] = {{0, 2, 4, 7, 8}, {0, 2, 3, 5, 6}};
    const uint32_t neighbours[2][8] = {{1, 2, 2, 0, 0, 1, 3, 2}, {2, 1, 2, 3, 3, 3}}, high[4] = {2, 2, 2, 2};
    const size_t lens[2] = {8, 6};
    for (int i = 0; i < 2; i++) {
        const uint64_t *rows = offsets[i];
        const uint32_t *row = neighbours[i];
        uint32_t core[4] = {9, 9, 9, 9}, order[4] = {9, 9, 9, 9}, members[4] = {9, 9, 9, 9};
        answers("numbers by rows", kcore_core_numbers_csr(4, rows, 5, row, lens[i], core, 4), KCORE_DONE, 0);
        SAME(core, 2, 2, 2, 1);
        answers("an order by rows", kcore_degeneracy_order_csr(4, rows, 5, row, lens[i], core, 4, order, 4), KCORE_DONE, 0);
        SAME(core, 2, 2, 2, 1);
        answers("it certifies", kcore_check_csr(4, rows, 5, row, lens[i], core, 4, order, 4), KCORE_DONE, 0);
        answers("too high", kcore_check_csr(4, rows, 5, row, lens[i], high, 4, order, 4), KCORE_NOT_CERTIFIED, 0);
        answers("the 2-core by rows", kcore_k_core_csr(4, rows, 5, row, lens[i], 2, members, 4), KCORE_DONE, 3);
        SAME(members, 0, 1, 2, 9);
    }
}

/* Rows that are wrong are refused so by each call, and nothing is written. */
static void refused_rows(const uint64_t *offsets, size_t len, uint32_t status, size_t number) {
    const uint32_t neighbours[3] = {1, 0, 2};
    uint32_t core[2] = {9, 9}, order[2] = {9, 9};
    answers("numbers of wrong rows", kcore_core_numbers_csr(2, offsets, len, neighbours, 3, core, 2), status, number);
    answers("an order of them", kcore_degeneracy_order_csr(2, offsets, len, neighbours, 3, core, 2, order, 2), status, number);
    answers("a check of them", kcore_check_csr(2, offsets, len, neighbours, 3, core, 2, order, 2), status, number);
    answers("a core of them", kcore_k_core_csr(2, offsets, len, neighbours, 3, 1, order, 2), status, number);
    SAME(core, 9, 9);
    SAME(order, 9, 9);
}

static void wrong_rows(void) {
    const uint64_t short_rows[] = {0, 3}, late[] = {1, 2, 3}, falling[] = {0, 4, 3}, early[] = {0, 1, 2}, whole[] = {0, 1, 3};
    uint32_t places[3] = {9, 9, 9};
    refused_rows(short_rows, 0, KCORE_WRONG_OFFSETS_LENGTH, 0);
    refused_rows(short_rows, 2, KCORE_WRONG_OFFSETS_LENGTH, 0);
    refused_rows(late, 3, KCORE_NOT_FROM_ZERO, 0);
    refused_rows(falling, 3, KCORE_DESCENDING, 2);
    refused_rows(early, 3, KCORE_WRONG_LAST_OFFSET, 0);
    refused_rows(whole, 3, KCORE_NOT_A_VERTEX, 2);
    answers("lengths come first", kcore_core_numbers_csr(2, early, 0, places, 0, places, 3), KCORE_WRONG_CORE_LENGTH, 0);
    answers("of members too", kcore_k_core_csr(2, early, 0, places, 0, 0, places, 3), KCORE_WRONG_MEMBERS_LENGTH, 0);
    answers("no rows", kcore_core_numbers_csr(0, early, 1, places, 0, places, 0), KCORE_DONE, 0);
    SAME(places, 9, 9, 9);
}

static void rounds(void) {
    const uint64_t offsets[5] = {0, 2, 4, 7, 8}, turned[5] = {0, 2, 4, 3, 8};
    const uint32_t neighbours[8] = {1, 2, 0, 2, 0, 1, 3, 2}, degrees[4] = {2, 2, 3, 1};
    uint32_t next[4] = {0, 0, 0, 0};
    answers("a round", kcore_h_index_round(offsets, 5, neighbours, 8, degrees, 4, next, 4), KCORE_DONE, 4);
    SAME(next, 2, 2, 2, 1);
    answers("a round of wrong rows", kcore_h_index_round(turned, 5, neighbours, 8, degrees, 4, next, 4), KCORE_DESCENDING, 3);
    SAME(next, 2, 2, 2, 1);
}

int main(void) {
    numbers_and_orders();
    wrong_certificates();
    members_of_cores();
    refused_calls();
    verdicts();
    refused_pieces();
    right_rows();
    wrong_rows();
    rounds();
    printf("%u cases, %u wrong\n", cases, wrong);
    return wrong != 0;
}
