/* Keeps two graphs, in turns, through random updates, and compares the core numbers with those that kcore_core_numbers finds from scratch.
 * Each request for memory of each call fails in turn: the call has to answer KCORE_NO_MEMORY and leave the keeper as it was, or tell how
 * many updates are made. What is refused for its arguments is tried too. Linked with --wrap=malloc, --wrap=realloc and --wrap=free. */
#include "kcore.h"
#include <stdbool.h>
#include <stdio.h>
#include <stdlib.h>
#include <string.h>

enum { FIRST = 40, VERTICES = 60, STEPS = 2000, BATCH = 2 * VERTICES, NEVER = 0 };

void *__real_malloc(size_t size);
void *__real_realloc(void *block, size_t size);
void __real_free(void *block);
void *__wrap_malloc(size_t size);
void *__wrap_realloc(void *block, size_t size);
void __wrap_free(void *block);

/* How many allocations were asked for in this call, which of them fails, how many failed in all, and how many blocks are held. */
static long turn, failing = NEVER, failures, held;

static bool fails(void) {
    if (failing == NEVER || ++turn != failing)
        return false;
    failures++;
    return true;
}

void *__wrap_malloc(size_t size) {
    void *block = fails() ? NULL : __real_malloc(size);
    held += block != NULL;
    return block;
}

void *__wrap_realloc(void *block, size_t size) {
    void *moved = fails() ? NULL : __real_realloc(block, size);
    held += moved != NULL && block == NULL;
    return moved;
}

void __wrap_free(void *block) {
    held -= block != NULL;
    __real_free(block);
}

/* What is not so ends the program. */
static void want(bool holds, const char *what, int line) {
    if (!holds) {
        printf("line %d: not so: %s\n", line, what);
        exit(EXIT_FAILURE);
    }
}
#define WANT(what) want((what), #what, __LINE__)

/* A list of numbers that is the same at each run. */
static uint32_t next_draw(void) {
    static uint64_t state = 7;
    state = state * 6364136223846793005u + 1442695040888963407u;
    return (uint32_t)(state >> 33);
}

/* A keeper, and the edges that its graph has to have. */
struct tried {
    struct kcore_keeper *keeper;
    uint32_t vertices;
    bool joined[VERTICES][VERTICES];
};

static void join(struct tried *tried, struct kcore_update update) {
    if (update.u != update.v)
        tried->joined[update.u][update.v] = tried->joined[update.v][update.u] = update.add != 0;
}

static bool is_changing(const struct tried *tried, struct kcore_update update) {
    return update.u != update.v && tried->joined[update.u][update.v] != (update.add != 0);
}

/* Whether u stands before v in the keeper's order. */
static bool is_before(const struct tried *tried, uint32_t u, uint32_t v) {
    struct kcore_answer answer = kcore_keeper_before(tried->keeper, u, v);
    WANT(answer.status == KCORE_DONE && answer.number <= 1);
    return answer.number == 1;
}

/* Each vertex is told its core number, the numbers never fall along the order, and each vertex has at most as many later neighbours as its
 * number. */
static void compare_each(const struct tried *tried, const uint32_t *core) {
    for (uint32_t u = 0; u < tried->vertices; u++) {
        struct kcore_answer answer = kcore_keeper_core(tried->keeper, u);
        WANT(answer.status == KCORE_DONE && answer.number == core[u]);
        uint32_t later = 0;
        for (uint32_t v = 0; v < tried->vertices; v++) {
            bool before = is_before(tried, u, v);
            WANT(!before || core[u] <= core[v]);
            WANT(u == v ? !before : before != is_before(tried, v, u));
            later += before && tried->joined[u][v];
        }
        WANT(later <= core[u]);
    }
}

/* The members that are told of each k-core are its vertices, and nothing is written behind them. */
static void compare_members(const struct tried *tried, const uint32_t *core) {
    for (uint32_t k = 0; k < 6; k++) {
        uint32_t members[VERTICES], len = 0;
        for (uint32_t v = 0; v < tried->vertices; v++)
            members[v] = 9999;
        struct kcore_answer answer = kcore_keeper_members(tried->keeper, k, members, tried->vertices);
        WANT(answer.status == KCORE_DONE);
        for (uint32_t v = 0; v < tried->vertices; v++)
            if (core[v] >= k) {
                WANT(members[len] == v);
                len++;
            }
        WANT(answer.number == len && (len == tried->vertices || members[len] == 9999));
    }
}

/* The changes that are told are those between the numbers before and now, each once and in ascending order. */
static void compare_changes(const struct tried *tried, const uint32_t *before) {
    uint32_t now[VERTICES] = {0};
    struct kcore_change told[2] = {{0}};
    WANT(kcore_keeper_core_numbers(tried->keeper, now, tried->vertices).status == KCORE_DONE);
    size_t from = 0;
    for (uint32_t v = 0; v < tried->vertices; v++)
        if (before[v] != now[v]) {
            told[1].vertex = 9999;
            struct kcore_answer answer = kcore_keeper_changes(tried->keeper, from, told, 1 + from % 2);
            WANT(answer.status == KCORE_DONE && from < answer.number);
            WANT(told[0].vertex == v && told[0].before == before[v] && told[0].now == now[v]);
            WANT((from % 2 == 1 && from + 1 < answer.number) == (told[1].vertex != 9999));
            from++;
        }
    told[0].vertex = 9999;
    for (size_t past = from; past < from + 2; past++) {
        struct kcore_answer answer = kcore_keeper_changes(tried->keeper, past, told, 2);
        WANT(answer.status == KCORE_DONE && answer.number == from && told[0].vertex == 9999);
    }
}

/* The keeper has the core numbers that are found from scratch, and an order that certifies them. */
static void compare(const struct tried *tried) {
    static struct kcore_edge edges[VERTICES * VERTICES];
    uint32_t kept[VERTICES] = {0}, found[VERTICES] = {0}, order[VERTICES] = {0};
    size_t len = 0;
    for (uint32_t u = 0; u < tried->vertices; u++)
        for (uint32_t v = u + 1; v < tried->vertices; v++)
            if (tried->joined[u][v])
                edges[len++] = (struct kcore_edge){u, v};
    WANT(kcore_core_numbers(tried->vertices, edges, len, found, tried->vertices).status == KCORE_DONE);
    struct kcore_answer answer = kcore_keeper_core_numbers(tried->keeper, kept, tried->vertices);
    WANT(answer.status == KCORE_DONE && answer.number == 0);
    WANT(memcmp(kept, found, sizeof kept) == 0);
    answer = kcore_keeper_order(tried->keeper, order, tried->vertices);
    WANT(answer.status == KCORE_DONE && answer.number == 0);
    WANT(kcore_check(tried->vertices, edges, len, kept, tried->vertices, order, tried->vertices).status == KCORE_DONE);
    compare_members(tried, kept);
    compare_each(tried, kept);
}

/* Opens a keeper of random edges, with each request for memory failing in turn. */
static void open(struct tried *tried) {
    static struct kcore_edge edges[2 * VERTICES], stranger[] = {{0, 1}, {1, FIRST}};
    uint32_t core[1] = {9};
    struct kcore_answer answer = kcore_keeper_open(tried->keeper, FIRST, stranger, 2);
    WANT(answer.status == KCORE_NOT_A_VERTEX && answer.number == 1);
    answer = kcore_keeper_open(tried->keeper, KCORE_KEEPER_VERTICES + 1, stranger, 2);
    WANT(answer.status == KCORE_TOO_MANY_VERTICES && answer.number == 0);
    WANT(kcore_keeper_update(tried->keeper, 0, 1, 1).status == KCORE_NOT_OPEN);
    WANT(kcore_keeper_apply(tried->keeper, &(struct kcore_update){0, 1, 1}, 1).status == KCORE_NOT_OPEN);
    WANT(kcore_keeper_grow(tried->keeper, FIRST).status == KCORE_NOT_OPEN);
    WANT(kcore_keeper_core_numbers(tried->keeper, core, 1).status == KCORE_NOT_OPEN && core[0] == 9);
    WANT(kcore_keeper_core(tried->keeper, 0).status == KCORE_NOT_OPEN);
    WANT(kcore_keeper_before(tried->keeper, 0, 1).status == KCORE_NOT_OPEN);
    WANT(kcore_keeper_members(tried->keeper, 0, core, 1).status == KCORE_NOT_OPEN && core[0] == 9);
    WANT(kcore_keeper_order(tried->keeper, core, 1).status == KCORE_NOT_OPEN && core[0] == 9);
    WANT(kcore_keeper_changes(tried->keeper, 0, &(struct kcore_change){0}, 1).status == KCORE_NOT_OPEN);
    kcore_keeper_end(tried->keeper);
    tried->vertices = FIRST;
    for (int i = 0; i < 2 * VERTICES; i++) {
        edges[i] = (struct kcore_edge){next_draw() % FIRST, next_draw() % FIRST};
        join(tried, (struct kcore_update){edges[i].u, edges[i].v, 1});
    }
    long before = held;
    for (long at = 1;; at++) {
        turn = 0, failing = at;
        answer = kcore_keeper_open(tried->keeper, FIRST, edges, 2 * VERTICES);
        failing = NEVER;
        WANT(answer.number == 0);
        if (answer.status == KCORE_DONE && turn < at)
            break;
        WANT(answer.status == KCORE_NO_MEMORY && held == before);
    }
    compare(tried);
}

/* Adds vertices, with each request for memory failing in turn. */
static void grow(struct tried *tried, uint32_t vertices) {
    struct kcore_answer answer = kcore_keeper_grow(tried->keeper, tried->vertices - 1);
    WANT(answer.status == KCORE_TOO_FEW_VERTICES && answer.number == 0);
    answer = kcore_keeper_grow(tried->keeper, KCORE_KEEPER_VERTICES + 1);
    WANT(answer.status == KCORE_TOO_MANY_VERTICES && answer.number == 0);
    for (long at = 1;; at++) {
        turn = 0, failing = at;
        answer = kcore_keeper_grow(tried->keeper, vertices);
        failing = NEVER;
        WANT(answer.number == 0);
        if (answer.status == KCORE_DONE && turn < at)
            break;
        WANT(answer.status == KCORE_NO_MEMORY);
        compare(tried);
    }
    tried->vertices = vertices;
    compare(tried);
}

/* Makes one update, with each request for memory failing in turn. */
static void update(struct tried *tried, struct kcore_update update) {
    struct kcore_answer answer;
    for (long at = 1;; at++) {
        turn = 0, failing = at;
        answer = kcore_keeper_update(tried->keeper, update.u, update.v, update.add);
        failing = NEVER;
        if (answer.status == KCORE_DONE)
            break;
        WANT(answer.status == KCORE_NO_MEMORY && answer.number == 0);
        if (next_draw() % 100 == 0)
            compare(tried);
    }
    WANT(answer.number == is_changing(tried, update));
    join(tried, update);
}

static struct kcore_update drawn(const struct tried *tried) {
    return (struct kcore_update){next_draw() % tried->vertices, next_draw() % tried->vertices, next_draw() % 3};
}

/* Makes updates in one call; each time that memory is refused, it goes on with those that are not made. */
static void apply(struct tried *tried) {
    struct kcore_update updates[BATCH + 1];
    for (size_t i = 0; i < BATCH; i++)
        updates[i] = drawn(tried);
    updates[BATCH] = (struct kcore_update){1, tried->vertices, 1};
    uint32_t before[VERTICES] = {0};
    WANT(kcore_keeper_core_numbers(tried->keeper, before, tried->vertices).status == KCORE_DONE);
    struct kcore_answer answer = kcore_keeper_apply(tried->keeper, updates, BATCH + 1);
    WANT(answer.status == KCORE_NOT_A_VERTEX && answer.number == BATCH);
    compare(tried);
    compare_changes(tried, before);
    for (size_t from = 0; from < BATCH;) {
        WANT(kcore_keeper_core_numbers(tried->keeper, before, tried->vertices).status == KCORE_DONE);
        turn = 0, failing = 1 + next_draw() % 60;
        answer = kcore_keeper_apply(tried->keeper, updates + from, BATCH - from);
        failing = NEVER;
        bool is_done = answer.status == KCORE_DONE;
        size_t made = is_done ? BATCH - from : answer.number, changed = 0;
        WANT(is_done || (answer.status == KCORE_NO_MEMORY && made < BATCH - from));
        for (size_t i = from; i < from + made; i++) {
            changed += is_changing(tried, updates[i]);
            join(tried, updates[i]);
        }
        WANT(!is_done || answer.number == changed);
        compare(tried);
        compare_changes(tried, before);
        from += made;
    }
}

static void steps(struct tried *tried, int count) {
    for (int step = 0; step < count; step++) {
        update(tried, drawn(tried));
        if (step % 20 == 0)
            compare(tried);
        if (step % 200 == 0)
            apply(tried);
    }
}

int main(void) {
    static struct tried one, other;
    one.keeper = malloc(kcore_keeper_size());
    other.keeper = malloc(kcore_keeper_size());
    WANT(one.keeper && other.keeper && (uintptr_t)one.keeper % kcore_keeper_align() == 0);
    long before = held;
    open(&one);
    open(&other);
    for (int round = 0; round < 4; round++) {
        steps(&one, STEPS / 8);
        steps(&other, STEPS / 8);
        grow(&one, one.vertices + 1 + (uint32_t)round);
        grow(&other, other.vertices);
    }
    uint32_t core[VERTICES] = {0};
    WANT(kcore_keeper_core_numbers(one.keeper, core, one.vertices + 1).status == KCORE_WRONG_CORE_LENGTH);
    WANT(kcore_keeper_members(one.keeper, 0, core, one.vertices + 1).status == KCORE_WRONG_MEMBERS_LENGTH);
    WANT(kcore_keeper_order(one.keeper, core, one.vertices + 1).status == KCORE_WRONG_ORDER_LENGTH);
    long blocks = held;
    turn = 0, failing = 1;
    WANT(kcore_keeper_order(one.keeper, core, one.vertices).status == KCORE_NO_MEMORY && held == blocks);
    failing = NEVER;
    WANT(kcore_keeper_update(one.keeper, 0, one.vertices, 1).status == KCORE_NOT_A_VERTEX);
    WANT(kcore_keeper_core(one.keeper, one.vertices).status == KCORE_NOT_A_VERTEX);
    WANT(kcore_keeper_before(one.keeper, 0, one.vertices).status == KCORE_NOT_A_VERTEX);
    kcore_keeper_end(one.keeper);
    compare(&other);
    kcore_keeper_end(other.keeper);
    WANT(held == before);
    free(other.keeper);
    free(one.keeper);
    printf("two keepers, %d updates and batches of %d: %s\n", STEPS, BATCH,
           failures > STEPS ? "each request for memory failed in turn" : "too few requests for memory failed");
    return failures <= STEPS;
}
