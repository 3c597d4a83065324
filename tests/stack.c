/* Measures the stack that each function of the library takes, with all that it calls, on x86-64. tools/stack builds and runs it.
 *
 * A call is made on a painted stack of its own. What it took is counted down to the deepest byte that is no longer as painted,
 * from where its caller's own stack ends: its arguments on the stack and its return address are in it. Each call is made once
 * before. Then it is made with two paints that differ in every bit, as a byte may happen to be written as it was painted, and
 * with the stack ending at each multiple of 16 within 64 bytes, as a function may align its own; the greatest counts.
 *
 * Layouts sparse and railway of bench/src/layouts.rs at k 4, and that of card A. A situation is a function, a layout, a kind of
 * input and the reply. Prints a line for each: function, bytes and the rest, between tabs. Status 1 if one of `needed` was not
 * reached on any layout. */
#include "rlc.h"

#include <stdio.h>
#include <stdlib.h>
#include <string.h>

#ifndef __x86_64__
#error "the stack is switched by x86-64 instructions"
#endif

enum {
    VERTICES = 256,
    EDGES = 1024,
    SLOTS = 150000, /* railway at k 4 fills 139,289 */
    QUESTIONS = 150,
    STACK = 256 * 1024,
    IN_REGISTERS = 6,
    ARGUMENTS = 14,
    SITUATIONS = 400
};

enum id { OPEN, INSERT, REMOVE, QUERY, QUERY_TWO, SEARCH, ROUTE, READ_CARD, WRITE_CARD, REPEAT, COMPUTED, TIMES };

struct function {
    const char *name;
    void (*address)(void);
    size_t arguments;
    int wide; /* a 64-bit reply */
};

#define FUNCTION(name, arguments, wide) {#name, (void (*)(void))name, arguments, wide}

static const struct function functions[] = {
    [OPEN] = FUNCTION(rlc_open, 6, 0),
    [INSERT] = FUNCTION(rlc_insert, 11, 0),
    [REMOVE] = FUNCTION(rlc_remove, 11, 0),
    [QUERY] = FUNCTION(rlc_query, 12, 0),
    [QUERY_TWO] = FUNCTION(rlc_query_two, 14, 1),
    [SEARCH] = FUNCTION(rlc_search, 11, 1),
    [ROUTE] = FUNCTION(rlc_route, 12, 1),
    [READ_CARD] = FUNCTION(rlc_read_card, 10, 0),
    [WRITE_CARD] = FUNCTION(rlc_write_card, 6, 1),
    [REPEAT] = FUNCTION(rlc_minimum_repeat, 2, 0),
    [COMPUTED] = FUNCTION(rlc_minimum_repeat_computed, 2, 0),
    [TIMES] = FUNCTION(rlc_times_written, 2, 0),
};

struct situation {
    enum id id;
    const char *layout, *kind;
    uint32_t reply;
    size_t bytes;
};

static struct situation situations[SITUATIONS];
static size_t situation_n;

static const char ANY[] = "", ONCE[] = "written once, ", TWICE[] = "repeating itself, ", LACKING[] = "a lacking label, ";
static const char BOTH_TWICE[] = "both repeating themselves, "; /* of two patterns; one of them: TWICE */
static const char *const lengths[] = {"no labels, ", "1 label, ", "2 labels, ", "3 labels, ", "4 labels, ", "5 labels, "};

/* Every reply of every function. The replies end with -1. */
static const struct {
    enum id id;
    const char *kind;
    int replies[12];
} needed[] = {
    {OPEN, ANY, {0, 1, 2, 3, 255, -1}},
    {INSERT, ANY, {0, 1, 2, 3, 4, 5, 6, 7, 9, 13, 255, -1}},
    {REMOVE, ANY, {0, 1, 2, 3, 4, 5, 6, 8, 13, 255, -1}},
    {QUERY, ANY, {1, 2, 3, 4, 10, 11, 12, 255, -1}},
    {QUERY, ONCE, {0, 100, -1}},
    {QUERY, TWICE, {0, 100, -1}},
    {QUERY, LACKING, {0, -1}},
    {QUERY_TWO, ANY, {1, 2, 3, 4, 10, 11, 12, 255, -1}},
    {QUERY_TWO, ONCE, {0, 100, -1}},
    {QUERY_TWO, TWICE, {0, 100, -1}},
    {QUERY_TWO, BOTH_TWICE, {0, 100, -1}},
    {QUERY_TWO, LACKING, {0, -1}},
    {SEARCH, ANY, {0, 1, 2, 3, 4, 10, 11, 100, 101, 255, -1}},
    {ROUTE, ANY, {0, 1, 2, 3, 4, 10, 11, 18, 100, 255, -1}},
    {READ_CARD, ANY, {0, 2, 3, 4, 9, 13, 14, 15, 16, 255, -1}},
    {WRITE_CARD, ANY, {0, 1, 2, 3, 17, 255, -1}},
    {REPEAT, ANY, {0, 1, 2, 3, 4, -1}},
    {COMPUTED, ANY, {0, 1, 2, 3, 4, -1}},
    {TIMES, ANY, {0, 1, 2, 3, 4, -1}},
};

/* The layout that stands, and what each call finds. */
static const char *layout;
static uint32_t kept_record[RLC_RECORD_N], kept_edges[EDGES + 1];
static size_t edge_n, entry_n, card_n;

/* What is lent. */
static uint32_t record[RLC_RECORD_N], edges[EDGES + 1], walk[EDGES];
static uint64_t index_memory[SLOTS], work[RLC_WORK_N(SLOTS)];
static uint8_t card[RLC_CARD_N(EDGES)], output[RLC_CARD_N(EDGES)];

/* What is lent to be refused. */
static uint32_t no_vertices[RLC_RECORD_N] = {0, 4}, too_long[RLC_RECORD_N] = {3, 5};
static uint64_t falling[2] = {2, 1};
static uint8_t other_mark[9] = "PRX\0\1\2\2\0", other_version[9] = "PRC\0\2\2\2\0", other_longest[9] = "PRC\0\1\2\5\0";

static unsigned char stack[STACK] __attribute__((aligned(4096))), paints[2][STACK];

/* Calls the function on the stack that ends at `top`, a multiple of 16: the first six arguments in registers, `stacked` more on
 * the stack. */
uint64_t call_on(unsigned char *top, void (*function)(void), const uint64_t *arguments, size_t stacked);
__asm__(".pushsection .text\n"
        "call_on:\n"
        "    pushq %rbp\n"
        "    movq %rsp, %rbp\n"
        "    leaq (,%rcx,8), %rax\n" /* an odd number of arguments: 8 bytes more */
        "    andq $8, %rax\n"
        "    subq %rax, %rdi\n"
        "    movq %rdi, %rsp\n"
        "    movq %rsi, %rax\n"
        "    movq %rdx, %r10\n"
        "1:  testq %rcx, %rcx\n"
        "    jz 2f\n"
        "    pushq 40(%r10,%rcx,8)\n" /* the last first */
        "    decq %rcx\n"
        "    jmp 1b\n"
        "2:  movq (%r10), %rdi\n"
        "    movq 8(%r10), %rsi\n"
        "    movq 16(%r10), %rdx\n"
        "    movq 24(%r10), %rcx\n"
        "    movq 32(%r10), %r8\n"
        "    movq 40(%r10), %r9\n"
        "    call *%rax\n"
        "    movq %rbp, %rsp\n"
        "    popq %rbp\n"
        "    ret\n"
        ".popsection\n");

/* Takes its return address and 1,000 bytes. */
void probe(void);
__asm__(".pushsection .text\n"
        "probe:\n"
        "    movb $0, -1000(%rsp)\n"
        "    ret\n"
        ".popsection\n");

static void fail(const char *what, const char *more, long number) {
    fprintf(stderr, "stack: FAILED: %s%s %ld\n", what, more, number);
    exit(1);
}

static void mix_paints(void) {
    for (size_t i = 0; i < STACK; i++) {
        paints[0][i] = (unsigned char)(i * 73 + i / 256 * 29 + 11);
        paints[1][i] = (unsigned char)~paints[0][i];
    }
}

/* The bytes that a call takes of a stack painted so and ending so many bytes before the end. */
static size_t depth(const struct function *function, const uint64_t *arguments, const unsigned char *paint, size_t shift,
                    uint64_t *reply) {
    size_t stacked = function->arguments > IN_REGISTERS ? function->arguments - IN_REGISTERS : 0, low = 0;
    memcpy(record, kept_record, sizeof record);
    memcpy(edges, kept_edges, sizeof edges);
    memcpy(stack, paint, STACK);
    *reply = call_on(stack + STACK - shift, function->address, arguments, stacked);
    while (low < STACK - 64 && memcmp(stack + low, paint + low, 64) == 0)
        low += 64;
    while (low < STACK && stack[low] == paint[low])
        low++;
    if (low == 0)
        fail("more stack than there is: ", function->name, STACK);
    if (low > STACK - shift)
        fail("no stack taken: ", function->name, 0);
    return STACK - shift - low;
}

static void note(struct situation new) {
    size_t i = 0;
    while (i < situation_n && !(situations[i].id == new.id && situations[i].layout == new.layout &&
                                situations[i].kind == new.kind && situations[i].reply == new.reply))
        i++;
    if (i == SITUATIONS)
        fail("more situations than there is room for", "", SITUATIONS);
    if (i == situation_n)
        situations[situation_n++] = new;
    else if (new.bytes > situations[i].bytes)
        situations[i].bytes = new.bytes;
}

/* The most that a call takes, made in every way. */
static size_t most(const struct function *function, const uint64_t *arguments, uint64_t *reply) {
    size_t greatest = 0;
    depth(function, arguments, paints[0], 0, reply);
    for (size_t i = 0; i < 8; i++) {
        size_t bytes = depth(function, arguments, paints[i % 2], i / 2 * 16, reply);
        if (bytes > greatest)
            greatest = bytes;
    }
    return greatest;
}

/* What is known of the probe must be measured: no argument on the stack, and five, which take a sixth's room. */
static void check_probe(void) {
    static const struct function probes[] = {FUNCTION(probe, 6, 0), FUNCTION(probe, 11, 0)};
    uint64_t arguments[ARGUMENTS] = {0}, reply;
    for (size_t i = 0; i < 2; i++) {
        size_t bytes = most(&probes[i], arguments, &reply);
        if (bytes != 1000 + 8 + i * 6 * 8)
            fail("measured of the probe:", "", (long)bytes);
    }
}

static void measure(enum id id, const uint64_t *arguments, const char *kind) {
    uint64_t reply;
    size_t bytes = most(&functions[id], arguments, &reply);
    uint32_t replied = functions[id].wide ? RLC_REPLY(reply) : (uint32_t)reply;
    note((struct situation){id, layout, kind, replied, bytes});
}

/* The call with one argument changed. */
static void vary(enum id id, const uint64_t *arguments, size_t place, uint64_t value) {
    uint64_t other[ARGUMENTS];
    memcpy(other, arguments, sizeof other);
    other[place] = value;
    measure(id, other, ANY);
}

#define AT(memory) ((uint64_t)(uintptr_t)(memory))

/* xorshift64*, as in bench/src/layouts.rs. */
static uint64_t seed;

static uint32_t below(uint32_t n) {
    seed ^= seed >> 12;
    seed ^= seed << 25;
    seed ^= seed >> 27;
    return (uint32_t)((seed * 0x2545F4914F6CDD1D >> 32) % n);
}

static uint32_t edge_number(uint32_t from, uint32_t label, uint32_t to) {
    return from * 4096 + label * 256 + to;
}

/* Adds an edge unless it stands already or 1,024 do. */
static void add(uint32_t from, uint32_t label, uint32_t to) {
    uint32_t new = edge_number(from, label, to);
    size_t at = 0;
    while (at < edge_n && kept_edges[at] < new)
        at++;
    if (edge_n == EDGES || kept_edges[at] == new)
        return;
    memmove(kept_edges + at + 1, kept_edges + at, (edge_n - at) * sizeof *kept_edges);
    kept_edges[at] = new;
    edge_n++;
}

static void sparse(void) {
    seed = 1;
    while (edge_n < EDGES) {
        uint32_t from = below(VERTICES), label = 1 + below(8), to = below(VERTICES);
        add(from, label, to);
    }
}

static uint32_t vertex(uint32_t track, uint32_t at) {
    return track % 4 * 64 + at % 64;
}

static void railway(void) {
    seed = 4;
    for (uint32_t track = 0; track < 4; track++)
        for (uint32_t at = 0; at < 64; at++) {
            add(vertex(track, at), 1, vertex(track, at + 1));
            add(vertex(track, at + 1), 2, vertex(track, at));
        }
    while (edge_n < EDGES) {
        uint32_t track = below(4), at = below(64), here = vertex(track, at);
        uint32_t label = 3 + below(2);
        uint32_t there = label == 3 ? vertex(track + 1, at + 1) : vertex(track, at + 2 + below(4));
        add(here, label, there);
        add(there, label, here);
    }
}

static void card_a(void) {
    seed = 5;
    add(0, 1, 1);
    add(1, 1, 2);
    add(1, 2, 0);
}

/* The layout with its card, record and index; `entries`: as many as it must have. */
static void stand(const char *name, void (*edges_of)(void), uint32_t vertices, uint32_t longest, size_t entries) {
    layout = name;
    memset(kept_record, 0, sizeof kept_record);
    memset(kept_edges, 0, sizeof kept_edges);
    edge_n = entry_n = 0;
    kept_record[0] = vertices;
    kept_record[1] = longest;
    edges_of();
    card_n = rlc_write_card(kept_record, RLC_RECORD_N, kept_edges, EDGES, card, sizeof card);
    uint32_t reply = rlc_read_card(kept_record, RLC_RECORD_N, card, card_n, edges, EDGES, index_memory, SLOTS, work, RLC_WORK_N(SLOTS));
    while (entry_n < SLOTS && index_memory[entry_n] != 0)
        entry_n++;
    if (reply != RLC_ACCEPTED || entry_n != entries)
        fail("not the layout of bench/src/layouts.rs, by its entries: ", name, (long)entry_n);
}

struct question {
    uint32_t start, destination;
    uint8_t pattern[4];
    size_t labels;
};

/* The labels of a walk from a vertex on, between its ends: a yes. No labels if no edge starts there. */
static void along_from(struct question *q, uint32_t start) {
    size_t at = below((uint32_t)edge_n), tried = 0, most = 1 + below(kept_record[1]);
    q->start = q->destination = start;
    for (q->labels = 0; q->labels < most && tried < edge_n; at = (at + 1) % edge_n, tried++)
        if (kept_edges[at] / 4096 == q->destination) {
            q->pattern[q->labels++] = (uint8_t)(kept_edges[at] / 256 % 16);
            q->destination = kept_edges[at] % 256;
            at = below((uint32_t)edge_n);
            tried = 0;
        }
}

static void along(struct question *q) {
    along_from(q, kept_edges[below((uint32_t)edge_n)] / 4096);
}

/* Any ends and labels; every second pattern is some first labels again and again. */
static void anywhere(struct question *q) {
    q->start = below(kept_record[0]);
    q->destination = below(kept_record[0]);
    q->labels = 1 + below(kept_record[1]);
    size_t front = below(2) ? q->labels : 1 + below(2);
    for (size_t i = 0; i < q->labels; i++)
        q->pattern[i] = i < front ? (uint8_t)(1 + below(8)) : q->pattern[i - front];
}

static const char *kind_of(const struct question *q) {
    for (size_t i = 0; i < q->labels; i++)
        if (kept_record[1 + q->pattern[i]] == 0)
            return LACKING;
    return rlc_times_written(q->pattern, q->labels) > 1 ? TWICE : ONCE;
}

/* A query, a search and a route that are not refused; then with no levels and no walk memory. */
static void ask(const struct question *q) {
    uint64_t query[ARGUMENTS] = {AT(record), RLC_RECORD_N, q->start,         q->destination, AT(q->pattern), q->labels,
                                 AT(edges),  EDGES,        AT(index_memory), SLOTS,          AT(work),       RLC_WORK_N(0)};
    uint64_t search[ARGUMENTS] = {AT(record), RLC_RECORD_N, q->start, q->destination, AT(q->pattern), q->labels,
                                  1025,       AT(edges),    EDGES,    AT(work),       RLC_WORK_N(0)};
    uint64_t route[ARGUMENTS] = {AT(record), RLC_RECORD_N, q->start, q->destination, AT(q->pattern), q->labels,
                                 AT(edges),  EDGES,        AT(walk), EDGES,          AT(work),       RLC_WORK_N(0)};
    measure(QUERY, query, kind_of(q));
    measure(SEARCH, search, kind_of(q));
    vary(SEARCH, search, 6, 0);
    measure(ROUTE, route, kind_of(q));
    vary(ROUTE, route, 9, 0);
}

/* The query by the first's pattern and then the second's, from the first's start to the second's destination. */
static void ask_two(const struct question *first, const struct question *second) {
    uint64_t a[ARGUMENTS] = {AT(record),          RLC_RECORD_N,   first->start, second->destination, AT(first->pattern), first->labels,
                             AT(second->pattern), second->labels, AT(edges),    EDGES,               AT(index_memory),   SLOTS,
                             AT(work),            RLC_WORK_N(0)};
    const char *kinds[2] = {kind_of(first), kind_of(second)}, *kind = kinds[0];
    if (kinds[0] == LACKING || kinds[1] == LACKING)
        kind = LACKING;
    else if (kinds[0] == TWICE && kinds[1] == TWICE)
        kind = BOTH_TWICE;
    else if (kinds[1] == TWICE)
        kind = TWICE;
    measure(QUERY_TWO, a, kind);
}

/* The same labels once more, if there may be so many: more patterns that repeat themselves, and a yes where a walk has them. */
static void write_twice(struct question *q) {
    for (size_t i = 0, n = q->labels; 2 * n <= kept_record[1] && i < n; i++)
        q->pattern[q->labels++] = q->pattern[i];
}

static void questions(void) {
    struct question q, second;
    for (int i = 0; i < QUESTIONS; i++) {
        if (i % 3 == 0)
            along(&q);
        else
            anywhere(&q);
        ask(&q);
        if (i % 3 == 0)
            along_from(&second, q.destination);
        else
            anywhere(&second);
        if (i % 2 == 0)
            write_twice(&q);
        if (i % 4 < 2)
            write_twice(&second);
        if (second.labels > 0)
            ask_two(&q, &second);
    }
}

/* The refusals that queries, searches and routes have in common; the places of edges_n and work_n differ. */
static void refuse_question(enum id id, const uint64_t *arguments, size_t edges_at, size_t work_at) {
    vary(id, arguments, 0, AT(no_vertices));
    vary(id, arguments, 0, AT(too_long));
    vary(id, arguments, 1, RLC_RECORD_N - 1);
    vary(id, arguments, 2, VERTICES);
    vary(id, arguments, 5, 0);
    vary(id, arguments, 5, 5);
    vary(id, arguments, edges_at, EDGES + 1);
    vary(id, arguments, work_at, RLC_WORK_N(0) - 1);
}

static void refused_questions(void) {
    static const uint8_t pattern[5] = {1, 1, 1, 1, 1};
    uint64_t query[ARGUMENTS] = {AT(record), RLC_RECORD_N, 0,                0,     AT(pattern), 2,
                                 AT(edges),  EDGES,        AT(index_memory), SLOTS, AT(work),    RLC_WORK_N(0)};
    uint64_t search[ARGUMENTS] = {AT(record), RLC_RECORD_N, 0,     0,        AT(pattern),  2,
                                  1025,       AT(edges),    EDGES, AT(work), RLC_WORK_N(0)};
    uint64_t route[ARGUMENTS] = {AT(record), RLC_RECORD_N, 0,        0,     AT(pattern), 2,
                                 AT(edges),  EDGES,        AT(walk), EDGES, AT(work),    RLC_WORK_N(0)};
    uint64_t two[ARGUMENTS] = {AT(record), RLC_RECORD_N, 0,     0,                AT(pattern), 2,        AT(pattern),
                               2,          AT(edges),    EDGES, AT(index_memory), SLOTS,       AT(work), RLC_WORK_N(0)};
    refuse_question(QUERY, query, 7, 11);
    refuse_question(QUERY_TWO, two, 9, 13);
    vary(QUERY_TWO, two, 7, 0);
    vary(QUERY_TWO, two, 7, 5);
    two[11] = 2;
    vary(QUERY_TWO, two, 10, AT(falling));
    refuse_question(SEARCH, search, 8, 10);
    refuse_question(ROUTE, route, 7, 11);
    query[9] = 2;
    vary(QUERY, query, 8, AT(falling));
}

static void write_card(void) {
    uint64_t a[ARGUMENTS] = {AT(record), RLC_RECORD_N, AT(edges), EDGES, AT(output), card_n};
    measure(WRITE_CARD, a, ANY);
    vary(WRITE_CARD, a, 0, AT(no_vertices));
    vary(WRITE_CARD, a, 0, AT(too_long));
    vary(WRITE_CARD, a, 1, 0);
    vary(WRITE_CARD, a, 3, EDGES + 1);
    vary(WRITE_CARD, a, 5, card_n - 1);
}

/* An insertion or removal of this edge, and its refusals. */
static void change(enum id id, uint32_t edge) {
    uint64_t a[ARGUMENTS] = {AT(record), RLC_RECORD_N, edge / 4096, edge / 256 % 16, edge % 256,       AT(edges),
                             EDGES,      AT(index_memory), SLOTS,   AT(work),        RLC_WORK_N(SLOTS)};
    measure(id, a, ANY);
    vary(id, a, 0, AT(no_vertices));
    vary(id, a, 0, AT(too_long));
    vary(id, a, 1, RLC_RECORD_N + 1);
    vary(id, a, 2, VERTICES);
    vary(id, a, 3, 9);
    vary(id, a, 6, EDGES + 1);
    vary(id, a, 8, 0);
    vary(id, a, 8, entry_n / 2);
    vary(id, a, 10, RLC_WORK_N(SLOTS) - 1);
    if (id == INSERT)
        vary(id, a, 6, edge_n - 1);
}

/* An edge is inserted and removed where it stands, and where it does not. */
static void insert_and_remove(size_t at) {
    uint32_t edge = kept_edges[at];
    size_t behind = (edge_n - 1 - at) * sizeof edge;
    change(INSERT, edge);
    change(REMOVE, edge);
    memmove(kept_edges + at, kept_edges + at + 1, behind);
    kept_edges[edge_n - 1] = 0;
    change(INSERT, edge);
    change(REMOVE, edge);
    memmove(kept_edges + at + 1, kept_edges + at, behind);
    kept_edges[at] = edge;
}

static void read_card(void) {
    uint64_t a[ARGUMENTS] = {AT(record), RLC_RECORD_N,     AT(card), card_n,   AT(edges),
                             EDGES,      AT(index_memory), SLOTS,    AT(work), RLC_WORK_N(SLOTS)};
    measure(READ_CARD, a, ANY);
    vary(READ_CARD, a, 1, 0);
    vary(READ_CARD, a, 3, 8);
    vary(READ_CARD, a, 3, card_n - 1);
    vary(READ_CARD, a, 5, EDGES + 1);
    vary(READ_CARD, a, 5, edge_n - 1);
    vary(READ_CARD, a, 7, 0);
    vary(READ_CARD, a, 7, entry_n - 1);
    vary(READ_CARD, a, 9, RLC_WORK_N(SLOTS) - 1);
    a[3] = 9;
    vary(READ_CARD, a, 2, AT(other_mark));
    vary(READ_CARD, a, 2, AT(other_version));
    vary(READ_CARD, a, 2, AT(other_longest));
}

static void opening(void) {
    uint64_t a[ARGUMENTS] = {AT(record), RLC_RECORD_N, AT(edges), EDGES, AT(index_memory), SLOTS};
    measure(OPEN, a, ANY);
    vary(OPEN, a, 0, AT(no_vertices));
    vary(OPEN, a, 0, AT(too_long));
    vary(OPEN, a, 1, 0);
    vary(OPEN, a, 3, EDGES + 1);
}

static void fold(const uint8_t *pattern, size_t labels) {
    uint64_t a[ARGUMENTS] = {AT(pattern), labels};
    measure(REPEAT, a, lengths[labels]);
    measure(COMPUTED, a, lengths[labels]);
    measure(TIMES, a, lengths[labels]);
}

/* Up to 4 labels of 0 to 4, of which 0 is none, in every order; and 5 labels. */
static void repeats(void) {
    uint8_t pattern[5] = {1, 1, 1, 1, 1};
    layout = "no layout";
    fold(pattern, 5);
    for (uint32_t labels = 0, patterns = 1; labels <= 4; labels++, patterns *= 5)
        for (uint32_t n = 0; n < patterns; n++) {
            for (uint32_t i = 0, rest = n; i < labels; i++, rest /= 5)
                pattern[i] = (uint8_t)(rest % 5);
            fold(pattern, labels);
        }
}

static void check_needed(void) {
    for (size_t i = 0; i < sizeof needed / sizeof *needed; i++)
        for (const int *reply = needed[i].replies; *reply >= 0; reply++) {
            size_t at = 0;
            while (at < situation_n && !(situations[at].id == needed[i].id && situations[at].reply == (uint32_t)*reply &&
                                         (needed[i].kind == ANY || situations[at].kind == needed[i].kind)))
                at++;
            if (at == situation_n)
                fail("not reached, function and reply: ", functions[needed[i].id].name, *reply);
        }
}

static void of_layout(void) {
    questions();
    refused_questions();
    write_card();
    insert_and_remove(edge_n / 2);
    insert_and_remove(edge_n - 1);
    read_card();
    opening();
}

int main(void) {
    mix_paints();
    check_probe();
    stand("sparse", sparse, VERTICES, 4, 88808);
    of_layout();
    stand("railway", railway, VERTICES, 4, 139289);
    of_layout();
    stand("card A", card_a, 3, 2, 5);
    of_layout();
    repeats();
    check_needed();
    for (enum id id = OPEN; id <= TIMES; id++)
        for (const struct situation *s = situations; s < situations + situation_n; s++)
            if (s->id == id)
                printf("%s\t%zu\t%s, %sreply %u\n", functions[id].name, s->bytes, s->layout, s->kind, s->reply);
    return 0;
}
