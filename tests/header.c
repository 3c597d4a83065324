/* Tests what rlc.h gives beside its functions, by use: its version, sizes, parts of a reply and numbers, and that calls accept
 * memory of just the sizes that its macros give and refuse less. It is C99 and C++11.
 *
 * Prints how many facts hold; status 1 and the name of the first that does not. A constant fact that does not hold is not compiled. */
#include "rlc.h" /* first, so that it stands alone */
#include "rlc.h" /* and again, which must do no harm */

#include <stdio.h>

/* Undefined, it would be 0 here. */
#if RLC_VERSION < 400
#error "RLC_VERSION is no number of 400 or more"
#endif

enum { SLOTS = 8, LABELS = 2 };

/* As long as the calls need them, and no longer. */
static uint32_t record[RLC_RECORD_N] = {2, 2};
static uint32_t edges[1], walk[1];
static uint64_t index_memory[SLOTS], work[RLC_WORK_N(SLOTS)];
static uint8_t card[RLC_CARD_N(1)];
static const uint8_t pattern[LABELS] = {1, 1}; /* its first label, or both */

/* A layout of two edges. */
static uint32_t there_and_back[RLC_RECORD_N] = {2, 2}, two_edges[2];
static uint64_t two_index[SLOTS];

#define WIDE(reply, more) (((uint64_t)(reply) << 32) + (more))
#define IS_UINT32(x) (sizeof(x) == sizeof(uint32_t) && (x) * 0 - 1 > 0)

/* Facts that hold as this is compiled: name, and what it says. */
#define CONSTANT_FACTS(FACT)                                                  \
    FACT(version, RLC_VERSION >= 400)                                         \
    FACT(record_n, RLC_RECORD_N == 10)                                        \
    FACT(record_array, sizeof record == 10 * sizeof(uint32_t))                \
    FACT(work_n_0, RLC_WORK_N(0) == 4096)                                     \
    FACT(work_n_64, RLC_WORK_N(64) == 4160)                                   \
    FACT(work_n_inside, RLC_WORK_N(0 ? 1 : 2) == 4098)                        \
    FACT(work_n_outside, 2 * RLC_WORK_N(1 + 1) == 8196)                       \
    FACT(work_array, sizeof work == (4096 + SLOTS) * sizeof(uint64_t))        \
    FACT(card_n_0, RLC_CARD_N(0) == 9)                                        \
    FACT(card_n_1024, RLC_CARD_N(1024) == 3081)                               \
    FACT(card_n_inside, RLC_CARD_N(0 ? 1 : 2) == 15)                          \
    FACT(card_n_outside, 2 * RLC_CARD_N(1 + 1) == 30)                         \
    FACT(card_array, sizeof card == 12)                                       \
    FACT(reply_of_constant, RLC_REPLY(WIDE(100, 7)) == 100)                   \
    FACT(middle_of_constant, RLC_MIDDLE(WIDE(100, 7)) == 7)                   \
    FACT(levels_of_constant, RLC_LEVELS(WIDE(100, 7)) == 7)                   \
    FACT(length_of_constant, RLC_LENGTH(WIDE(100, 7)) == 7)                   \
    FACT(reply_type, IS_UINT32(RLC_REPLY(WIDE(100, 7))))                      \
    FACT(middle_type, IS_UINT32(RLC_MIDDLE(WIDE(100, 7))))                    \
    FACT(levels_type, IS_UINT32(RLC_LEVELS(WIDE(100, 7))))                    \
    FACT(length_type, IS_UINT32(RLC_LENGTH(WIDE(100, 7))))                    \
    FACT(reply_type_of_sum, IS_UINT32(RLC_REPLY(WIDE(99, 7) + WIDE(1, 0))))   \
    FACT(middle_type_of_sum, IS_UINT32(RLC_MIDDLE(WIDE(99, 7) + WIDE(1, 0)))) \
    FACT(levels_type_of_sum, IS_UINT32(RLC_LEVELS(WIDE(99, 7) + WIDE(1, 0)))) \
    FACT(length_type_of_sum, IS_UINT32(RLC_LENGTH(WIDE(99, 7) + WIDE(1, 0)))) \
    FACT(reply_bad_record, RLC_REPLY(WIDE(255, 0)) == RLC_BAD_RECORD)         \
    FACT(accepted, RLC_ACCEPTED == 0)                                         \
    FACT(no, RLC_NO == 0)                                                     \
    FACT(yes, RLC_YES == 100)                                                 \
    FACT(spent, RLC_SPENT == 101)                                             \
    FACT(bad_record, RLC_BAD_RECORD == 255)                                   \
    FACT(vertices, RLC_VERTICES == 1)                                         \
    FACT(longest, RLC_LONGEST == 2)                                           \
    FACT(edge_memory, RLC_EDGE_MEMORY == 3)                                   \
    FACT(work_memory, RLC_WORK_MEMORY == 4)                                   \
    FACT(edge_end, RLC_EDGE_END == 5)                                         \
    FACT(edge_label, RLC_EDGE_LABEL == 6)                                     \
    FACT(edge_present, RLC_EDGE_PRESENT == 7)                                 \
    FACT(edge_absent, RLC_EDGE_ABSENT == 8)                                   \
    FACT(edge_slots, RLC_EDGE_SLOTS == 9)                                     \
    FACT(query_end, RLC_QUERY_END == 10)                                      \
    FACT(query_pattern, RLC_QUERY_PATTERN == 11)                              \
    FACT(index_memory, RLC_INDEX_MEMORY == 12)                                \
    FACT(index_slots, RLC_INDEX_SLOTS == 13)                                  \
    FACT(card_mark, RLC_CARD_MARK == 14)                                      \
    FACT(card_version, RLC_CARD_VERSION == 15)                                \
    FACT(card_edges, RLC_CARD_EDGES == 16)                                    \
    FACT(card_output, RLC_CARD_OUTPUT == 17)                                  \
    FACT(walk_memory, RLC_WALK_MEMORY == 18)

/* An array of a negative size is not compiled. */
#define HOLDS(name, fact) typedef char fact_##name[(fact) ? 1 : -1];
#define ONE_MORE(name, fact) +1
CONSTANT_FACTS(HOLDS)

static int facts = 0 CONSTANT_FACTS(ONE_MORE), failed = 0;

static void fact(const char *name, int holds) {
    facts++;
    if (!holds && !failed) {
        failed = 1;
        printf("header: FAILED: %s\n", name);
    }
}

/* The parts of a reply that is not known as this is compiled, and of expressions. */
static void parts(uint64_t a, uint64_t b, int first) {
    fact("the reply of a variable", RLC_REPLY(a) == 100 && RLC_REPLY(b) == 155);
    fact("the middle of a variable", RLC_MIDDLE(a) == 7 && RLC_MIDDLE(b) == 0xFFFFFFF9);
    fact("the levels of a variable", RLC_LEVELS(a) == 7 && RLC_LEVELS(b) == 0xFFFFFFF9);
    fact("the length of a variable", RLC_LENGTH(a) == 7 && RLC_LENGTH(b) == 0xFFFFFFF9);
    fact("the reply of a sum", RLC_REPLY(a + b) == 256);
    fact("the middle of a sum", RLC_MIDDLE(a + b) == 0);
    fact("the levels of a sum", RLC_LEVELS(a + b) == 0);
    fact("the length of a sum", RLC_LENGTH(a + b) == 0);
    fact("the reply of a choice", RLC_REPLY(first ? a : b) == 100);
    fact("the middle of a choice", RLC_MIDDLE(first ? a : b) == 7);
    fact("the levels of a choice", RLC_LEVELS(first ? a : b) == 7);
    fact("the length of a choice", RLC_LENGTH(first ? a : b) == 7);
    fact("twice a part", 2 * RLC_REPLY(a) == 200 && 2 * RLC_LEVELS(a) == 14 && 2 * RLC_LENGTH(a) == 14);
    fact("twice a middle", 2 * RLC_MIDDLE(a) == 14);
}

static uint32_t opened(size_t record_n) {
    return rlc_open(record, record_n, edges, 1, index_memory, SLOTS);
}

/* The edge from 0 to 1 with label 1. */
static uint32_t inserted(size_t work_n) {
    return rlc_insert(record, RLC_RECORD_N, 0, 1, 1, edges, 1, index_memory, SLOTS, work, work_n);
}

static uint32_t removed(size_t work_n) {
    return rlc_remove(record, RLC_RECORD_N, 0, 1, 1, edges, 1, index_memory, SLOTS, work, work_n);
}

static uint32_t queried(size_t labels, size_t work_n) {
    return rlc_query(record, RLC_RECORD_N, 0, 1, pattern, labels, edges, 1, index_memory, SLOTS, work, work_n);
}

/* Back to where it came from, by the first label of the pattern or both, and then by label 2. */
static uint64_t queried_two(size_t record_n, uint32_t start, size_t labels, size_t work_n) {
    static const uint8_t second[1] = {2};
    return rlc_query_two(there_and_back, record_n, start, start, pattern, labels, second, 1, two_edges, 2, two_index, SLOTS, work,
                         work_n);
}

static uint64_t searched(size_t record_n, uint32_t level_limit, size_t work_n) {
    return rlc_search(record, record_n, 0, 1, pattern, 1, level_limit, edges, 1, work, work_n);
}

static uint64_t routed(size_t record_n, size_t walk_n, size_t work_n) {
    return rlc_route(record, record_n, 0, 1, pattern, 1, edges, 1, walk, walk_n, work, work_n);
}

static uint64_t written(size_t record_n, size_t output_n) {
    return rlc_write_card(record, record_n, edges, 1, card, output_n);
}

static uint32_t card_read(size_t card_n, size_t work_n) {
    return rlc_read_card(record, RLC_RECORD_N, card, card_n, edges, 1, index_memory, SLOTS, work, work_n);
}

/* A layout is opened and its one edge inserted. */
static void changes(void) {
    fact("open, a record too short", opened(RLC_RECORD_N - 1) == RLC_BAD_RECORD);
    fact("open", opened(RLC_RECORD_N) == RLC_ACCEPTED);
    fact("insert, too little work memory", inserted(RLC_WORK_N(SLOTS) - 1) == RLC_WORK_MEMORY);
    fact("insert", inserted(RLC_WORK_N(SLOTS)) == RLC_ACCEPTED);
    fact("insert again", inserted(RLC_WORK_N(SLOTS)) == RLC_EDGE_PRESENT);
}

static void questions(void) {
    const size_t enough = RLC_WORK_N(0);
    uint64_t reply = searched(RLC_RECORD_N, 1, enough);
    fact("query by 1", queried(1, 0) == RLC_YES);
    fact("query by 1,1, too little work memory", queried(2, enough - 1) == RLC_WORK_MEMORY);
    fact("query by 1,1", queried(2, enough) == RLC_NO);
    fact("search", RLC_REPLY(reply) == RLC_YES && RLC_LEVELS(reply) == 1);
    reply = searched(RLC_RECORD_N, 0, enough);
    fact("search, no levels", RLC_REPLY(reply) == RLC_SPENT && RLC_LEVELS(reply) == 0);
    fact("search, too little work memory", RLC_REPLY(searched(RLC_RECORD_N, 1, enough - 1)) == RLC_WORK_MEMORY);
    fact("search, a record too short", RLC_REPLY(searched(RLC_RECORD_N - 1, 1, enough)) == RLC_BAD_RECORD);
    reply = routed(RLC_RECORD_N, 1, enough);
    fact("route", RLC_REPLY(reply) == RLC_YES && RLC_LENGTH(reply) == 1 && walk[0] == edges[0]);
    fact("route, no walk memory", RLC_REPLY(routed(RLC_RECORD_N, 0, enough)) == RLC_WALK_MEMORY);
    fact("route, too little work memory", RLC_REPLY(routed(RLC_RECORD_N, 1, enough - 1)) == RLC_WORK_MEMORY);
    fact("route, a record too short", RLC_REPLY(routed(RLC_RECORD_N - 1, 1, enough)) == RLC_BAD_RECORD);
}

/* In the layout of two edges: from 0 with label 1 to 1, from 1 with label 2 to 0. */
static void two_patterns(void) {
    const size_t enough = RLC_WORK_N(0), all = RLC_WORK_N(SLOTS);
    uint64_t reply;
    fact("open, for two edges", rlc_open(there_and_back, RLC_RECORD_N, two_edges, 2, two_index, SLOTS) == RLC_ACCEPTED);
    fact("insert, the first of two edges",
         rlc_insert(there_and_back, RLC_RECORD_N, 0, 1, 1, two_edges, 2, two_index, SLOTS, work, all) == RLC_ACCEPTED);
    fact("insert, the second of two edges",
         rlc_insert(there_and_back, RLC_RECORD_N, 1, 2, 0, two_edges, 2, two_index, SLOTS, work, all) == RLC_ACCEPTED);
    reply = queried_two(RLC_RECORD_N, 0, 1, 0);
    fact("query two by 1 and 2", RLC_REPLY(reply) == RLC_YES && RLC_MIDDLE(reply) == 1);
    fact("query two by 1 and 2, from 1", queried_two(RLC_RECORD_N, 1, 1, 0) == RLC_NO);
    fact("query two by 1,1 and 2", queried_two(RLC_RECORD_N, 0, 2, enough) == RLC_NO);
    reply = queried_two(RLC_RECORD_N, 0, 2, enough - 1);
    fact("query two by 1,1 and 2, too little work memory", RLC_REPLY(reply) == RLC_WORK_MEMORY && RLC_MIDDLE(reply) == 0);
    reply = queried_two(RLC_RECORD_N, 0, 0, enough);
    fact("query two, no first label", RLC_REPLY(reply) == RLC_QUERY_PATTERN && RLC_MIDDLE(reply) == 0);
    reply = queried_two(RLC_RECORD_N - 1, 0, 1, enough);
    fact("query two, a record too short", RLC_REPLY(reply) == RLC_BAD_RECORD && RLC_MIDDLE(reply) == 0);
}

/* The card is written, read, and its edge removed. */
static void cards(void) {
    uint64_t reply = written(RLC_RECORD_N, RLC_CARD_N(1) - 1);
    fact("write card, too short an output", RLC_REPLY(reply) == RLC_CARD_OUTPUT && RLC_LENGTH(reply) == 0);
    reply = written(RLC_RECORD_N - 1, RLC_CARD_N(1));
    fact("write card, a record too short", RLC_REPLY(reply) == RLC_BAD_RECORD && RLC_LENGTH(reply) == 0);
    reply = written(RLC_RECORD_N, RLC_CARD_N(1));
    fact("write card", RLC_REPLY(reply) == RLC_ACCEPTED && RLC_LENGTH(reply) == RLC_CARD_N(1));
    fact("read card, a byte too short", card_read(RLC_CARD_N(1) - 1, RLC_WORK_N(SLOTS)) == RLC_CARD_EDGES);
    fact("read card, too little work memory", card_read(RLC_CARD_N(1), RLC_WORK_N(SLOTS) - 1) == RLC_WORK_MEMORY);
    fact("read card", card_read(RLC_CARD_N(1), RLC_WORK_N(SLOTS)) == RLC_ACCEPTED);
    fact("remove, too little work memory", removed(RLC_WORK_N(SLOTS) - 1) == RLC_WORK_MEMORY);
    fact("remove", removed(RLC_WORK_N(SLOTS)) == RLC_ACCEPTED);
    fact("remove again", removed(RLC_WORK_N(SLOTS)) == RLC_EDGE_ABSENT);
}

static void repeats(void) {
    fact("minimum repeat", rlc_minimum_repeat(pattern, LABELS) == 1);
    fact("minimum repeat, computed", rlc_minimum_repeat_computed(pattern, LABELS) == 1);
    fact("times written", rlc_times_written(pattern, LABELS) == 2);
}

int main(void) {
    parts(WIDE(100, 7), WIDE(155, 0xFFFFFFF9), 1);
    changes();
    questions();
    two_patterns();
    cards();
    repeats();
    if (!failed)
        printf("header: %d facts hold\n", facts);
    return failed;
}
