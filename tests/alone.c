/* A program with nothing but what rlc.h says that the library asks for: no C library, its own entry, memset and memcpy. tests/alone
 * links it with the static library alone and runs it.
 *
 * Ends with status 0 if each call replies as it must, else with the number of the first that does not. x86-64 and Linux. */
#include "rlc.h"

void *memset(void *to, int byte, size_t n);
void *memcpy(void *to, const void *from, size_t n);
int run(void);

/* No return address, and the stack aligned as a call asks: run's status is the program's. */
__asm__(".globl _start\n"
        "_start:\n"
        "    xor %ebp, %ebp\n"
        "    call run\n"
        "    mov %eax, %edi\n"
        "    mov $60, %eax\n"
        "    syscall\n");

static unsigned long sets, copies; /* how often each was called */

void *memset(void *to, int byte, size_t n) {
    for (size_t i = 0; i < n; i++)
        ((unsigned char *)to)[i] = (unsigned char)byte;
    sets++;
    return to;
}

void *memcpy(void *to, const void *from, size_t n) {
    for (size_t i = 0; i < n; i++)
        ((unsigned char *)to)[i] = ((const unsigned char *)from)[i];
    copies++;
    return to;
}

enum { EDGES = 4, INDEX = 8, WORK = RLC_WORK_N(INDEX), CARD = RLC_CARD_N(3) };

/* Layout A: 0 to 1 and 1 to 2 by label 1, 1 to 0 by label 2. */
static uint32_t record[RLC_RECORD_N] = {3, 2}, edges[EDGES], walk[EDGES];
static uint64_t index_memory[INDEX], work[WORK];
static uint8_t card[CARD];
static const uint8_t there_and_back[2] = {1, 2}, twice[2] = {1, 1};

static uint32_t insert(uint32_t from, uint32_t label, uint32_t to) {
    return rlc_insert(record, RLC_RECORD_N, from, label, to, edges, EDGES, index_memory, INDEX, work, WORK);
}

static uint32_t query(uint32_t start, uint32_t destination, const uint8_t *pattern, size_t n) {
    return rlc_query(record, RLC_RECORD_N, start, destination, pattern, n, edges, EDGES, index_memory, INDEX, work, WORK);
}

#define WIDE(reply, more) (((uint64_t)(reply) << 32) + (more))
#define CHECK(number, fact) \
    if (!(fact))            \
        return number;

int run(void) {
    CHECK(1, rlc_open(record, RLC_RECORD_N, edges, EDGES, index_memory, INDEX) == RLC_ACCEPTED)
    CHECK(2, insert(0, 1, 1) == RLC_ACCEPTED && insert(1, 2, 0) == RLC_ACCEPTED && insert(1, 1, 2) == RLC_ACCEPTED)
    CHECK(3, insert(1, 1, 2) == RLC_EDGE_PRESENT)
    CHECK(4, query(0, 0, there_and_back, 2) == RLC_YES && query(0, 0, there_and_back, 1) == RLC_NO)
    CHECK(5, query(0, 2, twice, 2) == RLC_YES && query(0, 1, twice, 2) == RLC_NO)
    CHECK(6, rlc_query_two(record, RLC_RECORD_N, 0, 2, there_and_back, 2, twice, 2, edges, EDGES, index_memory, INDEX, work, WORK) == WIDE(RLC_YES, 0))
    CHECK(7, rlc_search(record, RLC_RECORD_N, 0, 2, twice, 2, 1025, edges, EDGES, work, WORK) == WIDE(RLC_YES, 2))
    CHECK(8, rlc_route(record, RLC_RECORD_N, 0, 2, twice, 2, edges, EDGES, walk, EDGES, work, WORK) == WIDE(RLC_YES, 2))
    CHECK(9, rlc_write_card(record, RLC_RECORD_N, edges, EDGES, card, CARD) == CARD)
    CHECK(10, rlc_remove(record, RLC_RECORD_N, 1, 1, 2, edges, EDGES, index_memory, INDEX, work, WORK) == RLC_ACCEPTED)
    CHECK(11, rlc_read_card(record, RLC_RECORD_N, card, CARD, edges, EDGES, index_memory, INDEX, work, WORK) == RLC_ACCEPTED)
    CHECK(12, query(0, 2, twice, 1) == RLC_YES)
    CHECK(13, rlc_minimum_repeat(twice, 2) == 1 && rlc_minimum_repeat_computed(twice, 2) == 1 && rlc_times_written(twice, 2) == 2)
    CHECK(14, sets > 0 && copies > 0)
    return 0;
}
