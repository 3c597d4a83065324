/* A first query: opens a layout of 3 vertices, inserts layout A's edges one by one, asks, and writes its card.
 *
 * Every reply is looked at. Exit status: 0, or 2 at a refusal that is not expected, which is told by its name. */
#include "refusals.h"
#include "rlc.h"

#include <inttypes.h>
#include <stdio.h>

enum { EDGES = 16, INDEX = 64, WORK = RLC_WORK_N(INDEX), CARD = RLC_CARD_N(EDGES) };

/* What the library works on: lent with each call, kept from call to call. */
static uint32_t record[RLC_RECORD_N] = {3, 2}; /* 3 vertices, patterns of at most 2 labels; the library fills in the rest */
static uint32_t edges[EDGES];
static uint64_t index_memory[INDEX], work[WORK];

/* Each step returns RLC_ACCEPTED or the refusal. */

static uint32_t set_up(void) {
    static const uint32_t wanted[3][3] = {{0, 1, 1}, {1, 1, 2}, {1, 2, 0}}; /* from, label, to */
    uint32_t reply = rlc_open(record, RLC_RECORD_N, edges, EDGES, index_memory, INDEX);
    if (reply != RLC_ACCEPTED)
        return reply;
    printf("open accepted\n");
    for (int i = 0; i < 3; i++) {
        reply = rlc_insert(record, RLC_RECORD_N, wanted[i][0], wanted[i][1], wanted[i][2], edges, EDGES, index_memory, INDEX, work, WORK);
        if (reply != RLC_ACCEPTED)
            return reply;
        printf("insert %" PRIu32 "-%" PRIu32 "-%" PRIu32 " accepted\n", wanted[i][0], wanted[i][1], wanted[i][2]);
    }
    printf("edges by label:");
    for (int i = 2; i < RLC_RECORD_N; i++)
        printf(" %" PRIu32, record[i]);
    printf("\n");
    return RLC_ACCEPTED;
}

/* Is the reply yes or no? Then it is printed behind the question. Otherwise it is a refusal. */
static int answered(const char *question, uint32_t reply) {
    if (reply != RLC_YES && reply != RLC_NO)
        return 0;
    printf("%s: %s\n", question, reply == RLC_YES ? "yes" : "no");
    return 1;
}

static uint32_t ask(void) {
    const uint8_t pattern[2] = {1, 2};
    uint32_t reply = rlc_query(record, RLC_RECORD_N, 0, 0, pattern, 2, edges, EDGES, index_memory, INDEX, work, WORK);
    if (!answered("0 to 0 by 1,2", reply))
        return reply;
    reply = rlc_query(record, RLC_RECORD_N, 0, 0, pattern, 1, edges, EDGES, index_memory, INDEX, work, WORK);
    if (!answered("0 to 0 by 1", reply))
        return reply;
    const uint8_t twice[2] = {1, 1}; /* an even number of edges */
    reply = rlc_query(record, RLC_RECORD_N, 0, 2, twice, 2, edges, EDGES, index_memory, INDEX, work, WORK);
    if (!answered("0 to 2 by 1,1", reply))
        return reply;
    const uint8_t lacking[1] = {3}; /* a label that no edge has: only the record is looked at */
    reply = rlc_query(record, RLC_RECORD_N, 0, 2, lacking, 1, NULL, 0, NULL, 0, NULL, 0);
    if (!answered("0 to 2 by 3", reply))
        return reply;
    /* There is no vertex 3: this refusal is expected. */
    reply = rlc_query(record, RLC_RECORD_N, 0, 3, pattern, 1, edges, EDGES, index_memory, INDEX, work, WORK);
    if (!answered("0 to 3 by 1", reply))
        printf("0 to 3 by 1: refused %" PRIu32 ": %s\n", reply, refusal_name(reply));
    return RLC_ACCEPTED;
}

static uint32_t write_card(void) {
    uint8_t card[CARD];
    uint64_t reply = rlc_write_card(record, RLC_RECORD_N, edges, EDGES, card, CARD);
    if (RLC_REPLY(reply) != RLC_ACCEPTED)
        return RLC_REPLY(reply);
    printf("card");
    for (uint32_t i = 0; i < RLC_LENGTH(reply); i++)
        printf(" %02x", card[i]);
    printf("\n");
    return RLC_ACCEPTED;
}

int main(void) {
    uint32_t reply = set_up();
    if (reply == RLC_ACCEPTED)
        reply = ask();
    if (reply == RLC_ACCEPTED)
        reply = write_card();
    return reply == RLC_ACCEPTED ? 0 : refused(reply);
}
