/* refusals.h: the refusals of rlc.h by name, and how an example tells one. */
#ifndef REFUSALS_H
#define REFUSALS_H

#include "rlc.h"

#include <inttypes.h>
#include <stdio.h>

/* The refusal's name; "unknown" of a number that is none. */
static inline const char *refusal_name(uint32_t refusal) {
    static const char *const names[] = {
        [RLC_VERTICES] = "vertices",           [RLC_LONGEST] = "longest",
        [RLC_EDGE_MEMORY] = "edge memory",     [RLC_WORK_MEMORY] = "work memory",
        [RLC_EDGE_END] = "edge end",           [RLC_EDGE_LABEL] = "edge label",
        [RLC_EDGE_PRESENT] = "edge present",   [RLC_EDGE_ABSENT] = "edge absent",
        [RLC_EDGE_SLOTS] = "edge slots",       [RLC_QUERY_END] = "query end",
        [RLC_QUERY_PATTERN] = "query pattern", [RLC_INDEX_MEMORY] = "index memory",
        [RLC_INDEX_SLOTS] = "index slots",     [RLC_CARD_MARK] = "card mark",
        [RLC_CARD_VERSION] = "card version",   [RLC_CARD_EDGES] = "card edges",
        [RLC_CARD_OUTPUT] = "card output",     [RLC_WALK_MEMORY] = "walk memory",
    };
    if (refusal == RLC_BAD_RECORD)
        return "record length";
    return refusal >= RLC_VERTICES && refusal <= RLC_WALK_MEMORY ? names[refusal] : "unknown";
}

/* Tells the refusal on standard error, as "refused 10: query end". Returns 2, the status to end with. */
static inline int refused(uint32_t refusal) {
    fprintf(stderr, "refused %" PRIu32 ": %s\n", refusal, refusal_name(refusal));
    return 2;
}

#endif
