/* Lights a route: reads a layout's card, asks for the route, and prints the layout as Graphviz text with the route lit.
 *
 *     light_route CARD START DESTINATION LABEL...
 *     light_route examples/card_a.prc 0 0 1 2 | dot -Tsvg > route.svg
 *
 * Every edge has its label's colour; the route's edges are thick and bear their numbers in running order. The start is filled,
 * the destination has a double circle. A vertex without edges is left out.
 *
 * Exit status: 0 a route, 1 no route, 2 refused by the library, 64 wrong usage, 66 card not read, 74 output not written. */
#include "input.h"
#include "refusals.h"
#include "rlc.h"

#include <stdio.h>

enum {
    EDGES = 1024,             /* slots of edge memory */
    WALK = 1024,              /* slots of walk memory: enough for every route */
    INDEX = 1 << 18,          /* slots of index memory; the station fills 269. A card refused with 13 (index slots) needs more. */
    WORK = RLC_WORK_N(INDEX), /* numbers of work memory */
    CARD = RLC_CARD_N(EDGES), /* bytes of the longest card */
    PATTERN = 8               /* labels taken; the library refuses a pattern longer than the layout's k, which is at most 4 */
};

enum { ROUTE = 0, NO_ROUTE = 1, USAGE = 64, NO_INPUT = 66, NO_OUTPUT = 74 };

struct question {
    uint32_t start, destination;
    uint8_t pattern[PATTERN];
    size_t labels;
};

static uint32_t record[RLC_RECORD_N], edges[EDGES], walk[WALK];
static uint64_t index_memory[INDEX], work[WORK];
static uint8_t card[CARD + 1]; /* a byte more than the longest, as read_file asks */

/* By label, 1 to 8. */
static const char *const colours[] = {"", "#0072b2", "#d55e00", "#009e73", "#cc79a7", "#000000", "#e69f00", "#56b4e9", "#999999"};

/* Reads the words behind the card's name. A number too great for its type in the call (a label over 255) and more labels than
 * PATTERN are wrong usage; whatever the call can be handed is the library's to refuse. */
static int read_question(int words, char **word, struct question *question) {
    if (words < 3 || words > 2 + PATTERN)
        return 0;
    if (!read_number(word[0], UINT32_MAX, &question->start) || !read_number(word[1], UINT32_MAX, &question->destination))
        return 0;
    question->labels = (size_t)words - 2;
    for (size_t i = 0; i < question->labels; i++) {
        uint32_t label;
        if (!read_number(word[2 + i], UINT8_MAX, &label))
            return 0;
        question->pattern[i] = (uint8_t)label;
    }
    return 1;
}

/* The picture's title, its labels in their colours. */
static void print_question(const struct question *question) {
    printf("    label=<%u to %u by", question->start, question->destination);
    for (size_t i = 0; i < question->labels; i++)
        printf(" <font color=\"%s\">%u</font>", colours[question->pattern[i]], question->pattern[i]);
    printf(">;\n");
}

static void print_ends(uint32_t start, uint32_t destination) {
    if (start == destination) {
        printf("    %u [style=filled, shape=doublecircle];\n", start);
    } else {
        printf("    %u [style=filled];\n", start);
        printf("    %u [shape=doublecircle];\n", destination);
    }
}

/* An edge is from * 4096 + label * 256 + to. It is lit if the route runs it, and bears the number of each time. */
static void print_edge(uint32_t edge, uint32_t length) {
    int lit = 0;
    printf("    %u -> %u [color=\"%s\"", edge / 4096, edge % 256, colours[edge / 256 % 16]);
    for (uint32_t i = 0; i < length; i++) {
        if (walk[i] == edge) {
            printf("%s%u", lit ? "," : ", penwidth=4, label=\"", i + 1);
            lit = 1;
        }
    }
    printf("%s];\n", lit ? "\"" : "");
}

static int print_layout(const struct question *question, uint32_t length) {
    printf("digraph route {\n    node [shape=circle];\n");
    print_question(question);
    print_ends(question->start, question->destination);
    for (size_t i = 0; i < EDGES && edges[i] != 0; i++)
        print_edge(edges[i], length);
    printf("}\n");
    if (fflush(stdout) != 0 || ferror(stdout)) {
        fprintf(stderr, "cannot write\n");
        return NO_OUTPUT;
    }
    return ROUTE;
}

int main(int argc, char **argv) {
    struct question question;
    size_t length;
    if (argc < 2 || !read_question(argc - 2, argv + 2, &question)) {
        fprintf(stderr, "usage: light_route CARD START DESTINATION LABEL...\n");
        return USAGE;
    }
    if (!read_file(argv[1], card, sizeof card, &length)) {
        fprintf(stderr, "cannot read %s\n", argv[1]);
        return NO_INPUT;
    }

    uint32_t answer = rlc_read_card(record, RLC_RECORD_N, card, length, edges, EDGES, index_memory, INDEX, work, WORK);
    if (answer != RLC_ACCEPTED)
        return refused(answer);

    uint64_t reply = rlc_route(record, RLC_RECORD_N, question.start, question.destination, question.pattern, question.labels,
                               edges, EDGES, walk, WALK, work, WORK);
    answer = RLC_REPLY(reply);
    if (answer == RLC_NO) {
        fprintf(stderr, "no route\n");
        return NO_ROUTE;
    }
    if (answer != RLC_YES)
        return refused(answer);
    return print_layout(&question, RLC_LENGTH(reply));
}
