/* Asks a layout's card: is there a walk from start to destination that runs the pattern?
 *
 *     ask CARD START DESTINATION LABELS
 *     ask examples/card_a.prc 0 0 12
 *
 * LABELS is one word, a digit for each label, with or without commas between them: 12 or 1,2. The answer is printed, yes or no.
 *
 * Exit status: 0 yes, 1 no, 2 refused by the library, 64 wrong usage, 66 card not read, 74 output not written. */
#include "input.h"
#include "refusals.h"
#include "rlc.h"

#include <ctype.h>
#include <stdio.h>

enum {
    EDGES = 1024,             /* slots of edge memory */
    INDEX = 1 << 18,          /* slots of index memory. A card refused with 13 (index slots) needs more. */
    WORK = RLC_WORK_N(INDEX), /* numbers of work memory */
    CARD = RLC_CARD_N(EDGES), /* bytes of the longest card */
    PATTERN = 8               /* labels taken; the library refuses a pattern longer than the layout's k, which is at most 4 */
};

enum { YES = 0, NO = 1, USAGE = 64, NO_INPUT = 66, NO_OUTPUT = 74 };

struct question {
    uint32_t start, destination;
    uint8_t pattern[PATTERN];
    size_t labels;
};

static uint32_t record[RLC_RECORD_N], edges[EDGES];
static uint64_t index_memory[INDEX], work[WORK];
static uint8_t card[CARD + 1]; /* a byte more than the longest, as read_file asks */

/* Reads one label after another. Every digit is taken: a label that is none is the library's to refuse. */
static int read_labels(const char *word, struct question *question) {
    question->labels = 0;
    for (;;) {
        if (!isdigit((unsigned char)*word) || question->labels == PATTERN)
            return 0;
        question->pattern[question->labels++] = (uint8_t)(*word++ - '0');
        if (*word == '\0')
            return 1;
        if (*word == ',')
            word++;
    }
}

static int print_answer(uint32_t reply) {
    printf("%s\n", reply == RLC_YES ? "yes" : "no");
    if (fflush(stdout) != 0 || ferror(stdout)) {
        fprintf(stderr, "cannot write\n");
        return NO_OUTPUT;
    }
    return reply == RLC_YES ? YES : NO;
}

int main(int argc, char **argv) {
    struct question question;
    size_t length;
    if (argc != 5 || !read_number(argv[2], UINT32_MAX, &question.start) ||
        !read_number(argv[3], UINT32_MAX, &question.destination) || !read_labels(argv[4], &question)) {
        fprintf(stderr, "usage: ask CARD START DESTINATION LABELS\n");
        return USAGE;
    }
    if (!read_file(argv[1], card, sizeof card, &length)) {
        fprintf(stderr, "cannot read %s\n", argv[1]);
        return NO_INPUT;
    }

    uint32_t reply = rlc_read_card(record, RLC_RECORD_N, card, length, edges, EDGES, index_memory, INDEX, work, WORK);
    if (reply != RLC_ACCEPTED)
        return refused(reply);

    /* A query needs less work memory than an index that is built. */
    reply = rlc_query(record, RLC_RECORD_N, question.start, question.destination, question.pattern, question.labels, edges, EDGES,
                      index_memory, INDEX, work, RLC_WORK_N(0));
    if (reply != RLC_YES && reply != RLC_NO)
        return refused(reply);
    return print_answer(reply);
}
