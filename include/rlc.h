/* rlc.h: the pattern index of a model-railway layout. This comment is its manual; each call's own comment says the rest.
 *
 * A layout is a directed graph: vertices (places) numbered from 0, and edges (legs), each from a vertex to a vertex, perhaps
 * the same one, with a label (colour) 1 to 8. A query names a start, a destination and a pattern of labels. The reply is yes
 * exactly when some walk of one or more edges spells the pattern, as keyed, one or more whole times: by 1 any number of edges
 * with label 1, by 1,1 an even number.
 *
 * Everything the library works on is lent by its caller with each call. Nothing is kept between calls, there is no heap and
 * no global state, and every call returns.
 *
 *
 * WHAT IS LENT
 *
 *   record   RLC_RECORD_N numbers: vertices (1 to 256), longest pattern k (1 to 4), then 8 totals: how many edges have
 *            label 1, label 2, .. label 8. Totals let a query by a label that the layout lacks be told no at once. Each
 *            accepted open, insert, remove and read card counts them anew and hands them back in the record, whatever they
 *            were: you need not fill them in before a layout is opened or a card is read. Keep all the numbers with the
 *            edges and the index: with totals that are not those of the edges, rlc_query and rlc_query_two may reply a wrong
 *            no and are not refused. Only these two look at totals, and no call is refused for them.
 *   edges    edge memory, 0 to 1,024 slots: one edge a slot, from * 4096 + label * 256 + to, strictly rising, then zeros
 *   index    index memory, any number of slots: one entry a slot, strictly rising, then zeros
 *   work     at least 4,096 numbers; if an index is built (insert, remove, read card), one more for each index slot.
 *            Contents do not matter. Zero after an accepted call and after refusals 13 and 18, else untouched. A query uses
 *            it only if a pattern of it repeats itself and no label of it has total 0 (see rlc_query, rlc_query_two).
 *   walk     walk memory, any number of slots: a route's edges in running order, written as in edge memory
 *
 * A slice is a pointer and then its number of elements. Elements must be aligned as their C type asks. A slice of 0 elements
 * may have any pointer, NULL too. One memory must not be lent twice in one call.
 *
 * A refused call changes nothing that was lent, the record included, except that refusals 13 and 18 zero work memory.
 *
 *
 * SIZES
 *
 * A record has 40 bytes. A slot of edge or walk memory has 4 bytes, a slot of index memory and a number of work memory 8: n
 * index slots take 8 * n bytes, and the work memory to build an index in them 8 * RLC_WORK_N(n), which is 32,768 + 8 * n.
 *
 * How many entries the index has follows from the edges and k; how many vertices and edges there are does not tell. Measured:
 *
 *                                                       k 1      k 2      k 3      k 4
 *   a station         20 vertices,    31 edges           54       80      156      269 entries
 *   three stations    60 vertices,    93 edges          166      244      473      831 entries
 *   six stations     120 vertices,   186 edges          334      490      950    1,674 entries
 *   sparse           256 vertices, 1,024 edges        1,547    5,645   22,804   88,808 entries
 *   dense            256 vertices, 1,024 edges          913    1,747    4,197    9,050 entries
 *   crowded          256 vertices, 1,024 edges          190      380      950    2,090 entries
 *   railway          256 vertices, 1,024 edges        1,619    6,609   31,957  139,289 entries
 *
 * The first three are club layouts: examples/station.txt, a double-track oval with a station, hidden sidings and a branch,
 * and three and six of them in a ring (the cards are in examples/). The others are the layouts of docs/BENCHMARKS.md: edges
 * drawn at random with 8 labels (sparse) or 2 (dense), with 2 labels among 48 vertices (crowded), and four double-track loops
 * with crossovers and sidings (railway). These are no upper limits: 256 vertices in a chain, each joined to the next by four
 * labels, need 2,886,244 entries at k 4.
 *
 * The program size tells the entries and the bytes for them from a layout's card, before any track is laid (README.md). Every
 * entry is needed, so fewer slots will not do. But a layout that is changed can need more on the way: without its edge 0-1-1
 * (from 0, label 1, to 1) the ring of six stations needs 1,092 entries at k 2, and 490 with it. On refusal 13
 * (RLC_INDEX_SLOTS) lend more index slots, and as many more numbers of work memory, and call again: nothing else was changed.
 * Index memory may be moved to a larger one at any time: the entries, then zeros.
 *
 *
 * COST
 *
 * Times were measured on several PCs (docs/BENCHMARKS.md): go by their order of magnitude.
 *
 * - rlc_insert, rlc_remove and rlc_read_card each build the whole index anew: 20 to 75 ns for each entry, so 15 us for the
 *   station and 0.13 to 4 ms for the four layouts of 1,024 edges, at k 4.
 * - To load many edges read a card: it is one build. 1,024 edges inserted one by one took 300 to 600 times as long.
 * - rlc_query reads every slot of index memory that is lent, zeros too: 0.9 to 1.5 ns an entry, 0.3 ns a zero. Lend the slots
 *   that are needed and no more: with 262,144 slots for 380 entries a query took 130 times as long. By a label that the layout
 *   lacks it reads no memory, and takes 5 to 12 ns.
 * - rlc_query_two checks index memory once, as rlc_query does, and reads one side of it again, out or in entries, for each
 *   pattern that is written once. For a pattern that repeats itself it searches the edges once, however many middles there are;
 *   for the second one it turns them round and sorts them first, 3 us for 1,024 of them. In all it takes 0.9 to 2.3 times as
 *   long as rlc_query on the layouts of 1,024 edges at k 4.
 * - rlc_search and rlc_route search the edges, 2 to 4 us for 1,024 of them, and look at no index: if there are many entries,
 *   that is less than a query takes. A query by a pattern that repeats itself costs both.
 * - Work memory that is used is zeroed whole: lend RLC_WORK_N(0) numbers to a call that builds no index.
 *
 *
 * THREADS AND INTERRUPTS
 *
 * Nothing is shared behind your back: calls on different memory may run at the same time, and an interrupt may make a call on
 * memory of its own while another call runs. Memory that a call was lent must not be changed by anyone else until it returns.
 * rlc_query, rlc_query_two, rlc_search, rlc_route and rlc_write_card only read the record, edges and index: any number of
 * them may run side by side on the same ones as long as nobody changes these, if each has its own work and walk memory and
 * output (a query that needs no work memory may be lent none). rlc_open, rlc_insert, rlc_remove and rlc_read_card write the
 * record, edges, index and work, and must have them to themselves until they return, even if they are then refused: in
 * between these are half done. A call that is abandoned and not returned from leaves them so; open the layout or read its
 * card again.
 *
 *
 * STACK
 *
 * What each call takes with all that it calls, the return address and the arguments on the stack included, as tools/stack
 * measures it on x86-64; the tests hold these figures to it. memset and memcpy, which the library takes from your C library,
 * are in it with nothing but their return address.
 *
 *   rlc_query_two                                              21 KiB
 *   rlc_insert, rlc_remove, rlc_read_card                      18 KiB
 *   rlc_query                                                  17 KiB
 *   rlc_search, rlc_route                                       3 KiB
 *   rlc_open, rlc_write_card                                    1 KiB
 *   rlc_minimum_repeat, rlc_minimum_repeat_computed             1 KiB
 *   rlc_times_written                                           1 KiB
 *
 * By a label that the layout lacks a query takes below 1 KiB, by two patterns too.
 *
 *
 * WHAT IT IS BUILT FOR
 *
 * `tools/ship`, which makes librlc_c.a, compiles for x86-64 and Linux (an ELF object, System V calling convention, fit for
 * position-independent programs), and for nothing else today. The library is 32 KB of code and constants, has no data of its
 * own, makes no system call, and computes with integers alone (in SSE2 registers too, which an interrupt has to save). It
 * asks these functions of the program that it is linked into, and nothing else: memset and memcpy. The proofs do not depend
 * on the processor. For another one the kit's compiler has to learn it; C and C++ programs need nothing but this header.
 */
#ifndef RLC_H
#define RLC_H

#include <stddef.h>
#include <stdint.h>

#if SIZE_MAX < UINT64_MAX
#error "librlc_c.a takes lengths of 64 bits, and size_t has fewer here: see WHAT IT IS BUILT FOR"
#endif

#ifdef __cplusplus
extern "C" {
#endif

/* This interface: its first number times 100 and its second. A program written for another first number has to be changed
 * (docs/CHANGES.md says where). */
#define RLC_VERSION 402

/* Sizes: numbers of a record; numbers of work memory to build an index in so many slots (with 0 slots: for a query, a search or a
 * route); bytes of a card with so many edges. */
#define RLC_RECORD_N 10
#define RLC_WORK_N(slots) (4096 + (slots))
#define RLC_CARD_N(edges) (9 + 3 * (edges))

/* The parts of a 64-bit reply, of rlc_query_two, rlc_search, rlc_route and rlc_write_card: yes, no, spent or the refusal; the
 * middle of a query by two patterns; the levels built; the edges of a route or the bytes of a card. */
#define RLC_REPLY(x) ((uint32_t)((x) >> 32))
#define RLC_MIDDLE(x) ((uint32_t)(x))
#define RLC_LEVELS(x) ((uint32_t)(x))
#define RLC_LENGTH(x) ((uint32_t)(x))

/* Replies. */
enum {
    RLC_ACCEPTED = 0,    /* of open, insert, remove, read card; of write card, with the card's length */
    RLC_NO = 0,          /* of query, query two, search and route */
    RLC_YES = 100,       /* of these */
    RLC_SPENT = 101,     /* of search: neither yes nor no within the level limit */
    RLC_BAD_RECORD = 255 /* the record lent does not have RLC_RECORD_N numbers; nothing is touched */
};

/* Refusals. The first that applies, in the order given at each call, is returned. */
enum {
    RLC_VERTICES = 1,       /* vertices not 1 to 256 */
    RLC_LONGEST = 2,        /* longest pattern not 1 to 4 */
    RLC_EDGE_MEMORY = 3,    /* over 1,024 slots, or (not for open or read card) not rising edges of this layout then zeros */
    RLC_WORK_MEMORY = 4,    /* too little work memory */
    RLC_EDGE_END = 5,       /* an end of the edge is no vertex */
    RLC_EDGE_LABEL = 6,     /* the edge's label is not 1 to 8 */
    RLC_EDGE_PRESENT = 7,   /* the edge to insert stands already */
    RLC_EDGE_ABSENT = 8,    /* the edge to remove does not stand */
    RLC_EDGE_SLOTS = 9,     /* fewer edge slots than edges wanted */
    RLC_QUERY_END = 10,     /* start or destination is no vertex */
    RLC_QUERY_PATTERN = 11, /* pattern empty, longer than k, or with a label not 1 to 8 */
    RLC_INDEX_MEMORY = 12,  /* not rising entries of this layout then zeros */
    RLC_INDEX_SLOTS = 13,   /* fewer index slots than entries needed; work memory is zero */
    RLC_CARD_MARK = 14,     /* card under 9 bytes, or without its mark PRC */
    RLC_CARD_VERSION = 15,  /* card version not 1 */
    RLC_CARD_EDGES = 16,    /* card length not 9 + 3 * edges, or not rising edges of its layout */
    RLC_CARD_OUTPUT = 17,   /* output shorter than the card */
    RLC_WALK_MEMORY = 18    /* walk memory shorter than the route; work memory is zero */
};

/* Opens an empty layout with the record's vertices and k: zeroes edge and index memory. Refusals 1 2 3.
 * Returns 0 or the refusal. Accepted, the record's totals are zero. */
uint32_t rlc_open(uint32_t *record, size_t record_n, uint32_t *edges, size_t edges_n, uint64_t *index, size_t index_n);

/* Inserts (lays) an edge and builds the index of the edges that then stand. Refusals 1 2 3 4 5 6 7 9 13.
 * Index memory is written whole; what it held before does not matter. Accepted, the record's totals are counted anew.
 * Returns 0 or the refusal. */
uint32_t rlc_insert(uint32_t *record, size_t record_n, uint32_t from, uint32_t label, uint32_t to, uint32_t *edges, size_t edges_n,
                    uint64_t *index, size_t index_n, uint64_t *work, size_t work_n);

/* Removes (lifts) an edge, likewise. Refusals 1 2 3 4 5 6 8 13. A removal can need more entries than before. */
uint32_t rlc_remove(uint32_t *record, size_t record_n, uint32_t from, uint32_t label, uint32_t to, uint32_t *edges, size_t edges_n,
                    uint64_t *index, size_t index_n, uint64_t *work, size_t work_n);

/* Asks whether a walk from start to destination runs the pattern. Refusals 1 2 10 11 come first. Returns 100 yes, 0 no,
 * else the refusal. What else a query looks at, and is refused for, depends on the record's totals and on its pattern
 * (rlc_times_written tells how often it was written):
 *
 * - With a label whose total in the record is 0: no. Edges, index and work are not looked at and stay as they are; all
 *   three may have length 0. On the record that the last accepted change left the reply is right.
 * - Otherwise, written once, as 1 or 1,2 or 1,2,1: refusal 12, then the index replies. Edges and work are not looked at
 *   and stay as they are; both may have length 0. On the record and index memory that the last accepted change left the
 *   reply is right.
 * - Otherwise, repeating itself, as 1,1 or 1,2,1,2: refusals 12 3 4. The index has no such pattern, so the call costs a
 *   search of the edges (as rlc_search does) after the check of index memory. It reads edge memory, and needs at least
 *   4,096 numbers of work memory; unless the call is refused, all the work memory lent is zero afterwards. On the
 *   record, edge and index memory that the last accepted change left the reply is right. */
uint32_t rlc_query(const uint32_t *record, size_t record_n, uint32_t start, uint32_t destination, const uint8_t *pattern, size_t pattern_n,
                   const uint32_t *edges, size_t edges_n, const uint64_t *index, size_t index_n, uint64_t *work, size_t work_n);

/* Asks whether some vertex m, the middle, has both: a walk from start to m that runs the first pattern, and a walk from m to
 * destination that runs the second, each as keyed and one or more whole times. Start or destination is a middle as well if
 * walks lead there: standing still is no walk. Returns 100 * 2^32 + m for yes, m the lowest middle; 0 for no; else the
 * refusal * 2^32. A record of another length gives 255 * 2^32. So:
 *
 *     uint64_t reply = rlc_query_two(...);
 *     if (RLC_REPLY(reply) == RLC_YES)
 *         printf("yes, by way of %u\n", (unsigned)RLC_MIDDLE(reply));
 *     else if (RLC_REPLY(reply) == RLC_NO)
 *         printf("no\n");
 *     else
 *         printf("refused %u\n", (unsigned)RLC_REPLY(reply));
 *
 * Refusals 1 2 10 come first, then 11 for the first pattern, then 11 for the second. Then, as in rlc_query:
 *
 * - With a label, in either pattern, whose total in the record is 0: no. Edges, index and work are not looked at and stay
 *   as they are; all three may have length 0.
 * - Otherwise, both patterns written once: refusal 12, then the index replies. Edges and work are not looked at and stay as
 *   they are; both may have length 0.
 * - Otherwise, one of the patterns repeating itself or both: refusals 12 3 4. By a pattern that repeats itself the edges are
 *   searched, by one written once the index is asked. The call needs at least 4,096 numbers of work memory; unless it is
 *   refused, all the work memory lent is zero afterwards, after a yes and after a no.
 *
 * Whatever record and memory are lent, m is a middle exactly if rlc_query, put with the same ones, would reply yes from
 * start to m by the first pattern and yes from m to destination by the second. On those that the last accepted change left
 * the reply is right; of edge memory this matters only if a pattern repeats itself. */
uint64_t rlc_query_two(const uint32_t *record, size_t record_n, uint32_t start, uint32_t destination, const uint8_t *first, size_t first_n,
                       const uint8_t *second, size_t second_n, const uint32_t *edges, size_t edges_n, const uint64_t *index, size_t index_n,
                       uint64_t *work, size_t work_n);

/* Searches level by level, without the index, for a walk that runs the pattern as keyed; at most level_limit
 * levels are built, and 1,025 always suffice.
 * Refusals 1 2 3 4 10 11. Returns reply * 2^32 + levels built: reply 100 yes, 0 no, 101 spent, else the refusal
 * with levels 0. A record of another length gives 255 * 2^32. */
uint64_t rlc_search(const uint32_t *record, size_t record_n, uint32_t start, uint32_t destination, const uint8_t *pattern, size_t pattern_n,
                    uint32_t level_limit, const uint32_t *edges, size_t edges_n, uint64_t *work, size_t work_n);

/* Gives the route: the walk with the fewest edges that runs the pattern as keyed; of several, the one whose edge
 * numbers, compared one after another from the start, come first. Its edges are written to the front of walk memory
 * in running order, and nothing behind them is touched; 1,024 slots always suffice.
 * Refusals 1 2 3 4 10 11, and last 18. Returns reply * 2^32 + number of edges: reply 100 with the edges, 0 no (and
 * walk memory is untouched), else the refusal with 0. A record of another length gives 255 * 2^32. */
uint64_t rlc_route(const uint32_t *record, size_t record_n, uint32_t start, uint32_t destination, const uint8_t *pattern, size_t pattern_n,
                   const uint32_t *edges, size_t edges_n, uint32_t *walk, size_t walk_n, uint64_t *work, size_t work_n);

/* Reads a card: edge and index memory are then those of a fresh layout that received the card's edges, and the
 * card's vertices and k, and the totals of its edges, are written to the record. Refusals 14 15 2 16 3 9 4 13; the
 * record is then untouched.
 * Returns 0 or the refusal. */
uint32_t rlc_read_card(uint32_t *record, size_t record_n, const uint8_t *card, size_t card_n, uint32_t *edges, size_t edges_n,
                       uint64_t *index, size_t index_n, uint64_t *work, size_t work_n);

/* Writes the layout's card to the front of the output and touches nothing behind it. Refusals 1 2 3 17.
 * Returns the card's length, 9 + 3 * edges; refused, the refusal * 2^32. */
uint64_t rlc_write_card(const uint32_t *record, size_t record_n, const uint32_t *edges, size_t edges_n, uint8_t *output, size_t output_n);

/* The length of the pattern's minimum repeat, from a constant table; 0 unless the pattern is 1 to 4 labels 1 to 8. */
uint32_t rlc_minimum_repeat(const uint8_t *pattern, size_t pattern_n);

/* The same, computed: it tries one length after another. The two agree on every pattern; this one takes less time and
 * stack (docs/BENCHMARKS.md says why). */
uint32_t rlc_minimum_repeat_computed(const uint8_t *pattern, size_t pattern_n);

/* How many times the minimum repeat was written: the pattern's length is this times that; 0 unless the pattern is
 * 1 to 4 labels 1 to 8. 2 for 1,1 and for 1,2,1,2. */
uint32_t rlc_times_written(const uint8_t *pattern, size_t pattern_n);

#ifdef __cplusplus
}
#endif

#endif
