/* Calls of a proved reducer of parity games, for C and C++ on x86-64 Linux.
 *
 * Link libraskjomi, which ./install makes of the proved archives: `pkg-config --cflags --libs raskjomi` names what that needs.
 * docs/CONTRACT.md has the definitions, every refusal, and what each buffer holds after each call.
 *
 * A game is a table of 16-bit words: the numbers n of vertices and m of edges, then n priorities, n owners (0 Even,
 * 1 Odd), m sources and m targets. The lowest priority seen for ever decides, and even favours Even. An edge may stand
 * there several times; it counts as one. A large game has the same table with words of 32 bits, and no limits.
 *
 * Every input is allowed: any length and content, and any number. A slice goes as a pointer and a length in
 * elements: the pointer is aligned and not null, also where the length is 0, and no slice that is written overlaps
 * another. No call uses the heap or keeps anything, so calls may run on several threads at once; each thread that calls
 * needs RASKJOMI_LEAST_STACK bytes of stack, and what its thread-local storage takes, which comes out of the same stack.
 *
 * After a refusal the lent memory has its old content, but for what raskjomi_carry, raskjomi_carry_class,
 * raskjomi_verdict and raskjomi_replay say of theirs. After acceptance the words and bytes that a call names are written,
 * and those beyond keep their old content. */
#ifndef RASKJOMI_H
#define RASKJOMI_H

#include <stddef.h>
#include <stdint.h>

#ifdef __cplusplus
extern "C" {
#endif

/* The version that this header belongs to; raskjomi_version() tells that of the library. */
#define RASKJOMI_VERSION "0.1.0"
#define RASKJOMI_VERSION_MAJOR 0
#define RASKJOMI_VERSION_MINOR 1
#define RASKJOMI_VERSION_PATCH 0

/* Limits of all games but large ones. */
#define RASKJOMI_MOST_VERTICES 512
#define RASKJOMI_MOST_EDGES 4096
#define RASKJOMI_MOST_POSITIONS 4096
#define RASKJOMI_MOST_LINKS 16384
#define RASKJOMI_MOST_ENTRIES 4096
#define RASKJOMI_LEAST_STACK 262144

/* The players. */
#define RASKJOMI_EVEN 0
#define RASKJOMI_ODD 1

/* The words of a table of n vertices and m edges, and of a plan of p positions and l links. */
#define RASKJOMI_TABLE_WORDS(n, m) (2 + 2 * (size_t)(n) + 2 * (size_t)(m))
#define RASKJOMI_PLAN_WORDS(p, l) (2 + (size_t)(p) + 2 * (size_t)(l))

/* The words of a solution of a large game of n vertices, and of its certificate. */
#define RASKJOMI_SOLUTION_WORDS(n) (2 * (size_t)(n))
#define RASKJOMI_CERTIFICATE_WORDS(n) (3 * (size_t)(n))

/* The words of the certificate of a reduction, of a large game of n vertices and m edges to one of k vertices. */
#define RASKJOMI_REDUCTION_WORDS(n, m, k) ((size_t)(n) + (size_t)(k) + 2 * (size_t)(m))

/* Marks are bits, eight in a byte: that of the pair (v, w) of n vertices is number i = v * n + w, bit i % 8 of byte i / 8,
 * where bit 0 is the lowest. The bytes of all of them; and whether a pair is marked, 1 or 0. */
#define RASKJOMI_MARKS_BYTES(n) (((size_t)(n) * (size_t)(n) + 7) / 8)
#define RASKJOMI_MARK(n, v, w) ((size_t)(v) * (size_t)(n) + (size_t)(w))
#define RASKJOMI_IS_MARKED(marks, n, v, w) ((marks)[RASKJOMI_MARK(n, v, w) / 8] >> RASKJOMI_MARK(n, v, w) % 8 & 1)

/* The numbers of an answer. */
enum RaskjomiNumber {
    RASKJOMI_ACCEPTED = 0,
    /* The game. Number 7 no longer occurs. */
    RASKJOMI_REFUSED_NO_SIZES = 1,
    RASKJOMI_REFUSED_VERTICES_OUT_OF_LIMITS = 2,
    RASKJOMI_REFUSED_TOO_MANY_EDGES = 3,
    RASKJOMI_REFUSED_GAME_LENGTH = 4,
    RASKJOMI_REFUSED_OWNER_ABOVE_1 = 5,
    RASKJOMI_REFUSED_END_NOT_THERE = 6,
    RASKJOMI_REFUSED_REPEATED_EDGE = 7,
    RASKJOMI_REFUSED_NO_EDGE_OUT = 8,
    /* The relation. Number 9 no longer occurs. */
    RASKJOMI_REFUSED_MARK_ABOVE_1 = 9,
    RASKJOMI_REFUSED_PAIR_FAILS = 10,
    /* The plan. */
    RASKJOMI_REFUSED_NO_PLAYER = 11,
    RASKJOMI_REFUSED_PLAN_SIZES = 12,
    RASKJOMI_REFUSED_PLAN_WORD = 13,
    RASKJOMI_REFUSED_LINK_WITHOUT_EDGE = 14,
    RASKJOMI_REFUSED_LINK_LACKING = 15,
    RASKJOMI_REFUSED_WALK_LOST = 16,
    /* The lent memory. */
    RASKJOMI_REFUSED_MARKS_SHORT = 21,
    RASKJOMI_REFUSED_SPARE_SHORT = 22,
    RASKJOMI_REFUSED_CLASSES_SHORT = 23,
    RASKJOMI_REFUSED_OUTPUT_SHORT = 24,
    /* A game by a seed, a carried plan, a conversion, edits, a relation's last byte. */
    RASKJOMI_REFUSED_SEED_OUT_OF_LIMITS = 31,
    RASKJOMI_REFUSED_SEED_OUTPUT_SHORT = 32,
    RASKJOMI_REFUSED_VERTEX_UNFIT = 33,
    RASKJOMI_REFUSED_CARRIED_TOO_LARGE = 34,
    RASKJOMI_REFUSED_CARRIED_OUTPUT_SHORT = 35,
    RASKJOMI_REFUSED_PRIORITY_TOO_LARGE = 36,
    RASKJOMI_REFUSED_EDGE_UNFIT = 37,
    RASKJOMI_REFUSED_LAST_EDGE_OUT = 38,
    RASKJOMI_REFUSED_NO_ROOM = 39,
    RASKJOMI_REFUSED_TRACE_SIZES = 40,
    RASKJOMI_REFUSED_UNUSED_BIT = 41,
    /* A solution of a large game, and its certificate. */
    RASKJOMI_REFUSED_SOLUTION_LENGTH = 81,
    RASKJOMI_REFUSED_WINNER_ABOVE_1 = 82,
    RASKJOMI_REFUSED_MOVE_UNFIT = 83,
    RASKJOMI_REFUSED_MOVE_TO_LOSER = 84,
    RASKJOMI_REFUSED_CERTIFICATE_LENGTH = 85,
    RASKJOMI_REFUSED_CERTIFICATE_WORD = 86,
    RASKJOMI_REFUSED_VERTEX_AT_PLACE = 87,
    RASKJOMI_REFUSED_LAST_OF_RUN = 88,
    RASKJOMI_REFUSED_EDGE_CLIMBS = 89,
    /* A reduction of a large game, and its certificate. */
    RASKJOMI_REFUSED_REDUCED_NO_SIZES = 91,
    RASKJOMI_REFUSED_REDUCED_NO_VERTICES = 92,
    RASKJOMI_REFUSED_REDUCED_LENGTH = 94,
    RASKJOMI_REFUSED_REDUCED_OWNER_ABOVE_1 = 95,
    RASKJOMI_REFUSED_REDUCED_END_NOT_THERE = 96,
    RASKJOMI_REFUSED_REDUCED_SEQUENCE = 97,
    RASKJOMI_REFUSED_CLASSES_LENGTH = 98,
    RASKJOMI_REFUSED_CLASS_NOT_THERE = 99,
    RASKJOMI_REFUSED_CLASS_PRIORITY = 100,
    RASKJOMI_REFUSED_IMAGES_LENGTH = 101,
    RASKJOMI_REFUSED_MEMBER_UNFIT = 102,
    RASKJOMI_REFUSED_IMAGE_UNFIT = 103,
    RASKJOMI_REFUSED_START_UNFIT = 104,
    RASKJOMI_REFUSED_CLASS_OWNER = 105,
    RASKJOMI_REFUSED_NEXT_UNFIT = 106
};

/* A call's answer. Number 0 is "accepted", with the counts that the call names; any other number is a refusal with its
 * place. All other fields are 0, but that a refused raskjomi_replay tells the entries done. */
typedef struct RaskjomiAnswer {
    uint32_t number;
    uint32_t passes;
    uint32_t classes;
    uint32_t vertices;
    uint32_t edges;
    uint32_t different;
    uint32_t positions;
    uint32_t links;
    uint32_t entries;
    size_t place;
    uint32_t shown;
} RaskjomiAnswer;

/* Judges a game table. Counts: vertices, edges, and different, the number of different edges. Refusals: 1 fewer than 2
 * words, 2 vertices out of limits, 3 too many edges, 4 the length doesn't fit the sizes, 5 an owner above 1, 6 an edge
 * to a vertex that isn't there, 8 a vertex without an edge out. They come first in every call that reads a game. */
RaskjomiAnswer raskjomi_read(const uint16_t *game, size_t game_len);

/* Writes the direct simulation order into the first RASKJOMI_MARKS_BYTES(n) bytes of marks, and the same into spare: (v, w)
 * is marked if v is below w, and unused bits of the last byte become 0. Count: passes. Refusals: the reader's, 21 marks
 * too short, 22 spare too short; their place is the length needed. */
RaskjomiAnswer raskjomi_order(const uint16_t *game, size_t game_len, uint8_t *marks, size_t marks_len,
                              uint8_t *spare, size_t spare_len);

/* Judges whether the marked pairs form a direct simulation; bytes beyond the marks aren't looked at. It writes nothing.
 * Refusals: the reader's, 21, 41 a set bit of the last byte that is no pair's, at that byte, and 10 a pair that has unequal
 * priorities or fails the test on successors, at v * n + w. */
RaskjomiAnswer raskjomi_accept_relation(const uint16_t *game, size_t game_len, const uint8_t *marks,
                                        size_t marks_len);

/* Writes the order as raskjomi_order does, and the class of each vertex into the first n class words. Count: classes.
 * Refusals: the reader's, 21, 22, 23 class words too few. */
RaskjomiAnswer raskjomi_classes(const uint16_t *game, size_t game_len, uint8_t *marks, size_t marks_len,
                                uint8_t *spare, size_t spare_len, uint16_t *classes, size_t classes_len);

/* Writes as raskjomi_classes does, and the table of the quotient game into output: a vertex for each class, edges by
 * source, then by target, ascending. Counts: classes, and the table's vertices and edges. Refusals: the reader's, 21, 22,
 * 23, 24 an output shorter than the table that is read. */
RaskjomiAnswer raskjomi_quotient(const uint16_t *game, size_t game_len, uint8_t *marks, size_t marks_len,
                                 uint8_t *spare, size_t spare_len, uint16_t *classes, size_t classes_len,
                                 uint16_t *output, size_t output_len);

/* As raskjomi_quotient, but the reduced game: without the quotient's edges that its players have no use for. Whoever wins
 * from a vertex wins from its class there. */
RaskjomiAnswer raskjomi_reduce(const uint16_t *game, size_t game_len, uint8_t *marks, size_t marks_len,
                               uint8_t *spare, size_t spare_len, uint16_t *classes, size_t classes_len,
                               uint16_t *output, size_t output_len);

/* Judges whether a plan wins for the player from the vertex of its position 0. A plan is p positions, l links, the vertex
 * of each position, and the links' sources and targets as positions. It writes nothing. Refusals: the reader's, 11 no
 * player, 12 the plan's sizes, 13 a vertex or position that isn't there, 14 a link that follows no edge, 15 a position
 * that lacks a link, 16 a closed walk that the opponent wins. */
RaskjomiAnswer raskjomi_accept_plan(const uint16_t *game, size_t game_len, uint32_t player, const uint16_t *plan,
                                    size_t plan_len);

/* Writes into output a plan that starts at the vertex and that raskjomi_accept_plan accepts for the same player. For
 * Even the plan's start must be below the vertex, for Odd the vertex below the start. Counts: positions and links of the
 * plan written; RASKJOMI_PLAN_WORDS(RASKJOMI_MOST_POSITIONS, RASKJOMI_MOST_LINKS) words always suffice. Refusals: the reader's, 21,
 * 22, 11 to 16, 33 a vertex that isn't there or isn't in that order, 34 a carried plan that is too large, 35 an output
 * too short, at the length needed. After 33 to 35 marks and spare hold the order. */
RaskjomiAnswer raskjomi_carry(const uint16_t *game, size_t game_len, uint32_t player, const uint16_t *plan,
                              size_t plan_len, uint32_t vertex, uint8_t *marks, size_t marks_len, uint8_t *spare,
                              size_t spare_len, uint16_t *output, size_t output_len);

/* As raskjomi_carry, for a plan on the reduced game, whose table is written to reduction as raskjomi_reduce writes it; a
 * class compares as its lowest member. Counts: classes, the reduced game's vertices and edges, and positions and links.
 * Refusals: the reader's, 21 to 24, 11 to 16 about the reduced game, 33, 34, 35. After 11 to 16 and 33 to 35 all but the
 * output are as after acceptance. */
RaskjomiAnswer raskjomi_carry_class(const uint16_t *game, size_t game_len, uint32_t player, const uint16_t *plan,
                                    size_t plan_len, uint32_t vertex, uint8_t *marks, size_t marks_len,
                                    uint8_t *spare, size_t spare_len, uint16_t *classes, size_t classes_len,
                                    uint16_t *reduction, size_t reduction_len, uint16_t *output,
                                    size_t output_len);

/* Gives a verdict on a player and a vertex by a plan on the reduced game. Writes as raskjomi_reduce does, the table into
 * reduction, and judges the plan there as raskjomi_accept_plan does. Counts: classes, the reduced game's vertices and edges,
 * and shown: 1 where the plan starts at the vertex's class, and then the player wins at the vertex in the game itself; 0
 * where it starts at another class, which leaves open who wins at the vertex. Refusals: the reader's, 33 a vertex that isn't
 * there, 21 to 24, where 24 is about reduction, 11 to 16 about the reduced game. After 11 to 16 the memory is as after
 * acceptance. */
RaskjomiAnswer raskjomi_verdict(const uint16_t *game, size_t game_len, uint32_t vertex, uint32_t player,
                                const uint16_t *plan, size_t plan_len, uint8_t *marks, size_t marks_len,
                                uint8_t *spare, size_t spare_len, uint16_t *classes, size_t classes_len,
                                uint16_t *reduction, size_t reduction_len);

/* Writes the table of a game drawn by the seed, the same on every machine: so many vertices, with degree edges out of
 * each, 1 to 16, and priorities below priorities, 1 to 65,535. Counts: vertices and edges. Refusals: 31 a number out of
 * its limits, or more edges than a table may have, 32 an output too short, at the length needed. */
RaskjomiAnswer raskjomi_seed(uint32_t seed, uint32_t vertices, uint32_t degree, uint32_t priorities,
                             uint16_t *output, size_t output_len);

/* Writes the table where the lowest priority decides, of one where the highest does: with M the smallest even number not
 * below the highest priority, a priority q becomes M - q, and all else is copied. The same plans win. Counts: vertices
 * and edges. Refusals: the reader's, 24, 36 a priority that would be 65,536, at its word. */
RaskjomiAnswer raskjomi_convert(const uint16_t *game, size_t game_len, uint16_t *output, size_t output_len);

/* Adds an edge at the end of the table that begins the buffer table, which needs two words behind it, and writes order
 * and classes of the new table as raskjomi_classes does. Counts: classes, vertices, edges. Refusals: the reader's, where
 * 4 is a buffer that is shorter than the table, 21 to 23, 37 an end that isn't there or an edge that is, 39 no room, at
 * m. */
RaskjomiAnswer raskjomi_add_edge(uint16_t *table, size_t table_len, uint32_t source, uint32_t target,
                                 uint8_t *marks, size_t marks_len, uint8_t *spare, size_t spare_len,
                                 uint16_t *classes, size_t classes_len);

/* As raskjomi_add_edge, but every copy of the edge is removed; the words that the table gives up become 0. Refusals: the
 * reader's, 21 to 23, 37 an edge that isn't there, 38 the last edge out of its source. */
RaskjomiAnswer raskjomi_remove_edge(uint16_t *table, size_t table_len, uint32_t source, uint32_t target,
                                    uint8_t *marks, size_t marks_len, uint8_t *spare, size_t spare_len,
                                    uint16_t *classes, size_t classes_len);

/* What raskjomi_add_edge would answer and write on a copy of the table that begins the buffer game, which isn't written:
 * the copy begins table. Refusals: the reader's, 21 to 23, 24 a second table shorter than the first, 37, 39. */
RaskjomiAnswer raskjomi_preview_add(const uint16_t *game, size_t game_len, uint32_t source, uint32_t target,
                                    uint16_t *table, size_t table_len, uint8_t *marks, size_t marks_len,
                                    uint8_t *spare, size_t spare_len, uint16_t *classes, size_t classes_len);

/* The same of raskjomi_remove_edge. Refusals: the reader's, 21 to 24, 37, 38. */
RaskjomiAnswer raskjomi_preview_remove(const uint16_t *game, size_t game_len, uint32_t source, uint32_t target,
                                       uint16_t *table, size_t table_len, uint8_t *marks, size_t marks_len,
                                       uint8_t *spare, size_t spare_len, uint16_t *classes, size_t classes_len);

/* Makes the edits of a trace in the table that begins the buffer table: the trace has its count, at most
 * RASKJOMI_MOST_ENTRIES, then as many sources, then as many targets. An edge that is absent arrives, one that is present
 * leaves. Writes order and classes of the final table. Counts: classes, vertices, edges, and entries, the entries done.
 * Refusals: the reader's, 21 to 23, 40 the trace's length or count; then, of an entry, 37, 38 or 39, with the entries
 * done before it, and memory is as after those. */
RaskjomiAnswer raskjomi_replay(uint16_t *table, size_t table_len, const uint16_t *trace, size_t trace_len,
                               uint8_t *marks, size_t marks_len, uint8_t *spare, size_t spare_len,
                               uint16_t *classes, size_t classes_len);

/* As raskjomi_order, with the largest governed bisimulation in place of the order. */
RaskjomiAnswer raskjomi_governed_order(const uint16_t *game, size_t game_len, uint8_t *marks, size_t marks_len,
                                       uint8_t *spare, size_t spare_len);

/* As raskjomi_accept_relation, but that 10 is also a marked pair whose reverse is unmarked. */
RaskjomiAnswer raskjomi_accept_governed(const uint16_t *game, size_t game_len, const uint8_t *marks,
                                        size_t marks_len);

/* As raskjomi_classes, with the largest governed bisimulation in place of the order. */
RaskjomiAnswer raskjomi_governed_classes(const uint16_t *game, size_t game_len, uint8_t *marks, size_t marks_len,
                                         uint8_t *spare, size_t spare_len, uint16_t *classes, size_t classes_len);

/* Judges the table of a large game, as raskjomi_read does without its limits. Counts: vertices and edges. Refusals: 1 fewer
 * than 2 words, 2 no vertices, 4 the length doesn't fit the sizes, 5 an owner above 1, 6 an edge to a vertex that isn't
 * there. A vertex without an edge out is no refusal here. */
RaskjomiAnswer raskjomi_large_read(const uint32_t *game, size_t game_len);

/* Judges a solution of a large game by a certificate; where it accepts, the winner named at each vertex wins there. A
 * solution is the winner at each vertex, then for each vertex the number of an edge out of it, its move where the winner
 * owns it. A certificate is the place of each vertex in an order, the vertex at each place, and the last place of each
 * place's run: of the place itself and the next ones, as far as all have a higher priority than it, or the same one where
 * that is the winner's. An edge is kept if its source isn't its winner's, or it is the source's move. The call writes
 * nothing, and has no counts. Refusals: those of raskjomi_large_read, then of the solution 81 its length, 82 a winner
 * above 1, at the vertex, 83 an edge that isn't the vertex's, at the vertex, 84 a kept edge to a vertex of the other
 * winner, at the edge; of the certificate 85 its length, 86 a word not below n, 87 another vertex at a vertex's place, at
 * the vertex, 88 another last place than that of the run, at the highest such place, 89 a kept edge that goes up beyond
 * the run of its source's place, or doesn't go down from a priority of the loser's to one no lower, at the edge. */
RaskjomiAnswer raskjomi_large_solution(const uint32_t *game, size_t game_len, const uint32_t *solution,
                                       size_t solution_len, const uint32_t *certificate, size_t certificate_len);

/* Judges a reduction of a large game by a certificate; where it accepts, every vertex of both games has an edge out, and the
 * winner at each vertex is the winner at its class in the reduced game. The reduced game is a large game whose edges stand by
 * ascending source, so that the edges out of a class are a row; classes is a vertex of it for each vertex of the game. A
 * certificate is for each vertex the number of an edge out of it, its start, whose image is the first of a row; for each
 * class a vertex of it; for each edge of the game its image, the number of an edge of the reduced game between the classes of
 * its ends; and for each edge whose image isn't the last of its row the number of an edge of the same source with the next
 * image, anything where it is. The call writes nothing, and has no counts. Refusals: those of raskjomi_large_read, the same of
 * the reduced game with 90 added, 97 an edge of the reduced game with a lower source than the one before it, at the edge; of the
 * classes 98 their number, 99 a class that isn't there, at the vertex, 100 another priority than that of the class, at the
 * vertex; of the certificate 101 its length, 102 a vertex that isn't of the class, at the class, 103 an image that isn't
 * such an edge, at the edge of the game, 104 a start that isn't such an edge, at the vertex, 105 another owner than that of the
 * class, which has a second edge, at the vertex, 106 an edge that isn't such a one after it, at the edge of the game. */
RaskjomiAnswer raskjomi_large_reduction(const uint32_t *game, size_t game_len, const uint32_t *reduced,
                                        size_t reduced_len, const uint32_t *classes, size_t classes_len,
                                        const uint32_t *certificate, size_t certificate_len);

/* What a refusal number is about: 1 the game, 2 the relation, 3 the plan, 4 the lent memory, 5 a later addition (31 to 99),
 * 0 any other number: none of the contract's, though 100 to 106 are refusals of raskjomi_large_reduction. */
uint32_t raskjomi_kind(uint32_t number);

/* The calls below aren't proved: libraskjomi has them beside the proved archives, with the words of `raskjomi explain`. Each
 * answers a text that ends with a zero, is never null and stays as long as the program runs. */

/* The library's version, as RASKJOMI_VERSION has that of this header. */
const char *raskjomi_version(void);

/* A refusal in words: what its number means, what its place counts, and what to do. "no refusal" and two empty texts for a
 * number that is none. */
const char *raskjomi_meaning(uint32_t number);
const char *raskjomi_place(uint32_t number);
const char *raskjomi_remedy(uint32_t number);

#ifdef __cplusplus
}
#endif

#endif
