/* Reads cases from standard input, makes every call on each, and prints each answer with a hash of the memory. A case is
 * a game, a player, a plan, a vertex, an edge, a trace, a large game with a solution and a certificate, and one with a
 * reduced game, classes and a certificate; a list is given as its length and its words. */
#include "raskjomi.h"

#include <stdio.h>
#include <stdlib.h>
#include <string.h>

static uint64_t hash(uint64_t hash, const void *memory, size_t bytes) {
    const unsigned char *byte = memory;
    for (size_t i = 0; i < bytes; i++) hash = (hash ^ byte[i]) * 1099511628211u;
    return hash;
}

/* The lent memory, filled anew for each call. */
static struct {
    size_t marks_len, classes_len, table_len, plan_len;
    uint8_t *marks, *spare;
    uint16_t *classes, *reduction, *output, *table;
} lent;

static void refill(const uint16_t *game, size_t game_len) {
    memset(lent.marks, 7, lent.marks_len);
    memset(lent.spare, 7, lent.marks_len);
    memset(lent.classes, 7, 2 * lent.classes_len);
    memset(lent.reduction, 7, 2 * lent.table_len);
    memset(lent.output, 7, 2 * lent.plan_len);
    memset(lent.table, 7, 2 * lent.table_len);
    memcpy(lent.table, game, 2 * game_len);
}

static void tell(const char *call, RaskjomiAnswer a) {
    uint64_t of_all = hash(14695981039346656037u, lent.marks, lent.marks_len);
    of_all = hash(of_all, lent.spare, lent.marks_len);
    of_all = hash(of_all, lent.classes, 2 * lent.classes_len);
    of_all = hash(of_all, lent.reduction, 2 * lent.table_len);
    of_all = hash(of_all, lent.output, 2 * lent.plan_len);
    of_all = hash(of_all, lent.table, 2 * lent.table_len);
    printf("%s %u %u %u %u %u %u %u %u %u %zu %u %llu\n", call, a.number, a.passes, a.classes, a.vertices, a.edges,
           a.different, a.positions, a.links, a.entries, a.place, a.shown, (unsigned long long)of_all);
}

static unsigned long number(void) {
    unsigned long value;
    if (scanf("%lu", &value) != 1) exit(0);
    return value;
}

static uint16_t *list(size_t *length) {
    *length = number();
    uint16_t *words = malloc(2 * *length + 2);
    for (size_t i = 0; i < *length; i++) words[i] = (uint16_t)number();
    return words;
}

static uint32_t *large_list(size_t *length) {
    *length = number();
    uint32_t *words = malloc(4 * *length + 4);
    for (size_t i = 0; i < *length; i++) words[i] = (uint32_t)number();
    return words;
}

#define MARKS lent.marks, lent.marks_len
#define SPARE lent.spare, lent.marks_len
#define CLASSES lent.classes, lent.classes_len
#define REDUCTION lent.reduction, lent.table_len
#define OUTPUT lent.output, lent.plan_len
#define TABLE lent.table, lent.table_len
#define CALL(name, ...) (refill(game, game_len), tell(#name, raskjomi_##name(__VA_ARGS__)))

int main(void) {
    printf("limits %d %d %d %d %d %d %d %d %zu %zu %zu %zu %zu %zu\n", RASKJOMI_MOST_VERTICES, RASKJOMI_MOST_EDGES,
           RASKJOMI_MOST_POSITIONS, RASKJOMI_MOST_LINKS, RASKJOMI_MOST_ENTRIES, RASKJOMI_LEAST_STACK, RASKJOMI_EVEN,
           RASKJOMI_ODD, RASKJOMI_TABLE_WORDS(RASKJOMI_MOST_VERTICES, RASKJOMI_MOST_EDGES),
           RASKJOMI_PLAN_WORDS(RASKJOMI_MOST_POSITIONS, RASKJOMI_MOST_LINKS), RASKJOMI_SOLUTION_WORDS(1),
           RASKJOMI_CERTIFICATE_WORDS(1), RASKJOMI_REDUCTION_WORDS(4, 6, 3), sizeof(RaskjomiAnswer));
    for (uint32_t i = 0; i < 108; i++) printf("kind %u\n", raskjomi_kind(i));
    for (;;) {
        size_t game_len, plan_len, trace_len;
        uint16_t *game = list(&game_len);
        uint32_t player = number();
        uint16_t *plan = list(&plan_len);
        uint32_t vertex = number(), source = number(), target = number();
        uint16_t *trace = list(&trace_len);
        size_t large_len, solution_len, certificate_len;
        uint32_t *large = large_list(&large_len);
        uint32_t *solution = large_list(&solution_len), *certificate = large_list(&certificate_len);
        size_t merged_len, reduced_len, class_len, images_len;
        uint32_t *merged = large_list(&merged_len), *reduced = large_list(&reduced_len);
        uint32_t *class = large_list(&class_len), *images = large_list(&images_len);
        RaskjomiAnswer read = raskjomi_read(game, game_len);
        size_t n = read.number ? 1 : read.vertices;
        lent.marks_len = RASKJOMI_MARKS_BYTES(n);
        lent.classes_len = n;
        lent.table_len = game_len + 2;
        lent.plan_len = RASKJOMI_PLAN_WORDS(RASKJOMI_MOST_POSITIONS, RASKJOMI_MOST_LINKS);
        lent.marks = malloc(lent.marks_len);
        lent.spare = malloc(lent.marks_len);
        lent.classes = malloc(2 * lent.classes_len);
        lent.reduction = malloc(2 * lent.table_len);
        lent.output = malloc(2 * lent.plan_len);
        lent.table = malloc(2 * lent.table_len);
        printf("marks %zu\n", lent.marks_len);
        CALL(read, game, game_len);
        CALL(order, game, game_len, MARKS, SPARE);
        for (size_t v = 0; v < n; v++)
            for (size_t w = 0; w < n; w++) putchar('0' + RASKJOMI_IS_MARKED(lent.marks, n, v, w));
        putchar('\n');
        tell("accept_relation", raskjomi_accept_relation(game, game_len, MARKS));
        CALL(classes, game, game_len, MARKS, SPARE, CLASSES);
        CALL(quotient, game, game_len, MARKS, SPARE, CLASSES, OUTPUT);
        CALL(reduce, game, game_len, MARKS, SPARE, CLASSES, OUTPUT);
        CALL(accept_plan, game, game_len, player, plan, plan_len);
        CALL(carry, game, game_len, player, plan, plan_len, vertex, MARKS, SPARE, OUTPUT);
        CALL(carry_class, game, game_len, player, plan, plan_len, vertex, MARKS, SPARE, CLASSES, REDUCTION, OUTPUT);
        CALL(verdict, game, game_len, vertex, player, plan, plan_len, MARKS, SPARE, CLASSES, REDUCTION);
        CALL(seed, vertex, source, target, player + 1, OUTPUT);
        CALL(convert, game, game_len, OUTPUT);
        CALL(add_edge, TABLE, source, target, MARKS, SPARE, CLASSES);
        CALL(remove_edge, TABLE, source, target, MARKS, SPARE, CLASSES);
        CALL(preview_add, game, game_len, source, target, TABLE, MARKS, SPARE, CLASSES);
        CALL(preview_remove, game, game_len, source, target, TABLE, MARKS, SPARE, CLASSES);
        CALL(replay, TABLE, trace, trace_len, MARKS, SPARE, CLASSES);
        CALL(governed_order, game, game_len, MARKS, SPARE);
        tell("accept_governed", raskjomi_accept_governed(game, game_len, MARKS));
        CALL(governed_classes, game, game_len, MARKS, SPARE, CLASSES);
        CALL(large_read, large, large_len);
        CALL(large_solution, large, large_len, solution, solution_len, certificate, certificate_len);
        CALL(large_reduction, merged, merged_len, reduced, reduced_len, class, class_len, images, images_len);
        free(large), free(solution), free(certificate), free(merged), free(reduced), free(class), free(images);
        free(game), free(plan), free(trace), free(lent.marks), free(lent.spare), free(lent.classes);
        free(lent.reduction), free(lent.output), free(lent.table);
    }
}
