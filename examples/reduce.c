/* Reads a game from standard input and prints its reduced game, then the class of each vertex:
 *
 *     cc reduce.c $(pkg-config --cflags --libs raskjomi) -o reduce
 *     ./reduce <../games/d.txt */
#include <raskjomi.h>

#include "words.h"

#define MOST_VERTICES RASKJOMI_MOST_VERTICES
#define MOST_WORDS RASKJOMI_TABLE_WORDS(MOST_VERTICES, RASKJOMI_MOST_EDGES)
#define MOST_MARKS RASKJOMI_MARKS_BYTES(MOST_VERTICES)

/* The library uses no memory but what it is lent; this suffices for every game within the limits. */
static uint16_t game[MOST_WORDS], classes[MOST_VERTICES], reduced[MOST_WORDS];
static uint8_t marks[MOST_MARKS], spare[MOST_MARKS];

int main(void) {
    long length = read_words(stdin, game, MOST_WORDS);
    if (length < 0) {
        fprintf(stderr, "give at most %zu decimal words, each below 65,536\n", MOST_WORDS);
        return 2;
    }
    RaskjomiAnswer answer = raskjomi_reduce(game, (size_t)length, marks, MOST_MARKS, spare, MOST_MARKS, classes,
                                            MOST_VERTICES, reduced, MOST_WORDS);
    if (answer.number != RASKJOMI_ACCEPTED) {
        fprintf(stderr, "refused %u at %zu: %s\n", (unsigned)answer.number, answer.place,
                raskjomi_meaning(answer.number));
        return 1;
    }
    const uint16_t *rest = print_words(reduced, 2);
    rest = print_words(rest, answer.vertices); /* priorities */
    rest = print_words(rest, answer.vertices); /* owners */
    rest = print_words(rest, answer.edges);    /* sources */
    print_words(rest, answer.edges);           /* targets */
    printf("# classes: ");
    print_words(classes, game[0]);
    return 0;
}
