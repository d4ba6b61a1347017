/* Judges a plan on a game, carries it to another vertex and prints it there; each refusal is told in words:
 *
 *     cc judge.c $(pkg-config --cflags --libs raskjomi) -o judge
 *     ./judge ../games/d.txt ../games/c.plan.txt even 5 */
#include <raskjomi.h>

#include <stdlib.h>
#include <string.h>

#include "words.h"

#define MOST_GAME RASKJOMI_TABLE_WORDS(RASKJOMI_MOST_VERTICES, RASKJOMI_MOST_EDGES)
#define MOST_PLAN RASKJOMI_PLAN_WORDS(RASKJOMI_MOST_POSITIONS, RASKJOMI_MOST_LINKS)
#define MOST_MARKS RASKJOMI_MARKS_BYTES(RASKJOMI_MOST_VERTICES)

static uint16_t game[MOST_GAME], plan[MOST_PLAN], carried[MOST_PLAN];
static uint8_t marks[MOST_MARKS], spare[MOST_MARKS];

/* Reads the words of a file. */
static size_t read_file(const char *name, uint16_t *words, size_t most) {
    FILE *file = fopen(name, "r");
    long length = file ? read_words(file, words, most) : -1;
    if (length < 0) {
        fprintf(stderr, "%s: give a file of at most %zu decimal words, each below 65,536\n", name, most);
        exit(2);
    }
    fclose(file);
    return (size_t)length;
}

/* Goes on where a call has accepted, and else tells why it hasn't. */
static void accepted(const char *call, RaskjomiAnswer answer) {
    if (answer.number == RASKJOMI_ACCEPTED) return;
    fprintf(stderr, "%s: refused %u at %zu: %s\n", call, (unsigned)answer.number, answer.place,
            raskjomi_meaning(answer.number));
    fprintf(stderr, "the place is: %s\nwhat to do: %s\n", raskjomi_place(answer.number), raskjomi_remedy(answer.number));
    exit(1);
}

int main(int count, char **words) {
    if (count != 5) {
        fprintf(stderr, "usage: judge GAME PLAN even|odd VERTEX\n");
        return 2;
    }
    size_t game_words = read_file(words[1], game, MOST_GAME);
    size_t plan_words = read_file(words[2], plan, MOST_PLAN);
    /* A word that names no player, or no vertex, goes on as a number that the calls refuse. */
    uint32_t player = !strcmp(words[3], "even") ? RASKJOMI_EVEN : !strcmp(words[3], "odd") ? RASKJOMI_ODD : UINT32_MAX;
    char *end;
    unsigned long number = strtoul(words[4], &end, 10);
    uint32_t vertex = *words[4] && !*end && number < RASKJOMI_MOST_VERTICES ? (uint32_t)number : UINT32_MAX;

    accepted("the plan", raskjomi_accept_plan(game, game_words, player, plan, plan_words));
    RaskjomiAnswer answer = raskjomi_carry(game, game_words, player, plan, plan_words, vertex, marks, MOST_MARKS,
                                           spare, MOST_MARKS, carried, MOST_PLAN);
    accepted("the carried plan", answer);

    const uint16_t *rest = print_words(carried, 2);
    rest = print_words(rest, answer.positions); /* the vertex of each position */
    rest = print_words(rest, answer.links);     /* sources */
    print_words(rest, answer.links);            /* targets */
    return 0;
}
