/* Reads the words of a game or a plan, for the examples. */
#include <ctype.h>
#include <stdint.h>
#include <stdio.h>

/* Reads decimal words between blanks or slashes, with comments after #: at most so many. Their number, or -1 where the file can't be
 * read or has something else. */
static long read_words(FILE *file, uint16_t *words, size_t most) {
    size_t count = 0;
    for (int c; (c = getc(file)) != EOF;) {
        unsigned long word;
        if (c == '#') {
            while (c != '\n' && c != EOF) c = getc(file);
        } else if (!isspace(c) && c != '/') {
            ungetc(c, file);
            if (!isdigit(c) || count == most || fscanf(file, "%lu", &word) != 1 || word > UINT16_MAX) return -1;
            words[count++] = (uint16_t)word;
        }
    }
    return ferror(file) ? -1 : (long)count;
}

/* Prints so many words in a line. */
static const uint16_t *print_words(const uint16_t *words, size_t count) {
    for (size_t i = 0; i < count; i++) printf("%s%u", i ? " " : "", (unsigned)words[i]);
    printf("\n");
    return words + count;
}
