/* A file of a program of several files: its own header, and those of the C library. */
#include "words.h"

#include <assert.h>
#include <stdio.h>
#include <stdlib.h>
#include <string.h>

static int by_the_alphabet(const void *a, const void *b)
{
    return strcmp(*(char *const *)a, *(char *const *)b);
}

size_t words_of(const char *text, char *words[MOST])
{
    size_t count = 0;

    while (*(text += strspn(text, " ")) != '\0') {
        size_t length = strcspn(text, " ");

        if (count == MOST) {
            fprintf(stderr, "more than %d words\n", MOST);
            abort();
        }
        words[count] = malloc(length + 1);
        assert(words[count] != NULL);
        memcpy(words[count], text, length);
        words[count++][length] = '\0';
        text += length;
    }
    qsort(words, count, sizeof *words, by_the_alphabet);
    return count;
}
