/* Prints the words of its arguments. */
#include <stdio.h>
#include <stdlib.h>

#include "words.h"

int main(int argc, char **argv)
{
    int i;

    for (i = 1; i < argc; i++) {
        char *words[MOST];
        size_t count = words_of(argv[i], words), k;

        printf("%zu of %d:", count, MOST);
        for (k = 0; k < count; k++) {
            printf(" %s", words[k]);
            free(words[k]);
        }
        printf("\n");
    }
    return argc - 1;
}
