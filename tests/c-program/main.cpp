// Prints the words of its arguments, as main.c does.
#include <cstdio>
#include <stdlib.h>

#include "words.h"

int main(int argc, char **argv)
{
    for (int i = 1; i < argc; i++) {
        char *words[MOST];
        const size_t count = words_of(argv[i], words);

        std::printf("%zu of %d:", count, MOST);
        for (size_t k = 0; k < count; k++) {
            std::printf(" %s", words[k]);
            free(words[k]);
        }
        std::printf("\n");
    }
    return argc - 1;
}
