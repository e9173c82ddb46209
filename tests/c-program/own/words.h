/* The words of a text, in order: the header of words.c and of words.cc. */
#ifndef WORDS_H
#define WORDS_H

#include <stddef.h>

#ifndef MOST
#error "MOST is not defined: a build gives it by -D"
#endif

#ifdef __cplusplus
extern "C" {
#endif

/* Sets `words` to the words of the text, each of them a string that the caller frees, by the alphabet. Gives their
 * number, which is at most MOST. */
size_t words_of(const char *text, char *words[MOST]);

#ifdef __cplusplus
}
#endif

#endif
