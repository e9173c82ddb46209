/* Calls a function of an object or an archive. */
#include <stdio.h>

int answer(void);

int main(void)
{
    return printf("the answer is %d\n", answer()) < 0;
}
