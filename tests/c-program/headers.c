/* Uses the usual headers of C, a thing of each. */
#include <assert.h>
#include <ctype.h>
#include <errno.h>
#include <float.h>
#include <inttypes.h>
#include <limits.h>
#include <math.h>
#include <setjmp.h>
#include <signal.h>
#include <stdarg.h>
#include <stdbool.h>
#include <stddef.h>
#include <stdint.h>
#include <stdio.h>
#include <stdlib.h>
#include <string.h>
#include <time.h>
#include <unistd.h>

static volatile sig_atomic_t got;
static jmp_buf back;

static void take(int number)
{
    got = number;
}

static int sum(int count, ...)
{
    va_list numbers;
    int all = 0;

    va_start(numbers, count);
    while (count-- > 0)
        all += va_arg(numbers, int);
    va_end(numbers);
    return all;
}

int main(int argc, char **argv)
{
    struct pair {
        uint8_t one;
        uint64_t other;
    };
    time_t start = 0;
    char text[32];
    bool jumped = false;

    assert(argc == 1);
    printf("%s\n", strrchr(argv[0], '/') != NULL ? "a path" : "a name");
    printf("%c %d\n", toupper('x'), isdigit('7') != 0);
    errno = 0;
    printf("%ld %d\n", strtol("99999999999999999999", NULL, 10) == LONG_MAX ? 1L : 0L, errno == ERANGE);
    printf("%" PRIu64 " %" PRIx32 "\n", UINT64_MAX, (uint32_t)0xABCD);
    printf("%.6f %d\n", sqrt(2.0 * argc) + pow(2.0, argc), DBL_DIG);
    printf("%zu %d\n", offsetof(struct pair, other), sum(3, 1, 20, 300));
    strftime(text, sizeof text, "%Y-%m-%d", gmtime(&start));
    printf("%s\n", text);
    signal(SIGUSR1, take);
    raise(SIGUSR1);
    printf("%d\n", got == SIGUSR1);
    if (setjmp(back) == 0)
        longjmp(back, 1);
    else
        jumped = true;
    printf("%s\n", jumped ? "jumped" : "stayed");
    fflush(stdout);
    return write(STDOUT_FILENO, "written\n", 8) == 8 ? 0 : EXIT_FAILURE;
}
