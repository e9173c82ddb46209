/*
 * Holds the functions of yawlspar.h that are the whole model against the reference model, call by call.
 *
 *   whole               the directed calls, those for 512 blocks, the damaged records, the directed scripts, and random
 *                       calls of the seeds 1 to 250, with random scripts of a tenth of them
 *   whole FIRST LAST    random calls and scripts of the seeds FIRST to LAST alone
 *
 * It prints one line with the number of calls compared and of differences. The first difference ends it: it
 * is told before that line, and the exit status is 1. Bad usage is 2.
 */
#include "both.h"

extern int printf(const char *format, ...) __attribute__((format(printf, 1, 2)));

const char *const program_name = "whole";

#define CALLS_OF_A_SEED 800u
#define CALLS_IN_SCRIPTS 10000u
#define LAST_SEED 250u

static void by_hand(void)
{
    directed_calls();
    large_calls();
    damaged_records();
    directed_scripts();
}

static void run_seed(uint64_t seed)
{
    random_calls(seed, CALLS_OF_A_SEED);
    if (seed % 10 == 0)
        random_scripts(seed / 10, CALLS_IN_SCRIPTS);
}

int main(int argc, char **argv)
{
    if (!run_seeds(argc, argv, by_hand, run_seed, LAST_SEED))
        return 2;
    printf("whole: %llu calls compared, %llu of them scripts of %llu steps in all, 0 differences\n",
           (unsigned long long)calls, (unsigned long long)scripts, (unsigned long long)script_steps);
    return 0;
}
