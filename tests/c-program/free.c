/* With no header of the C library: what it calls it declares. */
#include <stdarg.h>
#include <stdbool.h>
#include <stddef.h>
#include <stdint.h>

extern int puts(const char *line);

int main(void)
{
    return puts(sizeof(uint64_t) == 8 && __STDC_HOSTED__ == 0 ? "free-standing" : "hosted") < 0;
}
