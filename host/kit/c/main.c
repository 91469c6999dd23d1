/* Runs the qualification kit where there is a C library. The exit status is 0 if every vector passed, else 1. */
#include "runner.h"
#include <stdio.h>

static void print(const char *text, size_t length)
{
    (void)fwrite(text, 1, length, stdout);
}

int main(void)
{
    return kit_run(print) == 0 ? 0 : 1;
}
