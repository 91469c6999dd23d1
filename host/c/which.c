/*
 * Which library a call goes to: the file that has the function, in a line.
 *
 * Compiled twice: as a program, linked with one version of the library, and,
 * with PART defined, as a part that the program uses, linked with another.
 */
#define _GNU_SOURCE
#include "delkuthi.h"
#include <dlfcn.h>
#include <stdio.h>

void part(void);

#ifdef PART
void part(void)
#else
static void own(void)
#endif
{
    union {
        uint32_t (*call)(void);
        void *place;
    } function;
    Dl_info found;

    function.call = delkuthi_version;
    printf("%s\n", dladdr(function.place, &found) ? found.dli_fname : "none");
}

#ifndef PART
int main(void)
{
    own();
    part();
    return 0;
}
#endif
