/*
 * Plays the vectors of the qualification kit on the library that is linked, and
 * says how many passed. It needs no file system, no memory from a heap and of
 * a C library only memcmp, memcpy and memset. It is not for several threads.
 */
#ifndef KIT_RUNNER_H
#define KIT_RUNNER_H

#include <stddef.h>
#include <stdint.h>

/* Prints some bytes of text: on a serial line, a screen, a debugger. */
typedef void kit_print(const char *text, size_t length);

/*
 * Plays all vectors. Prints the first difference of each vector that fails, up
 * to 20 of them, and last the line "N passed, M failed". Returns how many have
 * failed; 1 and no count if header, library and vectors do not fit each other.
 */
uint32_t kit_run(kit_print *print);

#endif
