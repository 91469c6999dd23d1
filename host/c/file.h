/* The bytes of a file, in memory of exactly its length. */
#ifndef FILE_H
#define FILE_H

#include <stddef.h>
#include <stdint.h>

struct file {
    uint8_t *bytes; /* never NULL, even if length is 0 */
    size_t length;
};

/* Reads a whole file. Returns 0 if it cannot be read. */
int read_file(const char *name, struct file *file);

/* Frees its memory. */
void free_file(struct file *file);

/* Returns a block of memory of this length; never NULL, even if length is 0. */
uint8_t *block_of(size_t length);

/* Frees memory that block_of returned. */
void free_block(uint8_t *block);

/* Returns the time in eight bytes of a file, the most significant byte first. */
uint64_t time_of(const uint8_t *bytes);

#endif
