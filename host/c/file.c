#include "file.h"
#include <stdio.h>
#include <stdlib.h>

/* The address of a block of length 0 if malloc returns NULL. */
static uint8_t nothing;

uint8_t *block_of(size_t length)
{
    uint8_t *block = malloc(length);

    if (block != NULL)
        return block;
    if (length != 0) {
        fprintf(stderr, "no memory\n");
        exit(4);
    }
    return &nothing;
}

void free_block(uint8_t *block)
{
    if (block != &nothing)
        free(block);
}

int read_file(const char *name, struct file *file)
{
    FILE *stream = fopen(name, "rb");
    long length;
    int whole;

    if (stream == NULL)
        return 0;
    if (fseek(stream, 0, SEEK_END) != 0 || (length = ftell(stream)) < 0) {
        fclose(stream);
        return 0;
    }
    rewind(stream);
    file->length = (size_t)length;
    file->bytes = block_of(file->length);
    whole = fread(file->bytes, 1, file->length, stream) == file->length;
    fclose(stream);
    if (!whole)
        free_file(file);
    return whole;
}

void free_file(struct file *file)
{
    free_block(file->bytes);
}

uint64_t time_of(const uint8_t *bytes)
{
    uint64_t time = 0;
    int i;

    for (i = 0; i < 8; i++)
        time = time << 8 | bytes[i];
    return time;
}
