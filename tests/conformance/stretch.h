/* Bytes in memory, for the programs of this folder. */
#ifndef STRETCH_H
#define STRETCH_H

#include <stddef.h>
#include <stdint.h>

/* Some bytes and their number; the pointer is never NULL. */
typedef struct {
    uint8_t *bytes;
    size_t length;
} stretch_t;

/* The whole of a file; ends the program with status 2 where it cannot be read. */
stretch_t load(const char *path);

/* So many elements of so many bytes, never NULL, all 0; ends the program with status 2 where there is no memory. */
void *room(size_t count, size_t size);

/* The answers to calls on the paper's file (calls.c). */
void print_calls(stretch_t paper);

#endif
