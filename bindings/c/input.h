/* A file read, for the examples. */
#ifndef INPUT_H
#define INPUT_H

#include <stddef.h>
#include <stdint.h>

/* Reads up to `most` bytes of a file and answers how many there are. Ends the program with status 2 where it cannot be read. */
size_t read_file(const char *path, uint8_t *bytes, size_t most);

#endif
