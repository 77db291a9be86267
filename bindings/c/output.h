/* A file written, for the examples. */
#ifndef OUTPUT_H
#define OUTPUT_H

#include <stddef.h>
#include <stdint.h>

/* Writes a file whole or not at all: a new one beside it, which then takes its name. Answers 0, and says so, where it could not. */
int save_file(const char *path, const uint8_t *bytes, size_t length);

#endif
