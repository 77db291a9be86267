/* A refusal in words, for the examples. */
#ifndef REFUSAL_H
#define REFUSAL_H

#include <stdint.h>

void print_refusal(const uint64_t refusal[3]);

#endif
