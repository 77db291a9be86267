#include "input.h"

#include <stdio.h>
#include <stdlib.h>

size_t read_file(const char *path, uint8_t *bytes, size_t most)
{
    FILE *f = fopen(path, "rb");
    size_t length = 0;

    if (f)
        length = fread(bytes, 1, most, f);
    if (!f || ferror(f)) {
        perror(path);
        exit(2);
    }
    fclose(f);
    return length;
}
