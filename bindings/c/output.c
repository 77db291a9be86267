#include "output.h"

#include <stdio.h>
#include <stdlib.h>
#include <string.h>

int save_file(const char *path, const uint8_t *bytes, size_t length)
{
    char *beside = malloc(strlen(path) + sizeof ".new");
    FILE *f;
    int good = 0;

    if (beside) {
        strcat(strcpy(beside, path), ".new");
        f = fopen(beside, "wb");
        if (f) {
            good = fwrite(bytes, 1, length, f) == length;
            good = fclose(f) == 0 && good && rename(beside, path) == 0;
            if (!good)
                remove(beside);
        }
    }
    if (!good)
        fprintf(stderr, "%s: not written\n", path);
    free(beside);
    return good;
}
