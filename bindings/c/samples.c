/* Writes the sample logs that the examples read into a folder: samples FOLDER */
#include <stdio.h>

#include "logs.h"

static int save(const char *folder, const char *name, const struct written *log, size_t length)
{
    char path[4096];
    FILE *f;
    int good;
    snprintf(path, sizeof path, "%s/%s", folder, name);
    f = fopen(path, "wb");
    if (!f) {
        perror(path);
        return 1;
    }
    good = fwrite(log->bytes, 1, length, f) == length;
    return fclose(f) != 0 || !good;
}

int main(int argc, char **argv)
{
    struct written week = write_case_w(3600000), late = write_case_w(604800000), idle = write_idle(), revised = write_revisions();
    if (argc != 2) {
        fprintf(stderr, "usage: samples FOLDER\n");
        return 2;
    }
    return save(argv[1], "week.log", &week, week.length) || save(argv[1], "idle.log", &idle, idle.length)
        || save(argv[1], "late.log", &late, late.length) || save(argv[1], "cut.log", &week, week.length - 1)
        || save(argv[1], "revised.log", &revised, revised.length);
}
