/* Reads files whole into memory, one after another, and then writes files. This is the work with files that coding chunks
   takes: the rest is the cost of coding itself. scripts/bench compiles it.

       copy_bench SIZE NAME .. -- NAME ..

   reads the files before the -- and writes SIZE bytes of what was read into each of those behind it. */
#include "whole_files.h"
#include <stdlib.h>
#include <string.h>
#include <sys/stat.h>

static char *whole;
static size_t held;

static int read_whole(const char *name) {
    struct stat found;
    int file = open(name, O_RDONLY);
    if (file < 0 || fstat(file, &found) != 0) return fail(name);
    char *larger = realloc(whole, held + (size_t)found.st_size);
    if (!larger) return fail(name);
    whole = larger;
    for (size_t left = (size_t)found.st_size; left > 0;) {
        ssize_t count = read(file, whole + held, left);
        if (count <= 0) return fail(name);
        held += (size_t)count;
        left -= (size_t)count;
    }
    return close(file) == 0 ? 0 : fail(name);
}

int main(int count, char **words) {
    if (count < 2) return 2;
    size_t size = strtoul(words[1], NULL, 10);
    int at = 2;
    for (; at < count && strcmp(words[at], "--") != 0; at++)
        if (read_whole(words[at]) != 0) return 1;
    if (size > held) return 2;
    for (at++; at < count; at++)
        if (write_whole(words[at], whole, size) != 0) return 1;
    return 0;
}
