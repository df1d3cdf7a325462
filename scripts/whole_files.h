/* What the programs in C do with files. Files are written whole. */
#include <fcntl.h>
#include <stdio.h>
#include <unistd.h>

static inline int fail(const char *name) {
    perror(name);
    return 1;
}

/* Makes these the bytes of a file; 1 and a line on standard error if that fails. */
static inline int write_whole(const char *name, const void *bytes, size_t size) {
    const char *from = bytes;
    int file = open(name, O_WRONLY | O_CREAT | O_TRUNC, 0666);
    if (file < 0) return fail(name);
    for (size_t at = 0; at < size;) {
        ssize_t count = write(file, from + at, size - at);
        if (count <= 0) return fail(name);
        at += (size_t)count;
    }
    return close(file) == 0 ? 0 : fail(name);
}
