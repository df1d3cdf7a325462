/* What `ceph_ec_tool` does at k = 4, m = 2 and a unit of 4096, in C and with ISA-L's kernels. Files are read whole, and written one
   after another, piece after piece. Each piece is made in a buffer that stays in the cache. So this program shows how fast this
   order of work can be. scripts/bench compiles it if ISA-L is installed.

       files_model encode NAME

   reads NAME, whose length is that of whole stripes, makes the chunks of one position after another, and writes each of NAME.0 to
   NAME.5 before it begins with the next.

       files_model decode NAME

   reads NAME.0 to NAME.3, puts their units side by side, and writes NAME. */
#include "whole_files.h"
#include <isa-l.h>
#include <stdlib.h>
#include <string.h>
#include <sys/stat.h>

enum { UNIT = 4096, DATA = 4, CODING = 2, STRIPE = DATA * UNIT, PIECE = 1 << 18 };

static unsigned char tables[32 * DATA * CODING];
static unsigned char piece[PIECE];
static size_t held;

/* Reads a file whole. */
static unsigned char *read_whole(const char *name, size_t *size) {
    struct stat found;
    int file = open(name, O_RDONLY);
    if (file < 0 || fstat(file, &found) != 0) return NULL;
    *size = (size_t)found.st_size;
    unsigned char *into = malloc(*size);
    for (size_t at = 0; into && at < *size;) {
        size_t left = *size - at;
        ssize_t count = read(file, into + at, left < PIECE ? left : PIECE);
        if (count <= 0) return NULL;
        at += (size_t)count;
    }
    close(file);
    return into;
}

/* Writes the piece that was made if it is full or the last one. */
static int put(int file, int last) {
    if (held < PIECE && !last) return 0;
    for (size_t at = 0; at < held;) {
        ssize_t count = write(file, piece + at, held - at);
        if (count <= 0) return 1;
        at += (size_t)count;
    }
    held = 0;
    return last ? close(file) : 0;
}

static int create(const char *name) { return open(name, O_WRONLY | O_CREAT | O_TRUNC, 0666); }

static void make_unit(int position, unsigned char *stripe) {
    unsigned char *from[DATA], *unit = piece + held;
    held += UNIT;
    if (position < DATA) {
        memcpy(unit, stripe + position * UNIT, UNIT);
        return;
    }
    for (int j = 0; j < DATA; j++) from[j] = stripe + j * UNIT;
    ec_encode_data_sse(UNIT, DATA, 1, tables + (position - DATA) * 32 * DATA, from, &unit);
}

static int encode(const char *path) {
    unsigned char rows[DATA * CODING] = {1, 1, 1, 1, 1, 70, 143, 200};
    char name[4096];
    size_t size;
    unsigned char *bytes = read_whole(path, &size);
    if (!bytes || size % STRIPE != 0) return fail(path);
    ec_init_tables(DATA, CODING, rows, tables);
    for (int p = 0; p < DATA + CODING; p++) {
        snprintf(name, sizeof name, "%s.%d", path, p);
        int file = create(name);
        if (file < 0) return fail(name);
        for (size_t at = 0; at < size; at += STRIPE) {
            make_unit(p, bytes + at);
            if (put(file, 0) != 0) return fail(name);
        }
        if (put(file, 1) != 0) return fail(name);
    }
    return 0;
}

static int decode(const char *path) {
    char name[4096];
    unsigned char *lists[DATA];
    size_t size = 0;
    for (int p = 0; p < DATA; p++) {
        snprintf(name, sizeof name, "%s.%d", path, p);
        if (!(lists[p] = read_whole(name, &size))) return fail(name);
    }
    int file = create(path);
    if (file < 0) return fail(path);
    for (size_t at = 0; at < size; at += UNIT) {
        for (int p = 0; p < DATA; p++, held += UNIT)
            memcpy(piece + held, lists[p] + at, UNIT);
        if (put(file, 0) != 0) return fail(path);
    }
    return put(file, 1) == 0 ? 0 : fail(path);
}

int main(int count, char **words) {
    if (count == 3 && strcmp(words[1], "encode") == 0) return encode(words[2]);
    if (count == 3 && strcmp(words[1], "decode") == 0) return decode(words[2]);
    return 2;
}
