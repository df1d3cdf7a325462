/* A text of a shard's records, and a plain walk of it. scripts/bench compares the load of crates/store_bench with this program.
 * `fill FILE COUNT` writes the text of slot 0 in a code of one data position and two in all, with a unit of 4 KiB: epoch 1 is
 * started, and then each of COUNT objects is given 4 KiB in a record of its own. `walk FILE` reads the file whole, goes through its
 * records and steps, and keeps each object's bytes in a hash table by name, each in memory of its own. `skim FILE` does the same and
 * keeps nothing. Both print the time that they took. docs/FORMAT.md has the bytes. */
#include <fcntl.h>
#include <stdio.h>
#include <stdlib.h>
#include <string.h>
#include <sys/stat.h>
#include <time.h>
#include <unistd.h>

enum { LEN = 4096, PIECE = 1 << 18, SLOTS = 1 << 16, STARTED = 7, REPLACE = 2, HEADER = 24, OPEN = 0x4f };

typedef struct { unsigned char *name, *bytes; unsigned name_len, len; } Object;

static Object table[SLOTS];

static long micros(void) {
    struct timespec now;
    clock_gettime(CLOCK_MONOTONIC, &now);
    return now.tv_sec * 1000000L + now.tv_nsec / 1000;
}

static void put_number(FILE *file, unsigned long value, int width) {
    while (width-- > 0) fputc((int)(value >> 8 * width & 255), file);
}

static unsigned long number(const unsigned char *from, int width) {
    unsigned long value = 0;
    while (width-- > 0) value = value << 8 | *from++;
    return value;
}

static void put_version(FILE *file, unsigned long seq) {
    put_number(file, seq ? 1 : 0, 4);
    put_number(file, seq, 8);
}

static int fill(const char *path, unsigned long count) {
    static const unsigned char header[HEADER] = "\x4f" "ECSHARD" "\x01\x00\x01\x02\x00\x00\x10\x00";
    unsigned char bytes[LEN];
    char name[16];
    FILE *file = fopen(path, "wb");
    if (!file) return 1;
    memset(bytes, 0x61, LEN);
    fwrite(header, 1, HEADER, file);
    fputc(OPEN, file);
    put_number(file, 5, 4);
    fputc(STARTED, file);
    put_number(file, 1, 4);
    for (unsigned long i = 0; i < count; i++) {
        int name_len = snprintf(name, sizeof name, "object.%05lu", i * 40503 % count);
        fputc(OPEN, file);
        put_number(file, 1 + 24 + 1 + (unsigned long)name_len + 8 + LEN, 4);
        fputc(REPLACE, file);
        put_version(file, i + 1);
        put_version(file, i);
        fputc(name_len, file);
        fwrite(name, 1, (size_t)name_len, file);
        put_number(file, LEN, 4);
        put_number(file, LEN, 4);
        fwrite(bytes, 1, LEN, file);
    }
    fputc(0, file);
    return fclose(file) != 0;
}

static unsigned char *copy(const unsigned char *from, unsigned len) {
    unsigned char *to = malloc(len ? len : 1);
    if (!to) exit(1);
    return memcpy(to, from, len);
}

static void keep(const unsigned char *name, unsigned name_len, const unsigned char *bytes, unsigned len) {
    unsigned at = 5381;
    for (unsigned i = 0; i < name_len; i++) at = at * 33 + name[i];
    for (at %= SLOTS; table[at].name; at = (at + 1) % SLOTS)
        if (table[at].name_len == name_len && memcmp(table[at].name, name, name_len) == 0) break;
    if (!table[at].name) table[at].name = copy(name, name_len), table[at].name_len = name_len;
    free(table[at].bytes);
    table[at].bytes = copy(bytes, len), table[at].len = len;
}

/* How many objects the steps of a record give; -1 if a step is not as it should be. */
static long steps(const unsigned char *at, const unsigned char *end, unsigned long *head, int keeps) {
    long objects = 0;
    while (at < end) {
        if (*at == STARTED) {
            at += 5;
        } else if (*at == REPLACE) {
            unsigned long seq = number(at + 5, 8), prior = number(at + 17, 8);
            unsigned name_len = at[25], len = (unsigned)number(at + 30 + name_len, 4);
            if (prior != *head || seq != prior + 1 || len > end - at - 34 - name_len) return -1;
            *head = seq;
            if (keeps) keep(at + 26, name_len, at + 34 + name_len, len);
            at += 34 + name_len + len;
            objects++;
        } else {
            return -1;
        }
    }
    return objects;
}

static int walk(const char *path, int keeps) {
    struct stat info;
    unsigned long head = 0;
    long start = micros(), size = 0, objects = 0;
    int file = open(path, O_RDONLY);
    if (file < 0 || fstat(file, &info) != 0) return 1;
    unsigned char *text = malloc((size_t)info.st_size);
    if (!text) return 1;
    while (size < info.st_size) {
        ssize_t count = read(file, text + size, (size_t)(PIECE < info.st_size - size ? PIECE : info.st_size - size));
        if (count <= 0) return 1;
        size += count;
    }
    for (long at = HEADER; at < size && text[at] == OPEN;) {
        long len = (long)number(text + at + 1, 4), found = steps(text + at + 5, text + at + 5 + len, &head, keeps);
        if (found < 0) return 1;
        objects += found;
        at += 5 + len;
    }
    printf("%s %ld us of %ld objects\n", keeps ? "walk" : "skim", micros() - start, objects);
    return 0;
}

int main(int argc, char **argv) {
    if (argc == 4 && strcmp(argv[1], "fill") == 0) return fill(argv[2], strtoul(argv[3], NULL, 10));
    if (argc == 3 && strcmp(argv[1], "walk") == 0) return walk(argv[2], 1);
    if (argc == 3 && strcmp(argv[1], "skim") == 0) return walk(argv[2], 0);
    return 2;
}
