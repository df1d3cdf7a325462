/* The same writes and syncs as the journal's, in a plain loop, and a plain read of a file. scripts/bench compares
 * crates/journal_bench with this program. `commit FILE COUNT` prints the time of COUNT commits of 4 KiB, `fill FILE MIB` writes a
 * text of records of 4 KiB up to MIB mebibytes, and `read FILE` prints the time of reading it whole into memory. docs/FORMAT.md has
 * the bytes. */
#include <fcntl.h>
#include <stdio.h>
#include <stdlib.h>
#include <string.h>
#include <sys/stat.h>
#include <time.h>
#include <unistd.h>

enum { BODY = 4096, RECORD = BODY + 5, PIECE = 1 << 18 };

static const unsigned char header[24] = "\x4f" "ECSHARD" "\x01\x00\x02\x03\x00\x00\x00\x20";
static const unsigned char length_bytes[4] = {0, 0, BODY >> 8, 0};
static const unsigned char open_gate = 0x4f;
static const unsigned char closed_gate = 0;

static long micros(void)
{
    struct timespec now;
    clock_gettime(CLOCK_MONOTONIC, &now);
    return now.tv_sec * 1000000L + now.tv_nsec / 1000;
}

static void put(int file, const void *bytes, size_t count, off_t at)
{
    if (pwrite(file, bytes, count, at) != (ssize_t)count) {
        perror("write");
        exit(1);
    }
}

static void sync_file(int file)
{
    if (fdatasync(file) != 0) {
        perror("sync");
        exit(1);
    }
}

static void commit(int file, const unsigned char *body, off_t gate)
{
    put(file, length_bytes, 4, gate + 1);
    put(file, body, BODY, gate + 5);
    put(file, &closed_gate, 1, gate + RECORD);
    sync_file(file);
    put(file, &open_gate, 1, gate);
    sync_file(file);
}

static int commits(const char *path, long count)
{
    unsigned char body[BODY];
    int file = open(path, O_RDWR | O_CREAT | O_TRUNC, 0644);
    if (file < 0)
        return 1;
    memset(body, 0x61, BODY);
    put(file, header, 24, 0);
    put(file, &closed_gate, 1, 24);
    commit(file, body, 24);
    long start = micros();
    for (long i = 1; i <= count; i++)
        commit(file, body, 24 + i * RECORD);
    printf("plain %ld us for %ld\n", micros() - start, count);
    return 0;
}

static int fill(const char *path, long mebibytes)
{
    unsigned char body[BODY];
    FILE *file = fopen(path, "wb");
    if (!file)
        return 1;
    memset(body, 0x61, BODY);
    fwrite(header, 1, 24, file);
    for (long i = 0; i < mebibytes * 256; i++) {
        fputc(open_gate, file);
        fwrite(length_bytes, 1, 4, file);
        fwrite(body, 1, BODY, file);
    }
    fputc(closed_gate, file);
    return fclose(file) != 0;
}

static int read_all(const char *path)
{
    struct stat info;
    int file = open(path, O_RDONLY);
    if (file < 0 || fstat(file, &info) != 0)
        return 1;
    long start = micros(), total = 0;
    unsigned char *bytes = malloc(info.st_size);
    if (!bytes)
        return 1;
    while (total < info.st_size) {
        ssize_t count = read(file, bytes + total, PIECE < info.st_size - total ? PIECE : info.st_size - total);
        if (count <= 0)
            return 1;
        total += count;
    }
    printf("read %ld us of %ld bytes\n", micros() - start, total);
    return 0;
}

int main(int argc, char **argv)
{
    if (argc == 4 && strcmp(argv[1], "commit") == 0)
        return commits(argv[2], atol(argv[3]));
    if (argc == 4 && strcmp(argv[1], "fill") == 0)
        return fill(argv[2], atol(argv[3]));
    if (argc == 3 && strcmp(argv[1], "read") == 0)
        return read_all(argv[2]);
    return 2;
}
