/* How fast ISA-L's SSE form makes both coding chunks of 4+2 at a unit of 4,096 bytes, over 1 MiB, and its AVX2 form if the processor
   has AVX2. scripts/bench compiles it. */
#include <isa-l.h>
#include <stdio.h>
#include <stdlib.h>
#include <time.h>

typedef void encoder(int len, int k, int rows, unsigned char *tables, unsigned char **from, unsigned char **to);

encoder ec_encode_data_sse, ec_encode_data_avx2;

enum { K = 4, M = 2, UNIT = 4096, BYTES = 1 << 20, STRIPES = BYTES / (K * UNIT), ROUNDS = 2000 };

static double now(void) {
    struct timespec at;
    clock_gettime(CLOCK_MONOTONIC, &at);
    return (double)at.tv_sec + 1e-9 * (double)at.tv_nsec;
}

static void measure(const char *name, encoder *encode, unsigned char *object, unsigned char **coded) {
    unsigned char rows[M * K] = {1, 1, 1, 1, 1, 70, 143, 200}, tables[32 * M * K];
    unsigned char *from[K], *to[M];
    double start = now();
    for (int round = 0; round < ROUNDS; round++) {
        ec_init_tables(K, M, rows, tables);
        for (int stripe = 0; stripe < STRIPES; stripe++) {
            for (int j = 0; j < K; j++) from[j] = object + (stripe * K + j) * UNIT;
            for (int r = 0; r < M; r++) to[r] = coded[r] + stripe * UNIT;
            encode(UNIT, K, M, tables, from, to);
        }
    }
    printf("%s %.0f MB/s (%d)\n", name, ROUNDS * (BYTES / 1e6) / (now() - start), coded[M - 1][UNIT - 1]);
}

int main(void) {
    unsigned next = 7;
    unsigned char *object = aligned_alloc(64, BYTES), *coded[M];
    if (!object) return 1;
    for (int i = 0; i < BYTES; i++) object[i] = (unsigned char)((next = next * 1664525 + 1013904223) >> 24);
    for (int r = 0; r < M; r++)
        if (!(coded[r] = aligned_alloc(64, STRIPES * UNIT))) return 1;
    measure("ec_encode_data_sse", ec_encode_data_sse, object, coded);
    if (__builtin_cpu_supports("avx2")) measure("ec_encode_data_avx2", ec_encode_data_avx2, object, coded);
    return 0;
}
