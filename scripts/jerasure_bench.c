/* How fast jerasure makes both coding chunks of 4+2 at a unit of 4,096 bytes, over 1 MiB. scripts/bench compiles it. */
#include <jerasure.h>
#include <stdio.h>
#include <stdlib.h>
#include <time.h>

enum { K = 4, M = 2, W = 8, UNIT = 4096, BYTES = 1 << 20, STRIPES = BYTES / (K * UNIT), ROUNDS = 2000 };

static double now(void) {
    struct timespec at;
    clock_gettime(CLOCK_MONOTONIC, &at);
    return (double)at.tv_sec + 1e-9 * (double)at.tv_nsec;
}

int main(void) {
    int rows[M * K] = {1, 1, 1, 1, 1, 70, 143, 200};
    unsigned next = 7;
    char *object = aligned_alloc(64, BYTES), *coded[M], *from[K], *to[M];
    if (!object) return 1;
    for (int i = 0; i < BYTES; i++) object[i] = (char)((next = next * 1664525 + 1013904223) >> 24);
    for (int r = 0; r < M; r++)
        if (!(coded[r] = aligned_alloc(64, STRIPES * UNIT))) return 1;
    double start = now();
    for (int round = 0; round < ROUNDS; round++) {
        for (int stripe = 0; stripe < STRIPES; stripe++) {
            for (int j = 0; j < K; j++) from[j] = object + (stripe * K + j) * UNIT;
            for (int r = 0; r < M; r++) to[r] = coded[r] + stripe * UNIT;
            jerasure_matrix_encode(K, M, W, rows, from, to, UNIT);
        }
    }
    printf("jerasure_matrix_encode %.0f MB/s (%d)\n", ROUNDS * (BYTES / 1e6) / (now() - start), coded[M - 1][UNIT - 1] & 255);
    return 0;
}
