/* How fast ISA-L's SSE form of a product of a slice by a coefficient goes over 1 MiB. scripts/bench compiles it. */
#include <isa-l.h>
#include <stdio.h>
#include <stdlib.h>
#include <time.h>

int gf_vect_mul_sse(int len, unsigned char *tables, void *from, void *to);

static double now(void) {
    struct timespec at;
    clock_gettime(CLOCK_MONOTONIC, &at);
    return at.tv_sec + 1e-9 * at.tv_nsec;
}

int main(void) {
    enum { BYTES = 1 << 20, ROUNDS = 2000 };
    unsigned char tables[32], next = 7;
    unsigned char *to = aligned_alloc(64, BYTES), *from = aligned_alloc(64, BYTES);
    if (!to || !from) return 1;
    for (int i = 0; i < BYTES; i++) {
        next = next * 5 + 3;
        from[i] = to[i] = next;
    }
    double start = now();
    for (int round = 0; round < ROUNDS; round++) {
        gf_vect_mul_init(round % 254 + 2, tables);
        gf_vect_mul_sse(BYTES, tables, from, to);
    }
    printf("gf_vect_mul_sse %.0f MB/s (%d)\n", ROUNDS * (BYTES / 1e6) / (now() - start), to[BYTES - 1]);
    return 0;
}
