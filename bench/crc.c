/* Times the proved CRC-32 of crates/crc, as crates/crc_c gives it to C. Build and run, in the repository's folder:
 *   (cd crates/crc_c && rt lib) && mkdir -p target/staticlib && cp crates/crc_c/out/libcrc_c.a target/staticlib/libcrc.a
 *   cc -O3 bench/crc.c target/staticlib/libcrc.a -o target/crc_bench && target/crc_bench */
#include <stdint.h>
#include <stdio.h>
#include <stdlib.h>
#include <time.h>

uint32_t bridge_crc32(const uint8_t *bytes, size_t length);

static double seconds(void) {
    struct timespec t;
    clock_gettime(CLOCK_MONOTONIC, &t);
    return t.tv_sec + t.tv_nsec / 1e9;
}

static void time_length(size_t length, int rounds) {
    uint8_t *bytes = malloc(length);
    for (size_t i = 0; i < length; i++) bytes[i] = (uint8_t)(i * 131 + 7);
    uint32_t sum = 0;
    double best = 1e9;
    for (int k = 0; k < 5; k++) {
        double start = seconds();
        for (int r = 0; r < rounds; r++) {
            bytes[0] = (uint8_t)r;
            sum ^= bridge_crc32(bytes, length);
        }
        double spent = seconds() - start;
        if (spent < best) best = spent;
    }
    printf("%8zu bytes: %7.1f MB/s (sum %08x)\n", length, length * (double)rounds / best / 1e6, sum);
    free(bytes);
}

int main(void) {
    if (bridge_crc32((const uint8_t *)"123456789", 9) != 0xCBF43926) return 1;
    time_length(14, 2000000);
    time_length(269, 400000);
    time_length(1529, 100000);
    time_length(1 << 20, 200);
    return 0;
}
