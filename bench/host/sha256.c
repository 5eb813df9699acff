/* sha256 ours|plain|openssl LENGTH MILLISECONDS: hashes messages of LENGTH bytes for that time, and writes the nanoseconds of one message
   and the digest of the first. Each message holds a byte of the digest before it, so that no hash can be left out or begun early. */
#define _POSIX_C_SOURCE 199309L
#include <stdio.h>
#include <stdlib.h>
#include <string.h>
#include <time.h>

#include "sha256.h"

typedef void hash_fn(const uint8_t *, size_t, uint8_t *);

static hash_fn *named(const char *name) {
    if (!strcmp(name, "ours")) return starterbell_sha256;
    if (!strcmp(name, "plain")) return plain_sha256;
#ifdef WITH_OPENSSL
    if (!strcmp(name, "openssl")) return openssl_sha256;
#endif
    return NULL;
}

/* The processor's time of this process: a message of 1 MB takes longer than a turn of the scheduler, so that by the clock on the wall
   other programs' turns would count. */
static double now_ns(void) {
    struct timespec t;
    clock_gettime(CLOCK_PROCESS_CPUTIME_ID, &t);
    return (double)t.tv_sec * 1e9 + (double)t.tv_nsec;
}

static double time_of(hash_fn *hash, uint8_t *message, size_t length, size_t times) {
    uint8_t out[32] = {0};
    double began = now_ns();
    for (size_t i = 0; i < times; i++) {
        message[0] = out[0];
        hash(message, length, out);
    }
    return now_ns() - began;
}

int main(int argc, char **argv) {
    hash_fn *hash = argc == 4 ? named(argv[1]) : NULL;
    size_t length = argc == 4 ? strtoul(argv[2], NULL, 10) : 0;
    double wanted = argc == 4 ? strtod(argv[3], NULL) * 1e6 : 0;
    uint8_t *message = malloc(length), out[32];
    if (!hash || !length || !message) return 2;
    for (size_t i = 0; i < length; i++) message[i] = (uint8_t)(i * 167 + 13);
    hash(message, length, out);
    size_t times = 1;
    while (time_of(hash, message, length, times) < wanted / 8) times *= 2;
    /* the least of some stretches: what disturbs a run only ever makes it longer */
    double best = 1e300;
    for (int i = 0; i < 4; i++) {
        double t = time_of(hash, message, length, times) / (double)times;
        if (t < best) best = t;
    }
    printf("%.2f ", best);
    for (int i = 0; i < 32; i++) printf("%02x", out[i]);
    printf("\n");
    free(message);
    return 0;
}
