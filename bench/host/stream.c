/* stream ours|memcpy CUT MILLISECONDS: receives messages of 16,384 bytes, in pieces of CUT bytes (0: all at once), or copies the same bytes
   in such pieces, for that time; writes the nanoseconds of one message. */
#define _POSIX_C_SOURCE 199309L
#include <stdint.h>
#include <stdio.h>
#include <stdlib.h>
#include <string.h>
#include <time.h>

#define BODY 16384
#define FRAME (BODY + 3)
#define FRAMES 16

size_t starterbell_stream_count(uint8_t *buffer, size_t room, const uint8_t *bytes, size_t length, size_t cut);

static uint8_t buffer[BODY], stream[FRAMES * FRAME];

/* A call that the compiler can't see through, as a host's call of a library. */
static void *(*volatile copy)(void *, const void *, size_t) = memcpy;

static size_t by_memcpy(size_t cut) {
    size_t n = 0;
    for (size_t i = 0; i < FRAMES; i++) {
        const uint8_t *body = stream + i * FRAME + 3;
        size_t step = cut ? cut : BODY;
        for (size_t at = 0; at < BODY; at += step) copy(buffer + at, body + at, at + step < BODY ? step : BODY - at);
        n += buffer[BODY - 1] == body[BODY - 1];
    }
    return n;
}

static size_t once(int ours, size_t cut) {
    return ours ? starterbell_stream_count(buffer, sizeof buffer, stream, sizeof stream, cut) : by_memcpy(cut);
}

static double now_ns(void) {
    struct timespec t;
    clock_gettime(CLOCK_PROCESS_CPUTIME_ID, &t);
    return (double)t.tv_sec * 1e9 + (double)t.tv_nsec;
}

static double time_of(int ours, size_t cut, size_t times) {
    double began = now_ns();
    for (size_t i = 0; i < times; i++)
        if (once(ours, cut) != FRAMES) exit(1);
    return now_ns() - began;
}

int main(int argc, char **argv) {
    if (argc != 4) return 2;
    int ours = !strcmp(argv[1], "ours");
    size_t cut = strtoul(argv[2], NULL, 10), times = 1;
    double wanted = strtod(argv[3], NULL) * 1e6, best = 1e300;
    for (size_t i = 0; i < FRAMES; i++) {
        uint8_t *frame = stream + i * FRAME;
        frame[0] = 128, frame[1] = 128, frame[2] = 1;
        for (size_t j = 0; j < BODY; j++) frame[3 + j] = (uint8_t)(j * 167 + i);
    }
    while (time_of(ours, cut, times) < wanted / 8) times *= 2;
    /* the least of some stretches: what disturbs a run only ever makes it longer */
    for (int i = 0; i < 4; i++) {
        double t = time_of(ours, cut, times) / (double)times / FRAMES;
        if (t < best) best = t;
    }
    printf("%.2f\n", best);
    return 0;
}
