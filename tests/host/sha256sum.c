/* sha256sum FILE..: writes a line for each file as the command of that name does, with the hash by starterbell_sha256.
   Each message is hashed from an odd address, and the bytes around the digest are watched. */
#include <stdint.h>
#include <stdio.h>
#include <stdlib.h>
#include <string.h>

void starterbell_sha256(const uint8_t *src, size_t length, uint8_t out[32]);

enum { GUARD = 16, DIGEST = 32 };

static void die(const char *what, const char *name) {
    fprintf(stderr, "%s: %s\n", name, what);
    exit(2);
}

/* The file's bytes, one byte past an address that malloc gave. */
static uint8_t *read_file(const char *name, size_t *length) {
    FILE *f = fopen(name, "rb");
    if (!f) die("cannot be opened", name);
    if (fseek(f, 0, SEEK_END) != 0) die("has no end", name);
    long size = ftell(f);
    if (size < 0) die("has no size", name);
    rewind(f);
    uint8_t *bytes = malloc((size_t)size + 1);
    if (!bytes) die("is more than there is memory", name);
    if (fread(bytes + 1, 1, (size_t)size, f) != (size_t)size) die("cannot be read", name);
    fclose(f);
    *length = (size_t)size;
    return bytes;
}

static void write_line(const char *name) {
    uint8_t out[GUARD + DIGEST + GUARD];
    size_t length;
    uint8_t *bytes = read_file(name, &length);
    memset(out, 0xa5, sizeof out);
    starterbell_sha256(bytes + 1, length, out + GUARD);
    for (int i = 0; i < GUARD; i++)
        if (out[i] != 0xa5 || out[GUARD + DIGEST + i] != 0xa5) die("a byte beside the digest was written", name);
    for (int i = 0; i < DIGEST; i++) printf("%02x", out[GUARD + i]);
    printf("  %s\n", name);
    free(bytes);
}

int main(int argc, char **argv) {
    for (int i = 1; i < argc; i++) write_line(argv[i]);
    return fflush(stdout) == 0 ? 0 : 2;
}
