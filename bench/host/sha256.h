#include <stddef.h>
#include <stdint.h>

/* The implementations under bench/sha256: each stores the hash of `length` bytes. */
void starterbell_sha256(const uint8_t *src, size_t length, uint8_t out[32]);
void plain_sha256(const uint8_t *src, size_t length, uint8_t out[32]);
void openssl_sha256(const uint8_t *src, size_t length, uint8_t out[32]);
