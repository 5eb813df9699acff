/* OpenSSL's SHA-256 by the three old calls: its one-shot function and EVP look the algorithm up at each call, which for a short message
   costs more than the hash. */
#define OPENSSL_SUPPRESS_DEPRECATED
#include <openssl/sha.h>

#include "sha256.h"

void openssl_sha256(const uint8_t *src, size_t length, uint8_t out[32]) {
    SHA256_CTX c;
    SHA256_Init(&c);
    SHA256_Update(&c, src, length);
    SHA256_Final(out, &c);
}
