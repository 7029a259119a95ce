/* SHA-256 (FIPS 180-4), apart from the library. */
#ifndef SHA256_H
#define SHA256_H

#include <stddef.h>
#include <stdint.h>

void sha256(const uint8_t *at, size_t length, uint8_t digest[32]);

#endif
