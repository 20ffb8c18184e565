/* sha256.h - the digest SHA-256 of bytes (FIPS 180-4). */
#ifndef SHA256_H
#define SHA256_H

#include "bytes.h"

enum { DIGEST = 32 };

void sha256(bytes b, uint8_t digest[DIGEST]);

#endif
