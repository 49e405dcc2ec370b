/* SPDX-License-Identifier: ISC */
/* Made by tools/lists.py, of tools/rows.py. The algorithms, for the tests in C and the OpenSSL
 * provider: ROW(the name behind YZ_, the standard's name, OpenSSL's name, all names there). */
#ifndef YEZDOPIN_ROWS_H
#define YEZDOPIN_ROWS_H

#define EACH_ALGORITHM(ROW) \
    ROW(SHA1, "SHA-1", "SHA1", "SHA1:SHA-1:SSL3-SHA1:1.3.14.3.2.26") \
    ROW(SHA256, "SHA-256", "SHA2-256", "SHA2-256:SHA-256:SHA256:2.16.840.1.101.3.4.2.1") \
    ROW(SHA384, "SHA-384", "SHA2-384", "SHA2-384:SHA-384:SHA384:2.16.840.1.101.3.4.2.2") \
    ROW(SHA512, "SHA-512", "SHA2-512", "SHA2-512:SHA-512:SHA512:2.16.840.1.101.3.4.2.3") \
    ROW(SHA512_256, "SHA-512/256", "SHA2-512/256", \
        "SHA2-512/256:SHA-512/256:SHA512-256:2.16.840.1.101.3.4.2.6")

/* Their numbers are from 1 to this. */
#define ALGORITHMS_COUNT 5

/* Those of HMAC, HKDF and PBKDF2, and whether a number is of one. */
#define EACH_KEYED(ROW) \
    ROW(SHA1, "SHA-1", "SHA1", "SHA1:SHA-1:SSL3-SHA1:1.3.14.3.2.26") \
    ROW(SHA256, "SHA-256", "SHA2-256", "SHA2-256:SHA-256:SHA256:2.16.840.1.101.3.4.2.1") \
    ROW(SHA384, "SHA-384", "SHA2-384", "SHA2-384:SHA-384:SHA384:2.16.840.1.101.3.4.2.2") \
    ROW(SHA512, "SHA-512", "SHA2-512", "SHA2-512:SHA-512:SHA512:2.16.840.1.101.3.4.2.3")
#define IS_KEYED(n) \
    ((n) == YZ_SHA1 || \
     (n) == YZ_SHA256 || \
     (n) == YZ_SHA384 || \
     (n) == YZ_SHA512)
#define FOR_EACH_KEYED(n) \
    for (uint32_t n = 1; n <= ALGORITHMS_COUNT; n++) if (IS_KEYED(n))

/* Those of tokens, each with its name there. */
#define EACH_TOKEN(ROW) \
    ROW(SHA256, "HS256") \
    ROW(SHA384, "HS384") \
    ROW(SHA512, "HS512")

#endif
