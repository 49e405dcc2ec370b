/* SPDX-License-Identifier: ISC */
/* Headers of webhooks: GitHub's own example, headers of Stripe's form by Python's hmac, those near
 * them, and each refusal. */
#include "../rows.h"
#include "check.h"
#include <string.h>

#define MOST_HEADER 200
#define GARBAGE_TURNS 20000

/* GitHub's documentation, "Validating webhook deliveries". */
static const char SECRET[] = "It's a Secret to Everybody", BODY[] = "Hello, World!";
static const char GITHUB[] =
    "sha256=757107ea0eb2509fc211221cce984b8a37570b6d7586c22c46f4379c8b043e17";
/* The tags of the same body under each algorithm, as VECTORS has them. */
#define VECTORS "vectors/hmac.txt"
static char tags[ALGORITHMS_COUNT + 1][2 * YZ_MAX_OUTPUT_LEN + 1];
static const char *const PREFIXES[] = {"", "sha256=", "v0=", "\n", "0123456789abcdef"};
#define PREFIXES_COUNT (sizeof PREFIXES / sizeof *PREFIXES)

static void write_digits(char *to, const char *words) {
    for (size_t i = 0; words[i]; i++) snprintf(to + 2 * i, 3, "%02x", (unsigned)(uint8_t)words[i]);
}

static void read_tag(uint32_t algorithm, const char *name) {
    char secret[2 * sizeof SECRET], body[2 * sizeof BODY], wanted[MOST_HEADER], line[2000];
    write_digits(secret, SECRET), write_digits(body, BODY);
    snprintf(wanted, sizeof wanted, "hmac %s %s %s\n", name, secret, body);
    FILE *file = fopen(VECTORS, "r");
    IS(file != NULL, true);
    while (file && fgets(line, sizeof line, file) && strcmp(line, wanted) != 0) {}
    if (file && fgets(line, sizeof line, file))
        IS(sscanf(line, "#= %128[0-9a-f]", tags[algorithm]), 1);
    IS(strlen(tags[algorithm]), 2 * yz_output_len(algorithm));
    if (file) fclose(file);
}

static yz_status hex(uint32_t algorithm, const char *secret, const char *prefix, const char *body,
                     const char *header, size_t header_len) {
    return yz_webhook_verify_hex(algorithm, text(secret), strlen(secret), prefix, strlen(prefix),
                                 text(body), strlen(body), header, header_len);
}

static yz_status github(const char *secret, const char *body, const char *header) {
    return yz_webhook_verify_github(text(secret), strlen(secret), text(body), strlen(body), header,
                                    strlen(header));
}

/* With a bit of each byte turned, cut off at each length, and with a byte more, a header is another
 * one, whatever `verify` it is of. */
static void altered(const char *header, yz_status (*verify)(const char *header, size_t len)) {
    char other[MOST_HEADER + 1];
    size_t len = strlen(header);
    IS(verify(header, len), YZ_OK);
    for (size_t i = 0; i < len; i++)
        for (int bit = 0; bit < 8; bit++) {
            memcpy(other, header, len);
            other[i] ^= (char)(1 << bit);
            IS(verify(other, len), YZ_UNSPECIFIED);
        }
    for (size_t i = 0; i < len; i++) IS(verify(header, i), YZ_UNSPECIFIED);
    memcpy(other, header, len), other[len] = '0';
    IS(verify(other, len + 1), YZ_UNSPECIFIED);
    other[len] = 0;
    IS(verify(other, len + 1), YZ_UNSPECIFIED);
    memmove(other + 1, header, len), other[0] = ' ';
    IS(verify(other, len + 1), YZ_UNSPECIFIED);
}

static struct {
    uint32_t algorithm;
    const char *prefix;
} now_hex;

static yz_status verify_hex(const char *header, size_t len) {
    return hex(now_hex.algorithm, SECRET, now_hex.prefix, BODY, header, len);
}

static void each_prefix(uint32_t algorithm) {
    for (size_t k = 0; k < PREFIXES_COUNT; k++) {
        char header[MOST_HEADER];
        size_t len =
            (size_t)snprintf(header, sizeof header, "%s%s", PREFIXES[k], tags[algorithm]);
        now_hex.algorithm = algorithm, now_hex.prefix = PREFIXES[k];
        altered(header, verify_hex);
        for (uint32_t n = 0; n < ALGORITHMS_COUNT + 4; n++) {
            yz_status want = IS_KEYED(n) ? YZ_UNSPECIFIED : YZ_UNKNOWN_ALGORITHM;
            if (n != algorithm) IS(hex(n, SECRET, PREFIXES[k], BODY, header, len), want);
        }
        IS(hex(algorithm, "another", PREFIXES[k], BODY, header, len), YZ_UNSPECIFIED);
        IS(hex(algorithm, SECRET, PREFIXES[k], "another", header, len), YZ_UNSPECIFIED);
        IS(hex(algorithm, SECRET, "another", BODY, header, len), YZ_UNSPECIFIED);
    }
}

#define TRIED(name, ...) read_tag(YZ_##name, #name), each_prefix(YZ_##name);
static void each_algorithm(void) { EACH_KEYED(TRIED) }

static yz_status verify_github(const char *header, size_t len) {
    return yz_webhook_verify_github(text(SECRET), sizeof SECRET - 1, text(BODY), sizeof BODY - 1,
                                    header, len);
}

static void githubs(void) {
    char upper[sizeof GITHUB];
    altered(GITHUB, verify_github);
    for (size_t i = 0; i < sizeof GITHUB; i++)
        upper[i] = (char)(i > 6 && GITHUB[i] >= 'a' ? GITHUB[i] - 'a' + 'A' : GITHUB[i]);
    IS(github(SECRET, BODY, upper), YZ_UNSPECIFIED);
    IS(github(SECRET, BODY, GITHUB + 7), YZ_UNSPECIFIED);
    IS(github(SECRET, "Hello, World", GITHUB), YZ_UNSPECIFIED);
    IS(github("It's a Secret to Everybod", BODY, GITHUB), YZ_UNSPECIFIED);
    IS(github(SECRET, BODY, "sha1=01dc10d0c83e72ed246219cdd91669667fe2ca59"), YZ_UNSPECIFIED);
}

/* By Python's hmac: the tag of the time, a full stop and the body. */
#define TIME UINT64_C(1492774577)
#define RIGHT "v1=799c4ba7bb339f3c8601adfd112f0e477c930a268be1243d341abb8286501c2f"
#define WRONG "v1=799c4ba7bb339f3c8601adfd112f0e477c930a268be1243d341abb8286501c2e"
static const char ENDPOINT[] = "whsec_test_secret", EVENT[] = "{\"id\":\"evt_1\"}";

static yz_status stripe_at(const char *header, uint64_t now, uint64_t tolerance) {
    return yz_webhook_verify_stripe(text(ENDPOINT), sizeof ENDPOINT - 1, text(EVENT),
                                    sizeof EVENT - 1, header, strlen(header), now, tolerance);
}

static yz_status verify_stripe(const char *header, size_t len) {
    return yz_webhook_verify_stripe(text(ENDPOINT), sizeof ENDPOINT - 1, text(EVENT),
                                    sizeof EVENT - 1, header, len, TIME, 300);
}

static void stripes(void) {
    static const struct {
        const char *header;
        bool is_right;
    } HEADERS[] = {
        {"t=1492774577," RIGHT, true},
        {"t=1492774577," RIGHT "," WRONG, true},
        {"t=1492774577," WRONG "," RIGHT, true},
        {"t=1492774577,v0=6ffbb59b2300aae63f272406069a9788," RIGHT ",v2=x", true},
        {"t=1492774577,," RIGHT ",", true},
        {"t=1492774577," WRONG, false},
        {"t=1492774577", false},
        {"t=1492774577,", false},
        {"t=1492774577, " RIGHT, false},
        {"t=1492774577,v0" RIGHT, false},
        {"t=1492774577," RIGHT "0", false},
        {"t=1492774578," RIGHT, false},
        {"t=01492774577," RIGHT, false},
        {"t=+1492774577," RIGHT, false},
        {"t=," RIGHT, false},
        {RIGHT ",t=1492774577", false},
        {RIGHT, false},
        {"", false},
    };
    for (size_t i = 0; i < sizeof HEADERS / sizeof *HEADERS; i++)
        IS(stripe_at(HEADERS[i].header, TIME, 300), HEADERS[i].is_right ? YZ_OK : YZ_UNSPECIFIED);
    altered(HEADERS[0].header, verify_stripe);
}

static void times(void) {
    static const char header[] = "t=1492774577," RIGHT;
    static const struct {
        uint64_t now, tolerance;
        bool is_right;
    } TIMES[] = {
        {TIME, 0, true}, {TIME + 1, 0, false}, {TIME + 300, 300, true}, {TIME + 301, 300, false},
        {TIME - 1, 0, true}, {0, 0, true}, {UINT64_MAX, UINT64_MAX, true},
        {UINT64_MAX, UINT64_MAX - TIME, true}, {UINT64_MAX, UINT64_MAX - TIME - 1, false},
        {UINT64_MAX, 0, false},
    };
    for (size_t i = 0; i < sizeof TIMES / sizeof *TIMES; i++)
        IS(stripe_at(header, TIMES[i].now, TIMES[i].tolerance),
           TIMES[i].is_right ? YZ_OK : YZ_UNSPECIFIED);
}

/* Under an empty secret no header is right, though these have its tags (by Python's hmac), nor
 * under one that is too long. */
static void secrets(void) {
    static const char github[] =
        "sha256=2bbcfa9524f3218c7a34b30e6936f8b1a4516cb097f1a85a1c7d98b5977ec769";
    static const char stripe[] =
        "t=1492774577,v1=8afd98e0de8b7237ed46790394998f76cba203d8db4e25024d880c7ab5e754d4";
    static const size_t LENGTHS[] = {0, (size_t)1 << 61};
    for (size_t i = 0; i < 3; i++) {
        const uint8_t *secret = i == 1 ? NULL : text(SECRET);
        size_t len = LENGTHS[i == 2];
        IS(yz_webhook_verify_hex(YZ_SHA256, secret, len, "sha256=", 7, text(BODY), sizeof BODY - 1,
                                 github, sizeof github - 1), YZ_UNSPECIFIED);
        IS(yz_webhook_verify_github(secret, len, text(BODY), sizeof BODY - 1, github,
                                    sizeof github - 1), YZ_UNSPECIFIED);
        IS(yz_webhook_verify_stripe(secret, len, text(EVENT), sizeof EVENT - 1, stripe,
                                    sizeof stripe - 1, TIME, 300), YZ_UNSPECIFIED);
    }
    /* A body that is too long is not read. */
    IS(yz_webhook_verify_hex(YZ_SHA1, text(SECRET), 9, NULL, 0, text(BODY), (size_t)1 << 61, GITHUB,
                             9), YZ_UNSPECIFIED);
    IS(yz_webhook_verify_github(text(SECRET), 9, text(BODY), (size_t)1 << 61, GITHUB, 9),
       YZ_UNSPECIFIED);
    IS(yz_webhook_verify_stripe(text(SECRET), 9, text(BODY), (size_t)1 << 61, stripe,
                                sizeof stripe - 1, TIME, 300), YZ_UNSPECIFIED);
    IS(yz_webhook_verify_hex(0, NULL, 0, NULL, 0, NULL, 0, NULL, 0), YZ_UNKNOWN_ALGORITHM);
    IS(yz_webhook_verify_hex(YZ_SHA1, NULL, 0, NULL, 0, NULL, 0, NULL, 0), YZ_UNSPECIFIED);
    IS(yz_webhook_verify_github(NULL, 0, NULL, 0, NULL, 0), YZ_UNSPECIFIED);
    IS(yz_webhook_verify_stripe(NULL, 0, NULL, 0, NULL, 0, 0, 0), YZ_UNSPECIFIED);
}

/* Any bytes have an answer. */
static void garbage(void) {
    char bytes[MOST_HEADER];
    for (int turn = 0; turn < GARBAGE_TURNS; turn++) {
        size_t len = below(sizeof bytes + 1), prefix_len = below(20);
        fill_at_random(bytes, sizeof bytes);
        if (turn % 2) memcpy(bytes, GITHUB, sizeof GITHUB - 1 - below(60));
        IS(yz_webhook_verify_hex(YZ_SHA1 + (uint32_t)below(4), text(SECRET), 9, bytes, prefix_len,
                                 text(BODY), 9, bytes, len), YZ_UNSPECIFIED);
        IS(yz_webhook_verify_github(text(SECRET), 9, text(BODY), 9, bytes, len), YZ_UNSPECIFIED);
        if (turn % 2) memcpy(bytes, "t=1492774577,v1=,v1=", 20);
        IS(verify_stripe(bytes, len), YZ_UNSPECIFIED);
    }
}

int main(void) {
    each_algorithm(), githubs(), stripes(), times(), secrets(), garbage();
    return end_of_checks();
}
