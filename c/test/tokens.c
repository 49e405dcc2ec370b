/* SPDX-License-Identifier: ISC */
/* Signed tokens and one-time passwords: tokens of PyJWT and of openssl, broken ones, the RFCs'
 * passwords, windows, and each refusal, at which nothing is written. */
#include "../rows.h"
#include "check.h"
#include <string.h>

#define MOST_TOKEN 300
#define MOST_PAYLOAD 100
#define GARBAGE_TURNS 20000

static const char CLAIMS[] = "{\"sub\":\"alice\",\"exp\":1900000000}";
#define CLAIMS_TEXT "eyJzdWIiOiJhbGljZSIsImV4cCI6MTkwMDAwMDAwMH0."
#define HS256_USUAL "eyJhbGciOiJIUzI1NiIsInR5cCI6IkpXVCJ9."
#define HS384_USUAL "eyJhbGciOiJIUzM4NCIsInR5cCI6IkpXVCJ9."
#define HS512_USUAL "eyJhbGciOiJIUzUxMiIsInR5cCI6IkpXVCJ9."

/* Tokens under the key of the bytes from 0 to 63, by the header that yz_jws_sign writes, by that
 * without a type, and by that with the type first. PyJWT 2.6.0 wrote the first two of each
 * algorithm, and openssl's HMAC is that of the third. */
static const struct {
    const char *name;
    bool is_usual;
    const char *payload, *text;
} TOKENS[] = {
    {"HS256", true, CLAIMS,
     HS256_USUAL CLAIMS_TEXT "Av15jE4AZCPZQvkhbizeutbZyr80T3jYgTdpEJTJyio"},
    {"HS256", false, CLAIMS,
     "eyJhbGciOiJIUzI1NiJ9." CLAIMS_TEXT "bw28Afa6mXZdbdTu_So4NOoNslYUwSHMwlWqIVo907I"},
    {"HS256", false, CLAIMS,
     "eyJ0eXAiOiJKV1QiLCJhbGciOiJIUzI1NiJ9." CLAIMS_TEXT
     "SbUcPUM2YFM5uM5-t8RgqwuLKeHEAVBuQjrBqV2y4Wg"},
    {"HS384", true, CLAIMS,
     HS384_USUAL CLAIMS_TEXT "mFuMA2rzNA6inBMB7lnRSkVJp0c2urDzdrSbxExk_xnhuoicY4SchAf_Y5rBUXQx"},
    {"HS384", false, CLAIMS,
     "eyJhbGciOiJIUzM4NCJ9." CLAIMS_TEXT
     "9fLLqh17wZDW_T0VeHszvtH5y9hvQHaSwJ9cV-OiprAjZUSzL1Iys2IvPQ2-0WAB"},
    {"HS384", false, CLAIMS,
     "eyJ0eXAiOiJKV1QiLCJhbGciOiJIUzM4NCJ9." CLAIMS_TEXT
     "XbQdJBVkN6It4oZgbMXUuQ-IhO9K6F-VUeMFPFCrqRVUhvbHW6WgDUHE7pdNrpjW"},
    {"HS512", true, CLAIMS,
     HS512_USUAL CLAIMS_TEXT
     "7JluNu4-4UG57vYNTDFzYlaaHw7Nhm2O9kqHsUcq9OxdkiJJDcZjNcLTC8De2wgiGIidXTX2AixPpMUp_cq06g"},
    {"HS512", false, CLAIMS,
     "eyJhbGciOiJIUzUxMiJ9." CLAIMS_TEXT
     "719-q6rkzvdMJiFpcvWI7-ytdJw9bEoXwcZbk1sVOYX_6AfMfqRKAt0P-ApGc2ip08tQXeYea7BzHBduzX9S8w"},
    {"HS512", false, CLAIMS,
     "eyJ0eXAiOiJKV1QiLCJhbGciOiJIUzUxMiJ9." CLAIMS_TEXT
     "pNgXdqPqjmKiGn0C7gHAHnT7xKWaJ9qrz7eqSP8wV7VloF688lCk551IiIsJPiuPnv9SrYdSDknNyescXdN95w"},
    {"HS256", true, "", HS256_USUAL ".WSq6Ajb-psw5ZCjuS-p8CnWKau4envAdUbIhMgSBqaY"},
    {"HS256", true, "{\"sub\":\"alice\"}",
     HS256_USUAL "eyJzdWIiOiJhbGljZSJ9.uLbL5bc8Qp7jfAtqPpwFehDm9fiV55-bPWS-HA7iHx4"},
};
#define TOKENS_COUNT (sizeof TOKENS / sizeof *TOKENS)

/* Signed as the others, and yet no tokens here: of another header, as PyJWT writes it, and of parts
 * that are no canonical base64url, by openssl's HMAC. */
static const char *const REFUSED[] = {
    "eyJhbGciOiJIUzI1NiIsImtpZCI6IjEiLCJ0eXAiOiJKV1QifQ." CLAIMS_TEXT
    "x7aAH3LV29t2KSwIdoBaPztVP2kt2nrkoJRockdAYB4",
    "eyJhbGciOiJub25lIiwidHlwIjoiSldUIn0." CLAIMS_TEXT,
    HS256_USUAL "eyJzdWIiOiJhbGljZSJ9!.OVD-qiUZW70jwLEimha1yHa1OX-BHk-DI3PPPVMatn4",
    HS256_USUAL "eyJzdWIiOiJhbGljZSJ9A.bcMpt8dFA5C_zwiirEhNUJfGpt3kVJeyYHlFbwReSqg",
    HS256_USUAL "eyJzdWIiOiJhbGljZSJ9AB.7PANh9eAYQfrXHqRx_cKvFlJ3Kg_C9WkGRgVCQyFYK8",
    HS256_USUAL "eyJzdWIiOiJhbGljZSJ9AA==.cc6BzMYV8WkIOhNUfqcl9xregBKKWV7kxfUqyu6ZNZQ",
    HS256_USUAL "eyJzdWIiOiJhbGljZSJ9++++.-RKl4v2Y3guRH2Y3vFYfxtm99lxIDIr9qn-N9MkU4rU",
    "",
    ".",
    "..",
    "...",
    HS256_USUAL,
    HS256_USUAL CLAIMS_TEXT,
};
#define REFUSED_COUNT (sizeof REFUSED / sizeof *REFUSED)

static uint8_t key[YZ_MAX_OUTPUT_LEN];

/* The algorithms of tokens, by their names there. */
#define NUMBER_AND_NAME(name, token) {YZ_##name, token},
static const struct {
    uint32_t number;
    const char *name;
} ALGORITHMS[] = {EACH_TOKEN(NUMBER_AND_NAME)};
#define TOKEN_ALGORITHMS_COUNT (sizeof ALGORITHMS / sizeof *ALGORITHMS)

static bool is_of_tokens(uint32_t n) {
    size_t i = 0;
    while (i < TOKEN_ALGORITHMS_COUNT && ALGORITHMS[i].number != n) i++;
    return i < TOKEN_ALGORITHMS_COUNT;
}

static void is_claims(const uint8_t *got, size_t len, const char *want) {
    IS(len, strlen(want));
    IS(memcmp(got, want, strlen(want)), 0);
}

/* A text that is refused for a reason writes nothing. */
static void is_refused(uint32_t algorithm, size_t key_len, const char *token, size_t token_len,
                       size_t room, yz_status want) {
    uint8_t payload[MOST_TOKEN + 1];
    size_t payload_len = 9;
    memset(payload, UNWRITTEN, sizeof payload);
    IS(yz_jws_verify(algorithm, key, key_len, token, token_len, payload, room, &payload_len), want);
    IS(payload_len, 9);
    IS_UNWRITTEN(payload, sizeof payload);
}

/* A token has its payload, which is written where there is room, and nothing behind it. */
static void verified(uint32_t algorithm, const char *token, const char *want) {
    uint8_t payload[MOST_TOKEN + 1];
    size_t len = strlen(token), payload_len = 9;
    for (size_t room = len; room <= len + 1; room++) {
        memset(payload, UNWRITTEN, sizeof payload);
        IS(yz_jws_verify(algorithm, key, sizeof key, token, len, payload, room, &payload_len),
           YZ_OK);
        is_claims(payload, payload_len, want);
        IS_UNWRITTEN(payload + payload_len, sizeof payload - payload_len);
    }
    is_refused(algorithm, sizeof key, token, len, len - 1, YZ_WRONG_LENGTH);
    is_refused(algorithm, sizeof key, token, len, 0, YZ_WRONG_LENGTH);
    is_refused(algorithm, 0, token, len, len - 1, YZ_WRONG_LENGTH);
}

/* Under any other algorithm or key, with a byte altered, left out or more, it is no token. */
static void altered(uint32_t algorithm, const char *token) {
    char other[MOST_TOKEN + 2];
    size_t len = strlen(token), key_len = yz_output_len(algorithm);
    for (uint32_t n = 0; n < ALGORITHMS_COUNT + 4; n++) {
        bool is_known = is_of_tokens(n);
        yz_status want = is_known ? YZ_UNSPECIFIED : YZ_UNKNOWN_ALGORITHM;
        if (n != algorithm) is_refused(n, sizeof key, token, len, len, want);
        if (!is_known) is_refused(n, 0, token, len, 0, want);
    }
    is_refused(algorithm, key_len - 1, token, len, len, YZ_UNSPECIFIED);
    is_refused(algorithm, 0, token, len, len, YZ_UNSPECIFIED);
    if (algorithm == YZ_SHA256)
        is_refused(algorithm, (size_t)1 << 61, token, len, len, YZ_UNSPECIFIED);
    for (size_t i = 0; i < len; i++) {
        memcpy(other, token, len);
        other[i] ^= (char)(1 << below(8));
        is_refused(algorithm, sizeof key, other, len, len, YZ_UNSPECIFIED);
        is_refused(algorithm, sizeof key, token, i, len, YZ_UNSPECIFIED);
        memcpy(other, token, i), other[i] = token[below(len)];
        memcpy(other + i + 1, token + i, len - i);
        is_refused(algorithm, sizeof key, other, len + 1, len + 1, YZ_UNSPECIFIED);
    }
}

/* The token is written where there is room, and nothing behind it. */
static void signed_as(uint32_t algorithm, const char *payload, const char *want) {
    char token[MOST_TOKEN + 2];
    const uint8_t *bytes = text(payload);
    const size_t len = strlen(want), payload_len = strlen(payload);
    IS(YZ_JWS_TOKEN_LEN(yz_output_len(algorithm), payload_len), len);
    for (size_t room = len - 1; room <= len + 1; room++) {
        size_t token_len = 9;
        memset(token, UNWRITTEN, sizeof token);
        yz_status status = yz_jws_sign(algorithm, key, sizeof key, payload_len ? bytes : NULL,
                                       payload_len, token, room, &token_len);
        IS(status, room < len ? YZ_WRONG_LENGTH : YZ_OK);
        IS(token_len, status ? 9 : len);
        if (!status) IS(memcmp(token, want, len), 0);
        IS_UNWRITTEN(token + (status ? 0 : len), sizeof token - (status ? 0 : len));
    }
}

/* An algorithm verifies its tokens, of which it signs the usual ones; it has one at least. */
static void tokens_of(uint32_t algorithm, const char *name) {
    size_t usual_count = 0;
    for (size_t i = 0; i < TOKENS_COUNT; i++) {
        if (strcmp(TOKENS[i].name, name) != 0) continue;
        verified(algorithm, TOKENS[i].text, TOKENS[i].payload);
        altered(algorithm, TOKENS[i].text);
        if (!TOKENS[i].is_usual) continue;
        signed_as(algorithm, TOKENS[i].payload, TOKENS[i].text);
        usual_count++;
    }
    IS(usual_count > 0, true);
}

static void known_tokens(void) {
    for (size_t i = 0; i < TOKEN_ALGORITHMS_COUNT; i++)
        tokens_of(ALGORITHMS[i].number, ALGORITHMS[i].name);
    for (size_t i = 0; i < REFUSED_COUNT; i++)
        is_refused(YZ_SHA256, sizeof key, REFUSED[i], strlen(REFUSED[i]), MOST_TOKEN,
                   YZ_UNSPECIFIED);
    is_refused(YZ_SHA256, sizeof key, NULL, 0, 0, YZ_UNSPECIFIED);
}

/* What is not signed is not written, for each cause. */
static void unsigned_payloads(void) {
    static const struct {
        uint32_t algorithm;
        size_t key_len, payload_len, room;
        yz_status want;
    } CASES[] = {
        {0, 64, 1, MOST_TOKEN, YZ_UNKNOWN_ALGORITHM},
        {YZ_SHA1, 64, 1, MOST_TOKEN, YZ_UNKNOWN_ALGORITHM},
        {YZ_SHA512_256, 64, 1, 0, YZ_UNKNOWN_ALGORITHM},
        {UINT32_MAX, 0, 1, 0, YZ_UNKNOWN_ALGORITHM},
        {YZ_SHA512, 0, 1, MOST_TOKEN, YZ_UNSPECIFIED},
        {YZ_SHA512, 63, 1, 0, YZ_WRONG_LENGTH},
        {YZ_SHA256, (size_t)1 << 61, 1, MOST_TOKEN, YZ_UNSPECIFIED},
        {YZ_SHA256, 64, SIZE_MAX, MOST_TOKEN, YZ_WRONG_LENGTH},
        {YZ_SHA256, 64, SIZE_MAX / 4 * 3, MOST_TOKEN, YZ_WRONG_LENGTH},
    };
    char token[MOST_TOKEN];
    size_t token_len = 9;
    memset(token, UNWRITTEN, sizeof token);
    for (size_t i = 0; i < sizeof CASES / sizeof *CASES; i++)
        IS(yz_jws_sign(CASES[i].algorithm, key, CASES[i].key_len, key, CASES[i].payload_len, token,
                       CASES[i].room, &token_len), CASES[i].want);
    for (size_t i = 0; i < TOKEN_ALGORITHMS_COUNT; i++)
        IS(yz_jws_sign(ALGORITHMS[i].number, key, yz_output_len(ALGORITHMS[i].number) - 1, key, 1,
                       token, MOST_TOKEN, &token_len), YZ_UNSPECIFIED);
    IS(token_len, 9);
    IS_UNWRITTEN(token, sizeof token);
}

/* What is signed under a key of the least length verifies to the payload, of some length. */
static void signed_and_verified(uint32_t n, size_t len) {
    uint8_t secret[YZ_MAX_OUTPUT_LEN], payload[MOST_PAYLOAD], got[MOST_TOKEN];
    char token[MOST_TOKEN + 1];
    size_t key_len = yz_output_len(n), token_len = 0, got_len = 0;
    fill_at_random(secret, sizeof secret), fill_at_random(payload, len);
    IS(yz_jws_sign(n, secret, key_len, payload, len, token, sizeof token, &token_len), YZ_OK);
    IS(token_len, YZ_JWS_TOKEN_LEN(key_len, len));
    IS(yz_jws_verify(n, secret, key_len, token, token_len, got, token_len, &got_len), YZ_OK);
    IS(got_len, len);
    IS(memcmp(got, payload, len), 0);
    secret[below(key_len)] ^= (uint8_t)(1 << below(8));
    IS(yz_jws_verify(n, secret, key_len, token, token_len, got, token_len, &got_len),
       YZ_UNSPECIFIED);
}

static void all_lengths(void) {
    for (size_t i = 0; i < TOKEN_ALGORITHMS_COUNT; i++)
        for (size_t len = 0; len <= MOST_PAYLOAD; len++)
            signed_and_verified(ALGORITHMS[i].number, len);
}

/* ---- one-time passwords */

/* RFC 4226, appendix D, and RFC 6238, appendix B, with the keys of its errata. */
static const char SECRET[] = "1234567890123456789012345678901234567890123456789012345678901234";
static const char *const HOTP[] = {"755224", "287082", "359152", "969429", "338314",
                                   "254676", "287922", "162583", "399871", "520489"};
enum { HOTP_COUNT = sizeof HOTP / sizeof *HOTP };
static const struct {
    uint32_t algorithm;
    size_t key_len;
    const char *passwords[6];
} TOTP[] = {
    {YZ_SHA1, 20, {"94287082", "07081804", "14050471", "89005924", "69279037", "65353130"}},
    {YZ_SHA256, 32, {"46119246", "68084774", "67062674", "91819424", "90698825", "77737706"}},
    {YZ_SHA512, 64, {"90693936", "25091201", "99943326", "93441116", "38618901", "47863826"}},
};
static const uint64_t TIMES[] = {59, 1111111109, 1111111111, 1234567890, 2000000000, 20000000000};

static void is_password(yz_status status, const char *got, const char *want, size_t digits) {
    IS(status, YZ_OK);
    IS(memcmp(got, want, digits), 0);
    IS_UNWRITTEN(got + digits, YZ_OTP_MAX_DIGITS + 1 - digits);
}

static void is_found(yz_status status, const uint64_t *got, uint64_t want) {
    IS(status, YZ_OK);
    IS(*got == want, true);
}

static yz_status find_hotp(uint64_t first, uint64_t count, size_t digits, const char *password,
                           uint64_t *counter) {
    return yz_hotp_find(YZ_SHA1, text(SECRET), 20, first, count, digits, password, strlen(password),
                        counter);
}

/* The counter of a password is found in a window that has it, and nothing is written in another. */
static void windows(uint64_t at, const char *password) {
    uint64_t found = 9;
    const size_t digits = strlen(password);
    is_found(find_hotp(0, HOTP_COUNT, digits, password, &found), &found, at);
    is_found(find_hotp(at, 1, digits, password, &found), &found, at);
    found = 99;
    IS(find_hotp(at, 0, digits, password, &found), YZ_UNSPECIFIED);
    IS(find_hotp(at + 1, HOTP_COUNT, digits, password, &found), YZ_UNSPECIFIED);
    IS(find_hotp(0, at, digits, password, &found), YZ_UNSPECIFIED);
    IS(find_hotp(0, HOTP_COUNT, digits + 1, password, &found), YZ_UNSPECIFIED);
    IS(find_hotp(0, HOTP_COUNT, digits, password + 1, &found), YZ_UNSPECIFIED);
    IS(find_hotp(0, HOTP_COUNT, digits, "", &found), YZ_UNSPECIFIED);
    IS(found, 99);
}

static void known_passwords(void) {
    char got[YZ_OTP_MAX_DIGITS + 1];
    for (uint64_t i = 0; i < HOTP_COUNT; i++) {
        memset(got, UNWRITTEN, sizeof got);
        is_password(yz_hotp(YZ_SHA1, text(SECRET), 20, i, got, 6), got, HOTP[i], 6);
        windows(i, HOTP[i]);
    }
    for (size_t i = 0; i < sizeof TOTP / sizeof *TOTP; i++)
        for (size_t k = 0; k < sizeof TIMES / sizeof *TIMES; k++) {
            const char *want = TOTP[i].passwords[k];
            uint64_t found = 0, step = TIMES[k] / 30;
            for (size_t digits = YZ_OTP_MIN_DIGITS; digits <= YZ_OTP_MAX_DIGITS; digits++) {
                const char *last = want + 8 - digits;
                memset(got, UNWRITTEN, sizeof got);
                is_password(yz_totp(TOTP[i].algorithm, text(SECRET), TOTP[i].key_len, TIMES[k], 30,
                                    got, digits), got, last, digits);
                memset(got, UNWRITTEN, sizeof got);
                is_password(yz_hotp(TOTP[i].algorithm, text(SECRET), TOTP[i].key_len, step, got,
                                    digits), got, last, digits);
                is_found(yz_totp_find(TOTP[i].algorithm, text(SECRET), TOTP[i].key_len, TIMES[k],
                                      30, 0, 0, digits, last, digits, &found), &found, step);
            }
        }
}

/* The steps of a window: those before and behind are in it, and the next ones are not. */
static void windows_of_time(void) {
    static const struct {
        uint64_t time;
        uint32_t back, ahead;
        bool is_in;
    } CASES[] = {
        {1111111109, 0, 0, true}, {1111111139, 1, 0, true}, {1111111139, 0, 9, false},
        {1111111169, 2, 0, true}, {1111111169, 1, 9, false}, {1111111079, 0, 1, true},
        {1111111079, 9, 0, false}, {1111111049, 0, 2, true}, {1111111049, 9, 1, false},
    };
    for (size_t i = 0; i < sizeof CASES / sizeof *CASES; i++) {
        uint64_t found = 9;
        yz_status status = yz_totp_find(YZ_SHA1, text(SECRET), 20, CASES[i].time, 30, CASES[i].back,
                                        CASES[i].ahead, 8, "07081804", 8, &found);
        IS(status, CASES[i].is_in ? YZ_OK : YZ_UNSPECIFIED);
        IS(found == (CASES[i].is_in ? 37037036 : 9), true);
    }
    uint64_t found = 9;
    IS(yz_totp_find(YZ_SHA1, text(SECRET), 20, 1111111109, 30, 1, 1, 8, "7081804", 7, &found),
       YZ_UNSPECIFIED);
    IS(found, 9);
}

/* The ends of what 64 bits hold. */
static void last_counters(void) {
    char last[6];
    uint64_t found = 9;
    IS(yz_hotp(YZ_SHA1, text(SECRET), 20, UINT64_MAX, last, 6), YZ_OK);
    is_found(yz_hotp_find(YZ_SHA1, text(SECRET), 20, UINT64_MAX - 2, UINT64_MAX, 6, last, 6,
                          &found), &found, UINT64_MAX);
    IS(yz_totp(YZ_SHA1, text(SECRET), 20, UINT64_MAX, 1, last, 6), YZ_OK);
    is_found(yz_totp_find(YZ_SHA1, text(SECRET), 20, UINT64_MAX, 1, 2, UINT32_MAX, 6, last, 6,
                          &found), &found, UINT64_MAX);
    found = 9;
    IS(yz_hotp_find(YZ_SHA1, text(SECRET), 20, UINT64_MAX - 2, UINT64_MAX, 6, "abcdef", 6, &found),
       YZ_UNSPECIFIED);
    IS(yz_totp_find(YZ_SHA1, text(SECRET), 20, 0, 30, UINT32_MAX, 1, 6, "abcdef", 6, &found),
       YZ_UNSPECIFIED);
    IS(found, 9);
}

/* One call, of both kinds: a password that is written, and a search for one. */
static void refused_calls(uint32_t algorithm, size_t key_len, uint32_t step, size_t digits,
                          yz_status want, yz_status want_of_time) {
    char got[YZ_OTP_MAX_DIGITS + 1];
    uint64_t found = 9;
    memset(got, UNWRITTEN, sizeof got);
    if (want != YZ_OK) {
        IS(yz_hotp(algorithm, text(SECRET), key_len, 0, got, digits), want);
        IS(yz_hotp_find(algorithm, text(SECRET), key_len, 0, 3, digits, "755224", 6, &found), want);
    }
    IS(yz_totp(algorithm, text(SECRET), key_len, 59, step, got, digits), want_of_time);
    IS(yz_totp_find(algorithm, text(SECRET), key_len, 59, step, 1, 1, digits, "755224", 6, &found),
       want_of_time);
    IS(found, 9);
    IS_UNWRITTEN(got, sizeof got);
}

static void refused_passwords(void) {
    const size_t past = (size_t)1 << 61;
    static const uint32_t UNKNOWN[] = {0, YZ_SHA512_256, ALGORITHMS_COUNT + 1, UINT32_MAX};
    static const size_t NONE[] = {0, 1, 5, 9, 10, 11, SIZE_MAX};
    for (size_t i = 0; i < sizeof UNKNOWN / sizeof *UNKNOWN; i++)
        for (size_t digits = 5; digits < 10; digits++)
            refused_calls(UNKNOWN[i], past, 0, digits, YZ_UNKNOWN_ALGORITHM, YZ_UNKNOWN_ALGORITHM);
    for (size_t i = 0; i < sizeof NONE / sizeof *NONE; i++)
        for (uint32_t step = 0; step < 2; step++)
            refused_calls(YZ_SHA1, step ? 20 : past, step, NONE[i], YZ_WRONG_LENGTH,
                          YZ_WRONG_LENGTH);
    refused_calls(YZ_SHA1, past, 30, 6, YZ_UNSPECIFIED, YZ_UNSPECIFIED);
    refused_calls(YZ_SHA1, past, 0, 6, YZ_UNSPECIFIED, YZ_UNSPECIFIED);
    refused_calls(YZ_SHA1, 20, 0, 6, YZ_OK, YZ_UNSPECIFIED);
}

/* Under an empty key nothing is written, though these are its passwords of the counter 1 (from
 * Python's hmac). A key of one byte is taken. */
static void empty_keys(void) {
    static const char *const RIGHT[] = {"812658", "007993", "497587", "772963"};
    char got[6];
    uint64_t found = 9;
    memset(got, UNWRITTEN, sizeof got);
    for (uint32_t i = 0; i < 4; i++)
        for (int is_null = 0; is_null < 2; is_null++) {
            const uint8_t *empty = is_null ? NULL : text(SECRET);
            IS(yz_hotp(YZ_SHA1 + i, empty, 0, 1, got, 6), YZ_UNSPECIFIED);
            IS(yz_totp(YZ_SHA1 + i, empty, 0, 59, 30, got, 6), YZ_UNSPECIFIED);
            IS(yz_hotp_find(YZ_SHA1 + i, empty, 0, 0, 3, 6, RIGHT[i], 6, &found), YZ_UNSPECIFIED);
            IS(yz_totp_find(YZ_SHA1 + i, empty, 0, 59, 30, 1, 1, 6, RIGHT[i], 6, &found),
               YZ_UNSPECIFIED);
        }
    IS_UNWRITTEN(got, sizeof got);
    IS(found, 9);
    IS(yz_hotp(YZ_SHA1, text(SECRET), 1, 1, got, 6), YZ_OK);
}

/* Any bytes have an answer. */
static void garbage(void) {
    uint8_t bytes[MOST_TOKEN];
    for (int turn = 0; turn < GARBAGE_TURNS; turn++) {
        uint64_t found = 9;
        size_t len = below(sizeof bytes + 1);
        fill_at_random(bytes, sizeof bytes);
        is_refused(YZ_SHA256, sizeof key, (const char *)bytes, len, len, YZ_UNSPECIFIED);
        IS(yz_hotp_find(YZ_SHA256, key, below(sizeof key), (uint64_t)turn, 2, 8,
                        (const char *)bytes, len, &found), YZ_UNSPECIFIED);
        IS(found, 9);
    }
}

int main(void) {
    for (size_t i = 0; i < sizeof key; i++) key[i] = (uint8_t)i;
    known_tokens(), unsigned_payloads(), all_lengths();
    known_passwords(), windows_of_time(), last_counters(), refused_passwords(), empty_keys();
    garbage();
    return end_of_checks();
}
