/* SPDX-License-Identifier: ISC */
/* Password hashes: each status of their calls, hashes that other systems wrote, new ones with the
 * texts that those would write, and new salts. */
#include "check.h"
#include <string.h>
#ifdef _WIN32
#define alarm(seconds) ((void)(seconds)) /* Windows has none */
#else
#include <unistd.h>
#endif

static const char PASSWORD[] = "correct horse battery staple";

static yz_status verify_hash(const char *hash, const char *password, uint32_t most) {
    return yz_password_hash_verify(hash, strlen(hash), text(password), strlen(password), most);
}

/* Hashes of Django 3.2.25, Werkzeug 2.2.2 and passlib 1.7.4, of the form of RustCrypto's, and of
 * Mosquitto's, as ../vectors/password_hashes has them; those of Werkzeug's SHA-1 and of PostgreSQL
 * are put together of what Python's hashlib and hmac give. */
static const struct {
    uint32_t scheme, iterations;
    const char *text;
} HASHES[] = {
    {YZ_DJANGO_SHA256, 1000,
     "pbkdf2_sha256$1000$kXq0Wz3vT9bYh2LrE8mNpA$6jlqr5CFEJ6yV5h1RjyoxC5WzlE3x9jGX4aMqvJOfqk="},
    {YZ_DJANGO_SHA1, 1000,
     "pbkdf2_sha1$1000$kXq0Wz3vT9bYh2LrE8mNpA$2U/l/68EaoUIrkh0GedCmjQYvmg="},
    {YZ_WERKZEUG_SHA256, 1000,
     "pbkdf2:sha256:1000$kXq0Wz3vT9bYh2LrE8mNpA$"
     "ea396aaf9085109eb2579875463ca8c42e56ce5137c7d8c65f868caaf24e7ea9"},
    {YZ_WERKZEUG_SHA512, 1000,
     "pbkdf2:sha512:1000$kXq0Wz3vT9bYh2LrE8mNpA$"
     "8bc0bb5e5c69fc6e546be3770e4011754f928f59b83699b54b2de3c2ca140816"
     "419757b79f141a4f9788e89ada0c29f885b6de2e0d44ab6c24f45d15dacebeb9"},
    {YZ_PHC_SHA256, 1000,
     "$pbkdf2-sha256$i=1000,l=32$AAECAwQFBgcICQoLDA0ODw$"
     "ppsXnjrdPB4KryJ6DrOqKqhkWrhv7PbKAMF1Eml8cZ4"},
    {YZ_PHC_SHA256, 1000, "$pbkdf2-sha256$l=10,i=1000$AAECAwQFBgcICQoLDA0ODw$ppsXnjrdPB4Krw"},
    {YZ_PHC_SHA512, 1000,
     "$pbkdf2-sha512$i=1000$AAECAwQFBgcICQoLDA0ODw$"
     "A6AmFIti7CKlYdoPiV9jf1d9llp37o27Wms8Zx8fwMI"},
    {YZ_MOSQUITTO, 101,
     "$7$101$AAECAwQFBgcICQoL$cJ75j/0MokIxIQCU/t1k7JBGVfwD3W1st+OyLYF0EzgR"
     "LNjRyexylNuHrNThmUCWBWt20yys3R1zS31q5smg/w=="},
    {YZ_PASSLIB_SHA1, 1000, "$pbkdf2$1000$./..AAECAwQFBgcICQoLDA$x9mOzc2oaa91b.MGCYdeGLTzuIU"},
    {YZ_PASSLIB_SHA256, 1000,
     "$pbkdf2-sha256$1000$./..AAECAwQFBgcICQoLDA$6.45owsAIR6Zdtpa2ERA2n2GU7xlI61CT5Fo1Q4KE8w"},
    {YZ_PASSLIB_SHA512, 1000,
     "$pbkdf2-sha512$1000$./..AAECAwQFBgcICQoLDA$JpldqPFByVduRMobu1DJCqFJmg9odUa3GZLsuEPw1VwF"
     "yjPQyO3woJ4vUXw4Zcv9Us0DO8UATXLh9qrLPl/oxQ"},
    {YZ_POSTGRESQL, 1000,
     "SCRAM-SHA-256$1000:AAECAwQFBgcICQoLDA0ODw==$7xyJ1HnA2mtSyupYnfwfyMN/J3bBFnm1azxiuCq93cA=:"
     "2gGHDOt/fKGk7q0t853S5/tlrW2XzQkPg60ChUqH8m4="},
    {YZ_WERKZEUG_SHA1, 1000,
     "pbkdf2:sha1:1000$kXq0Wz3vT9bYh2LrE8mNpA$d94fe5ffaf046a8508ae487419e7429a3418be68"},
};
#define HASHES_COUNT (sizeof HASHES / sizeof *HASHES)

/* Each is tested under the least limit. */
static void password_hashes(void) {
    for (size_t i = 0; i < HASHES_COUNT; i++) {
        const char *hash = HASHES[i].text;
        IS(verify_hash(hash, PASSWORD, HASHES[i].iterations), YZ_OK);
        IS(verify_hash(hash, PASSWORD, UINT32_MAX), YZ_OK);
        IS(verify_hash(hash, PASSWORD, HASHES[i].iterations - 1), YZ_TOO_MANY_ITERATIONS);
        IS(verify_hash(hash, "correct horse battery stapler", UINT32_MAX), YZ_UNSPECIFIED);
        IS(verify_hash(hash, "", UINT32_MAX), YZ_UNSPECIFIED);
        size_t len = strlen(hash), password_len = strlen(PASSWORD);
        for (size_t cut = 0; cut < len; cut++)
            IS(yz_password_hash_verify(hash, cut, text(PASSWORD), password_len, 1000) == YZ_OK, 0);
    }
}

/* What a text tells, and what stays where there is nothing to tell. */
static void told_of_password_hashes(void) {
    static char longer[YZ_MAX_PASSWORD_HASH_LEN + 1];
    for (size_t i = 0; i < HASHES_COUNT; i++) {
        const char *hash = HASHES[i].text;
        uint32_t scheme = 99, iterations = 98;
        IS(yz_password_hash_info(hash, strlen(hash) - 1, &scheme, &iterations), YZ_BAD_FORMAT);
        IS(scheme, 99);
        IS(iterations, 98);
        IS(yz_password_hash_info(hash, strlen(hash), &scheme, &iterations), YZ_OK);
        IS(scheme, HASHES[i].scheme);
        IS(iterations, HASHES[i].iterations);
    }
    uint32_t scheme = 99, iterations = 98;
    IS(yz_password_hash_info(NULL, 0, &scheme, &iterations), YZ_BAD_FORMAT);
    IS(yz_password_hash_info(longer, sizeof longer - 1, &scheme, &iterations), YZ_BAD_FORMAT);
    IS(yz_password_hash_info(longer, sizeof longer, &scheme, &iterations), YZ_WRONG_LENGTH);
    IS(scheme, 99);
    IS(iterations, 98);
}

/* The most iterations that a text can name would take a quarter of an hour and more. Above the
 * limit none is made: else the alarm ends this program. */
static void iterations_above_the_limit(void) {
    for (size_t i = 0; i < HASHES_COUNT; i++) {
        char hash[300], count[11];
        uint32_t scheme, iterations;
        snprintf(count, sizeof count, "%u", (unsigned)HASHES[i].iterations);
        const char *at = strstr(HASHES[i].text, count);
        snprintf(hash, sizeof hash, "%.*s4294967295%s", (int)(at - HASHES[i].text), HASHES[i].text,
                 at + strlen(count));
        alarm(20);
        IS(verify_hash(hash, PASSWORD, 1), YZ_TOO_MANY_ITERATIONS);
        IS(verify_hash(hash, PASSWORD, UINT32_MAX - 1), YZ_TOO_MANY_ITERATIONS);
        IS(yz_password_hash_info(hash, strlen(hash), &scheme, &iterations), YZ_OK);
        IS(iterations, UINT32_MAX);
        alarm(0);
    }
}

/* What no hash has as its text, and what is longer than a text may be. */
static void no_password_hashes(void) {
    static const char *const NONE[] = {
        "",
        "$pbkdf2-sha256$i=1000,l=9$AAECAwQFBgcICQoLDA0ODw$ppsXnjrdPB4K",
        "$pbkdf2-sha256$i=01000,l=32$AAECAwQFBgcICQoLDA0ODw$"
        "ppsXnjrdPB4KryJ6DrOqKqhkWrhv7PbKAMF1Eml8cZ4",
        "pbkdf2:sha256:1000$kXq0Wz3vT9bYh2LrE8mNpA$"
        "EA396aaf9085109eb2579875463ca8c42e56ce5137c7d8c65f868caaf24e7ea9",
        "pbkdf2_sha256$0$kXq0Wz3vT9bYh2LrE8mNpA$6jlqr5CFEJ6yV5h1RjyoxC5WzlE3x9jGX4aMqvJOfqk=",
    };
    for (size_t i = 0; i < sizeof NONE / sizeof *NONE; i++)
        IS(verify_hash(NONE[i], PASSWORD, UINT32_MAX), YZ_BAD_FORMAT);
    IS(yz_password_hash_verify(NULL, 0, NULL, 0, 1), YZ_BAD_FORMAT);
    static char longest[YZ_MAX_PASSWORD_HASH_LEN + 1];
    memset(longest, 'a', sizeof longest);
    IS(yz_password_hash_verify(longest, sizeof longest - 1, NULL, 0, 1), YZ_BAD_FORMAT);
    IS(yz_password_hash_verify(longest, sizeof longest, NULL, 0, 1), YZ_WRONG_LENGTH);
    memcpy(longest, "pbkdf2_sha1$4294967295$", 23);
    memcpy(longest + sizeof longest - 30, "$2U/l/68EaoUIrkh0GedCmjQYvmg=", 29);
    IS(yz_password_hash_verify(longest, sizeof longest - 1, NULL, 0, 1), YZ_TOO_MANY_ITERATIONS);
    IS(yz_password_hash_verify(longest, sizeof longest, NULL, 0, 1), YZ_WRONG_LENGTH);
}

/* Bytes whose base64 has both a plus sign and a slash. */
#define BYTES_SALT "\373\377\277\000\001\002\003\004\005\006\007\010\011\012\013\014"
#define ZEROS "\0\0\0\0\0\0\0\0\0\0\0\0\0\0\0\0"
#define ONES "\377\377\377\377\377\377\377\377\377\377\377\377\377\377\377\377"

/* New hashes by the schemes' own salts. The texts are put together of what Python's
 * hashlib.pbkdf2_hmac derives. */
static const struct {
    uint32_t scheme, iterations;
    const char *salt;
    size_t salt_len;
    const char *text;
} NEW_HASHES[] = {
    {YZ_DJANGO_SHA256, 1000, "kXq0Wz3vT9bYh2LrE8mNpA", 22,
     "pbkdf2_sha256$1000$kXq0Wz3vT9bYh2LrE8mNpA$6jlqr5CFEJ6yV5h1RjyoxC5WzlE3x9jGX4"
     "aMqvJOfqk="},
    {YZ_DJANGO_SHA1, 999, "kXq0Wz3vT9bYh2LrE8mNpA", 22,
     "pbkdf2_sha1$999$kXq0Wz3vT9bYh2LrE8mNpA$cOCPovmNoCOJDb8KJ+NC4V3gM9U="},
    {YZ_WERKZEUG_SHA256, 1, "kXq0Wz3vT9bYh2LrE8mNpA", 22,
     "pbkdf2:sha256:1$kXq0Wz3vT9bYh2LrE8mNpA$31bdb18960de7d81347a1dcf26d6ce92c9c2c"
     "1f69214444d81b42036a7209cde"},
    {YZ_WERKZEUG_SHA512, 1000, "kXq0Wz3vT9bYh2LrE8mNpA", 22,
     "pbkdf2:sha512:1000$kXq0Wz3vT9bYh2LrE8mNpA$8bc0bb5e5c69fc6e546be3770e4011754f"
     "928f59b83699b54b2de3c2ca140816419757b79f141a4f9788e89ada0c29f885b6de2e0d44ab"
     "6c24f45d15dacebeb9"},
    {YZ_PHC_SHA256, 1000, BYTES_SALT, 16,
     "$pbkdf2-sha256$i=1000,l=32$+/+/AAECAwQFBgcICQoLDA$jXXlTIwt0FnpqfYJWmUEbb/kA/"
     "U99Zbi8XcLCfCwY2Y"},
    {YZ_PHC_SHA512, 12345, BYTES_SALT, 16,
     "$pbkdf2-sha512$i=12345,l=32$+/+/AAECAwQFBgcICQoLDA$/ABx22tSzgs2oZhR9svR9Tpka"
     "Faf+AJoo6fn3jYVaeg"},
    {YZ_MOSQUITTO, 101, BYTES_SALT, 12,
     "$7$101$+/+/AAECAwQFBgcI$7oZRGZVj3TFKdX3QuUXiiSnVea89W9osnItp85TvbmkcqvoHLnrx"
     "b/MzyjFDPq3VVJFXBvXxNg+Ulhf8mqCGFA=="},
    {YZ_PASSLIB_SHA1, 1000, BYTES_SALT, 16,
     "$pbkdf2$1000$././AAECAwQFBgcICQoLDA$wwrvgpyKdmxiCg81IqEB5eeVUi4"},
    {YZ_PASSLIB_SHA256, 1000, BYTES_SALT, 16,
     "$pbkdf2-sha256$1000$././AAECAwQFBgcICQoLDA$jXXlTIwt0FnpqfYJWmUEbb/kA/U99Zbi8"
     "XcLCfCwY2Y"},
    {YZ_PASSLIB_SHA512, 1000, BYTES_SALT, 16,
     "$pbkdf2-sha512$1000$././AAECAwQFBgcICQoLDA$nyIE9QXKQzTDNqlO/lL3M7LSU6RcIRsRe"
     "wNRQlXk8dF7WNgQ5ofqTiLdIEDoa.MynGtZ.yI5qMSMLnwD0OAKgQ"},
    {YZ_POSTGRESQL, 4096, BYTES_SALT, 16,
     "SCRAM-SHA-256$4096:+/+/AAECAwQFBgcICQoLDA==$m9wIX47BvzJTZZbC7RmZP9FJxTtnmuLQGmKh9ke7GbY=:"
     "6qoFDM5TMj5+Emx822mV/vRg5I98amZMvjt75bsDFHc="},
    {YZ_WERKZEUG_SHA1, 12, "kXq0Wz3vT9bYh2LrE8mNpA", 22,
     "pbkdf2:sha1:12$kXq0Wz3vT9bYh2LrE8mNpA$9e61354f7ec92a807dd9a8d9642be2289c521a75"},
};

static void new_password_hashes(void) {
    char out[YZ_MAX_PASSWORD_HASH_LEN];
    size_t password_len = strlen(PASSWORD);
    for (size_t i = 0; i < sizeof NEW_HASHES / sizeof *NEW_HASHES; i++) {
        const uint8_t *salt = text(NEW_HASHES[i].salt);
        size_t salt_len = NEW_HASHES[i].salt_len, want = strlen(NEW_HASHES[i].text), len = 0;
        for (size_t room = want - 1; room <= want + 1; room++) {
            memset(out, 7, sizeof out);
            len = 9;
            yz_status status = yz_password_hash_new(NEW_HASHES[i].scheme, NEW_HASHES[i].iterations,
                                                    salt, salt_len, text(PASSWORD), password_len,
                                                    out, room, &len);
            IS(status, room < want ? YZ_WRONG_LENGTH : YZ_OK);
            IS(len == (room < want ? 9 : want), 1);
            if (room >= want) IS(memcmp(out, NEW_HASHES[i].text, want), 0);
            for (size_t k = room < want ? 0 : want; k < sizeof out; k++) IS(out[k], 7);
        }
        IS(yz_password_hash_verify(out, len, text(PASSWORD), password_len,
                                   NEW_HASHES[i].iterations), YZ_OK);
    }
}

static yz_status new_hash(uint32_t scheme, uint32_t iterations, size_t salt_len, size_t room) {
    static char out[YZ_MAX_PASSWORD_HASH_LEN + 1];
    static uint8_t salt[YZ_MAX_PASSWORD_HASH_LEN];
    size_t len = 0;
    memset(salt, 'a', sizeof salt);
    return yz_password_hash_new(scheme, iterations, salt, salt_len, text(PASSWORD),
                                strlen(PASSWORD), out, room, &len);
}

#define FIRST_SCHEME YZ_DJANGO_SHA256
#define LAST_SCHEME YZ_WERKZEUG_SHA1

/* Whether a text of the scheme has the salt as it is. */
static bool writes_salt(uint32_t scheme) {
    return scheme <= YZ_WERKZEUG_SHA512 || scheme == YZ_WERKZEUG_SHA1;
}

/* Each status, in the order of the causes. */
static void refused_new_hashes(void) {
    static const uint8_t dollar[] = "a$b";
    char out[200];
    size_t len = 0;
    IS(new_hash(0, 0, 0, 0), YZ_UNKNOWN_ALGORITHM);
    IS(new_hash(LAST_SCHEME + 1, 0, 0, 0), YZ_UNKNOWN_ALGORITHM);
    IS(new_hash(YZ_MOSQUITTO, 0, 0, 0), YZ_NO_ITERATIONS);
    IS(new_hash(YZ_MOSQUITTO, 1, 0, 0), YZ_WRONG_LENGTH);
    IS(new_hash(YZ_MOSQUITTO, 1, 0, 200), YZ_BAD_SALT);
    /* "pbkdf2_sha256$1$", the salt, "$" and 44 bytes: 1024 and one more. */
    IS(new_hash(YZ_DJANGO_SHA256, 1, 963, YZ_MAX_PASSWORD_HASH_LEN + 1), YZ_OK);
    IS(new_hash(YZ_DJANGO_SHA256, 1, 964, YZ_MAX_PASSWORD_HASH_LEN + 1), YZ_WRONG_LENGTH);
    for (uint32_t scheme = FIRST_SCHEME; scheme <= LAST_SCHEME; scheme++)
        IS(yz_password_hash_new(scheme, 1, dollar, 3, NULL, 0, out, sizeof out, &len),
           writes_salt(scheme) ? YZ_BAD_SALT : YZ_OK);
}

/* The salts of bytes, beside what Python's divmod makes of them as one number: of zeros, of ones,
 * and of the bytes of the other salts. */
static void new_salts(void) {
    static const struct {
        const char *random, *letters;
    } SALTS[] = {
        {ZEROS, "aaaaaaaaaaaaaaaaaaaaaa"},
        {ONES, "hMRph3WiXjUVPDfwqnceXh"},
        {BYTES_SALT, "aYyAke1uIytVd6uNm56FPh"},
    };
    for (size_t i = 0; i < sizeof SALTS / sizeof *SALTS; i++)
        for (uint32_t scheme = FIRST_SCHEME; scheme <= LAST_SCHEME; scheme++) {
            const uint8_t *random = text(SALTS[i].random);
            const char *want = writes_salt(scheme) ? SALTS[i].letters : SALTS[i].random;
            size_t want_len = writes_salt(scheme) ? YZ_MAX_SALT_LEN : YZ_SALT_RANDOM_LEN;
            for (size_t room = want_len - 1; room <= want_len + 1; room++) {
                uint8_t salt[YZ_MAX_SALT_LEN + 1];
                size_t len = 9;
                memset(salt, 7, sizeof salt);
                yz_status status = yz_password_hash_salt(scheme, random, YZ_SALT_RANDOM_LEN, salt,
                                                         room, &len);
                IS(status, room < want_len ? YZ_WRONG_LENGTH : YZ_OK);
                IS(len, room < want_len ? 9 : want_len);
                if (room >= want_len) IS(memcmp(salt, want, want_len), 0);
                for (size_t k = status ? 0 : want_len; k < sizeof salt; k++) IS(salt[k], 7);
            }
        }
}

static void refused_new_salts(void) {
    uint8_t random[YZ_SALT_RANDOM_LEN + 1] = {0}, salt[YZ_MAX_SALT_LEN];
    size_t len = 9;
    IS(yz_password_hash_salt(0, random, 0, salt, 0, &len), YZ_UNKNOWN_ALGORITHM);
    IS(yz_password_hash_salt(LAST_SCHEME + 1, random, 16, salt, 22, &len), YZ_UNKNOWN_ALGORITHM);
    IS(yz_password_hash_salt(YZ_DJANGO_SHA1, random, 15, salt, 21, &len), YZ_WRONG_LENGTH);
    IS(yz_password_hash_salt(YZ_DJANGO_SHA1, random, 15, salt, 22, &len), YZ_UNSPECIFIED);
    IS(yz_password_hash_salt(YZ_MOSQUITTO, random, 17, salt, 22, &len), YZ_UNSPECIFIED);
    IS(yz_password_hash_salt(YZ_MOSQUITTO, NULL, 0, salt, 16, &len), YZ_UNSPECIFIED);
    IS(len, 9);
}

int main(void) {
    password_hashes(), no_password_hashes(), told_of_password_hashes();
    iterations_above_the_limit();
    new_password_hashes(), refused_new_hashes(), new_salts(), refused_new_salts();
    return end_of_checks();
}
