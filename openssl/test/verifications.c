/* SPDX-License-Identifier: ISC */
/* The tags and derived keys of the table that tests/verifications writes. The provider makes them,
 * whole and in pieces, and whoever calls OpenSSL compares them.  verifications MODULES TABLE */
#include "../../c/test/table.h"
#include "single.h"
#include <openssl/crypto.h>

static OSSL_LIB_CTX *library;

/* What was made for the calls before this one, which differ from it in what is compared. */
static struct {
    char *of;
    unsigned char bytes[EVP_MAX_MD_SIZE];
    size_t len;
} kept;

static int is_made(const unsigned char *made, size_t made_len, piece wanted)
{
    return made_len == wanted.len && CRYPTO_memcmp(made, wanted.bytes, made_len) == 0;
}

/* The tag of a message in pieces of a length, by one context that is begun anew. */
static void tag_in_pieces(EVP_MAC_CTX *context, piece message, size_t piece_len)
{
    unsigned char made[EVP_MAX_MD_SIZE];
    size_t len = 0;
    CHECK(EVP_MAC_init(context, NULL, 0, NULL) == 1);
    for (size_t at = 0; at < message.len; at += piece_len) {
        const size_t left = message.len - at, next = left < piece_len ? left : piece_len;
        CHECK(EVP_MAC_update(context, message.bytes + at, next) == 1);
    }
    CHECK(EVP_MAC_final(context, made, &len, sizeof made) == 1);
    if (len != kept.len || memcmp(made, kept.bytes, len) != 0) fault = "two ways of one tag differ";
}

static void make_tag(char *name, piece key, piece message)
{
    EVP_MAC_CTX *context = new_hmac(library, OURS);
    const OSSL_PARAM params[] = {word(OSSL_MAC_PARAM_DIGEST, name), OSSL_PARAM_END};
    CHECK(EVP_MAC_init(context, key.bytes, key.len, params) == 1);
    CHECK(EVP_MAC_update(context, message.bytes, message.len) == 1);
    CHECK(EVP_MAC_final(context, kept.bytes, &kept.len, sizeof kept.bytes) == 1);
    tag_in_pieces(context, message, message.len / 3 + 1);
    tag_in_pieces(context, message, 127);
    EVP_MAC_CTX_free(context);
}

static int hmac_verify(char **words)
{
    piece tag = field(words[4]);
    char of[256];
    snprintf(of, sizeof of, "%s %s %s", words[1], words[2], words[3]);
    if (kept.of == NULL || strcmp(kept.of, of) != 0) {
        piece key = field(words[2]), message = field(words[3]);
        make_tag(words[1], key, message);
        free(kept.of), free(key.bytes), free(message.bytes);
        kept.of = held(strdup(of));
    }
    int answer = is_made(kept.bytes, kept.len, tag);
    free(tag.bytes);
    return answer;
}

/* OpenSSL derives no empty key. */
static int pbkdf2_verify(char **words)
{
    piece secret = field(words[3]), salt = field(words[4]), derived = field(words[5]);
    uint64_t iterations = number(words[2]);
    int is_checked = 0, answer = 0;
    unsigned char *made = held(malloc(derived.len + 1));
    EVP_KDF_CTX *context = new_kdf(library, "PBKDF2");
    const OSSL_PARAM params[] = {
        word(OSSL_KDF_PARAM_DIGEST, words[1]),
        octets(OSSL_KDF_PARAM_PASSWORD, secret.bytes, secret.len),
        octets(OSSL_KDF_PARAM_SALT, salt.bytes, salt.len),
        OSSL_PARAM_construct_uint64(OSSL_KDF_PARAM_ITER, &iterations),
        OSSL_PARAM_construct_int(OSSL_KDF_PARAM_PKCS5, &is_checked),
        OSSL_PARAM_END,
    };
    is_checked = 1; /* the parameter `pkcs5` leaves out the lower bounds */
    if (derived.len != 0) {
        CHECK(EVP_KDF_derive(context, made, derived.len, params) == 1);
        answer = is_made(made, derived.len, derived);
    }
    EVP_KDF_CTX_free(context);
    free(secret.bytes), free(salt.bytes), free(derived.bytes), free(made);
    return answer;
}

/* OpenSSL has no calls for the others. */
static enum answered answered(char **words, const char *wanted)
{
    int answer;
    if (strcmp(words[0], "hmac-verify") == 0) answer = hmac_verify(words);
    else if (strcmp(words[0], "pbkdf2-verify") == 0) answer = pbkdf2_verify(words);
    else return LEFT_OUT;
    return answer == (strcmp(wanted, "match") == 0) ? AGREES : DIFFERS;
}

int main(int argc, char **argv)
{
    if (argc != 3) return 2;
    library = OSSL_LIB_CTX_new();
    OSSL_PROVIDER_set_default_search_path(library, argv[1]);
    OSSL_PROVIDER *ours = OSSL_PROVIDER_load(library, "yezdopin");
    if (ours == NULL) return 2;
    int status = answer_all(argv[2], answered);
    CHECK(OSSL_PROVIDER_unload(ours));
    OSSL_LIB_CTX_free(library);
    return status != 0 || failures != 0;
}
