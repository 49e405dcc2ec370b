/* SPDX-License-Identifier: ISC */
/* Where the word of a parameter ends: at its 0, and no later than the parameter's size says, unless
 * that is 0. words MODULES */
#include "single.h"
#include <stdlib.h>

#define SIDES 2
#define WORD(name, value) OSSL_PARAM_utf8_string(name, value, sizeof value - 1)

static OSSL_LIB_CTX *both;
static const char *const sides[SIDES] = {OURS, THEIRS};

/* A word in memory of its own, which has nothing behind the last letter. */
static OSSL_PARAM endless(const char *name, const char *letters)
{
    size_t len = strlen(letters);
    char *copy = malloc(len);
    CHECK(copy != NULL);
    memcpy(copy, letters, len);
    return OSSL_PARAM_construct_utf8_string(name, copy, len);
}

/* A word whose parameter has another size than its own. */
static OSSL_PARAM sized(const char *name, char *letters, size_t size)
{
    OSSL_PARAM made = OSSL_PARAM_utf8_string(name, letters, size);
    return made;
}

/* Compares derived bytes under words with those of the default provider under `usual` ones. */
static void derive_same(const char *kdf, const OSSL_PARAM *words, const OSSL_PARAM *usual, int line)
{
    const OSSL_PARAM *params[SIDES] = {words, usual};
    const OSSL_PARAM rest[] = {octets("key", "a key", 5), octets("pass", "pass", 4),
                               octets("salt", "salt", 4), octets("info", "info", 4),
                               OSSL_PARAM_END};
    unsigned char out[SIDES][20];
    for (int side = 0; side < SIDES; side++) {
        EVP_KDF_CTX *it = new_kdf_of(both, kdf, sides[side]);
        if (!EVP_KDF_CTX_set_params(it, rest) || !EVP_KDF_derive(it, out[side], 20, params[side])) {
            printf("%s of line %d is refused by %s\n", kdf, line, sides[side]);
            failures++;
        }
        EVP_KDF_CTX_free(it);
    }
    CHECK(memcmp(out[0], out[1], 20) == 0);
}

/* Compares tags likewise. */
static void sign_same(const OSSL_PARAM *words, const OSSL_PARAM *usual)
{
    const OSSL_PARAM *params[SIDES] = {words, usual};
    unsigned char out[SIDES][64];
    size_t lens[SIDES];
    for (int side = 0; side < SIDES; side++) {
        EVP_MAC_CTX *it = new_hmac(both, sides[side]);
        CHECK(EVP_MAC_init(it, (const unsigned char *)"key", 3, params[side]) == 1);
        CHECK(EVP_MAC_final(it, out[side], &lens[side], sizeof out[side]) == 1);
        EVP_MAC_CTX_free(it);
    }
    CHECK(lens[0] == lens[1] && memcmp(out[0], out[1], lens[0]) == 0);
}

/* Words whose parameters have a size that reaches past the 0, one that ends before it, or 0. */
static void words(void)
{
    static char with_more[] = "SHA512\0 and more", mode_and_more[] = "EXPAND_ONLY and more";
    static char sha512[] = "SHA512", expand[] = "expand_only", of_default[] = "provider=default";
    const OSSL_PARAM usual[] = {WORD("digest", "SHA512"), WORD("mode", "EXPAND_ONLY"),
                                OSSL_PARAM_END};
    const OSSL_PARAM ended[] = {sized("digest", with_more, sizeof with_more),
                                sized("mode", mode_and_more, sizeof "EXPAND_ONLY" - 1),
                                sized("properties", with_more + 6, 1), OSSL_PARAM_END};
    const OSSL_PARAM unsized[] = {sized("digest", sha512, 0), sized("mode", expand, 0),
                                  OSSL_PARAM_END};
    const OSSL_PARAM by_default[] = {sized("digest", sha512, 0),
                                     sized("properties", of_default, 0), sized("mode", expand, 0),
                                     OSSL_PARAM_END};
    const OSSL_PARAM *all[] = {ended, unsized, by_default};
    for (size_t i = 0; i < sizeof all / sizeof all[0]; i++) {
        derive_same("HKDF", all[i], usual, __LINE__);
        derive_same("PBKDF2", all[i], usual, __LINE__);
        sign_same(all[i], usual);
    }
}

/* Words that end where their memory does: a read behind it is seen under ASan and valgrind. */
static void endless_words(void)
{
    const OSSL_PARAM usual[] = {WORD("digest", "SHA512"), WORD("mode", "EXTRACT_AND_EXPAND"),
                                OSSL_PARAM_END};
    OSSL_PARAM given[] = {endless("digest", "SHA512"), endless("mode", "EXTRACT_AND_EXPAND"),
                          endless("properties", "provider=default"), OSSL_PARAM_END};
    OSSL_PARAM wrong[] = {endless("mode", "EXTRACT"), OSSL_PARAM_END};
    EVP_KDF_CTX *it = new_kdf(both, "HKDF");
    derive_same("HKDF", given, usual, __LINE__);
    derive_same("PBKDF2", given, usual, __LINE__);
    sign_same(given, usual);
    CHECK(EVP_KDF_CTX_set_params(it, wrong) == 0);
    EVP_KDF_CTX_free(it);
    for (int i = 0; i < 3; i++) free(given[i].data);
    free(wrong[0].data);
}

int main(int argc, char **argv)
{
    OSSL_PROVIDER *loaded[2];
    if (argc != 2) return 2;
    both = with_both(argv[1], loaded);
    words();
    endless_words();
    without_both(both, loaded);
    printf("words by their sizes and by their ends: %d failures\n", failures);
    return failures != 0;
}
