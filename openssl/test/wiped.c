/* SPDX-License-Identifier: ISC */
/* Searches for keys, for what is made of them, and for messages: in each piece of memory that is
 * freed, and at the end in all writable memory but the stack. The test keeps its secrets masked, so
 * that it doesn't find itself. wiped MODULES */
#include <malloc.h>
#include <openssl/crypto.h>
#include <openssl/evp.h>
#include <openssl/kdf.h>
#include <openssl/params.h>
#include <openssl/provider.h>
#include <stdbool.h>
#include <stdio.h>
#include <stdlib.h>
#include <string.h>
#include "yezdopin.h"

#define OURS "provider=yezdopin"
#define MASK 0xa5a5a5a5a5a5a5a5u
#define SECRET_LEN 48
#define MOST_WORDS 64
#define LONG_LEN 200

/* The secrets in words of 8 bytes, masked. */
static uint64_t masked[MOST_WORDS];
static size_t num_masked;
static unsigned long found_in_freed;

static void look_for(const void *secret, size_t len)
{
    for (size_t at = 0; at + 8 <= len && num_masked < MOST_WORDS; at += 8) {
        memcpy(&masked[num_masked], (const unsigned char *)secret + at, 8);
        masked[num_masked++] ^= MASK;
    }
}

/* How many places of memory have one of the words, at any address. */
__attribute__((no_sanitize("address"))) static unsigned long found_in(const unsigned char *memory,
                                                                     size_t len)
{
    unsigned long found = 0;
    for (size_t at = 0; at + 8 <= len; at++) {
        uint64_t word;
        memcpy(&word, memory + at, 8);
        word ^= MASK;
        for (size_t i = 0; i < num_masked; i++) found += word == masked[i];
    }
    return found;
}

static unsigned long found_in_memory(void)
{
    FILE *maps = fopen("/proc/self/maps", "r");
    char line[512], rights[8];
    unsigned long from, to, found = 0;
    if (maps == NULL) return 0;
    while (fgets(line, sizeof line, maps) != NULL) {
        if (sscanf(line, "%lx-%lx %7s", &from, &to, rights) == 3 && strncmp(rights, "rw", 2) == 0
            && strstr(line, "[stack]") == NULL) {
            found += found_in((const unsigned char *)from, to - from);
        }
    }
    fclose(maps);
    return found;
}

static uint64_t state = 20261124;

/* SplitMix64. */
static void fill(unsigned char *bytes, size_t len)
{
    for (size_t i = 0; i < len; i++) {
        uint64_t mixed = state += 0x9e3779b97f4a7c15u;
        mixed = (mixed ^ (mixed >> 30)) * 0xbf58476d1ce4e5b9u;
        mixed = (mixed ^ (mixed >> 27)) * 0x94d049bb133111ebu;
        bytes[i] = (unsigned char)(mixed >> 56);
    }
}

static void *give(size_t len, const char *file, int line)
{
    (void)file, (void)line;
    return malloc(len);
}

static void *give_again(void *memory, size_t len, const char *file, int line)
{
    (void)file, (void)line;
    if (memory != NULL) found_in_freed += found_in(memory, malloc_usable_size(memory));
    return realloc(memory, len);
}

static void take_back(void *memory, const char *file, int line)
{
    (void)file, (void)line;
    if (memory != NULL) found_in_freed += found_in(memory, malloc_usable_size(memory));
    free(memory);
}

/* What a scenario works with: the secret in clear, which the caller wipes, and a digest. */
typedef struct {
    const unsigned char *secret;
    OSSL_PARAM *digest;
    unsigned long found_while_held;
} scene_of_secrets;

static void hold(scene_of_secrets *scene)
{
    scene->found_while_held += found_in_memory();
}

/* A message behind `first_len` other bytes, in a context that is copied and not ended; and the same
 * in one that begins anew. */
static bool digest_behind(scene_of_secrets *scene, size_t first_len)
{
    static const unsigned char first[LONG_LEN];
    EVP_MD *md = EVP_MD_fetch(NULL, "SHA512", OURS);
    EVP_MD_CTX *it = EVP_MD_CTX_new(), *copy = EVP_MD_CTX_new();
    bool is_done = EVP_DigestInit_ex2(it, md, NULL) && EVP_DigestUpdate(it, first, first_len)
                   && EVP_DigestUpdate(it, scene->secret, SECRET_LEN)
                   && EVP_MD_CTX_copy_ex(copy, it);
    hold(scene);
    is_done = is_done && EVP_DigestInit_ex2(it, NULL, NULL) && EVP_DigestUpdate(it, first, 1);
    EVP_MD_CTX_free(it);
    EVP_MD_CTX_free(copy);
    EVP_MD_free(md);
    return is_done;
}

static bool short_digest(scene_of_secrets *scene)
{
    return digest_behind(scene, 3);
}

static bool long_digest(scene_of_secrets *scene)
{
    return digest_behind(scene, LONG_LEN);
}

/* A key that another replaces, a copy, a digest that changes, and a tag that is never asked for. */
static bool hmac(scene_of_secrets *scene)
{
    static const unsigned char text[] = "text";
    unsigned char out[EVP_MAX_MD_SIZE];
    size_t len;
    EVP_MAC *mac = EVP_MAC_fetch(NULL, "HMAC", OURS);
    EVP_MAC_CTX *it = EVP_MAC_CTX_new(mac), *copy;
    OSSL_PARAM sha1[] = {OSSL_PARAM_utf8_string("digest", (char *)"SHA1", 4), OSSL_PARAM_END};
    bool is_done = EVP_MAC_init(it, scene->secret, SECRET_LEN, scene->digest)
                   && EVP_MAC_update(it, text, 4);
    hold(scene);
    EVP_MAC_CTX_free(EVP_MAC_CTX_dup(it)); /* one that still has the key */
    copy = EVP_MAC_CTX_dup(it);
    is_done = is_done && EVP_MAC_final(it, out, &len, sizeof out)
                   && EVP_MAC_init(it, text, 4, NULL) && EVP_MAC_update(it, text, 4);
    EVP_MAC_CTX_free(it);
    is_done = is_done && EVP_MAC_CTX_set_params(copy, sha1) && EVP_MAC_update(copy, text, 4);
    EVP_MAC_CTX_free(copy);
    EVP_MAC_free(mac);
    return is_done;
}

/* Contexts that live on, after a digest and a KDF began anew and a tag got another key. */
static bool begun_anew(scene_of_secrets *scene)
{
    EVP_MD *md = EVP_MD_fetch(NULL, "SHA256", OURS);
    EVP_MAC *mac = EVP_MAC_fetch(NULL, "HMAC", OURS);
    EVP_KDF *kdf = EVP_KDF_fetch(NULL, "HKDF", OURS);
    EVP_MD_CTX *digest = EVP_MD_CTX_new();
    EVP_MAC_CTX *tag = EVP_MAC_CTX_new(mac);
    EVP_KDF_CTX *derivation = EVP_KDF_CTX_new(kdf);
    OSSL_PARAM key[] = {
        OSSL_PARAM_construct_octet_string("key", (unsigned char *)scene->secret, SECRET_LEN),
        OSSL_PARAM_construct_end()};
    bool is_done = EVP_DigestInit_ex2(digest, md, NULL)
                   && EVP_DigestUpdate(digest, scene->secret, SECRET_LEN)
                   && EVP_MAC_init(tag, scene->secret, SECRET_LEN, scene->digest)
                   && EVP_MAC_update(tag, scene->secret, SECRET_LEN)
                   && EVP_KDF_CTX_set_params(derivation, key);
    hold(scene);
    is_done = is_done && EVP_DigestInit_ex2(digest, NULL, NULL)
              && EVP_MAC_init(tag, (const unsigned char *)"another", 7, NULL);
    EVP_KDF_CTX_reset(derivation);
    is_done = is_done && found_in_memory() == 0;
    EVP_MD_CTX_free(digest);
    EVP_MAC_CTX_free(tag);
    EVP_KDF_CTX_free(derivation);
    EVP_MD_free(md);
    EVP_MAC_free(mac);
    EVP_KDF_free(kdf);
    return is_done;
}

/* What a call has read before it is refused. */
static bool refused(scene_of_secrets *scene)
{
    unsigned char *secret = OPENSSL_memdup(scene->secret, SECRET_LEN);
    EVP_MAC *mac = EVP_MAC_fetch(NULL, "HMAC", OURS);
    EVP_KDF *hkdf = EVP_KDF_fetch(NULL, "HKDF", OURS);
    EVP_KDF *pbkdf2 = EVP_KDF_fetch(NULL, "PBKDF2", OURS);
    EVP_MAC_CTX *tag = EVP_MAC_CTX_new(mac);
    EVP_KDF_CTX *by_hkdf = EVP_KDF_CTX_new(hkdf), *by_pbkdf2 = EVP_KDF_CTX_new(pbkdf2);
    OSSL_PARAM params[] = {scene->digest[0],
                           OSSL_PARAM_construct_octet_string("key", secret, SECRET_LEN),
                           OSSL_PARAM_construct_octet_string("pass", secret, SECRET_LEN),
                           OSSL_PARAM_construct_octet_string("info", secret, SECRET_LEN),
                           OSSL_PARAM_construct_utf8_string("info", (char *)"a word", 6),
                           OSSL_PARAM_construct_utf8_string("salt", (char *)"a word", 6),
                           OSSL_PARAM_construct_utf8_string("tls-data-size", (char *)"1", 1),
                           OSSL_PARAM_construct_end()};
    bool is_done = EVP_MAC_init(tag, (const unsigned char *)"key", 3, scene->digest);
    hold(scene);
    is_done = is_done && EVP_MAC_CTX_set_params(tag, params) == 0
              && EVP_MAC_init(tag, secret, SECRET_LEN, params) == 0
              && EVP_KDF_CTX_set_params(by_hkdf, params) == 0
              && EVP_KDF_CTX_set_params(by_pbkdf2, params) == 0;
    params[5] = params[4]; /* HKDF then reads its infos */
    is_done = is_done && EVP_KDF_CTX_set_params(by_hkdf, params) == 0;
    OPENSSL_clear_free(secret, SECRET_LEN);
    is_done = is_done && found_in_memory() == 0;
    EVP_MAC_CTX_free(tag);
    EVP_KDF_CTX_free(by_hkdf);
    EVP_KDF_CTX_free(by_pbkdf2);
    EVP_MAC_free(mac);
    EVP_KDF_free(hkdf);
    EVP_KDF_free(pbkdf2);
    return is_done;
}

static bool derive(scene_of_secrets *scene, const char *name, const char *mode)
{
    unsigned char out[64], *secret = (unsigned char *)scene->secret;
    OSSL_PARAM digest = scene->digest[0];
    OSSL_PARAM params[] = {
        digest,
        OSSL_PARAM_construct_octet_string("key", secret, SECRET_LEN),
        OSSL_PARAM_construct_octet_string("pass", secret, SECRET_LEN),
        OSSL_PARAM_construct_octet_string("salt", (char *)"some salt", 9),
        OSSL_PARAM_construct_octet_string("info", secret, SECRET_LEN),
        OSSL_PARAM_construct_octet_string("info", secret, SECRET_LEN),
        OSSL_PARAM_construct_utf8_string("mode", (char *)mode, 0),
        OSSL_PARAM_construct_end()};
    EVP_KDF *kdf = EVP_KDF_fetch(NULL, name, OURS);
    EVP_KDF_CTX *it = EVP_KDF_CTX_new(kdf), *copy;
    size_t len;
    bool is_done = EVP_KDF_CTX_set_params(it, params) > 0;
    hold(scene);
    copy = EVP_KDF_CTX_dup(it);
    len = EVP_KDF_CTX_get_kdf_size(it);
    is_done = is_done && EVP_KDF_derive(it, out, len > sizeof out ? 40 : len, NULL) > 0;
    is_done = is_done && EVP_KDF_CTX_set_params(it, params) > 0; /* the same again */
    EVP_KDF_CTX_reset(it);
    EVP_KDF_CTX_free(it);
    EVP_KDF_CTX_free(copy);
    EVP_KDF_free(kdf);
    OPENSSL_cleanse(out, sizeof out);
    return is_done;
}

static bool hkdf(scene_of_secrets *scene)
{
    return derive(scene, "HKDF", "EXTRACT_AND_EXPAND") && derive(scene, "HKDF", "EXTRACT_ONLY")
                   && derive(scene, "HKDF", "EXPAND_ONLY");
}

static bool pbkdf2(scene_of_secrets *scene)
{
    return derive(scene, "PBKDF2", "");
}

/* Shows that the searches find what isn't wiped. */
static bool leak(scene_of_secrets *scene)
{
    unsigned char *copy = OPENSSL_memdup(scene->secret, SECRET_LEN);
    hold(scene);
    OPENSSL_free(copy);
    return copy != NULL;
}

/* Draws a secret, takes its words and those of its key under a digest as what is looked for, runs a
 * scenario, and says whether it was found while it was held and no longer afterwards. */
static bool is_wiped(const char *name, bool (*run)(scene_of_secrets *), const char *digest_name)
{
    unsigned char secret[SECRET_LEN];
    OSSL_PARAM named[] = {OSSL_PARAM_construct_utf8_string("digest", (char *)digest_name, 0),
                          OSSL_PARAM_construct_end()};
    scene_of_secrets scene = {secret, named, 0};
    yz_hmac_key key;
    bool is_done;
    unsigned long left;
    fill(secret, SECRET_LEN);
    num_masked = 0;
    found_in_freed = 0;
    look_for(secret, SECRET_LEN);
    if (yz_hmac_key_init(YZ_SHA256, secret, SECRET_LEN, &key) != YZ_OK) return false;
    look_for(key.inner, 32);
    look_for(key.outer, 32);
    yz_clear(&key, sizeof key);
    is_done = run(&scene);
    yz_clear(secret, sizeof secret);
    left = found_in_memory();
    printf("%s under %s: found in %lu places while held, %lu when freed, %lu at the end\n", name,
           digest_name, scene.found_while_held, found_in_freed, left);
    return is_done && scene.found_while_held != 0 && found_in_freed == 0 && left == 0;
}

int main(int argc, char **argv)
{
    OSSL_PROVIDER *loaded[2];
    bool is_right;
    if (argc < 2 || !CRYPTO_set_mem_functions(give, give_again, take_back)) return 2;
    setvbuf(stdout, NULL, _IOLBF, 0);
    OSSL_PROVIDER_set_default_search_path(NULL, argv[1]);
    loaded[0] = OSSL_PROVIDER_load(NULL, "default");
    loaded[1] = OSSL_PROVIDER_load(NULL, "yezdopin");
    if (loaded[0] == NULL || loaded[1] == NULL) return 2;
    is_right = !is_wiped("a leak", leak, "SHA256") && found_in_freed != 0;
    is_right = is_wiped("a short digest", short_digest, "SHA256") && is_right;
    is_right = is_wiped("a long digest", long_digest, "SHA256") && is_right;
    is_right = is_wiped("contexts begun anew", begun_anew, "SHA256") && is_right;
    is_right = is_wiped("HMAC", hmac, "SHA256") && is_right;
    is_right = is_wiped("HMAC", hmac, "MD5") && is_right; /* handed on */
    is_right = is_wiped("calls that are refused", refused, "SHA256") && is_right;
    is_right = is_wiped("HKDF", hkdf, "SHA256") && is_right;
    is_right = is_wiped("HKDF", hkdf, "SHA3-256") && is_right;
    is_right = is_wiped("PBKDF2", pbkdf2, "SHA256") && is_right;
    is_right = is_wiped("PBKDF2", pbkdf2, "SHA3-256") && is_right;
    for (int i = 1; i >= 0; i--) OSSL_PROVIDER_unload(loaded[i]);
    return !is_right;
}
