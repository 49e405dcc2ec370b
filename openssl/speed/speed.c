/* SPDX-License-Identifier: ISC */
/* The time of work through OpenSSL's EVP calls by this provider and by the default one. Both take
 * turns, and of each the least processor time counts. For digests of 64 bytes it also measures the
 * library's call alone, without EVP and the provider. speed MODULES */
#include <openssl/evp.h>
#include <openssl/kdf.h>
#include <openssl/params.h>
#include <openssl/provider.h>
#include <stdio.h>
#include <stdlib.h>
#include <time.h>
#include <yezdopin.h>

#define SIDES 2
#define TURNS 400
#define MOST_MESSAGE 65536

typedef struct {
    EVP_MD *md;
    EVP_MAC *mac;
    EVP_MAC_CTX *keyed;
    EVP_KDF *hkdf;
    EVP_KDF *pbkdf2;
} fetched;

static unsigned char message[MOST_MESSAGE], out[64];
static OSSL_PARAM by_digest[2];
static uint32_t algorithm;

static int digest(const fetched *from, size_t len)
{
    return EVP_Digest(message, len, out, NULL, from->md, NULL);
}

static int tag(const fetched *from, size_t len)
{
    size_t out_len;
    EVP_MAC_CTX *it = EVP_MAC_CTX_new(from->mac);
    int is_done = EVP_MAC_init(it, message, 32, by_digest) && EVP_MAC_update(it, message, len)
                  && EVP_MAC_final(it, out, &out_len, sizeof out);
    EVP_MAC_CTX_free(it);
    return is_done;
}

static int tag_again(const fetched *from, size_t len)
{
    size_t out_len;
    return EVP_MAC_init(from->keyed, NULL, 0, NULL) && EVP_MAC_update(from->keyed, message, len)
           && EVP_MAC_final(from->keyed, out, &out_len, sizeof out);
}

static int derive(EVP_KDF *kdf, size_t len, uint64_t iterations)
{
    const OSSL_PARAM params[] = {by_digest[0],
                                 OSSL_PARAM_construct_octet_string("key", message, 32),
                                 OSSL_PARAM_construct_octet_string("pass", message, 32),
                                 OSSL_PARAM_construct_octet_string("salt", message, 16),
                                 OSSL_PARAM_construct_octet_string("info", message, 10),
                                 OSSL_PARAM_construct_uint64("iter", &iterations),
                                 OSSL_PARAM_construct_end()};
    EVP_KDF_CTX *it = EVP_KDF_CTX_new(kdf);
    int is_done = EVP_KDF_derive(it, out, len, params);
    EVP_KDF_CTX_free(it);
    return is_done;
}

static int hkdf(const fetched *from, size_t len)
{
    return derive(from->hkdf, len, 1);
}

static int pbkdf2(const fetched *from, size_t iterations)
{
    return derive(from->pbkdf2, 20, iterations);
}

static int library_alone(const fetched *from, size_t len)
{
    (void)from;
    return yz_digest(algorithm, message, len, out, yz_output_len(algorithm)) == YZ_OK;
}

static const struct {
    const char *name;
    int (*run)(const fetched *from, size_t size);
    size_t size;
    int repeats;
} works[] = {
    {"digest of 64 bytes", digest, 64, 60},   {"the same, library alone", library_alone, 64, 60},
    {"digest of 1 KiB", digest, 1024, 20},    {"digest of 64 KiB", digest, 65536, 1},
    {"tag of 64 bytes, new key", tag, 64, 20}, {"tag of 64 bytes, same key", tag_again, 64, 40},
    {"HKDF, 42 bytes", hkdf, 42, 10},         {"PBKDF2, 1,000 iterations", pbkdf2, 1000, 1},
};

static double now(void)
{
    struct timespec time;
    clock_gettime(CLOCK_THREAD_CPUTIME_ID, &time);
    return (double)time.tv_sec * 1e9 + (double)time.tv_nsec;
}

static void measure(size_t work, const fetched *from)
{
    double least[SIDES] = {1e18, 1e18};
    for (int turn = 0; turn < TURNS; turn++) {
        for (int side = 0; side < SIDES; side++) {
            double start = now(), time;
            for (int i = 0; i < works[work].repeats; i++) {
                if (!works[work].run(&from[side], works[work].size)) exit(1);
            }
            time = (now() - start) / works[work].repeats;
            if (time < least[side]) least[side] = time;
        }
    }
    if (works[work].run == library_alone) {
        printf("| %-26s | %9.0f ns | | |\n", works[work].name, least[0]);
        return;
    }
    printf("| %-26s | %9.0f ns | %9.0f ns | %.2f |\n", works[work].name, least[0], least[1],
           least[0] / least[1]);
}

static void fetch(fetched *to, const char *name, const char *properties)
{
    to->md = EVP_MD_fetch(NULL, name, properties);
    to->mac = EVP_MAC_fetch(NULL, "HMAC", properties);
    to->hkdf = EVP_KDF_fetch(NULL, "HKDF", properties);
    to->pbkdf2 = EVP_KDF_fetch(NULL, "PBKDF2", properties);
    to->keyed = EVP_MAC_CTX_new(to->mac);
    if (!EVP_MAC_init(to->keyed, message, 32, by_digest)) exit(1);
}

static void release(fetched *it)
{
    EVP_MD_free(it->md);
    EVP_MAC_CTX_free(it->keyed);
    EVP_MAC_free(it->mac);
    EVP_KDF_free(it->hkdf);
    EVP_KDF_free(it->pbkdf2);
}

int main(int argc, char **argv)
{
    static const char *const names[] = {"SHA1", "SHA256", "SHA512"};
    static const uint32_t algorithms[] = {YZ_SHA1, YZ_SHA256, YZ_SHA512};
    if (argc != 2) return 2;
    OSSL_PROVIDER_set_default_search_path(NULL, argv[1]);
    if (OSSL_PROVIDER_load(NULL, "default") == NULL) return 2;
    if (OSSL_PROVIDER_load(NULL, "yezdopin") == NULL) return 2;
    for (int i = 0; i < 3; i++) {
        fetched from[SIDES];
        algorithm = algorithms[i];
        by_digest[0] = OSSL_PARAM_construct_utf8_string("digest", (char *)names[i], 0);
        by_digest[1] = OSSL_PARAM_construct_end();
        fetch(&from[0], names[i], "provider=yezdopin");
        fetch(&from[1], names[i], "provider=default");
        printf("| %s | this provider | OpenSSL's | ratio |\n", names[i]);
        for (size_t work = 0; work < sizeof works / sizeof works[0]; work++) measure(work, from);
        release(&from[0]);
        release(&from[1]);
    }
    return 0;
}
