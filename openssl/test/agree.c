/* SPDX-License-Identifier: ISC */
/* Compares the provider with OpenSSL's default one over random calls. agree MODULES CASES THREADS
 *
 * The last line tells how many answers were compared, how many of them refuse, and how many
 * differ. */
#include "agree.h"
#include <openssl/err.h>
#include <openssl/provider.h>
#include <pthread.h>
#include <stdatomic.h>
#include <stdio.h>
#include <stdlib.h>
#include <string.h>

#define MOST_THREADS 64
#define MOST_REPORTS 40
#define SEEDS_OF_A_THREAD 1000000007u

OSSL_LIB_CTX *both;
const char *const sides[SIDES] = {"provider=yezdopin", "provider=default"};
const char *const names[NUM_NAMES] = {
    "SHA1",   "sha256", "SHA2-384", "SHA512",   "SHA-512/256", "2.16.840.1.101.3.4.2.1",
    "SHA224", "MD5",    "SHA3-256", "SHAKE128", "NOSUCH",      "",
};

static atomic_ulong answers, refusals, differences;
static unsigned long cases_of_a_thread;

/* SplitMix64. */
size_t below(random_numbers *numbers, size_t limit)
{
    uint64_t mixed = numbers->state += 0x9e3779b97f4a7c15u;
    mixed = (mixed ^ (mixed >> 30)) * 0xbf58476d1ce4e5b9u;
    mixed = (mixed ^ (mixed >> 27)) * 0x94d049bb133111ebu;
    return (size_t)((mixed ^ (mixed >> 31)) % limit);
}

void fill(random_numbers *numbers, unsigned char *bytes, size_t len)
{
    for (size_t i = 0; i < len; i++) bytes[i] = (unsigned char)below(numbers, 256);
}

/* Compares what both calls returned and, where both are done and `out` isn't NULL, the bytes that
 * both wrote. */
void compare(const char *call, uint64_t seed, const int *returned, const outputs *out,
             const size_t *lens)
{
    int is_done = returned[0] > 0, agree = is_done == (returned[1] > 0);
    if (agree && is_done && out != NULL) {
        agree = lens[0] == lens[1] && memcmp((*out)[0], (*out)[1], lens[0]) == 0;
    }
    atomic_fetch_add(&answers, 1);
    atomic_fetch_add(&refusals, !is_done);
    if (!agree && atomic_fetch_add(&differences, 1) < MOST_REPORTS) {
        fprintf(stderr, "DIFFERENCE in %s, seed %llu: %d and %d\n", call,
                (unsigned long long)seed, returned[0], returned[1]);
    }
    ERR_clear_error();
}

static void *run_thread(void *first_seed)
{
    uint64_t first = *(const uint64_t *)first_seed;
    for (unsigned long i = 0; i < cases_of_a_thread; i++) {
        compare_digests(first + i);
        compare_tags(first + i);
        compare_derivations(first + i, "HKDF");
        compare_derivations(first + i, "PBKDF2");
    }
    return NULL;
}

static int run_threads(unsigned long count)
{
    pthread_t threads[MOST_THREADS];
    uint64_t seeds[MOST_THREADS];
    for (unsigned long i = 0; i < count; i++) {
        seeds[i] = SEEDS_OF_A_THREAD * i;
        if (pthread_create(&threads[i], NULL, run_thread, &seeds[i]) != 0) return 0;
    }
    for (unsigned long i = 0; i < count; i++) pthread_join(threads[i], NULL);
    return 1;
}

int main(int argc, char **argv)
{
    OSSL_PROVIDER *theirs, *ours;
    unsigned long threads = argc == 4 ? strtoul(argv[3], NULL, 10) : 0;
    if (threads == 0 || threads > MOST_THREADS) return 2;
    cases_of_a_thread = strtoul(argv[2], NULL, 10);
    both = OSSL_LIB_CTX_new();
    OSSL_PROVIDER_set_default_search_path(both, argv[1]);
    theirs = OSSL_PROVIDER_load(both, "default");
    ours = OSSL_PROVIDER_load(both, "yezdopin");
    if (theirs == NULL || ours == NULL || !run_threads(threads)) {
        ERR_print_errors_fp(stderr);
        return 2;
    }
    OSSL_PROVIDER_unload(ours);
    OSSL_PROVIDER_unload(theirs);
    OSSL_LIB_CTX_free(both);
    printf("%lu threads: %lu answers, %lu of them refusals, %lu differences\n", threads,
           (unsigned long)answers, (unsigned long)refusals, (unsigned long)differences);
    return answers == 0 || differences != 0;
}
