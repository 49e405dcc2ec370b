/* SPDX-License-Identifier: ISC */
/* One context of a digest for message after message, by the provider's own calls: OpenSSL 3.0 makes
 * a context anew for each message, and later ones begin again in the same. Messages are short and
 * long, ended and not, and copies go on. The digests are the C library's. reuse MODULES */
#include "../../c/rows.h"
#include "single.h"
#include "yezdopin.h"
#include <openssl/core_dispatch.h>

#define MOST_LEN 400

#define DIGEST(NAME, title, name, names) {names, YZ_##NAME},
static const struct {
    const char *names;
    uint32_t algorithm;
} DIGESTS[] = {EACH_ALGORITHM(DIGEST)};
enum { NUM_DIGESTS = sizeof DIGESTS / sizeof *DIGESTS };

/* Around the length up to which a message is kept, and around blocks. */
static const size_t LENGTHS[] = {0, 1, 63, 64, 65, 127, 128, 129, 255, 256, MOST_LEN};
enum { NUM_LENGTHS = sizeof LENGTHS / sizeof *LENGTHS };

static unsigned char message[MOST_LEN];

typedef struct {
    OSSL_FUNC_digest_newctx_fn *make;
    OSSL_FUNC_digest_freectx_fn *end;
    OSSL_FUNC_digest_dupctx_fn *copy;
    OSSL_FUNC_digest_init_fn *init;
    OSSL_FUNC_digest_update_fn *update;
    OSSL_FUNC_digest_final_fn *final;
} calls;

static calls calls_of(const OSSL_DISPATCH *it)
{
    calls found = {0};
    for (; it->function_id != 0; it++) {
        switch (it->function_id) {
        case OSSL_FUNC_DIGEST_NEWCTX: found.make = OSSL_FUNC_digest_newctx(it); break;
        case OSSL_FUNC_DIGEST_FREECTX: found.end = OSSL_FUNC_digest_freectx(it); break;
        case OSSL_FUNC_DIGEST_DUPCTX: found.copy = OSSL_FUNC_digest_dupctx(it); break;
        case OSSL_FUNC_DIGEST_INIT: found.init = OSSL_FUNC_digest_init(it); break;
        case OSSL_FUNC_DIGEST_UPDATE: found.update = OSSL_FUNC_digest_update(it); break;
        case OSSL_FUNC_DIGEST_FINAL: found.final = OSSL_FUNC_digest_final(it); break;
        default: break;
        }
    }
    return found;
}

/* Whether a context ends with the digest of so many bytes of the message. */
static void ends_with(const calls *of, void *context, uint32_t algorithm, size_t len)
{
    unsigned char made[YZ_MAX_OUTPUT_LEN], wanted[YZ_MAX_OUTPUT_LEN];
    size_t made_len = 0, output_len = yz_output_len(algorithm);
    CHECK(yz_digest(algorithm, message, len, wanted, output_len) == YZ_OK);
    CHECK(of->final(context, made, &made_len, sizeof made) == 1);
    CHECK(made_len == output_len && memcmp(made, wanted, output_len) == 0);
}

/* A message of one length behind one of another, which was ended or not, in pieces or at once. */
static void one_behind_another(const calls *of, void *provider_context, uint32_t algorithm,
                               size_t first, size_t second)
{
    static const OSSL_PARAM none[] = {OSSL_PARAM_END};
    for (int turn = 0; turn < 8; turn++) {
        const int is_ended = turn & 1, is_in_pieces = turn & 2, is_copied = turn & 4;
        size_t piece = is_in_pieces ? second / 2 : 0;
        void *context = of->make(provider_context);
        CHECK(of->init(context, none) == 1 && of->update(context, message, first) == 1);
        if (is_ended) ends_with(of, context, algorithm, first);
        CHECK(of->init(context, none) == 1);
        CHECK(of->update(context, message, piece) == 1);
        CHECK(of->update(context, message + piece, second - piece) == 1);
        if (is_copied) {
            void *copy = of->copy(context);
            CHECK(of->init(context, none) == 1 && of->update(context, message, first) == 1);
            ends_with(of, copy, algorithm, second);
            of->end(copy);
            ends_with(of, context, algorithm, first);
        } else {
            ends_with(of, context, algorithm, second);
        }
        of->end(context);
    }
}

int main(int argc, char **argv)
{
    OSSL_LIB_CTX *library = OSSL_LIB_CTX_new();
    int no_store, tried = 0;
    if (argc != 2) return 2;
    for (size_t i = 0; i < MOST_LEN; i++) message[i] = (unsigned char)(i * 7 + i / 64);
    OSSL_PROVIDER_set_default_search_path(library, argv[1]);
    OSSL_PROVIDER *ours = OSSL_PROVIDER_load(library, "yezdopin");
    if (ours == NULL) return 2;
    void *context = OSSL_PROVIDER_get0_provider_ctx(ours);
    const OSSL_ALGORITHM *it = OSSL_PROVIDER_query_operation(ours, OSSL_OP_DIGEST, &no_store);
    for (; it != NULL && it->algorithm_names != NULL; it++) {
        for (size_t n = 0; n < NUM_DIGESTS; n++) {
            if (strcmp(it->algorithm_names, DIGESTS[n].names) != 0) continue;
            const calls of = calls_of(it->implementation);
            tried++;
            for (size_t i = 0; i < NUM_LENGTHS; i++)
                for (size_t j = 0; j < NUM_LENGTHS; j++)
                    one_behind_another(&of, context, DIGESTS[n].algorithm, LENGTHS[i], LENGTHS[j]);
        }
    }
    CHECK(tried == NUM_DIGESTS);
    CHECK(OSSL_PROVIDER_unload(ours));
    OSSL_LIB_CTX_free(library);
    printf("one context for message after message: %d failures\n", failures);
    return failures != 0;
}
