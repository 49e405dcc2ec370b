/* SPDX-License-Identifier: ISC */
/* What a refused call leaves. Each is made on contexts of both providers, with its wrong parameter
 * alone and beside right ones. What the context answers later is compared with its answer without
 * that call, and with the default provider's later answer where that keeps all too.
 * refused_calls MODULES */
#include "single.h"

#define SIDES 2
#define MOST_PARAMS 8
#define MOST_CALLS 3
#define MOST_ROWS 20

enum { NOTHING, SET, BEGIN, BEGIN_BY_KEY, UPDATE, END, SIZE, DERIVE };

/* A call of a context. `out_len` is of what it derives. */
typedef struct {
    int what;
    size_t out_len;
    OSSL_PARAM params[MOST_PARAMS]; /* up to the first without a key */
} call;

/* What calls answer: a bit for each that is done, and the bytes of the last. */
typedef struct {
    unsigned done;
    size_t len;
    unsigned char bytes[64];
} answer;

/* An algorithm: how its contexts begin, the parameters that a call is refused for, right ones that
 * are given beside, by which calls, calls that are refused for another reason, and the later
 * calls. */
typedef struct {
    const char *name;
    call starts[MOST_ROWS][MOST_CALLS];
    OSSL_PARAM wrong[MOST_ROWS][2];
    OSSL_PARAM right[MOST_PARAMS];
    call by[MOST_CALLS];
    call late[MOST_ROWS];
    call later[MOST_ROWS][MOST_CALLS];
} algorithm;

static OSSL_LIB_CTX *both;
static const char *const sides[SIDES] = {OURS, THEIRS};
static unsigned long refused, kept_by_both;

static char salt[] = "0123456789abcdef", other_salt[] = "fedcba9876543210";
static int negative = -1, no = 0, yes = 1, mode_seven = 7, extract = 1;
static uint64_t zero = 0, one = 1, thousand = 1000, more = 1001;
static size_t record = 100;

#define WORD(name, value) OSSL_PARAM_utf8_string(name, value, sizeof value - 1)
#define BYTES(name, value) OSSL_PARAM_octet_string(name, value, sizeof value - 1)
#define NO_BYTES(name) OSSL_PARAM_octet_string(name, NULL, 0)
#define INT(name, value) OSSL_PARAM_int(name, &value)
#define UINT64(name, value) OSSL_PARAM_uint64(name, &value)
#define PLAIN(what, out_len) {what, out_len, {OSSL_PARAM_END}}
#define WRONG_DIGESTS                                                              \
    {WORD("digest", "NOSUCH")}, {WORD("digest", "")}, {BYTES("digest", "SHA512")}, \
    {BYTES("properties", "provider=default")},                                     \
    {WORD("digest", "SHA512"), WORD("properties", "provider=nosuch")},             \
    {WORD("digest", "SHA512"), INT("properties", one)}

static const algorithm algorithms[] = {
    {
        "HMAC",
        {
            {PLAIN(NOTHING, 0)},
            {{SET, 0, {WORD("digest", "SHA256")}}},
            {{BEGIN_BY_KEY, 0, {WORD("digest", "SHA256")}}, PLAIN(UPDATE, 0)},
            {{BEGIN_BY_KEY, 0, {WORD("digest", "MD5")}}, PLAIN(UPDATE, 0)},
        },
        {
            WRONG_DIGESTS, {WORD("key", "a word")}, {NO_BYTES("key")},
            {WORD("tls-data-size", "100")}, {INT("tls-data-size", negative)},
        },
        {
            WORD("digest", "SHA512"), BYTES("key", "another key"),
            OSSL_PARAM_size_t("tls-data-size", &record),
        },
        {PLAIN(SET, 0), PLAIN(BEGIN, 0), PLAIN(BEGIN_BY_KEY, 0)},
        {
            PLAIN(BEGIN_BY_KEY, 0), {BEGIN, 0, {WORD("digest", "SHA1")}},
            {SET, 0, {BYTES("key", "another key")}},
            {BEGIN, 0, {OSSL_PARAM_size_t("tls-data-size", &record)}},
        },
        {
            {PLAIN(UPDATE, 0), PLAIN(END, 0)}, {PLAIN(BEGIN, 0), PLAIN(UPDATE, 0), PLAIN(END, 0)},
            {PLAIN(BEGIN_BY_KEY, 0), PLAIN(UPDATE, 0), PLAIN(END, 0)}, {PLAIN(SIZE, 0)},
        },
    },
    {
        "HKDF",
        {
            {PLAIN(NOTHING, 0)},
            {{SET, 0, {WORD("digest", "SHA256"), BYTES("key", "a key"), BYTES("salt", "some salt"),
                       BYTES("info", "in"), BYTES("info", "fo")}}},
            {{SET, 0, {WORD("digest", "SHA3-256"), BYTES("key", "a key"),
                       WORD("mode", "EXTRACT_ONLY")}}},
        },
        {
            WRONG_DIGESTS, {WORD("mode", "EXTRACT")}, {INT("mode", mode_seven)},
            {BYTES("mode", "EXPAND_ONLY")}, {WORD("key", "a word")}, {NO_BYTES("key")},
            {WORD("salt", "a word")}, {WORD("info", "a word")},
            {BYTES("info", "bytes"), WORD("info", "a word")},
        },
        {
            WORD("digest", "SHA512"), INT("mode", extract), BYTES("key", "another key"),
            BYTES("salt", "other salt"), BYTES("info", "other"),
        },
        {PLAIN(SET, 0), PLAIN(DERIVE, 32)},
        {
            {DERIVE, 0, {WORD("digest", "SHA512"), BYTES("key", "another key")}},
            {DERIVE, 65, {WORD("digest", "SHA512"), BYTES("key", "another key"),
                          INT("mode", extract)}},
            {DERIVE, 32, {WORD("digest", "SHA512"), BYTES("salt", "other salt")}},
            {DERIVE, 32, {BYTES("key", "another key"), BYTES("info", "other")}},
        },
        {
            {PLAIN(DERIVE, 28)}, {{DERIVE, 32, {WORD("mode", "EXTRACT_ONLY")}}},
            {{DERIVE, 32, {WORD("mode", "EXPAND_ONLY")}}}, {{DERIVE, 32, {BYTES("key", "third")}}},
            {{DERIVE, 32, {WORD("digest", "SHA1"), WORD("mode", "EXTRACT_AND_EXPAND")}}},
            {PLAIN(SIZE, 0)},
        },
    },
    {
        "PBKDF2",
        {
            {PLAIN(NOTHING, 0)},
            {{SET, 0, {WORD("digest", "SHA256"), BYTES("pass", "password"), BYTES("salt", salt),
                       UINT64("iter", thousand)}}},
            {{SET, 0, {WORD("digest", "SHA3-256"), BYTES("pass", "password"), BYTES("salt", salt),
                       UINT64("iter", thousand), INT("pkcs5", no)}}},
        },
        {
            WRONG_DIGESTS, {WORD("pass", "a word")}, {WORD("salt", "a word")},
            {UINT64("iter", zero)}, {UINT64("iter", one)}, {WORD("iter", "1")},
            {INT("iter", negative)}, {BYTES("salt", "short")}, {WORD("pkcs5", "1")},
            {INT("pkcs5", no), UINT64("iter", one)},
        },
        {
            WORD("digest", "SHA512"), BYTES("pass", "another"), BYTES("salt", other_salt),
            UINT64("iter", more), INT("pkcs5", no),
        },
        {PLAIN(SET, 0), PLAIN(DERIVE, 20)},
        {
            {DERIVE, 10, {WORD("digest", "SHA512"), BYTES("pass", "another"), UINT64("iter", more),
                          INT("pkcs5", no)}},
            {DERIVE, 20, {WORD("digest", "SHA512"), BYTES("salt", other_salt)}},
            {DERIVE, 20, {BYTES("pass", "another"), UINT64("iter", more)}},
        },
        {
            {PLAIN(DERIVE, 20)}, {{DERIVE, 20, {INT("pkcs5", yes)}}},
            {{DERIVE, 20, {INT("pkcs5", no)}}}, {PLAIN(DERIVE, 10)},
            {{DERIVE, 20, {BYTES("pass", "a"), BYTES("salt", salt)}}}, {PLAIN(SIZE, 0)},
        },
    },
};
#define NUM_ALGORITHMS (sizeof algorithms / sizeof algorithms[0])

static int call_tag(EVP_MAC_CTX *it, const call *made, answer *to)
{
    switch (made->what) {
    case SET: return EVP_MAC_CTX_set_params(it, made->params);
    case BEGIN: return EVP_MAC_init(it, NULL, 0, made->params);
    case BEGIN_BY_KEY: return EVP_MAC_init(it, (const unsigned char *)"key", 3, made->params);
    case UPDATE: return EVP_MAC_update(it, (const unsigned char *)"message", 7);
    case END: return EVP_MAC_final(it, to->bytes, &to->len, sizeof to->bytes);
    default:
        /* OpenSSL's knows the size of a tag only behind the key. */
        to->bytes[0] = (unsigned char)EVP_MAC_CTX_get_block_size(it);
        to->len = 1;
        return 1;
    }
}

static int call_derivation(EVP_KDF_CTX *it, const call *made, answer *to)
{
    size_t size;
    switch (made->what) {
    case SET: return EVP_KDF_CTX_set_params(it, made->params);
    case DERIVE:
        to->len = made->out_len;
        return EVP_KDF_derive(it, to->bytes, to->len, made->params);
    default:
        size = EVP_KDF_CTX_get_kdf_size(it);
        memcpy(to->bytes, &size, sizeof size);
        to->len = sizeof size;
        return 1;
    }
}

/* Makes calls of a context, one of both kinds, up to the first that is nothing. */
static answer make_calls(EVP_MAC_CTX *tag, EVP_KDF_CTX *derivation, const call *calls, int count)
{
    answer made = {0, 0, {0}};
    for (int i = 0; i < count && calls[i].what != NOTHING; i++) {
        int is_done = tag != NULL ? call_tag(tag, &calls[i], &made)
                                  : call_derivation(derivation, &calls[i], &made);
        made.done |= (unsigned)(is_done > 0) << i;
        if (is_done <= 0) made.len = 0;
    }
    ERR_clear_error();
    return made;
}

/* The later answer of a context of one side, with a call before or without, and whether that was
 * done. */
static answer answer_of(const algorithm *of, int side, const call *start, const call *between,
                        const call *later, int *is_done)
{
    int is_tag = strcmp(of->name, "HMAC") == 0;
    EVP_MAC_CTX *tag = is_tag ? new_hmac(both, sides[side]) : NULL;
    EVP_KDF_CTX *derivation = is_tag ? NULL : new_kdf_of(both, of->name, sides[side]);
    answer last;
    make_calls(tag, derivation, start, MOST_CALLS);
    if (between != NULL) *is_done = make_calls(tag, derivation, between, 1).done != 0;
    last = make_calls(tag, derivation, later, MOST_CALLS);
    EVP_MAC_CTX_free(tag);
    EVP_KDF_CTX_free(derivation);
    return last;
}

static int same(const answer *a, const answer *b)
{
    return a->done == b->done && a->len == b->len && memcmp(a->bytes, b->bytes, a->len) == 0;
}

/* Compares the later answers of both sides, without a call and with it; whether ours refuses that.
 * It refuses what the default provider refuses, and a few parameters more. */
static int compare(const algorithm *of, const call *start, const call *between, const call *later)
{
    answer without[SIDES], with[SIDES];
    int is_done[SIDES];
    for (int side = 0; side < SIDES; side++) {
        without[side] = answer_of(of, side, start, NULL, later, NULL);
        with[side] = answer_of(of, side, start, between, later, &is_done[side]);
    }
    CHECK(same(&without[0], &without[1]));
    if (is_done[0]) {
        CHECK(is_done[1]);
        return 0;
    }
    refused++;
    CHECK(same(&with[0], &without[0]));
    if (same(&with[1], &without[1])) {
        kept_by_both++;
        CHECK(same(&with[0], &with[1]));
    }
    return 1;
}

/* One call on contexts with each beginning; whether it was refused on any. */
static int refuse_it(const algorithm *of, const call *between)
{
    int is_refused = 0, failed_before = failures;
    for (int start = 0; start < MOST_ROWS; start++) {
        if (start > 0 && of->starts[start][0].what == NOTHING) break;
        for (int later = 0; of->later[later][0].what != NOTHING; later++) {
            is_refused |= compare(of, of->starts[start], between, of->later[later]);
            if (failures == failed_before) continue;
            printf("  %s, start %d, then call %d with %s, then %d\n", of->name, start,
                   between->what, between->params[0].key == NULL ? "no parameters"
                                                                 : between->params[0].key, later);
            failed_before = failures;
        }
    }
    return is_refused;
}

/* Adds parameters to those of a call, but for those that have a name of `but`. */
static void add(call *to, const OSSL_PARAM *params, const OSSL_PARAM *but)
{
    OSSL_PARAM *next = to->params;
    while (next->key != NULL) next++;
    for (; params->key != NULL; params++) {
        if (but == NULL || (strcmp(params->key, but[0].key) != 0
                            && (but[1].key == NULL || strcmp(params->key, but[1].key) != 0))) {
            *next++ = *params;
        }
    }
}

/* Each wrong parameter by each call, alone and beside right ones, and the calls that are refused
 * for another reason. */
static void refuse_all(const algorithm *of)
{
    for (int i = 0; of->wrong[i][0].key != NULL; i++) {
        OSSL_PARAM wrong[3] = {of->wrong[i][0], of->wrong[i][1], OSSL_PARAM_END};
        for (int by = 0; by < MOST_CALLS && of->by[by].what != NOTHING; by++) {
            call alone = of->by[by], beside = of->by[by];
            add(&alone, wrong, NULL);
            add(&beside, wrong, NULL);
            add(&beside, of->right, wrong);
            CHECK(refuse_it(of, &alone));
            CHECK(refuse_it(of, &beside));
        }
    }
    for (int i = 0; of->late[i].what != NOTHING; i++) CHECK(refuse_it(of, &of->late[i]));
}

/* A digest has no parameters that can be set. */
static void digests(void)
{
    const OSSL_PARAM params[] = {OSSL_PARAM_size_t("xoflen", &record), OSSL_PARAM_END};
    unsigned char out[SIDES][32];
    EVP_MD *ours = EVP_MD_fetch(both, "SHA256", OURS);
    EVP_MD_CTX *it = EVP_MD_CTX_new();
    CHECK(EVP_DigestInit_ex2(it, ours, NULL) == 1 && EVP_DigestUpdate(it, "message", 7) == 1);
    CHECK(EVP_MD_CTX_set_params(it, params) == 0);
    CHECK(EVP_DigestFinal_ex(it, out[0], NULL) == 1);
    CHECK(EVP_Q_digest(both, "SHA256", THEIRS, "message", 7, out[1], NULL) == 1);
    CHECK(memcmp(out[0], out[1], 32) == 0);
    EVP_MD_CTX_free(it);
    EVP_MD_free(ours);
}

int main(int argc, char **argv)
{
    OSSL_PROVIDER *loaded[2];
    if (argc != 2) return 2;
    both = with_both(argv[1], loaded);
    for (size_t i = 0; i < NUM_ALGORITHMS; i++) refuse_all(&algorithms[i]);
    digests();
    without_both(both, loaded);
    printf("%lu later answers after a refused call, which %lu times the default provider keeps: "
           "%d failures\n", refused, kept_by_both, failures);
    return failures != 0 || refused == 0 || kept_by_both == 0;
}
