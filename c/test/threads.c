/* SPDX-License-Identifier: ISC */
/* Threads that share a key, while each has contexts, messages and a key of its own: each gets the
 * tags that one thread got before, and accepts no other. */
#include "../rows.h"
#include "check.h"
#include <pthread.h>
#include <string.h>

#define NUM_THREADS 4
#define MOST_LEN 3000
#define TURNS 2000

/* What a thread has by itself. */
typedef struct {
    const yz_hmac_key *shared;
    uint32_t algorithm;
    uint8_t message[MOST_LEN];
    uint8_t tag[YZ_MAX_OUTPUT_LEN];
    size_t message_len;
    int wrong;
} worker;

/* Whether the shared key gives the tag, whole and in pieces, and verifies it alone. */
static bool is_right(const worker *it) {
    yz_hmac_context context;
    yz_hmac_key own;
    uint8_t made[YZ_MAX_OUTPUT_LEN], other[YZ_MAX_OUTPUT_LEN];
    const size_t len = yz_output_len(it->algorithm), first = it->message_len / 2;
    if (yz_hmac_key_init(it->algorithm, it->message, 20, &own)
        || yz_hmac_key_sign(&own, it->message, it->message_len, other, len)
        || yz_hmac_key_sign(it->shared, it->message, it->message_len, made, len)
        || memcmp(made, it->tag, len) || yz_hmac_init(it->shared, &context)
        || yz_hmac_update(&context, it->message, first)
        || yz_hmac_update(&context, it->message + first, it->message_len - first)
        || yz_hmac_final(&context, made, len) || memcmp(made, it->tag, len)) return false;
    return yz_hmac_key_verify(it->shared, it->message, it->message_len, it->tag, len) == YZ_OK
           && yz_hmac_key_verify(&own, it->message, it->message_len, other, len) == YZ_OK
           && yz_hmac_key_verify(it->shared, it->message, it->message_len, other, len) != YZ_OK;
}

static void *work(void *self) {
    worker *it = self;
    for (int turn = 0; turn < TURNS; turn++) it->wrong += !is_right(it);
    return NULL;
}

static void share_key(uint32_t algorithm) {
    static worker workers[NUM_THREADS];
    pthread_t threads[NUM_THREADS];
    yz_hmac_key key;
    IS(yz_hmac_key_init(algorithm, text("a shared key"), 12, &key), YZ_OK);
    for (size_t i = 0; i < NUM_THREADS; i++) {
        workers[i] = (worker){.shared = &key, .algorithm = algorithm,
                              .message_len = 100 + 900 * i};
        fill_at_random(workers[i].message, MOST_LEN);
        IS(yz_hmac_key_sign(&key, workers[i].message, workers[i].message_len, workers[i].tag,
                            yz_output_len(algorithm)), YZ_OK);
    }
    for (size_t i = 0; i < NUM_THREADS; i++)
        IS(pthread_create(&threads[i], NULL, work, &workers[i]), 0);
    for (size_t i = 0; i < NUM_THREADS; i++) {
        IS(pthread_join(threads[i], NULL), 0);
        IS(workers[i].wrong, 0);
    }
}

int main(void) {
    FOR_EACH_KEYED(n) share_key(n);
    return end_of_checks();
}
