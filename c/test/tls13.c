/* SPDX-License-Identifier: ISC */
/* Finished messages and binders of TLS 1.3: values of Python's hmac and hashlib under each
 * algorithm, near ones, and each refusal, at which nothing is written. vectors.c has the traces of
 * RFC 8448. */
#include "../rows.h"
#include "check.h"
#include <string.h>

#define PSK_LEN 50

/* The base key is the bytes from 0 on, the transcript hash those from 100 on, each of a digest's
 * length, and the pre-shared key the 50 bytes from 0 on. */
static const struct {
    uint32_t algorithm;
    const char *finished, *external, *resumption;
} VALUES[] = {
    {YZ_SHA1, "a30a1ad7afdfbad8883ad4030539e92b141d1f07",
     "3d0c8f4a285457149609de17366cef3d98152e33", "28689e840782933185bd8467c7185f1540289867"},
    {YZ_SHA256, "0609abb6bb710948a3a95ddc47b90281db58c9b70a03ba92d7c718cca59a3af9",
     "161f428691ed12fa60e0fa5cbd25ae0395ef40d2dd63e62ff44b4516cc214e1b",
     "b4e7c67d8f24a65602dde4b2bcddbde38a9ea716b391424d11333c23bae4740c"},
    {YZ_SHA384,
     "43f3f5252dfc9b2aea330e02cee7fa723d6e634af131ec05d7f1a1e6c49b16d7c8cb9b260b04d8b93aeab07979eba"
     "3bd",
     "2fc1d4c3c3720d40fec2bd34b563f38f47b24bd5c36c4eec1f02bc3ebbe9628a7d0ee1688db52214ac2ef433c3f23"
     "862",
     "0de6d7abbae1c930e760204c7fecd73cab0eeb9dbdf820787b5dc685fa39061132441af82c010183ce60b8bc979cf"
     "027"},
    {YZ_SHA512,
     "4870bae6029ef7ef8c85670a8e5847c1294b3e7801bd656a28baac7ec45a27717f99425afc39b9098c247def12c4d"
     "293acbb59823e774c0a012b5aacc470baa2",
     "c296d3ab4fc1a078a795d5e1aeaa4df99d1f45a8c55fc1542cf8ac8d9dae3f4e6719f54316507fa3e5f487913e931"
     "a1d2382fb1e770b5d4d024c31926271e308",
     "f9d877151883ef4714383c661d54a9b1c55fa767330142065888071b3884df911fae68eca2a07a6ee19d83914eda5"
     "e18a7dae8aa4c9271784eda01fdbaf809aa"},
};
#define VALUES_COUNT (sizeof VALUES / sizeof *VALUES)

/* With room for a byte more on each side of a digest's length. */
static uint8_t base_key[YZ_MAX_OUTPUT_LEN + 1], hash[YZ_MAX_OUTPUT_LEN + 1], psk[PSK_LEN];
static uint8_t out[YZ_MAX_OUTPUT_LEN + 1], wanted[YZ_MAX_OUTPUT_LEN + 1];

static void want(const char *digits, size_t len) {
    IS(strlen(digits), 2 * len);
    for (size_t i = 0; i < len; i++) IS(sscanf(digits + 2 * i, "%2hhx", &wanted[i]), 1);
    memset(out, UNWRITTEN, sizeof out);
}

static void is_written(yz_status status, size_t len) {
    IS(status, YZ_OK);
    IS(memcmp(out, wanted, len), 0);
    IS_UNWRITTEN(out + len, sizeof out - len);
}

static void is_refused(yz_status status, yz_status wanted_status) {
    IS(status, wanted_status);
    IS_UNWRITTEN(out, sizeof out);
}

/* Each bit of what is verified, of the base key and of the hash counts, and so does each length. */
static void near_ones(uint32_t n, size_t len) {
    uint8_t *const FIELDS[] = {wanted, base_key, hash};
    IS(yz_tls13_finished_verify(n, base_key, len, hash, len, wanted, len), YZ_OK);
    for (size_t field = 0; field < 3; field++)
        for (size_t i = 0; i < 8 * len; i++) {
            FIELDS[field][i / 8] ^= (uint8_t)(1 << i % 8);
            IS(yz_tls13_finished_verify(n, base_key, len, hash, len, wanted, len), YZ_UNSPECIFIED);
            FIELDS[field][i / 8] ^= (uint8_t)(1 << i % 8);
        }
    for (size_t other = 0; other <= len + 1; other++) {
        yz_status status = other == len ? YZ_OK : YZ_WRONG_LENGTH;
        IS(yz_tls13_finished_verify(n, base_key, len, hash, len, wanted, other),
           other == len ? YZ_OK : YZ_UNSPECIFIED);
        IS(yz_tls13_finished_verify(n, base_key, other, hash, len, wanted, len), status);
        IS(yz_tls13_finished_verify(n, base_key, len, hash, other, wanted, len), status);
    }
    IS(yz_tls13_finished_verify(n, NULL, 0, NULL, 0, NULL, 0), YZ_WRONG_LENGTH);
    IS(yz_tls13_finished_verify(n, base_key, len, hash, len, NULL, 0), YZ_UNSPECIFIED);
}

static void finished(void) {
    for (size_t i = 0; i < VALUES_COUNT; i++) {
        uint32_t n = VALUES[i].algorithm;
        size_t len = yz_output_len(n);
        want(VALUES[i].finished, len);
        is_written(yz_tls13_finished(n, base_key, len, hash, len, out, len), len);
        near_ones(n, len);
        memset(out, UNWRITTEN, sizeof out);
        for (size_t other = 0; other <= len + 1; other++) {
            if (other == len) continue;
            is_refused(yz_tls13_finished(n, base_key, other, hash, len, out, len), YZ_WRONG_LENGTH);
            is_refused(yz_tls13_finished(n, base_key, len, hash, other, out, len), YZ_WRONG_LENGTH);
            is_refused(yz_tls13_finished(n, base_key, len, hash, len, out, other), YZ_WRONG_LENGTH);
        }
        is_refused(yz_tls13_finished(n, NULL, 0, NULL, 0, NULL, 0), YZ_WRONG_LENGTH);
        is_refused(yz_tls13_finished(n, base_key, SIZE_MAX, hash, len, out, len), YZ_WRONG_LENGTH);
    }
}

static void binders(void) {
    for (size_t i = 0; i < VALUES_COUNT; i++) {
        uint32_t n = VALUES[i].algorithm;
        size_t len = yz_output_len(n);
        want(VALUES[i].external, len);
        is_written(yz_tls13_binder_key(n, psk, PSK_LEN, true, out, len), len);
        want(VALUES[i].resumption, len);
        is_written(yz_tls13_binder_key(n, psk, PSK_LEN, false, out, len), len);
        memset(out, UNWRITTEN, sizeof out);
        for (size_t other = 0; other <= len + 1; other++) {
            if (other == len) continue;
            is_refused(yz_tls13_binder_key(n, psk, PSK_LEN, true, out, other), YZ_WRONG_LENGTH);
            is_refused(yz_tls13_binder_key(n, psk, 0, false, out, other), YZ_WRONG_LENGTH);
        }
        is_refused(yz_tls13_binder_key(n, psk, 0, true, out, len), YZ_UNSPECIFIED);
        is_refused(yz_tls13_binder_key(n, NULL, 0, false, out, len), YZ_UNSPECIFIED);
        if (yz_block_len(n) == 64)
            is_refused(yz_tls13_binder_key(n, psk, (size_t)1 << 61, true, out, len),
                       YZ_UNSPECIFIED);
        IS(yz_tls13_binder_key(n, psk, 1, false, out, len), YZ_OK);
    }
}

static void unknown_algorithms(void) {
    static const uint32_t UNKNOWN[] = {0, YZ_SHA512_256, ALGORITHMS_COUNT + 1, 255, 0x10001, UINT32_MAX};
    memset(out, UNWRITTEN, sizeof out);
    for (size_t i = 0; i < sizeof UNKNOWN / sizeof *UNKNOWN; i++)
        for (size_t len = 0; len <= 64; len += 32) {
            uint32_t n = UNKNOWN[i];
            is_refused(yz_tls13_finished(n, base_key, len, hash, len, out, len),
                       YZ_UNKNOWN_ALGORITHM);
            is_refused(yz_tls13_binder_key(n, psk, len % PSK_LEN, true, out, len),
                       YZ_UNKNOWN_ALGORITHM);
            IS(yz_tls13_finished_verify(n, base_key, len, hash, len, wanted, len),
               YZ_UNKNOWN_ALGORITHM);
        }
}

/* The inputs stay as they are. */
static void inputs_stay(void) {
    for (size_t i = 0; i < sizeof base_key; i++) {
        IS(base_key[i], i);
        IS(hash[i], (uint8_t)(100 + i));
    }
    for (size_t i = 0; i < PSK_LEN; i++) IS(psk[i], i);
}

int main(void) {
    for (size_t i = 0; i < sizeof base_key; i++)
        base_key[i] = (uint8_t)i, hash[i] = (uint8_t)(100 + i);
    for (size_t i = 0; i < PSK_LEN; i++) psk[i] = (uint8_t)i;
    finished(), binders(), unknown_algorithms(), inputs_stay();
    return end_of_checks();
}
