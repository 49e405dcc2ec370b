/* SPDX-License-Identifier: ISC */
/* Answers the calls of the table that tests/verifications writes, each in all ways that the library
 * has for it, which must agree, and compares with the answer below the call. */
#include "../rows.h"
#include "table.h"
#include "yezdopin.h"

#define UNWRITTEN 7

#define NAME_OF(name, ...) {#name, YZ_##name},
#define TOKEN_OF(name, token) {token, YZ_##name},
static uint32_t algorithm_of(const char *name) {
    static const struct {
        const char *name;
        uint32_t algorithm;
    } NAMES[] = {EACH_KEYED(NAME_OF) EACH_TOKEN(TOKEN_OF)};
    for (size_t i = 0; i < sizeof NAMES / sizeof *NAMES; i++)
        if (!strcmp(name, NAMES[i].name)) return NAMES[i].algorithm;
    abort();
}

/* Whether the call accepts. It has no other refusal than YZ_UNSPECIFIED. */
static bool verdict(yz_status status) {
    if (status != YZ_OK && status != YZ_UNSPECIFIED) fault = "another status";
    return status == YZ_OK;
}

static void both(bool one, bool other) {
    if (one != other) fault = "two ways of one call differ";
}

/* The tag of a message in two pieces, compared. */
static bool is_tag_in_pieces(const yz_hmac_key *key, piece message, piece tag, uint32_t n) {
    yz_hmac_context context;
    uint8_t out[YZ_MAX_OUTPUT_LEN];
    size_t first = message.len / 3, len = yz_output_len(n);
    if (yz_hmac_init(key, &context) || yz_hmac_update(&context, message.bytes, first)
        || yz_hmac_update(&context, message.bytes + first, message.len - first)
        || yz_hmac_final(&context, out, len)) abort();
    return yz_equal(out, len, tag.bytes, tag.len);
}

static bool hmac_verify(char **words) {
    uint32_t n = algorithm_of(words[1]);
    piece value = field(words[2]), message = field(words[3]), tag = field(words[4]);
    yz_hmac_key key;
    if (yz_hmac_key_init(n, value.bytes, value.len, &key)) abort();
    bool answer = verdict(yz_hmac_verify(n, value.bytes, value.len, message.bytes, message.len,
                                         tag.bytes, tag.len));
    both(answer, verdict(yz_hmac_key_verify(&key, message.bytes, message.len, tag.bytes, tag.len)));
    both(answer, is_tag_in_pieces(&key, message, tag, n));
    free(value.bytes), free(message.bytes), free(tag.bytes);
    return answer;
}

static bool pbkdf2_verify(char **words) {
    uint32_t n = algorithm_of(words[1]), iterations = (uint32_t)number(words[2]);
    piece secret = field(words[3]), salt = field(words[4]), derived = field(words[5]);
    uint8_t *made = held(malloc(derived.len + 1));
    bool answer = verdict(yz_pbkdf2_verify(n, iterations, salt.bytes, salt.len, secret.bytes,
                                           secret.len, derived.bytes, derived.len));
    if (yz_pbkdf2_derive(n, iterations, salt.bytes, salt.len, secret.bytes, secret.len, made,
                         derived.len)) abort();
    both(answer, derived.len && yz_equal(made, derived.len, derived.bytes, derived.len));
    free(secret.bytes), free(salt.bytes), free(derived.bytes), free(made);
    return answer;
}

static bool is_unwritten(const uint8_t *bytes, size_t len) {
    for (size_t i = 0; i < len; i++)
        if (bytes[i] != UNWRITTEN) return false;
    return true;
}

/* Whether a token is right, and its payload the wanted one, in the least room; what lies behind the
 * payload, or after a refusal all of the room, must be as it was. */
static bool jws_verify(char **words, const char *wanted) {
    piece key = field(words[2]), token = field(words[3]);
    uint8_t *payload = held(malloc(token.len + 1));
    size_t len = 0;
    memset(payload, UNWRITTEN, token.len);
    bool answer = verdict(yz_jws_verify(algorithm_of(words[1]), key.bytes, key.len,
                                        (const char *)token.bytes, token.len, payload, token.len,
                                        &len));
    if (!is_unwritten(payload + len, token.len - len)) fault = "the rest is written";
    if (answer) {
        piece right = field(strcmp(wanted, "mismatch") ? wanted : "-");
        if (!yz_equal(payload, len, right.bytes, right.len)) fault = "another payload";
        free(right.bytes);
    }
    free(key.bytes), free(token.bytes), free(payload);
    return answer;
}

/* Whether a counter is found; it must be the wanted one. */
static bool is_counter(yz_status status, uint64_t counter, const char *wanted) {
    const bool answer = verdict(status);
    if (answer && strcmp(wanted, "mismatch") && counter != number(wanted))
        fault = "another counter";
    return answer;
}

static bool hotp_find(char **words, const char *wanted) {
    piece key = field(words[2]), text = field(words[6]);
    uint64_t counter = 0;
    yz_status status = yz_hotp_find(algorithm_of(words[1]), key.bytes, key.len, number(words[3]),
                                    number(words[4]), number(words[5]), (const char *)text.bytes,
                                    text.len, &counter);
    free(key.bytes), free(text.bytes);
    return is_counter(status, counter, wanted);
}

static bool totp_find(char **words, const char *wanted) {
    piece key = field(words[2]), text = field(words[8]);
    uint64_t counter = 0;
    yz_status status = yz_totp_find(algorithm_of(words[1]), key.bytes, key.len, number(words[3]),
                                    (uint32_t)number(words[4]), (uint32_t)number(words[5]),
                                    (uint32_t)number(words[6]), number(words[7]),
                                    (const char *)text.bytes, text.len, &counter);
    free(key.bytes), free(text.bytes);
    return is_counter(status, counter, wanted);
}

static const yz_merkle_hash *hashes(piece bytes) {
    if (bytes.len % YZ_MERKLE_HASH_LEN) abort();
    return (const yz_merkle_hash *)bytes.bytes;
}

static bool merkle_inclusion(char **words) {
    piece hash = field(words[1]), path = field(words[4]), root = field(words[5]);
    yz_status status =
        yz_merkle_verify_inclusion(hashes(hash), number(words[2]), number(words[3]), hashes(path),
                                   path.len / YZ_MERKLE_HASH_LEN, hashes(root));
    free(hash.bytes), free(path.bytes), free(root.bytes);
    return verdict(status);
}

static bool merkle_consistency(char **words) {
    piece first = field(words[2]), second = field(words[4]), path = field(words[5]);
    yz_status status = yz_merkle_verify_consistency(number(words[1]), hashes(first),
                                                    number(words[3]), hashes(second), hashes(path),
                                                    path.len / YZ_MERKLE_HASH_LEN);
    free(first.bytes), free(second.bytes), free(path.bytes);
    return verdict(status);
}

static bool password_verify(char **words) {
    piece text = field(words[1]), password = field(words[2]);
    yz_status status = yz_password_hash_verify((const char *)text.bytes, text.len, password.bytes,
                                               password.len, (uint32_t)number(words[3]));
    if (status == YZ_WRONG_LENGTH || status == YZ_BAD_FORMAT || status == YZ_TOO_MANY_ITERATIONS)
        status = YZ_UNSPECIFIED;
    free(text.bytes), free(password.bytes);
    return verdict(status);
}

static bool webhook_hex(char **words) {
    piece prefix = field(words[2]), secret = field(words[3]), body = field(words[4]);
    piece header = field(words[5]);
    yz_status status = yz_webhook_verify_hex(
        algorithm_of(words[1]), secret.bytes, secret.len, (const char *)prefix.bytes, prefix.len,
        body.bytes, body.len, (const char *)header.bytes, header.len);
    free(prefix.bytes), free(secret.bytes), free(body.bytes), free(header.bytes);
    return verdict(status);
}

static bool webhook_github(char **words) {
    piece secret = field(words[1]), body = field(words[2]), header = field(words[3]);
    yz_status status = yz_webhook_verify_github(secret.bytes, secret.len, body.bytes, body.len,
                                                (const char *)header.bytes, header.len);
    free(secret.bytes), free(body.bytes), free(header.bytes);
    return verdict(status);
}

static bool webhook_stripe(char **words) {
    piece secret = field(words[1]), body = field(words[2]), header = field(words[3]);
    yz_status status = yz_webhook_verify_stripe(secret.bytes, secret.len, body.bytes, body.len,
                                                (const char *)header.bytes, header.len,
                                                number(words[4]), number(words[5]));
    free(secret.bytes), free(body.bytes), free(header.bytes);
    return verdict(status);
}

/* The verify_data is compared by the call, and as it is made. */
static bool tls13_finished(char **words) {
    uint32_t n = algorithm_of(words[1]);
    piece key = field(words[2]), hash = field(words[3]), data = field(words[4]);
    uint8_t out[YZ_MAX_OUTPUT_LEN];
    yz_status status = yz_tls13_finished_verify(n, key.bytes, key.len, hash.bytes, hash.len,
                                                data.bytes, data.len);
    yz_status made = yz_tls13_finished(n, key.bytes, key.len, hash.bytes, hash.len, out,
                                       yz_output_len(n));
    if (made != YZ_OK && made != YZ_WRONG_LENGTH) fault = "another status";
    both(status == YZ_WRONG_LENGTH, made == YZ_WRONG_LENGTH);
    bool answer = status != YZ_WRONG_LENGTH && verdict(status);
    both(answer, made == YZ_OK && yz_equal(out, yz_output_len(n), data.bytes, data.len));
    free(key.bytes), free(hash.bytes), free(data.bytes);
    return answer;
}

static bool equal(char **words) {
    piece a = field(words[1]), b = field(words[2]);
    bool answer = yz_equal(a.bytes, a.len, b.bytes, b.len);
    free(a.bytes), free(b.bytes);
    return answer;
}

/* A call on hashes of other lengths than theirs can't be written in C. */
static enum answered answered(char **words, const char *wanted) {
    const char *word = words[0];
    bool answer;
    if (!strcmp(word, "hmac-verify")) answer = hmac_verify(words);
    else if (!strcmp(word, "pbkdf2-verify")) answer = pbkdf2_verify(words);
    else if (!strcmp(word, "jws-verify")) answer = jws_verify(words, wanted);
    else if (!strcmp(word, "hotp-find")) answer = hotp_find(words, wanted);
    else if (!strcmp(word, "totp-find")) answer = totp_find(words, wanted);
    else if (!strcmp(word, "merkle-inclusion")) answer = merkle_inclusion(words);
    else if (!strcmp(word, "merkle-consistency")) answer = merkle_consistency(words);
    else if (!strcmp(word, "password-verify")) answer = password_verify(words);
    else if (!strcmp(word, "webhook-hex")) answer = webhook_hex(words);
    else if (!strcmp(word, "webhook-github")) answer = webhook_github(words);
    else if (!strcmp(word, "webhook-stripe")) answer = webhook_stripe(words);
    else if (!strcmp(word, "tls13-finished")) answer = tls13_finished(words);
    else if (!strcmp(word, "equal")) answer = equal(words);
    else return strstr(word, "-of-other-lengths") ? LEFT_OUT : DIFFERS;
    return answer == (strcmp(wanted, "mismatch") != 0) ? AGREES : DIFFERS;
}

int main(int count, char **names) { return count == 2 ? answer_all(names[1], answered) : 2; }
