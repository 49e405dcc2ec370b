/* SPDX-License-Identifier: ISC */
/* Answers each line of the files that it is given (docs/LINES.md and docs/SCHEDULES.md have their
 * formats) by these calls, and compares with what stands behind `#= ` below the line, but for the
 * number of blocks. Lines of whole key schedules are passed over, but for Finished messages and
 * binders. The digests are answered once more, all of an algorithm by one call. */
#include "../rows.h"
#include "yezdopin.h"
#include <stdio.h>
#include <stdlib.h>
#include <string.h>

#define MOST_FIELDS 7
#define MOST_LINES 400

typedef struct {
    uint8_t *bytes;
    size_t len;
} piece;

/* The digests' lines of each algorithm, which are answered once more by one call. */
static struct {
    yz_message messages[MOST_LINES];
    const char *digests[MOST_LINES];
    size_t count;
} lines[ALGORITHMS_COUNT + 1];

static void *held(void *memory) {
    if (!memory) abort();
    return memory;
}

#define NAME_OF(name, ...) #name,
static uint32_t number_of(const char *name) {
    static const char *const NAMES[] = {EACH_ALGORITHM(NAME_OF)};
    for (uint32_t i = 0; i < sizeof NAMES / sizeof *NAMES; i++)
        if (!strcmp(name, NAMES[i])) return i + 1;
    return 0;
}

static size_t length_of(const char *digits) { return strtoul(digits, NULL, 10); }

/* The bytes of hex digits, up to their end or a comma; none for `-`. */
static piece bytes_of(const char *hex) {
    size_t digits = *hex == '-' ? 0 : strcspn(hex, ",");
    piece made = {held(malloc(digits / 2 + 1)), digits / 2};
    for (size_t i = 0; i < made.len; i++)
        if (sscanf(hex + 2 * i, "%2hhx", &made.bytes[i]) != 1) abort();
    return made;
}

/* The bytes of all pieces. */
static piece joined(const char *pieces) {
    piece all = {held(malloc(strlen(pieces) + 1)), 0};
    for (const char *at = pieces; at; at = strchr(at, ',') ? strchr(at, ',') + 1 : NULL) {
        piece next = bytes_of(at);
        memcpy(all.bytes + all.len, next.bytes, next.len);
        all.len += next.len;
        free(next.bytes);
    }
    return all;
}

/* A digest, whole and by its pieces, which must agree. */
static yz_status digest(uint32_t n, const char *pieces, uint8_t *out, size_t out_len) {
    yz_digest_context context;
    uint8_t whole[YZ_MAX_OUTPUT_LEN];
    piece all = joined(pieces);
    yz_status status = yz_digest(n, all.bytes, all.len, whole, out_len);
    free(all.bytes);
    if (status || yz_digest_init(n, &context)) return status;
    for (const char *at = pieces; at; at = strchr(at, ',') ? strchr(at, ',') + 1 : NULL) {
        piece next = bytes_of(at);
        if (yz_digest_update(&context, next.bytes, next.len)) abort();
        free(next.bytes);
    }
    status = yz_digest_final(&context, out, out_len);
    if (!yz_equal(whole, out_len, out, out_len)) abort();
    return status;
}

/* A tag, whole, under a key and by its pieces, which must agree. */
static yz_status sign(uint32_t n, piece value, const char *pieces, uint8_t *out, size_t out_len) {
    yz_hmac_key key;
    yz_hmac_context context;
    uint8_t whole[YZ_MAX_OUTPUT_LEN], once[YZ_MAX_OUTPUT_LEN];
    piece all = joined(pieces);
    yz_status status = yz_hmac_sign(n, value.bytes, value.len, all.bytes, all.len, whole, out_len);
    if (!status) status = yz_hmac_key_init(n, value.bytes, value.len, &key);
    if (!status) status = yz_hmac_key_sign(&key, all.bytes, all.len, once, out_len);
    free(all.bytes);
    if (status || yz_hmac_init(&key, &context)) return status;
    for (const char *at = pieces; at; at = strchr(at, ',') ? strchr(at, ',') + 1 : NULL) {
        piece next = bytes_of(at);
        if (yz_hmac_update(&context, next.bytes, next.len)) abort();
        free(next.bytes);
    }
    status = yz_hmac_final(&context, out, out_len);
    if (!yz_equal(whole, out_len, out, out_len) || !yz_equal(once, out_len, out, out_len)) abort();
    return status;
}

/* A verification, whole and under a key, which must agree. */
static yz_status verify(uint32_t n, piece value, piece message, piece tag) {
    yz_hmac_key key;
    yz_status status =
        yz_hmac_verify(n, value.bytes, value.len, message.bytes, message.len, tag.bytes, tag.len);
    if (yz_hmac_key_init(n, value.bytes, value.len, &key)) abort();
    if (yz_hmac_key_verify(&key, message.bytes, message.len, tag.bytes, tag.len) != status) abort();
    return status;
}

/* An output of HKDF, in two calls and in one, which must agree. */
static yz_status expand(uint32_t n, piece salt, piece secret, piece info, uint8_t *out,
                        size_t len) {
    uint8_t prk[YZ_MAX_OUTPUT_LEN];
    uint8_t *once = held(malloc(len + 1));
    size_t prk_len = yz_output_len(n);
    yz_status status =
        yz_hkdf_extract(n, salt.bytes, salt.len, secret.bytes, secret.len, prk, prk_len);
    if (!status) status = yz_hkdf_expand(n, prk, prk_len, info.bytes, info.len, out, len);
    if (yz_hkdf(n, salt.bytes, salt.len, secret.bytes, secret.len, info.bytes, info.len, once, len)
        != status) abort();
    if (!status && !yz_equal(once, len, out, len)) abort();
    free(once);
    return status;
}

/* The bytes of hex digits, and for `none` as many zeros as a digest has. */
static piece bytes_or_zeros(const char *hex, size_t len) {
    if (strcmp(hex, "none")) return bytes_of(hex);
    return (piece){held(calloc(len, 1)), len};
}

/* A secret of the handshake (RFC 8446, 7.1), by the words of its label, with `-` between them. */
static yz_status traffic_secret(uint32_t n, piece psk, piece shared, const char *words, piece hash,
                                uint8_t *secret) {
    static const uint8_t ZEROS[YZ_MAX_OUTPUT_LEN];
    uint8_t label[16], early[YZ_MAX_OUTPUT_LEN], nothing[YZ_MAX_OUTPUT_LEN];
    size_t len = yz_output_len(n), label_len = strlen(words);
    if (label_len > sizeof label) abort();
    for (size_t i = 0; i < label_len; i++) label[i] = (uint8_t)(words[i] == '-' ? ' ' : words[i]);
    yz_status status = yz_hkdf_extract(n, ZEROS, len, psk.bytes, psk.len, early, len);
    if (!status) status = yz_digest(n, NULL, 0, nothing, len);
    if (!status)
        status = yz_hkdf_expand_label(n, early, len, (const uint8_t *)"derived", 7, nothing, len,
                                      secret, len);
    if (!status) status = yz_hkdf_extract(n, secret, len, shared.bytes, shared.len, early, len);
    if (!status)
        status = yz_hkdf_expand_label(n, early, len, label, label_len, hash.bytes, hash.len, secret,
                                      len);
    return status;
}

/* A Finished, or a binder, which must verify. */
static yz_status finished(uint32_t n, char **field, uint8_t *out) {
    uint8_t key[YZ_MAX_OUTPUT_LEN];
    size_t len = yz_output_len(n);
    piece psk = bytes_or_zeros(field[2], len), shared = bytes_or_zeros(field[3], len);
    piece hash = bytes_of(field[5]), covered = bytes_of(strchr(field[6], ':') + 1);
    yz_status status =
        strstr(field[4], "binder")
            ? yz_tls13_binder_key(n, psk.bytes, psk.len, *field[4] == 'e', key, len)
            : traffic_secret(n, psk, shared, field[4], hash, key);
    if (!status) status = yz_tls13_finished(n, key, len, covered.bytes, covered.len, out, len);
    if (!status)
        status = yz_tls13_finished_verify(n, key, len, covered.bytes, covered.len, out, len);
    free(psk.bytes), free(shared.bytes), free(hash.bytes), free(covered.bytes);
    return status;
}

/* Writes the answer to a line's fields as the files have it. */
static void answer(char **field, int count, char *text) {
    static uint8_t out[65536];
    uint32_t n = number_of(field[1]);
    uint32_t iterations = (uint32_t)length_of(field[2]);
    size_t len = yz_output_len(n);
    piece a = {NULL, 0}, b = a, c = a;
    yz_status status = YZ_UNKNOWN_ALGORITHM;
    int verdict = 0;
    if (!strcmp(field[0], "digest") && count == 3) {
        status = digest(n, field[2], out, len);
    } else if (!strcmp(field[0], "hmac") && count == 4) {
        a = bytes_of(field[2]);
        status = sign(n, a, field[3], out, len);
    } else if (!strcmp(field[0], "hmac-verify") && count == 5) {
        a = bytes_of(field[2]), b = joined(field[3]), c = bytes_of(field[4]);
        status = verify(n, a, b, c), verdict = 1;
    } else if (!strcmp(field[0], "hkdf") && count == 6) {
        a = bytes_of(field[2]), b = bytes_of(field[3]), c = joined(field[4]);
        len = length_of(field[5]);
        status = expand(n, a, b, c, out, len);
    } else if (!strcmp(field[0], "extract") && count == 4) {
        a = bytes_of(field[2]), b = bytes_of(field[3]);
        status = yz_hkdf_extract(n, a.bytes, a.len, b.bytes, b.len, out, len);
    } else if (!strcmp(field[0], "expand-label") && count == 6) {
        a = bytes_of(field[2]), b = bytes_of(field[3]), c = bytes_of(field[4]);
        len = length_of(field[5]);
        status = yz_hkdf_expand_label(n, a.bytes, a.len, b.bytes, b.len, c.bytes, c.len, out, len);
    } else if (!strcmp(field[0], "tls13") && count == 7) {
        status = finished(n, field, out);
    } else if (!strcmp(field[0], "pbkdf2") && count == 6) {
        a = bytes_of(field[3]), b = bytes_of(field[4]), len = length_of(field[5]);
        status = yz_pbkdf2_derive(n, iterations, b.bytes, b.len, a.bytes, a.len, out, len);
    } else if (!strcmp(field[0], "pbkdf2-verify") && count == 6) {
        a = bytes_of(field[3]), b = bytes_of(field[4]), c = bytes_of(field[5]), verdict = 1;
        status = yz_pbkdf2_verify(n, iterations, b.bytes, b.len, a.bytes, a.len, c.bytes, c.len);
    }
    free(a.bytes), free(b.bytes), free(c.bytes);
    if (verdict) {
        strcpy(text, status == YZ_OK ? "match" : status == YZ_UNSPECIFIED ? "mismatch" : "?");
        return;
    }
    if (status != YZ_OK) {
        strcpy(text, status == YZ_WRONG_LENGTH || status == YZ_UNSPECIFIED ? "refused" : "?");
        return;
    }
    strcpy(text, len ? "" : "-");
    for (size_t i = 0; i < len; i++) sprintf(text + 2 * i, "%02x", out[i]);
}

/* Whether a line is of a whole key schedule, for which there is no call. */
static bool is_of_schedule(const char *line) {
    static const char *const WORDS[] = {"tls13 ", "quic ", "packet "};
    if (strstr(line, " finished:")) return false;
    for (size_t i = 0; i < sizeof WORDS / sizeof *WORDS; i++)
        if (!strncmp(line, WORDS[i], strlen(WORDS[i]))) return true;
    return false;
}

/* Whether the answer to a line is the wanted one. */
static bool agrees(const char *line, char *wanted) {
    static char got[1 << 18];
    char none[] = "", *fields[MOST_FIELDS], *copy = held(strdup(line));
    int count = 0;
    for (int i = 0; i < MOST_FIELDS; i++) fields[i] = none;
    for (char *at = strtok(copy, " "); at && count < MOST_FIELDS; at = strtok(NULL, " "))
        fields[count++] = at;
    answer(fields, count, got);
    free(copy);
    wanted[strcspn(wanted, " ")] = 0;
    /* A verification doesn't tell its cause. */
    if (!strcmp(got, wanted) || (!strcmp(got, "mismatch") && !strcmp(wanted, "refused")))
        return true;
    printf("%s\n  is %s\n and not %s\n", line, got, wanted);
    return false;
}

/* Keeps a digest's line and its digest for the end. */
static void keep(const char *line, const char *digest) {
    char name[16];
    int end = 0;
    if (sscanf(line, "digest %15s %n", name, &end) != 1 || !end) return;
    uint32_t n = number_of(name);
    size_t place = lines[n].count++;
    if (!n || place == MOST_LINES) abort();
    piece all = joined(line + end);
    lines[n].messages[place] = (yz_message){all.bytes, all.len};
    lines[n].digests[place] = held(strdup(digest));
}

/* How many of an algorithm's digests one call doesn't give as the lines have them. */
static int differ_together(uint32_t n) {
    size_t len = yz_output_len(n), count = lines[n].count;
    uint8_t *out = held(malloc(count * len + 1));
    int differ = 0;
    if (yz_digest_each(n, lines[n].messages, count, out, count * len) != YZ_OK) abort();
    for (size_t i = 0; i < count; i++) {
        piece wanted = bytes_of(lines[n].digests[i]);
        differ += !yz_equal(out + i * len, len, wanted.bytes, wanted.len);
        free(wanted.bytes);
    }
    free(out);
    return differ;
}

int main(int count, char **names) {
    static char line[1 << 18], last[1 << 18];
    int agree = 0, differ = 0, together = 0;
    for (int i = 1; i < count; i++) {
        FILE *file = fopen(names[i], "r");
        if (!file) return perror(names[i]), 2;
        while (fgets(line, sizeof line, file)) {
            line[strcspn(line, "\n")] = 0;
            if (!strncmp(line, "#= ", 3)) {
                if (is_of_schedule(last)) continue;
                if (agrees(last, line + 3)) agree++;
                else differ++;
                keep(last, line + 3);
            } else if (*line && *line != '#') {
                strcpy(last, line);
            }
        }
        fclose(file);
    }
    for (uint32_t n = 1; n <= ALGORITHMS_COUNT; n++) {
        int others = differ_together(n);
        if (others || !lines[n].count) printf("%d digests of algorithm %u differ\n", others, n);
        differ += others, together += (int)lines[n].count;
    }
    printf("%d lines agree, %d of them once more together; %d differ\n", agree, together, differ);
    return differ || !together;
}
