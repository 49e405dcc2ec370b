/* SPDX-License-Identifier: ISC */
/* The work by libraries of this project, each loaded from a file. */
#include "speed.h"
#include "yezdopin.h"
#include <dlfcn.h>
#include <string.h>

#define EACH_CALL(each)                                                                            \
    each(version) each(digest) each(digest_each) each(digest_init) each(digest_update)             \
    each(digest_final) each(hmac_sign) each(hmac_key_init) each(hmac_key_sign) each(hkdf)          \
    each(pbkdf2_derive) each(password_hash_new)
#define POINTER(name) __typeof__(yz_##name) *name;
typedef struct {
    EACH_CALL(POINTER)
    POINTER(features) /* NULL in an earlier library */
} library;

static library LOADED[LIBRARIES];
static const library *current;
static uint32_t algorithm, scheme;
static size_t out_len;
static yz_digest_context running;
static yz_hmac_key ready;

static bool find(void *file, const char *name, void *pointer) {
    void *found = dlsym(file, name);
    memcpy(pointer, &found, sizeof found);
    return found;
}

/* The layout of contexts and keys must be that of the header. */
void load_library(int number, const char *path) {
    library *it = &LOADED[number];
    void *file = dlopen(path, RTLD_NOW | RTLD_LOCAL);
#define FIND(name) && find(file, "yz_" #name, &it->name)
    if (!file) fail(path, dlerror());
    if (!(true EACH_CALL(FIND))) fail(path, "it lacks a call");
    if (it->version() >> 16 != YZ_VERSION_MAJOR) fail(path, "it has another major version");
    find(file, "yz_features", &it->features);
}

unsigned library_features(int number) {
    return LOADED[number].features ? LOADED[number].features() : 0;
}

void select_library(int number) { current = &LOADED[number]; }

static bool begin(const hash *wanted) {
    algorithm = wanted->number, scheme = wanted->scheme, out_len = wanted->out_len;
    return current->digest_init(algorithm, &running) == YZ_OK
        && current->hmac_key_init(algorithm, key, KEY_LEN, &ready) == YZ_OK;
}

static bool digest(const work *row, uint8_t *out) {
    return current->digest(algorithm, messages, row->len, out, out_len) == YZ_OK;
}

static bool pieces(const work *row, uint8_t *out) {
    yz_digest_context context;
    bool done = current->digest_init(algorithm, &context) == YZ_OK;
    for (size_t i = 0; i < row->count && done; i++)
        done = current->digest_update(&context, messages + i * row->len, row->len) == YZ_OK;
    return done && current->digest_final(&context, out, out_len) == YZ_OK;
}

static bool update(const work *row, uint8_t *out) {
    (void)out;
    return current->digest_update(&running, messages, row->len) == YZ_OK;
}

static bool tag(const work *row, uint8_t *out) {
    return current->hmac_sign(algorithm, key, KEY_LEN, messages, row->len, out, out_len) == YZ_OK;
}

static bool tag_under_key(const work *row, uint8_t *out) {
    return current->hmac_key_sign(&ready, messages, row->len, out, out_len) == YZ_OK;
}

static bool hkdf(const work *row, uint8_t *out) {
    return current->hkdf(algorithm, salt, SALT_LEN, key, KEY_LEN, info, INFO_LEN, out, row->len)
        == YZ_OK;
}

static bool pbkdf2(const work *row, uint8_t *out) {
    return current->pbkdf2_derive(algorithm, ITERATIONS, salt, SALT_LEN, key, KEY_LEN, out,
                                  row->count * out_len) == YZ_OK;
}

static bool password_hash(const work *row, uint8_t *out) {
    size_t len;
    (void)row;
    return current->password_hash_new(scheme, ITERATIONS, salt, SALT_LEN, key, KEY_LEN,
                                      (char *)out, MAX_OUT_LEN, &len) == YZ_OK;
}

static bool each(const work *row, uint8_t *out) {
    yz_message list[MAX_COUNT];
    for (size_t i = 0; i < row->count; i++) list[i] = (yz_message){message_at(row, i), row->len};
    return current->digest_each(algorithm, list, row->count, out, row->count * out_len) == YZ_OK;
}

const party yezdopin = {NULL, begin, {digest, pieces, update, tag, tag_under_key, hkdf, pbkdf2,
                                      password_hash, each}};
