/* SPDX-License-Identifier: ISC */
/* The work by Rust crates, each behind the calls of speed/peers/peer.rs in a shared library that
 * speed/beside_crates builds. Several messages are digested in turn. */
#include "speed.h"
#include <dlfcn.h>
#include <string.h>

typedef struct peer peer;
typedef peer *begin_call(peer *before, size_t digest_len, const uint8_t *key, size_t key_len,
                         const uint8_t *salt, size_t salt_len, const uint8_t *info,
                         size_t info_len, uint32_t iterations);
typedef bool run_call(peer *, uint32_t kind, size_t count, size_t len, size_t stride,
                      const uint8_t *messages, uint8_t *out);
typedef struct {
    begin_call *begin;
    run_call *run;
    peer *peer;
} crate;

static crate LOADED[CRATES];
static crate *current;

static void *found(void *file, const char *path, const char *name) {
    void *pointer = dlsym(file, name);
    if (!pointer) fail(path, "it lacks a call");
    return pointer;
}

void load_crate(int number, const char *path) {
    void *file = dlopen(path, RTLD_NOW | RTLD_LOCAL);
    if (!file) fail(path, dlerror());
    void *begin = found(file, path, "peer_begin"), *run = found(file, path, "peer_run");
    memcpy(&LOADED[number].begin, &begin, sizeof begin);
    memcpy(&LOADED[number].run, &run, sizeof run);
}

void select_crate(int number) { current = &LOADED[number]; }

static bool begin(const hash *wanted) {
    current->peer = current->begin(current->peer, wanted->out_len, key, KEY_LEN, salt, SALT_LEN,
                                   info, INFO_LEN, ITERATIONS);
    return true;
}

static bool step(const work *row, uint8_t *out) {
    size_t stride = (size_t)(message_at(row, 1) - messages);
    return current->run(current->peer, row->kind, row->count, row->len, stride, messages, out);
}

const party crates = {NULL, begin, {step, step, step, step, step, step, step, NULL, step}};
