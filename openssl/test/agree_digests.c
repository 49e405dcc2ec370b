/* SPDX-License-Identifier: ISC */
/* Digests, in random pieces, begun anew and copied. */
#include "agree.h"
#include <string.h>

/* What EVP tells of a digest, which programs put into certificates and signatures. */
static int same_facts(EVP_MD_CTX *const *contexts)
{
    const EVP_MD *ours = EVP_MD_CTX_get0_md(contexts[0]);
    const EVP_MD *theirs = EVP_MD_CTX_get0_md(contexts[1]);
    return EVP_MD_get_size(ours) == EVP_MD_get_size(theirs)
           && EVP_MD_get_block_size(ours) == EVP_MD_get_block_size(theirs)
           && EVP_MD_get_type(ours) == EVP_MD_get_type(theirs)
           && EVP_MD_get_flags(ours) == EVP_MD_get_flags(theirs);
}

static int replace_by_copy(EVP_MD_CTX **context)
{
    EVP_MD_CTX *copy = EVP_MD_CTX_new();
    int is_done = EVP_MD_CTX_copy_ex(copy, *context);
    EVP_MD_CTX_free(*context);
    *context = copy;
    return is_done;
}

static int step(EVP_MD_CTX **context, size_t what, const unsigned char *input, size_t input_len)
{
    switch (what) {
    case 0: return EVP_DigestInit_ex2(*context, NULL, NULL);
    case 1: return replace_by_copy(context);
    default: return EVP_DigestUpdate(*context, input, input_len);
    }
}

void compare_digests(uint64_t seed)
{
    static _Thread_local unsigned char input[MOST_INPUT];
    static _Thread_local outputs out;
    random_numbers numbers = {seed};
    const char *name = names[below(&numbers, NUM_USUAL_NAMES)];
    EVP_MD_CTX *contexts[SIDES];
    size_t lens[SIDES];
    int returned[SIDES];
    for (int side = 0; side < SIDES; side++) {
        EVP_MD *digest = EVP_MD_fetch(both, name, sides[side]);
        contexts[side] = EVP_MD_CTX_new();
        returned[side] = EVP_DigestInit_ex2(contexts[side], digest, NULL);
        EVP_MD_free(digest);
    }
    compare("a digest's init", seed, returned, NULL, NULL);
    for (size_t steps = below(&numbers, 8); steps > 0; steps--) {
        size_t what = below(&numbers, 10);
        size_t len = below(&numbers, below(&numbers, 3) ? 300 : MOST_INPUT);
        fill(&numbers, input, len);
        for (int side = 0; side < SIDES; side++) {
            returned[side] = step(&contexts[side], what, input, len);
        }
        compare("a digest's step", seed, returned, NULL, NULL);
    }
    for (int side = 0; side < SIDES; side++) {
        unsigned int len = 0;
        returned[side] = EVP_DigestFinal_ex(contexts[side], out[side], &len);
        lens[side] = len;
    }
    if (!same_facts(contexts)) returned[0] = !returned[1];
    compare("a digest's final", seed, returned, (const outputs *)&out, lens);
    for (int side = 0; side < SIDES; side++) EVP_MD_CTX_free(contexts[side]);
}
