/* SPDX-License-Identifier: ISC */
/* Signs its first argument under its second, and verifies what it signed:
 * cc sign.c $(pkg-config --cflags --libs yezdopin) && ./a.out "a message" "a key"
 * Other users can see arguments: a key that matters comes from elsewhere. */
#include <stdio.h>
#include <string.h>
#include <yezdopin.h>

int main(int count, char **words) {
    if (count != 3) {
        fprintf(stderr, "usage: %s MESSAGE KEY\n", count > 0 ? words[0] : "sign");
        return 2;
    }
    const uint8_t *message = (const uint8_t *)words[1], *value = (const uint8_t *)words[2];
    size_t message_len = strlen(words[1]);
    uint8_t tag[YZ_SHA256_OUTPUT_LEN];
    yz_hmac_key key;
    yz_status status = yz_hmac_key_init(YZ_SHA256, value, strlen(words[2]), &key);
    if (status == YZ_OK) status = yz_hmac_key_sign(&key, message, message_len, tag, sizeof tag);
    if (status == YZ_OK) status = yz_hmac_key_verify(&key, message, message_len, tag, sizeof tag);
    yz_clear(&key, sizeof key);
    if (status != YZ_OK) {
        fprintf(stderr, "%s: %s\n", words[0], yz_status_text(status));
        return 1;
    }
    for (size_t i = 0; i < sizeof tag; i++) printf("%02x", tag[i]);
    putchar('\n');
    return 0;
}
