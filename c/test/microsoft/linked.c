/* SPDX-License-Identifier: ISC */
/* A program that needs no start of a C library: `make windows-check` compiles and links it as
 * Microsoft's compiler and linker are called, by clang and lld. It ends with 0 where the tag is
 * that of RFC 4231, test case 2. */
#include "yezdopin.h"

__declspec(dllimport) void ExitProcess(unsigned status);

void start(void) {
    static const uint8_t wanted[] = {0x5b, 0xdc, 0xc1, 0x46, 0xbf, 0x60, 0x75, 0x4e,
                                     0x6a, 0x04, 0x24, 0x26, 0x08, 0x95, 0x75, 0xc7,
                                     0x5a, 0x00, 0x3f, 0x08, 0x9d, 0x27, 0x39, 0x83,
                                     0x9d, 0xec, 0x58, 0xb9, 0x64, 0xec, 0x38, 0x43};
    static const char key[] = "Jefe", message[] = "what do ya want for nothing?";
    uint8_t tag[sizeof wanted];
    yz_status status = yz_hmac_sign(YZ_SHA256, (const uint8_t *)key, sizeof key - 1,
                                    (const uint8_t *)message, sizeof message - 1, tag, sizeof tag);
    ExitProcess(!(yz_supported() && status == YZ_OK &&
                  yz_equal(tag, sizeof tag, wanted, sizeof wanted)));
}
