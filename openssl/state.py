# SPDX-License-Identifier: ISC
"""What the configuration makes of OpenSSL: `state.py` prints a line such as

    TLS 304, level 3, SHA-256 of yezdopin

It has the least version of TLS (0: any, 303: TLS 1.2, 304: TLS 1.3) and the level of security of
a new SSL_CTX, and the provider from which SHA-256 is fetched. It asks the libssl and the libcrypto
that the system's linker finds, which may be others than Python's own.
"""

import ctypes
import sys

GET_MIN_PROTO_VERSION = 130  # SSL_CTRL_GET_MIN_PROTO_VERSION


def call(library, name, result, *arguments):
    """What a function of a library returns."""
    function = getattr(library, name)
    function.restype = result
    return function(*arguments)


def main():
    """Asks a new SSL_CTX and a fetched digest."""
    crypto, tls = ctypes.CDLL("libcrypto.so.3"), ctypes.CDLL("libssl.so.3")
    pointer = ctypes.c_void_p
    method = pointer(call(tls, "TLS_method", pointer))
    context = pointer(call(tls, "SSL_CTX_new", pointer, method))
    digest = pointer(call(crypto, "EVP_MD_fetch", pointer, None, b"SHA256", None))
    if not context or not digest:
        sys.exit("by this configuration OpenSSL makes no SSL_CTX or has no SHA-256")
    asked = (context, GET_MIN_PROTO_VERSION, ctypes.c_long(0), None)
    version = call(tls, "SSL_CTX_ctrl", ctypes.c_long, *asked)
    level = call(tls, "SSL_CTX_get_security_level", ctypes.c_int, context)
    provider = pointer(call(crypto, "EVP_MD_get0_provider", pointer, digest))
    name = call(crypto, "OSSL_PROVIDER_get0_name", ctypes.c_char_p, provider)
    print(f"TLS {version:x}, level {level}, SHA-256 of {name.decode()}")


if __name__ == "__main__":
    main()
