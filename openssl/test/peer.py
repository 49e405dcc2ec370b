# SPDX-License-Identifier: ISC
"""A Python program as `programs` runs it, with the provider and without.

`peer.py digests` prints what hashlib and hmac answer over all of their digests. `peer.py server ..`
and `peer.py client .. PORT` are the two ends of a connection over TLS, with a version, the ciphers
and whether a record is encrypted before its tag is made.
"""

import hashlib
import hmac
import socket
import ssl
import sys

# Digests of OpenSSL's legacy provider, which hashlib names but can't make.
LEGACY = {"md4", "mdc2", "ripemd160", "whirlpool"}
DATA = bytes(range(256)) * 1200
NO_ENCRYPT_THEN_MAC = 1 << 19  # SSL_OP_NO_ENCRYPT_THEN_MAC, which ssl has no name for


def digests():
    """Prints a line of digests, tags and derived keys for each digest."""
    for name in sorted(set(hashlib.algorithms_available) - LEGACY):
        given = (32,) if name.startswith("shake") else ()
        hashed = hashlib.new(name, DATA[:1000])
        copied = hashed.copy()
        copied.update(DATA)
        print(name, hashed.hexdigest(*given), copied.hexdigest(*given))
        if not given:
            signing = hmac.new(b"a key", DATA[:500], name)
            print(signing.hexdigest(), hmac.digest(b"a key", DATA, name).hex())
            print(hashlib.pbkdf2_hmac(name, b"password", b"salt", 100, 70).hex())
    print(hashlib.scrypt(b"password", salt=b"salt", n=16, r=8, p=1).hex())


def context_of(side, version, ciphers, encrypts_first):
    """A context of TLS for one version and its ciphers."""
    context = ssl.SSLContext(side)
    context.minimum_version = context.maximum_version = ssl.TLSVersion[version]
    if ciphers:
        context.set_ciphers(ciphers)
    if encrypts_first != "True":
        context.options |= NO_ENCRYPT_THEN_MAC
    return context


def receive(connection, size):
    """Reads so many bytes."""
    received = b""
    while len(received) < size:
        received += connection.recv(size - len(received))
    return received


def server(*options):
    """Prints its port, takes one connection, and answers the digest of what it reads."""
    context = context_of(ssl.PROTOCOL_TLS_SERVER, *options)
    context.load_cert_chain("rsa.pem", "rsa.key")
    with socket.create_server(("127.0.0.1", 0)) as listening:
        listening.settimeout(30)
        print(listening.getsockname()[1], flush=True)
        accepted, _ = listening.accept()
        with context.wrap_socket(accepted, server_side=True) as connection:
            connection.sendall(hashlib.sha256(receive(connection, len(DATA))).digest())


def client(version, ciphers, encrypts_first, port):
    """Sends data, and compares the digest that comes back."""
    context = context_of(ssl.PROTOCOL_TLS_CLIENT, version, ciphers, encrypts_first)
    context.load_verify_locations("rsa.pem")
    with socket.create_connection(("127.0.0.1", int(port)), timeout=30) as plain:
        with context.wrap_socket(plain, server_hostname="localhost") as connection:
            connection.sendall(DATA)
            is_right = receive(connection, 32) == hashlib.sha256(DATA).digest()
            print(connection.version(), connection.cipher()[0])
    sys.exit(not is_right)


if __name__ == "__main__":
    {"digests": digests, "server": server, "client": client}[sys.argv[1]](*sys.argv[2:])
