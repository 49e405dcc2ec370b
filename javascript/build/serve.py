# SPDX-License-Identifier: ISC
"""Serves a folder of static files to this machine's browser, and prints the address of a page:

    python3 serve.py FOLDER PAGE [PORT]

Without PORT it is a free one. An interrupt ends it.
"""

import functools
import http.server
import sys


def main(folder, page, port=0):
    """Serves until it is interrupted."""
    handler = functools.partial(http.server.SimpleHTTPRequestHandler, directory=folder)
    with http.server.ThreadingHTTPServer(("127.0.0.1", int(port)), handler) as server:
        print(f"http://127.0.0.1:{server.server_port}/{page}", flush=True)
        try:
            server.serve_forever()
        except KeyboardInterrupt:
            print()


if __name__ == "__main__":
    main(*sys.argv[1:])
