# SPDX-License-Identifier: ISC
# The Python package:
#
#     make python               # builds the Python package in out/python, and tests it
#     make python-versions      # runs its tests under other versions of Python
#     make python-postgresql    # tests its passwords for PostgreSQL beside a server
#     make python-types         # tests the types of the Python package
#     make wheel                # tests the Python package as pip installs it
#     make python-speed         # times the Python package beside hashlib and hmac

# The package with its extension, which has the archive in it.
python: $(ARCHIVE) $(VERIFICATIONS)
	CC='$(CC)' CFLAGS='$(CFLAGS) $(WARNINGS)' YEZDOPIN_LIB_DIR="$(WHOLE_OUT)" \
	    $(PYTHON) -B python/build_backend.py $(OUT)/python
	cd python/test && PYTHONPATH="$(WHOLE_OUT)/python" \
	    VERIFICATIONS="$(WHOLE_OUT)/verifications.txt" $(PYTHON) -B -m unittest discover -q

# The same extension under Debian's Python, with the packages that Debian has for it, and under later
# versions: the system's, or else Debian 13's.
PYTHONS ?= /usr/bin/python3 python3.12 python3.13
python-versions: python
	$(MAKE) --no-print-directory $(DEBIAN_13) || true
	export PATH="$$PATH:$(DEBIAN_13_PATH)"; for it in $(PYTHONS); do \
	    $$it -c '' 2>/dev/null || \
	        { echo "left out: the Python package under $$it, without $$it"; continue; }; \
	    (cd python/test && PYTHONPATH="$(WHOLE_OUT)/python" $$it -B -m unittest discover -q) \
	        || exit 1; \
	done

# Its passwords for PostgreSQL, beside a server.
python-postgresql: python
	PYTHONPATH="$(WHOLE_OUT)/python" $(PYTHON) -B python/test/postgresql.py

# The types that the package tells, beside the extension itself and over a caller.
python-types: python
	cd $(OUT)/python && PYTHONPATH=. $(STUBTEST) yezdopin
	MYPYPATH=$(OUT)/python $(MYPY) --strict --cache-dir=$(OUT)/mypy python/test/typed_caller.py

# The folder as pip installs it, without a network, and its sdist in the same way.
wheel: $(ARCHIVE)
	rm -rf $(OUT)/wheel $(OUT)/sdist && mkdir -p $(OUT)/sdist
	cd python && $(PYTHON) -B -c \
	    'import build_backend, sys; build_backend.build_sdist(sys.argv[1])' "$(WHOLE_OUT)/sdist"
	for it in ./python $(OUT)/sdist/yezdopin-$(VERSION).tar.gz; do \
	    CC='$(CC)' YEZDOPIN_LIB_DIR="$(WHOLE_OUT)" PIP_ROOT_USER_ACTION=ignore \
	        $(PYTHON) -m pip install --quiet --disable-pip-version-check --no-index \
	        --upgrade --target $(OUT)/wheel $$it && \
	    (cd $(OUT)/wheel && $(PYTHON) -B -m doctest yezdopin/__init__.py yezdopin/hmac.py \
        yezdopin/merkle.py yezdopin/password_hash.py yezdopin/tls13.py yezdopin/tokens.py \
        yezdopin/webhook.py) \
	        || exit 1; \
	done

# The Python package beside hashlib and hmac.
python-speed: python
	@PYTHONPATH="$(WHOLE_OUT)/python" $(PYTHON) -B python/speed/beside_hashlib.py

.PHONY: python python-versions python-postgresql python-types wheel python-speed
