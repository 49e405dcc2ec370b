# SPDX-License-Identifier: ISC
# The OpenSSL provider:
#
#     make openssl              # builds the OpenSSL provider, out/openssl/yezdopin.so
#     make openssl-check        # tests the provider beside OpenSSL's own
#     make openssl-later        # tests the provider beside OpenSSL 3.5, Debian 13's
#     make openssl-speed        # times the provider beside OpenSSL's own
#     make openssl-install      # installs it into MODULESDIR=, OpenSSL's folder, in DESTDIR=
#     make openssl-uninstall    # removes what `make openssl-install` installed
#
# It needs OpenSSL 3's headers (Debian: libssl-dev, and for ARCH=aarch64 libssl-dev:arm64 with its
# library, which qemu-user then runs).

PROVIDER_DEB = openssl-provider-yezdopin
PKG_CONFIG ?= pkg-config
# OpenSSL's own folder of modules, from which `module = yezdopin.so` is loaded by its name alone.
MODULESDIR ?= $(shell $(PKG_CONFIG) --variable=modulesdir libcrypto)
# The folder of the configuration, and the system's own, which it reads first.
PROVIDER_DATADIR ?= $(PREFIX)/share/$(PROVIDER_DEB)
PROVIDER_DOCDIR ?= $(PREFIX)/share/doc/$(PROVIDER_DEB)
SYSTEM_CNF ?= $(or $(shell openssl version -d 2>/dev/null \
    | sed -n 's/^OPENSSLDIR: "\(.*\)"$$/\1/p'),/etc/ssl)/openssl.cnf

PROVIDER = $(OUT)/openssl/yezdopin.so
COUNTED = $(OUT)/openssl/counted/yezdopin.so
SANITIZED = $(OUT)/openssl/sanitized/yezdopin.so
PROVIDER_SOURCES = $(sort $(wildcard openssl/*.c))
PROVIDER_MAP = openssl/exports.map
PROVIDER_NEEDS = $(PROVIDER_SOURCES) openssl/provider.h c/rows.h $(HEADER) $(PROVIDER_MAP) $(ARCHIVE)
PROVIDER_LINKS = -shared -Wl,--version-script=$(PROVIDER_MAP) -Wl,-z,relro,-z,now,-z,noexecstack \
    -Wl,--no-undefined $(ARCHIVE) -lcrypto
# The calls that the counted build counts: all that the provider makes.
COUNTED_CALLS = digest digest_init digest_update digest_final hmac_key_init hmac_init hmac_update \
    hmac_final hkdf hkdf_extract hkdf_expand pbkdf2_derive

openssl: $(PROVIDER)

$(PROVIDER): $(PROVIDER_NEEDS)
	mkdir -p $(@D)
	$(CC) $(CPPFLAGS) $(CFLAGS) -ffile-prefix-map='$(CURDIR)'=. $(STRICT) -fPIC $(PROVIDER_SOURCES) $(LDFLAGS) \
	    $(PROVIDER_LINKS) -o $@

$(COUNTED): $(PROVIDER_NEEDS) openssl/test/count.c
	mkdir -p $(@D)
	$(CC) $(CFLAGS) $(STRICT) -fPIC $(PROVIDER_SOURCES) openssl/test/count.c $(PROVIDER_LINKS) \
	    $(COUNTED_CALLS:%=-Wl,--wrap=yz_%) -o $@

$(SANITIZED): $(PROVIDER_NEEDS)
	mkdir -p $(@D)
	$(CC) -O1 -g $(STRICT) -fPIC $(SANITIZERS) $(PROVIDER_SOURCES) \
	    $(filter-out -Wl$(comma)--no-undefined,$(PROVIDER_LINKS)) -o $@

# The tests, each of which takes the folder of the module.
PROVIDER_TESTS = agree orders refused_calls reuse words verifications properties refused_memory \
    wiped
PROVIDER_TEST_HEADERS = openssl/test/agree.h openssl/test/single.h c/test/table.h c/rows.h
SANITIZERS = -fsanitize=address,undefined -fno-sanitize-recover=all
# That libcrypto keeps its tables until the program has ended is no leak.
LEAKS = --leak-check=full --show-leak-kinds=all --errors-for-leak-kinds=all --error-exitcode=9
# Of 8 threads: some 300,000 calls.
AGREE_CASES ?= 2900
LOADS ?= 100
SANITIZED_CASES ?= 100
VALGRIND_CASES ?= 20
VALGRIND_LOADS ?= 20

$(PROVIDER_TESTS:%=$(OUT)/openssl/%): $(OUT)/openssl/%: openssl/test/%.c $(ARCHIVE) \
    $(PROVIDER_TEST_HEADERS) $(wildcard openssl/test/agree_*.c)
	mkdir -p $(@D)
	$(CC) -O1 -g $(STRICT) $(filter %/$*.c %/$*_digests.c %/$*_tags.c %/$*_derivations.c,$^) \
	    $(ARCHIVE) -lcrypto -lpthread -o $@

$(PROVIDER_TESTS:%=$(OUT)/openssl/sanitized/%): $(OUT)/openssl/sanitized/%: openssl/test/%.c \
    $(ARCHIVE) $(PROVIDER_TEST_HEADERS) $(wildcard openssl/test/agree_*.c)
	mkdir -p $(@D)
	$(CC) -O1 -g $(STRICT) $(SANITIZERS) \
	    $(filter %/$*.c %/$*_digests.c %/$*_tags.c %/$*_derivations.c,$^) \
	    $(ARCHIVE) -lcrypto -lpthread -o $@

ifeq ($(ARCH),$(HOST))
openssl-check: openssl-agree openssl-orders openssl-refused openssl-reuse openssl-words \
    openssl-verifications openssl-properties openssl-memory openssl-wiped openssl-sanitized \
    openssl-valgrind openssl-programs openssl-policy openssl-exports openssl-installed
else
# The others want the other processor's own programs and sanitizers.
openssl-check: openssl-agree openssl-orders openssl-refused openssl-reuse openssl-words \
    openssl-properties openssl-memory openssl-wiped openssl-exports openssl-installed
endif

# Random calls beside the default provider's.
openssl-agree: $(PROVIDER) $(OUT)/openssl/agree
	$(RUN) $(OUT)/openssl/agree $(<D) $(AGREE_CASES) 8

# Wrong orders, missing and wrong parameters, records, loading and unloading.
openssl-orders: $(PROVIDER) $(OUT)/openssl/orders
	$(RUN) $(OUT)/openssl/orders $(<D) $(LOADS)

# What a context answers after a refused call.
openssl-refused: $(PROVIDER) $(OUT)/openssl/refused_calls
	$(RUN) $(OUT)/openssl/refused_calls $(<D)

# One context for message after message.
openssl-reuse: $(PROVIDER) $(OUT)/openssl/reuse
	$(RUN) $(OUT)/openssl/reuse $(<D)

# Where words end.
openssl-words: $(PROVIDER) $(OUT)/openssl/words
	$(RUN) $(OUT)/openssl/words $(<D)

# The tags and derived keys of the table of verifications, which are compared outside.
openssl-verifications: $(PROVIDER) $(OUT)/openssl/verifications $(VERIFICATIONS)
	$(RUN) $(OUT)/openssl/verifications $(<D) $(VERIFICATIONS)

# Which digest properties name.
openssl-properties: $(PROVIDER) $(OUT)/openssl/properties
	$(RUN) $(OUT)/openssl/properties $(<D)

# Each allocation refused in turn.
openssl-memory: $(PROVIDER) $(OUT)/openssl/refused_memory
	$(RUN) $(OUT)/openssl/refused_memory $(<D)

# No key, no words made of one and no message is left.
openssl-wiped: $(PROVIDER) $(OUT)/openssl/wiped
	$(RUN) $(OUT)/openssl/wiped $(<D)

openssl-sanitized: $(SANITIZED) $(patsubst %,$(OUT)/openssl/sanitized/%,agree orders \
    refused_calls words properties refused_memory)
	$(<D)/agree $(<D) $(SANITIZED_CASES) 8
	$(<D)/orders $(<D) 20
	$(<D)/refused_calls $(<D)
	$(<D)/words $(<D)
	$(<D)/properties $(<D)
	$(<D)/refused_memory $(<D)

openssl-valgrind: $(PROVIDER) $(OUT)/openssl/agree $(OUT)/openssl/orders \
    $(OUT)/openssl/words $(OUT)/openssl/properties $(OUT)/openssl/refused_memory
	$(VALGRIND) -q $(LEAKS) $(OUT)/openssl/agree $(<D) $(VALGRIND_CASES) 4
	$(VALGRIND) -q $(LEAKS) $(OUT)/openssl/orders $(<D) $(VALGRIND_LOADS)
	$(VALGRIND) -q $(LEAKS) $(OUT)/openssl/words $(<D)
	$(VALGRIND) -q $(LEAKS) $(OUT)/openssl/properties $(<D)
	$(VALGRIND) -q --error-exitcode=9 $(OUT)/openssl/refused_memory $(<D)

# OpenSSL's commands, Python's hashlib, hmac and ssl, and TLS over the counting build.
openssl-programs: $(COUNTED)
	$(PYTHON) -B openssl/test/programs $(<D)

# What both ways of switching on, as installed, leave of the system's configuration.
POLICY_ROOT = $(WHOLE_OUT)/openssl/policy
openssl-policy: $(PROVIDER)
	rm -rf "$(POLICY_ROOT)"
	$(MAKE) --no-print-directory openssl-install DESTDIR= PREFIX="$(POLICY_ROOT)" \
	    MODULESDIR="$(POLICY_ROOT)/modules" SYSTEM_CNF="$(POLICY_ROOT)/system.cnf" >/dev/null
	$(PYTHON) -B openssl/test/policy "$(POLICY_ROOT)" \
	    "$$($(PKG_CONFIG) --variable=modulesdir libcrypto)"

# The module has one name, and needs OpenSSL and these functions of a C library alone.
openssl-exports: $(PROVIDER)
	test "$$($(NM) -D --defined-only $< | awk '{ print $$3 }' | xargs)" = OSSL_provider_init
	test "$$($(READELF) -d $< | sed -n 's/.*(NEEDED).*\[\(.*\)\]/\1/p' | sort | xargs)" = \
	    'libc.so.6 libcrypto.so.3'
	test "$$($(OBJDUMP) -T $< | awk '/GLIBC_/ && !/ w / { print $$NF }' | sort | xargs)" = \
	    '$(filter get%,$(CALLED)) memcpy memmove memset strcspn strlen strnlen'
	test "$$($(OBJDUMP) -T $< | grep -o 'OPENSSL_[0-9.]*' | sort -u | xargs)" = OPENSSL_3.0.0

# The same module and tests beside OpenSSL 3.5: the tests' programs over its library, its own
# commands, and Python's hashlib, hmac and ssl over it.
openssl-later: $(DEBIAN_13)
	PATH="$(DEBIAN_13_PATH):$$PATH" openssl version | grep -q '^OpenSSL 3\.5\.'
	$(MAKE) --no-print-directory openssl-agree openssl-orders openssl-refused openssl-reuse \
	    openssl-words openssl-verifications openssl-properties openssl-memory openssl-wiped RUN='$(DEBIAN_13)/run'
	PATH="$(DEBIAN_13_PATH):$$PATH" \
	    $(MAKE) --no-print-directory openssl-programs PYTHON=python3.13

# The time of each kind of work beside the default provider's, with the instructions that OpenSSL
# finds, and then without SSSE3, AVX, AVX2 and SHA instructions.
openssl-speed: $(PROVIDER) openssl/speed/speed.c
	$(CC) -O2 $(STRICT) openssl/speed/speed.c $(ARCHIVE) -lcrypto -o $(OUT)/openssl/speed
	@$(OUT)/openssl/speed $(<D)
	@OPENSSL_ia32cap='~0x1000020000000000:~0x20000020' $(OUT)/openssl/speed $(<D)

# What is installed under the umask of a careful user, which all may read, and by which paths;
# `openssl-policy` runs it.
PROVIDER_ROOT = $(WHOLE_OUT)/openssl/a root
PROVIDER_SHARED = $(PROVIDER_ROOT)/a prefix/share
openssl-installed: $(PROVIDER)
	rm -rf "$(PROVIDER_ROOT)"
	umask 077 && $(MAKE) --no-print-directory openssl-install DESTDIR="$(PROVIDER_ROOT)" \
	    PREFIX='/a prefix' MODULESDIR='/some modules' SYSTEM_CNF=/etc/ssl/openssl.cnf >/dev/null
	test -z "$$(find "$(PROVIDER_ROOT)" -type f ! -perm -444 -o -type d ! -perm -555)"
	test "$$(cd "$(PROVIDER_ROOT)" && find . -type f | LC_ALL=C sort)" = "$$(printf './%s\n' \
	    'a prefix/share/doc/$(PROVIDER_DEB)/LICENSE' \
	    'a prefix/share/doc/$(PROVIDER_DEB)/README.md' \
	    'a prefix/share/$(PROVIDER_DEB)/sections.cnf' \
	    'a prefix/share/$(PROVIDER_DEB)/state.py' \
	    'a prefix/share/$(PROVIDER_DEB)/yezdopin.cnf' \
	    'some modules/yezdopin.so' | LC_ALL=C sort)"
	test "$$(grep '^\.include' "$(PROVIDER_SHARED)/$(PROVIDER_DEB)/yezdopin.cnf" | xargs -d '\n')" = \
	    '.include /etc/ssl/openssl.cnf .include /a prefix/share/$(PROVIDER_DEB)/sections.cnf'
	$(MAKE) --no-print-directory openssl-uninstall DESTDIR="$(PROVIDER_ROOT)" \
	    PREFIX='/a prefix' MODULESDIR='/some modules' >/dev/null
	test -z "$$(find "$(PROVIDER_ROOT)" ! -type d -o -name $(PROVIDER_DEB))"

openssl-install: $(PROVIDER)
	$(INSTALL) -d "$(DESTDIR)$(MODULESDIR)" "$(DESTDIR)$(PROVIDER_DATADIR)" \
	    "$(DESTDIR)$(PROVIDER_DOCDIR)"
	$(INSTALL) -m 644 $(PROVIDER) "$(DESTDIR)$(MODULESDIR)"
	sed 's|@folder@|$(PROVIDER_DATADIR)|; s|@system@|$(SYSTEM_CNF)|' openssl/yezdopin.cnf.in \
	    >"$(DESTDIR)$(PROVIDER_DATADIR)/yezdopin.cnf"
	chmod 644 "$(DESTDIR)$(PROVIDER_DATADIR)/yezdopin.cnf"
	$(INSTALL) -m 644 openssl/sections.cnf openssl/state.py "$(DESTDIR)$(PROVIDER_DATADIR)"
	$(INSTALL) -m 644 openssl/README.md LICENSE "$(DESTDIR)$(PROVIDER_DOCDIR)"

openssl-uninstall:
	rm -f "$(DESTDIR)$(MODULESDIR)/yezdopin.so"
	for name in sections.cnf state.py yezdopin.cnf; do \
	    rm -f "$(DESTDIR)$(PROVIDER_DATADIR)/$$name"; \
	done
	[ ! -d "$(DESTDIR)$(PROVIDER_DATADIR)" ] || \
	    rmdir --ignore-fail-on-non-empty "$(DESTDIR)$(PROVIDER_DATADIR)"
	rm -rf "$(DESTDIR)$(PROVIDER_DOCDIR)"

# The Debian package, one word of PACKAGES in packaging/dist.mk where OpenSSL's headers are, for the
# same processor. It switches nothing on.
HASH := \#
PROVIDER_PACKAGE = $(shell echo '$(HASH)include <openssl/evp.h>' | $(CC) -E - >/dev/null 2>&1 \
    && echo deb-$(PROVIDER_DEB))
dist-deb-$(PROVIDER_DEB): $(PROVIDER)
	rm -rf "$(WORK)/$(PROVIDER_DEB)"
	$(MAKE) -s --no-print-directory openssl-install DESTDIR="$(WORK)/$(PROVIDER_DEB)" \
	    MODULESDIR=$(DPKG_LIBDIR)/ossl-modules PROVIDER_DATADIR=/usr/share/$(PROVIDER_DEB) \
	    PROVIDER_DOCDIR=/usr/share/doc/$(PROVIDER_DEB) SYSTEM_CNF=/etc/ssl/openssl.cnf
	$(STRIP) --strip-unneeded --remove-section=.comment \
	    "$(WORK)/$(PROVIDER_DEB)$(DPKG_LIBDIR)/ossl-modules/yezdopin.so"
	rm "$(WORK)/$(PROVIDER_DEB)/usr/share/doc/$(PROVIDER_DEB)/LICENSE"
	$(call deb,$(PROVIDER_DEB))

.PHONY: openssl openssl-check openssl-agree openssl-orders openssl-refused openssl-reuse \
    openssl-words openssl-properties openssl-memory openssl-wiped openssl-sanitized \
    openssl-valgrind openssl-programs openssl-policy openssl-exports openssl-installed \
    openssl-later openssl-speed openssl-install openssl-uninstall
