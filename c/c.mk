# SPDX-License-Identifier: ISC
# The C library, its tests and what installs it:
#
#     make test                 # tests the library in C: each status, each vector, the stack
#     make builds               # tests which build is chosen, and that both agree
#     make sanitized            # tests the library under ASan and UBSan
#     make header               # compiles the header as C99 and C++11, and compares its manual page
#     make installed            # tests what `make install` installs
#     make moved                # tests a copy in a path with spaces, and a moved installation
#     make exports              # tests the library's names, instructions and memory
#     make sizes                # tests how much of the archive a program takes
#     make traces               # tests under qemu-user that no jump or address depends on a secret
#     make constant-time        # tests the same by valgrind, which needs the kit
#     make instructions-check   # tests the processor's SHA instructions beside their definitions
#     make speed                # times the library, each build, and EARLIER=libyezdopin.so
#     make instructions         # counts a digest's instructions, with ARCH=aarch64
#     make bare                 # builds out/bare/libyezdopin.a, for programs without a system
#     make bare-check           # tests it, by a program without a C library too
#     make install              # installs the library below PREFIX=/usr/local, in DESTDIR=
#     make uninstall            # removes what `make install` installed
#
# The archive is for x86-64-v2 (SSSE3, SSE4.2): a package for older processors can't have it. It has
# two builds of the crate, of which dispatch.c takes that for x86-64-v3 where it is faster and can
# run. The archive for aarch64 has one build, for all such processors. Each has processor.c and
# status.c.

# The names of the header.
$(OUT)/names: $(HEADER)
	mkdir -p $(OUT)
	$(calls_of_header) >$@

$(OBJECTS): $(OUT)/%.o: generated/%.S
	mkdir -p $(@D)
	$(CC) -c $< -o $@

# The library's C, without tables for unwinding, and with a section for each function, as the builds
# are.
COMPILED = $(CC) $(CPPFLAGS) $(LIBRARY_CFLAGS) -fPIC -fno-lto -fno-asynchronous-unwind-tables \
    -ffunction-sections $(STRICT)
$(OUT)/dispatch.o $(OUT)/processor.o $(OUT)/status.o: $(OUT)/%.o: c/%.c c/processor.h $(HEADER)
	mkdir -p $(@D)
	$(COMPILED) -c $< -o $@

# $(call one_object,OBJECTS): one object of some, which shows the names of the header alone and has
# only what these reach. What LLVM noted of symbols for a linker isn't true of it any more.
define one_object
	$(LD) -r --gc-sections $$(sed 's/^/--undefined=/' $(OUT)/names) -o $(@D)/yezdopin.o $(1)
	$(OBJCOPY) --remove-section=.llvm_addrsig --keep-global-symbols=$(OUT)/names $(@D)/yezdopin.o
endef

# $(call archive,OBJECTS): an archive of one object, which tests and `make speed` take.
define archive
	$(call one_object,$(1))
	rm -f $@
	$(AR) rcsD $@ $(@D)/yezdopin.o
endef

# $(call split,TEXT,FOLDER,BUILD,FILTER): the objects that split.awk makes of a text, in a folder.
define split
	rm -rf $(2)
	mkdir -p $(2)
	$(CC) -E $(1) -o $(2)/text
	$(or $(4),cat) $(2)/text | awk -v folder=$(2) -v build=$(3) -f c/split.awk
	for it in $(2)/*.s; do $(CC) -c $$it -o $${it%.s}.o || exit 1; done
endef

# An object for each call of the dispatcher, of what this one reaches alone, without debug
# information, since each would have all of it.
define split_dispatcher
	rm -rf $(PIECES)/calls
	mkdir -p $(PIECES)/calls
	for it in $$($(NM) -g --defined-only $(OUT)/dispatch.o | awk 'NF == 3 { print $$3 }'); do \
	    $(LD) -r --gc-sections --undefined=$$it $(OUT)/dispatch.o -o $(PIECES)/calls/$$it.o && \
	    $(OBJCOPY) --strip-debug --remove-section=.llvm_addrsig -w \
	        --strip-unneeded-symbol='v[23]_yz_*' $(PIECES)/calls/$$it.o || exit 1; \
	done
endef

# $(call pack_archive,OBJECTS): in the same order under each locale.
define pack_archive
	rm -f $@
	LC_ALL=C; $(AR) rcsD $@ $(1)
endef

# The archive has objects of what the same calls reach, so that a program takes only what it calls.
# The names between these are hidden, and begin with `yz`, `v2_yz` or `v3_yz`.
PIECES = $(OUT)/pieces

# What tests run over: the archive, and where it has two builds those with one each.
BUILDS = $(ARCHIVE)
TESTED = $(sort $(ARCHIVE) $(BUILDS))

ifeq ($(origin BUILT),command line)
# A finished archive is taken as it is, and the object beside it.
$(ARCHIVE): $(BUILT)
	mkdir -p $(OUT)
	cp $(BUILT) $@
$(WHOLE): $(dir $(BUILT))yezdopin.o
	mkdir -p $(OUT)
	cp $< $@
else ifeq ($(SYSTEM),Darwin)
$(ARCHIVE): $(OUT)/macos/libyezdopin.a
	cp $< $@
else ifneq ($(ARCH),x86_64)
$(WHOLE): $(OUT)/processor.o $(OUT)/status.o $(OBJECTS) $(OUT)/names
	$(call one_object,$(filter %.o,$^))
$(ARCHIVE): $(OUT)/processor.o $(OUT)/status.o $(TEXTS) c/split.awk c/c.mk
	$(call split,$(TEXTS),$(PIECES))
	$(call pack_archive,$(PIECES)/*.o $(filter %.o,$^))
else
BUILDS = $(ARCHIVE_V2) $(ARCHIVE_V3)

$(OUT)/v2/%.o: c/%.c c/processor.h $(HEADER)
	mkdir -p $(@D)
	$(COMPILED) -DFORCED=2 -c $< -o $@
$(OUT)/v3/%.o: c/%.c c/processor.h $(HEADER)
	mkdir -p $(@D)
	$(COMPILED) -DFORCED=3 -c $< -o $@

$(ARCHIVE_V2) $(ARCHIVE_V3): %/libyezdopin.a: \
    %/dispatch.o %/processor.o $(OUT)/status.o $(OBJECTS) $(OUT)/names
	$(call archive,$(filter %.o,$^))
$(WHOLE): $(OUT)/dispatch.o $(OUT)/processor.o $(OUT)/status.o $(OBJECTS) $(OUT)/names
	$(call one_object,$(filter %.o,$^))
$(ARCHIVE): $(OUT)/dispatch.o $(OUT)/processor.o $(OUT)/status.o $(TEXTS) c/split.awk c/c.mk
	$(call split,$(firstword $(TEXTS)),$(PIECES)/v2,v2_)
	$(call split,$(lastword $(TEXTS)),$(PIECES)/v3,v3_)
	$(split_dispatcher)
	$(call pack_archive,$(PIECES)/*/*.o $(OUT)/processor.o $(OUT)/status.o)
endif

# $(call shared,OBJECTS): the shared library of an archive or an object.
define shared
	$(CC) $(LIBRARY_CFLAGS) $(LDFLAGS) -shared -nostartfiles -o $@ \
	    -Wl,--whole-archive $(1) -Wl,--no-whole-archive -Wl,-soname,$(SONAME) \
	    -Wl,--version-script=c/exports.map -Wl,-z,relro,-z,now,-z,noexecstack \
	    -Wl,--no-undefined -lc
endef

$(SHARED): $(WHOLE) c/exports.map
	$(call shared,$(WHOLE))
	ln -sf libyezdopin.so.$(VERSION) $(OUT)/$(SONAME)
	ln -sf $(SONAME) $(OUT)/libyezdopin.so

# $(call on_each,ARCHIVES,COMMANDS): runs them over each archive, $$archive, with what they make in
# its folder, $$room. That for x86-64-v3 is left out on a processor that has no AVX2.
on_each = for archive in $(1); do \
    room=$${archive%/*}; \
    case $$archive in */v3/libyezdopin.a) $(has_avx2) || continue ;; esac; \
    $(2) || exit 1; \
    done
HEADER_PLACES = $(if $(filter x86_64,$(ARCH)),-DBEFORE -DBEHIND,-DALONE)
HEADER_FLAGS = -pedantic -Wall -Wextra -Werror -Ic/include -fsyntax-only
has_cxx = { command -v $(firstword $(CXX)) >/dev/null || \
    { echo 'left out: the header as C++11, without $(firstword $(CXX))'; false; }; }
has_avx2 = { grep -qw avx2 /proc/cpuinfo || { echo 'left out: x86-64-v3, without AVX2'; false; }; }

# The tests of statuses and values.
STATUS_TESTS = test merkle password_hashes tokens webhooks tls13

# Each status and each vector, threads that share a key, and how much stack the calls take.
test: $(TESTED)
	for it in $(STATUS_TESTS); do \
	    $(call on_each,$(TESTED),$(CC) $(CFLAGS) $(STRICT) c/test/$$it.c $$archive -o $$room/$$it \
	        && $(RUN) $$room/$$it) || exit 1; \
	done
	$(call on_each,$(TESTED),$(CC) $(CFLAGS) $(STRICT) c/test/vectors.c $$archive -o $$room/vectors \
	    && $(RUN) $$room/vectors $(VECTORS))
	$(call on_each,$(TESTED),$(CC) $(CFLAGS) $(STRICT) c/test/threads.c $$archive -lpthread \
	    -o $$room/threads && $(RUN) $$room/threads)
	$(call on_each,$(TESTED),$(CC) $(CFLAGS) $(STRICT) c/test/stack.c $$archive -o $$room/stack \
	    && $(RUN) $$room/stack)

# The right value of each verification and each near it, over each archive and in each package.
$(VERIFICATIONS): $(wildcard tests/verifications/*.py) \
    $(addprefix tests/,merkle.py password_hashes.py tokens.py)
	mkdir -p $(@D)
	$(PYTHON) -B tests/verifications --write $@

verifications: $(TESTED) $(VERIFICATIONS)
	$(call on_each,$(TESTED),$(CC) $(CFLAGS) $(STRICT) c/test/verifications.c $$archive \
	    -o $$room/verifications && $(RUN) $$room/verifications $(VERIFICATIONS))

ifneq ($(BUILDS),$(ARCHIVE))
# What the dispatcher chooses, as PLATFORMS.md's table has it; that the calls of the build for
# x86-64-v2 have no newer instructions; and where the kit's builds are, which have all calls, that
# these are one library.
builds: $(ARCHIVE_V2)
	for it in '' 2 3; do \
	    $(CC) $(CFLAGS) $(STRICT) $${it:+-DFORCED=$$it} c/test/dispatch.c -o $(OUT)/dispatch$$it \
	        && $(OUT)/dispatch$$it || exit 1; \
	done
	$(OUT)/dispatch table >$(OUT)/dispatch.table
	sed -n '/^|Calls|/,/^$$/ { /^$$/d; p }' c/PLATFORMS.md | diff - $(OUT)/dispatch.table
	objdump -d $(ARCHIVE_V2) >$(OUT)/v2/archive.text
	! grep -E '%ymm|\s(v[a-z0-9]+|andn|bls[a-z]+|bzhi|lzcnt|movbe|mulx|p(dep|ext)|rorx|s[ah][lr]x)\s' \
	    $(OUT)/v2/archive.text
	if $(MAKE) -q $(BUILT) >/dev/null 2>&1; then \
	    $(MAKE) --no-print-directory $(KEPT) builds-agree; \
	else echo "left out: builds-agree, without the kit's builds (make generated-check)"; fi
else
builds:
	@echo 'left out: builds, since this archive has none by themselves'
endif

sanitized: $(BUILDS)
	for it in $(STATUS_TESTS); do \
	    $(call on_each,$(BUILDS),$(CC) -O1 -g $(SANITIZERS) $(STRICT) c/test/$$it.c $$archive \
	        -o $$room/$$it.sanitized && $$room/$$it.sanitized) || exit 1; \
	done

ifeq ($(ARCH),x86_64)
# The header's text for Microsoft's compiler, with a stand-in for <intrin.h>, beside the other one,
# also on processors that lack a part of x86-64-v2.
define SUPPORTED
	mkdir -p $(OUT)
	$(CC) -std=c99 $(WARNINGS) -ffreestanding -U__x86_64__ -D_M_X64 -Ic/test/microsoft -Ic/include \
	    -Dis_supported=is_supported_for_microsoft -c c/test/header.c -o $(OUT)/microsoft.o
	$(CC) -std=c99 $(WARNINGS) -Ic/include c/test/header.c c/test/microsoft/supported.c \
	    $(OUT)/microsoft.o -o $(OUT)/supported
	$(OUT)/supported
	! { command -v qemu-x86_64 >/dev/null || \
	    { echo 'left out: yz_supported on older processors, without qemu-x86_64'; false; }; } || \
	for it in pni ssse3 cx16 sse4.1 sse4.2 popcnt lahf-lm; do \
	    qemu-x86_64 -cpu Nehalem,-$$it $(OUT)/supported || exit 1; \
	done
endef
endif

ifeq ($(ARCH),x86_64)
# On a 32-bit processor the header says so, before a linker would.
define REFUSED
	$(CC) -m32 -ffreestanding -Ic/include -fsyntax-only -x c $(HEADER) 2>&1 | \
	    grep -q 'yezdopin is for 64-bit processors'
endef
endif

# The header as C99 and C++11, before <cpuid.h> and behind it, and its manual page.
header:
	for it in $(HEADER_PLACES); do \
	    $(CC) -std=c99 $(HEADER_FLAGS) $$it -x c c/test/header.c || exit 1; \
	done
	! $(has_cxx) || for it in $(HEADER_PLACES); do \
	    $(CXX) -std=c++11 $(HEADER_FLAGS) -Wold-style-cast $$it -x c++ c/test/header.c || exit 1; \
	done
	$(SUPPORTED)
	$(REFUSED)
	$(call without,$(PYTHON),the manual page beside the header)
	$(call with,$(PYTHON),c/test/manual $(HEADER) c/man/yezdopin.3)

# What is installed under the umask of a careful user, which all may read, and the example, built
# against it by hand, so that no pkg-config is needed.
installed: all
	rm -rf "$(ROOT)"
	umask 077 && $(MAKE) --no-print-directory install DESTDIR="$(ROOT)" PREFIX=/usr \
	    LIBDIR=/usr/lib INCLUDEDIR=/usr/include DOCDIR=/usr/share/doc/yezdopin \
	    MANDIR=/usr/share/man >/dev/null
	test -z "$$(find "$(ROOT)"/usr -type f ! -perm -444 -o -type d ! -perm -555)"
	$(CC) $(CFLAGS) $(STRICT) -I"$(ROOT)/usr/include" c/examples/sign.c -L"$(ROOT)/usr/lib" \
	    -lyezdopin -Wl,-rpath,"$(ROOT)/usr/lib" -o $(OUT)/sign
	test "$$($(RUN) $(OUT)/sign 'what do ya want for nothing?' Jefe)" = \
	    5bdcc146bf60754e6a042426089575c75a003f089d2739839dec58b964ec3843 # RFC 4231, test case 2
	$(RUN) $(OUT)/sign >$(OUT)/sign.out 2>$(OUT)/sign.err; test $$? = 2
	test ! -s $(OUT)/sign.out && grep -qx 'usage: .*/sign MESSAGE KEY' $(OUT)/sign.err

# The folder in a path with a space, and what it installs moved to another prefix.
moved: $(ARCHIVE)
	c/test/moved $(ARCHIVE)

# The instructions but for those of `number_in` and `put_number`, which read and write the decimals
# of an iteration count and of a time in a header, of `put_base64` and of base64's own calls, which
# divide the length of a field or a token, as `yz_jws_sign` does, and of `yz_password_hash_salt`,
# which makes letters of random bytes: a password hash's text, with its salt, is no secret, and no
# length is. Nor is a time, which `yz_totp` and `yz_totp_find` divide. `write` and
# `find_hotp_counted` make digits of four bytes of a tag: CALLS.md says so.
PUBLIC = number_in|put_(base64|number)|yz_password_hash_salt|code_slice|yz_(jws_sign|totp)
OF_DIGITS = otp(\.|::)(write|find_hotp_counted)
of_secrets = awk '/^[0-9a-f]+ </ { open = /$(PUBLIC)|$(OF_DIGITS)/ } !open' \
    $(OUT)/archive.text
# Of these, the ones of `yz_digest_each`, which multiplies the number and the places of digests by
# their length, and those of all other calls.
of_each = $(of_secrets) | awk '/^[0-9a-f]+ </ { open = /yz_digest_each/ } open'
of_others = $(of_secrets) | awk '/^[0-9a-f]+ </ { open = !/yz_digest_each/ } open'
counted = sort | uniq -c | xargs

# How often each function has each of the processor's SHA instructions.
of_kernels = awk -F'\t' '/^[0-9a-f]+ </ { split($$1, it, "[<>.]") } \
    /^[0-9a-f]+ </ { name = it[4] "." it[5] "." it[6] } \
    $$3 ~ /^sha(1|256|512)/ { split($$3, it, " "); print name, it[1] }' $(OUT)/archive.text | sort \
    | uniq -c | awk '$$2 != name { name = $$2; printf "%s%s:", (NR > 1 ? "\n" : ""), name } \
    { printf " %s %s", $$1, $$3 } END { print "" }'

ifeq ($(ARCH),x86_64)
# Both builds, without division and multiplication of what may be secret.
CALLED = getenv memcpy memmove memset
OF_SHA1 = 16 sha1msg1 16 sha1msg2 22 sha1nexte 20 sha1rnds4
OF_SHA256 = 12 sha256msg1 12 sha256msg2 32 sha256rnds2
MULTIPLIES = '\s(v?p?i?mul|v?i?div)[a-z0-9]*\s'
define INSTRUCTIONS
	grep -q '%ymm' $(OUT)/archive.text
	! $(of_others) | grep -E $(MULTIPLIES)
	test "$$($(of_each) | grep -oE $(MULTIPLIES) | $(counted))" = \
	    '4 imul 4 mul'
endef
else
# No division, and a multiplication of the place of a round of PBKDF2 by what one takes.
CALLED = getauxval getenv memcpy memmove memset
OF_SHA1 = 5 sha1c 20 sha1h 5 sha1m 10 sha1p 16 sha1su0 16 sha1su1
OF_SHA256 = 16 sha256h 16 sha256h2 12 sha256su0 12 sha256su1
MULTIPLIES = '$$3 ~ /mul|ml[as]|m(add|sub|neg)|dot|div|sqrt/ { print $$3 }'
define INSTRUCTIONS
	test "$$($(of_others) | awk $(MULTIPLIES) | $(counted))" = '1 madd'
	test "$$($(of_each) | awk $(MULTIPLIES) | $(counted))" = '5 mul 5 umulh'
endef
endif

# What a linker defines by itself, and Debian 11's assembler names in an object.
LINKERS = _GLOBAL_OFFSET_TABLE_

# The tables of addresses of constants, which nothing writes once they are loaded.
addresses = $(SIZE) -A $(WHOLE) | awk '/^\.data\.rel\.ro\./ { sum += $$2 } END { print sum + 0 }'

# The library shows the names of the header alone, calls nothing but what C compilers call by
# themselves and what processor.c asks, and has no other memory than the two bytes and the pointer
# of processor.c, and no other instructions than the above. The kernels over the processor's SHA
# instructions have these as often as a block takes them, and no other function has any.
exports: all
	test "$$($(NM) -u $(WHOLE) | awk '$$1 == "U" && $$2 != "$(LINKERS)" { print $$2 }' | sort \
	    | xargs)" = '$(CALLED)'
	$(NM) -g --defined-only $(WHOLE) | awk '{ print $$3 }' | sort | xargs >$(OUT)/whole.names
	$(NM) -D --defined-only $(SHARED) | awk '$$2 == "T" { sub(/@.*/, "", $$3); print $$3 }' \
	    | sort | xargs >$(OUT)/shared.names
	test "$$($(calls_of_header) | xargs)" = "$$(xargs <$(OUT)/whole.names)"
	diff $(OUT)/whole.names $(OUT)/shared.names
	test "$$($(SIZE) $(WHOLE) | awk 'NR > 1 { print $$2, $$3 }')" = "$$(($$($(addresses)) + 8)) 2"
	$(OBJDUMP) -d $(WHOLE) >$(OUT)/archive.text
	grep -q '\bretq\?\b' $(OUT)/archive.text
	$(INSTRUCTIONS)
	$(of_kernels) >$(OUT)/archive.kernels
	for it in 'sha1 $(OF_SHA1)' 'sha2 $(OF_SHA256)'; do for of in blocks words; do \
	    echo "$${it%% *}.by_instruction.run_$$of: $${it#* }"; \
	done; done | diff - $(OUT)/archive.kernels
	$(READELF) -d $(SHARED) | grep -q 'SONAME.*\[$(SONAME)\]'
	NM='$(NM)' READELF='$(READELF)' c/test/names $(ARCHIVE) $(WHOLE) '$(CALLED)'

# How much of the archive a program takes.
sizes: $(ARCHIVE)
	CC='$(CC)' SIZE='$(SIZE)' c/test/sizes $(ARCHIVE) '$(RUN)'

ifneq ($(ARCH),$(HOST))
# valgrind runs programs of its own processor alone.
constant-time: traces
else
constant-time: $(TESTED) $(DEFINED) $(PLANTED)
	$(call on_each,$(TESTED) $(DEFINED),$(CC) -O1 -g $(STRICT) c/test/constant_time.c $$archive \
	    $(PLANTED) -o $$room/constant_time \
	    && $(VALGRIND) -q --log-file=$$room/constant_time.log $$room/constant_time)
endif

# The same by a comparison of traces under qemu-user.
traces: $(BUILDS)
	for archive in $(BUILDS); do \
	    HOSTCC='$(HOSTCC)' CC='$(CC)' NM='$(NM)' c/test/traces/compare '$(EMULATOR)' $$archive \
	        || exit 1; \
	done

# The processor's SHA instructions: the program that puts them in the place of functions, the
# library with and without them, and, with the kit, each beside its proved definition, on INPUTS.
INPUTS ?= 10000000
instructions-check: $(ARCHIVE)
	$(PYTHON) -B generated/make/instructions_test.py
	CC='$(CC) $(CFLAGS) $(STRICT)' c/test/instructions/check $(ARCHIVE) '$(RUN)' $(VECTORS)
	if command -v $(RT) >/dev/null; then \
	    $(MAKE) --no-print-directory $(KEPT) instructions-compare; \
	else echo 'left out: each SHA instruction beside its definition, without rt'; fi

# What is timed: the library, and where it has two builds each alone.
TIMED = $(SHARED) $(patsubst %.a,%.so,$(filter-out $(ARCHIVE),$(BUILDS)))
$(sort $(filter-out $(SHARED),$(TIMED)) $(KIT_TIMED)): %.so: %.a c/exports.map
	$(call shared,$<)

# The program, with OpenSSL 3 and libsodium, each where its header is, and with RING_SPEED, which
# speed/run builds.
speed-program: $(TIMED)
	libraries=; for it in openssl/core_names.h:-lcrypto sodium.h:-lsodium; do \
	    echo "#include <$${it%:*}>" | $(CC) -E - >/dev/null 2>&1 && \
	        libraries="$$libraries $${it#*:}"; \
	done; \
	$(CC) -O2 -std=gnu11 $(WARNINGS) -Ic/include c/speed/*.c $(RING_SPEED) $$libraries -ldl \
	    -o $(OUT)/speed

# The second run is beside OpenSSL's integer code: what it runs without SSSE3, AVX, AVX2 and SHA
# instructions.
speed: speed-program
	@$(OUT)/speed $(if $(EARLIER),--earlier '$(EARLIER)') $(TIMED)
	@OPENSSL_ia32cap='~0x1000020000000000:~0x20000020' $(OUT)/speed $(TIMED)

# How many instructions a digest runs on 64-bit ARM, of which no processor was timed.
instructions: $(ARCHIVE)
	@test $(ARCH) = aarch64 || { echo 'make: instructions wants ARCH=aarch64' >&2; exit 1; }
	@HOSTCC='$(HOSTCC)' CC='$(CC)' NM='$(NM)' c/speed/instructions/count '$(EMULATOR)' $(ARCHIVE)

# One build without the dispatcher, which asks no processor and reads no environment: an object for
# each function, so that a static program takes only what it calls (docs/EMBEDDED.md).
# SHA_INSTRUCTIONS=1 is for processors that have them.
BARE = $(OUT)/bare$(if $(filter 1,$(SHA_INSTRUCTIONS)),_sha)
BARE_ARCHIVE = $(BARE)/libyezdopin.a
BARE_LEAST = 40960
SHA_INSTRUCTIONS = 0
BARE_C = $(CC) $(CPPFLAGS) $(LIBRARY_CFLAGS) -ffreestanding -ffunction-sections $(STRICT) \
    -DFORCED=2 -DINSTRUCTIONS=$(SHA_INSTRUCTIONS)

bare: $(BARE_ARCHIVE)

$(BARE_ARCHIVE): $(firstword $(TEXTS)) c/split.awk c/processor.c c/processor.h c/status.c $(HEADER)
	$(call split,$<,$(BARE)/pieces,,sed '/\.hidden v2_yz_/d; s/v2_yz_/yz_/g')
	for it in processor status; do $(BARE_C) -c c/$$it.c -o $(BARE)/pieces/$$it.o || exit 1; done
	$(call pack_archive,$(BARE)/pieces/*.o)

# The calls of the header are there, and nothing is asked for but three functions of memory; each
# vector; and a whole program without a C library, which is small, and is told what it runs.
bare-check: $(BARE_ARCHIVE) $(OUT)/names
	$(NM) --defined-only -g $(BARE_ARCHIVE) | awk 'NF == 3 { print $$3 }' | sort -u >$(BARE)/defined
	$(NM) -u $(BARE_ARCHIVE) | awk 'NF == 2 && $$1 == "U" { print $$2 }' | sort -u | \
	    comm -23 - $(BARE)/defined | xargs | grep -qx 'memcpy memmove memset'
	test -z "$$(sort $(OUT)/names | comm -23 - $(BARE)/defined)"
	$(CC) $(CFLAGS) $(STRICT) c/test/vectors.c $(BARE_ARCHIVE) -o $(BARE)/vectors
	$(RUN) $(BARE)/vectors $(VECTORS)
	$(CC) -O2 -ffreestanding -nostdlib -static $(STRICT) -DINSTRUCTIONS=$(SHA_INSTRUCTIONS) \
	    c/test/bare.c $(BARE_ARCHIVE) -o $(BARE)/program
	$(RUN) $(BARE)/program
	$(SIZE) $(BARE)/program | awk 'NR == 2 { print $$4 " bytes in a program without a C library"; \
	    exit $$4 > $(BARE_LEAST) }'

# A folder as yezdopin.pc has it: by the prefix where it is below it, so that pkg-config can be told
# another prefix.
by_prefix = $(subst ^,,$(subst ^$(PREFIX)/,$${prefix}/,^$(1)))

install: all
	@test $(SYSTEM) != Darwin || \
	    { echo 'make: on a Mac unpack what macos-tarball makes' >&2; exit 1; }
	$(INSTALL) -d "$(DESTDIR)$(INCLUDEDIR)" "$(DESTDIR)$(LIBDIR)/pkgconfig" \
	    "$(DESTDIR)$(CMAKEDIR)" "$(DESTDIR)$(DOCDIR)/examples" "$(DESTDIR)$(MANDIR)/man3"
	$(INSTALL) -m 644 $(HEADER) "$(DESTDIR)$(INCLUDEDIR)"
	$(INSTALL) -m 644 $(ARCHIVE) "$(DESTDIR)$(LIBDIR)"
	$(INSTALL) -m 755 $(SHARED) "$(DESTDIR)$(LIBDIR)"
	cp -P $(OUT)/$(SONAME) $(OUT)/libyezdopin.so "$(DESTDIR)$(LIBDIR)"
	sed -e 's|@prefix@|$(PREFIX)|; s|@libdir@|$(call by_prefix,$(LIBDIR))|' \
	    -e 's|@includedir@|$(call by_prefix,$(INCLUDEDIR))|; s|@version@|$(VERSION)|' \
	    -e 's|@processor@|$(PROCESSOR)|' c/yezdopin.pc.in >"$(DESTDIR)$(LIBDIR)/pkgconfig/yezdopin.pc"
	chmod 644 "$(DESTDIR)$(LIBDIR)/pkgconfig/yezdopin.pc"
	for name in yezdopin-config yezdopin-config-version; do \
	    sed -e 's|@includedir@|$(INCLUDEDIR)|; s|@soname@|$(SONAME)|; s|@version@|$(VERSION)|' \
	        -e 's|@major@|$(MAJOR)|; s|@shared@|$(SONAME)|' c/cmake/$$name.cmake.in \
	        >"$(DESTDIR)$(CMAKEDIR)/$$name.cmake" && \
	    chmod 644 "$(DESTDIR)$(CMAKEDIR)/$$name.cmake" || exit 1; \
	done
	$(INSTALL) -m 644 c/README.md c/CALLS.md LICENSE "$(DESTDIR)$(DOCDIR)"
	# Nothing that the pages link to is installed beside them.
	sed -i 's/\[\([^][]*\)\](\([^):]*\))/\1/g' "$(DESTDIR)$(DOCDIR)"/*.md
	$(INSTALL) -m 644 c/examples/sign.c "$(DESTDIR)$(DOCDIR)/examples"
	sed 's|@version@|$(VERSION)|' c/man/yezdopin.3 >"$(DESTDIR)$(MANDIR)/man3/yezdopin.3"
	chmod 644 "$(DESTDIR)$(MANDIR)/man3/yezdopin.3"
	for name in $$($(pages_of_header)); do \
	    echo '.so man3/yezdopin.3' >"$(DESTDIR)$(MANDIR)/man3/$$name.3" && \
	    chmod 644 "$(DESTDIR)$(MANDIR)/man3/$$name.3" || exit 1; \
	done
	@echo 'libyezdopin $(VERSION) is installed below $(DESTDIR)$(PREFIX)'

uninstall:
	rm -f "$(DESTDIR)$(INCLUDEDIR)/yezdopin.h" "$(DESTDIR)$(LIBDIR)/pkgconfig/yezdopin.pc" \
	    "$(DESTDIR)$(MANDIR)/man3/yezdopin.3"
	for name in libyezdopin.a libyezdopin.so $(SONAME) $(notdir $(SHARED)); do \
	    rm -f "$(DESTDIR)$(LIBDIR)/$$name"; \
	done
	for name in $$($(pages_of_header)); do rm -f "$(DESTDIR)$(MANDIR)/man3/$$name.3"; done
	rm -rf "$(DESTDIR)$(DOCDIR)" "$(DESTDIR)$(CMAKEDIR)"
	# The folders of others stay, as they have other files.
	for folder in "$(LIBDIR)/cmake" "$(LIBDIR)/pkgconfig" "$(MANDIR)/man3" \
	    "$$(dirname "$(DOCDIR)")"; do \
	    rmdir "$(DESTDIR)$$folder" 2>/dev/null || true; \
	done
	@echo 'libyezdopin is removed from $(DESTDIR)$(PREFIX)'

.PHONY: test verifications builds sanitized header installed moved exports sizes constant-time \
    traces instructions-check speed speed-program instructions bare bare-check install uninstall
