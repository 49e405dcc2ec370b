# SPDX-License-Identifier: ISC
# The library for macOS, in out/macos, built and tested on Linux, and its package:
#
#     make macos                # builds the library for macOS in out/macos, for both processors
#     make macos-check          # tests the dylib's own code, run by a loader for Linux
#     make macos-tarball        # packs it as a tarball in out/dist
#
# Where a tool is missing they say what they leave out, and make the rest. The tools are Debian's
# clang-19, lld-19 and llvm-19. On a Mac plain `make` is `make macos`, by its own compiler. The text
# is that for Linux.

MACOS = $(OUT)/macos
DYLIB = libyezdopin.$(MAJOR).dylib
UNIVERSAL = $(MACOS)/$(DYLIB) $(MACOS)/libyezdopin.a
apple_arch = $(if $(filter %/aarch64,$(1)),arm64,x86_64)
ifeq ($(SYSTEM),Darwin)
apple_cc = $(CC) -arch $(call apple_arch,$(1)) -mmacosx-version-min=11.0
APPLE_AR = ar rcs
LIPO ?= lipo
APPLE_TOOLS = $(CC) ar $(LIPO)
else
# In the place of Apple's: what the library takes of a header, and the names of its libSystem.
apple_cc = clang-$(LLVM) --target=$(call apple_arch,$(1))-apple-macosx11 -ffreestanding \
    -nostdlibinc -isystem packaging/macos
APPLE_AR = llvm-ar-$(LLVM) rcsD --format=darwin
APPLE_LINKED = -fuse-ld=lld -nostdlib packaging/macos/libSystem.tbd -Wl,-adhoc_codesign
LIPO ?= llvm-lipo-$(LLVM)
APPLE_TOOLS = clang-$(LLVM) ld64.lld-$(LLVM) llvm-ar-$(LLVM) $(LIPO)
endif

$(MACOS)/names: $(HEADER)
	mkdir -p $(@D)
	$(calls_of_header) >$@

define apple_compiled
	mkdir -p $(@D)
	$(call apple_cc,$(@D)) -O2 -fPIC $(STRICT) -c $< -o $@
endef
$(MACOS)/x86_64/%.o: generated/%.S
	$(apple_compiled)
$(MACOS)/aarch64/%.o: generated/%.S
	$(apple_compiled)
$(MACOS)/x86_64/%.o: c/%.c c/processor.h $(HEADER)
	$(apple_compiled)
$(MACOS)/aarch64/%.o: c/%.c c/processor.h $(HEADER)
	$(apple_compiled)

$(MACOS)/x86_64/libyezdopin.a: $(addprefix $(MACOS)/x86_64/, \
    dispatch.o processor.o status.o yezdopin_x86_64_v2.o yezdopin_x86_64_v3.o)
$(MACOS)/aarch64/libyezdopin.a: $(addprefix $(MACOS)/aarch64/, \
    processor.o status.o yezdopin_aarch64.o)
$(MACOS)/x86_64/libyezdopin.a $(MACOS)/aarch64/libyezdopin.a:
	rm -f $@
	$(APPLE_AR) $@ $^
$(MACOS)/x86_64/$(DYLIB) $(MACOS)/aarch64/$(DYLIB): %/$(DYLIB): %/libyezdopin.a $(MACOS)/names \
    packaging/macos/libSystem.tbd
	sed 's/^/_/' $(MACOS)/names >$(@D)/exported
	$(call apple_cc,$(@D)) -dynamiclib -Wl,-all_load $< -install_name @rpath/$(DYLIB) \
	    -Wl,-compatibility_version,$(MAJOR) -Wl,-current_version,$(VERSION) \
	    -Wl,-exported_symbols_list,$(@D)/exported $(APPLE_LINKED) -o $@
$(UNIVERSAL): $(MACOS)/%: $(MACOS)/aarch64/% $(MACOS)/x86_64/%
	$(LIPO) -create $^ -output $@

macos: $(call with,$(APPLE_TOOLS),$(UNIVERSAL))
	$(call without,$(APPLE_TOOLS),the library for macOS)

ifeq ($(SYSTEM),Darwin)
macos-check: macos
	for test in $(STATUS_TESTS) vectors; do \
	    $(CC) -O2 $(STRICT) c/test/$$test.c $(MACOS)/libyezdopin.a -o $(MACOS)/$$test && \
	    $(MACOS)/$$test $$(test $$test != vectors || echo '$(VECTORS)') || exit 1; \
	done
else
# The tests of Linux over the dylib's code for ARCH, that this is the code of Linux, and its names.
CODE = $(MACOS)/$(ARCH)
macos-tests: $(CODE)/$(DYLIB) $(OBJECTS) $(MACOS)/names
	sed 's/.*/X(&)/' $(MACOS)/names >$(CODE)/calls.h
	for test in $(STATUS_TESTS) vectors stack; do \
	    $(CC) -O2 -std=gnu11 $(WARNINGS) -Wno-pedantic -Ic/include -I$(CODE) c/test/$$test.c \
	        c/test/macho.c -o $(CODE)/$$test && \
	    YEZDOPIN_DYLIB=$(CODE)/$(DYLIB) $(RUN) $(CODE)/$$test \
	        $$(test $$test != vectors || echo '$(VECTORS)') || exit 1; \
	done
	for it in $(notdir $(OBJECTS)); do \
	    $(PYTHON) -B c/test/same_code.py $(OUT)/$$it $(CODE)/$$it || exit 1; \
	done
	test "$$(llvm-nm-$(LLVM) -gU $(CODE)/$(DYLIB) | awk '{ print $$3 }' | sort | xargs)" = \
	    "$$(sed 's/^/_/' $(MACOS)/names | sort | xargs)"
	! llvm-objdump-$(LLVM) -d $(CODE)/$(DYLIB) | grep -m 1 -E '\b[wx]18\b'

MACOS_TESTS = $(APPLE_TOOLS) llvm-nm-$(LLVM) llvm-objdump-$(LLVM) $(CC) $(firstword $(RUN)) \
    $(PYTHON)
macos-tests-here: $(call with,$(MACOS_TESTS),macos-tests)
	$(call without,$(MACOS_TESTS),the tests of the code for macOS on $(ARCH))
macos-check: macos
	$(MAKE) -s --no-print-directory ARCH=x86_64 MACOS=$(MACOS) macos-tests-here
	$(MAKE) -s --no-print-directory ARCH=aarch64 MACOS=$(MACOS) macos-tests-here
endif

# The package.

LACKS_macos-tarball = $(call missing,$(APPLE_TOOLS) $(TAR))

MACOS_TREE = yezdopin-$(VERSION)-macos-universal
dist-macos-tarball: $(UNIVERSAL)
	$(call system_tree,$(MACOS_TREE),arm64 and x86-64-v2,@rpath/$(DYLIB),$(DYLIB))
	cp packaging/macos/INSTALL "$(WORK)/$(MACOS_TREE)/INSTALL"
	cp $(UNIVERSAL) "$(WORK)/$(MACOS_TREE)/lib"
	ln -s $(DYLIB) "$(WORK)/$(MACOS_TREE)/lib/libyezdopin.dylib"
	$(call pack,$(MACOS_TREE),$(MACOS_TREE).tar.gz)

# What the Rust crate has of it.
MACOS_ARCHIVES = $(MACOS)/x86_64/libyezdopin.a $(MACOS)/aarch64/libyezdopin.a
dist-crate: $(call with,$(APPLE_TOOLS),$(MACOS_ARCHIVES))

.PHONY: macos macos-tests macos-tests-here macos-check
