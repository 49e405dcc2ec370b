# SPDX-License-Identifier: ISC
# Packages of the built library, for users without the Rattle kit, into out/dist with SHA256SUMS,
# PROVENANCE, which says what they come from, and a software bill of materials in SPDX's format:
#
#     make dist                 # makes the packages that this machine has the tools for
#     make dist PACKAGES=       # makes some packages: the words of WORDS below
#     make dist-check           # tries each in a Debian system, by sudo and with a network
#
# With ARCH=aarch64 they are those for 64-bit ARM.
#
# The same library, sources and tools give the same bytes: SOURCE_DATE_EPOCH is the time of all
# files, by default that of the last commit. To add a package, write its word into WORDS and a
# rule dist-WORD that puts it into DIST; for a Debian package a file debian/NAME.control, and a rule
# that fills WORK/NAME with what is installed, and then calls `deb`.

WORDS = tarball deb-libyezdopin$(MAJOR) deb-libyezdopin-dev wheel deb-$(PROVIDER_DEB) \
    $(if $(filter x86_64,$(ARCH)),deb-$(TOOLS_DEB) crate rustcrypto npm windows-zip windows-wheel \
    macos-tarball)
PACKAGES = $(WORDS)
# Those that lack nothing here, in LACKS_WORD.
CAN_MAKE = $(foreach it,$(PACKAGES),$(if $(strip $(LACKS_$(it))),,$(it)))
LACKS_deb-libyezdopin$(MAJOR) = $(call missing,dpkg-deb)
LACKS_deb-libyezdopin-dev = $(call missing,dpkg-deb)
LACKS_wheel = $(or $(call missing,$(PYTHON)),$(PYTHON_H))
LACKS_deb-$(PROVIDER_DEB) = $(if $(PROVIDER_PACKAGE),,libssl-dev) $(call missing,dpkg-deb)
LACKS_deb-$(TOOLS_DEB) = $(if $(TOOLS_TEXTS),,generated/) $(call missing,dpkg-deb)
LACKS_crate = $(call missing,$(CARGO))
LACKS_npm = $(call missing,$(NPM) $(NODE))

DIST = $(WHOLE_OUT)/dist
WORK = $(DIST).work
# The processor as Debian calls it.
DPKG_ARCH = $(if $(filter aarch64,$(ARCH)),arm64,amd64)
DPKG_LIBDIR = /usr/lib/$(ARCH)-linux-gnu
TREE = yezdopin-$(VERSION)-linux-$(ARCH)
# The crate has the archives for both processors. This one is built here, or is named.
ARM_ARCHIVE = $(OUT)/aarch64/libyezdopin.a
SOURCE_DATE_EPOCH ?= $(or $(shell git log -1 --format=%ct 2>/dev/null),1767225600)
# What PROVENANCE names, with `-dirty` behind it where a file differs.
COMMIT ?= $(or $(shell git describe --always --dirty --abbrev=40 --exclude='*' 2>/dev/null),unknown)
# A placeholder: the project has no mail address (SECURITY.md says how faults are reported).
MAINTAINER ?= The Yezdopin authors <yezdopin@example.org>

# $(call install_in,FOLDER,PREFIX,LIBDIR): what `make install` installs, in an empty folder.
define install_in
	rm -rf "$(1)"
	$(MAKE) -s --no-print-directory install DESTDIR="$(1)" PREFIX=$(2) LIBDIR=$(3) \
	    INCLUDEDIR=$(2)/include DOCDIR=$(2)/share/doc/yezdopin MANDIR=$(2)/share/man >/dev/null
endef

# $(call deb,NAME): the Debian package of WORK/NAME.
deb = MAINTAINER='$(MAINTAINER)' SOURCE_DATE_EPOCH=$(SOURCE_DATE_EPOCH) \
    packaging/debian/deb "$(WORK)/$(1)" $(VERSION) $(DPKG_ARCH) "$(DIST)"

# On a Mac GNU's tar has another name.
TAR ?= $(if $(filter Darwin,$(SYSTEM)),gtar,tar)
# $(call pack,FOLDER,FILE): a folder of WORK, packed into a file of DIST.
define pack
	chmod -R u=rwX,go=rX "$(WORK)/$(1)"
	LC_ALL=C $(TAR) -C "$(WORK)" --sort=name --owner=0 --group=0 --numeric-owner --format=ustar \
	    --mtime=@$(SOURCE_DATE_EPOCH) -cf - $(1) | gzip -9n >"$(DIST)/$(2)"
endef

dist: all
	rm -rf "$(DIST)" "$(WORK)" && mkdir -p "$(DIST)" "$(WORK)"
	@:$(foreach it,$(filter-out $(CAN_MAKE),$(PACKAGES)),; \
	    echo 'left out: $(it), without $(strip $(LACKS_$(it)))')
	$(if $(CAN_MAKE),$(MAKE) --no-print-directory $(CAN_MAKE:%=dist-%))
	$(call without,$(PYTHON),PROVENANCE and the bill of materials)
	$(call with,$(PYTHON),$(PYTHON) -B packaging/origin "$(DIST)" $(VERSION) $(ARCH) \
	    $(COMMIT) $(SOURCE_DATE_EPOCH) "$$($(CC) --version | head -n 1)" \
	    $(wildcard generated/yezdopin_*) $(TOOLS_TEXTS))
	cd "$(DIST)" && ls | xargs -r sha256sum >../SHA256SUMS && mv ../SHA256SUMS . && cat SHA256SUMS

# The reference of the proved crates as HTML pages, where Debian's python3-markdown and
# python3-pygments are. `make dist REFERENCE=FOLDER` takes finished pages instead.
ifneq ($(origin REFERENCE),command line)
REFERENCE_PYTHON = /usr/bin/python3
REFERENCE = $(shell $(REFERENCE_PYTHON) -c 'import markdown, pygments' 2>/dev/null \
    && echo $(OUT)/reference)
REFERENCE_MADE = $(REFERENCE)
$(OUT)/reference: FORCE_REFERENCE
	$(REFERENCE_PYTHON) -B tools/reference.py $@
FORCE_REFERENCE:
endif

# A tree that works wherever it is unpacked, and install.sh, which copies it.
dist-tarball: all $(REFERENCE_MADE)
	$(call install_in,$(WORK)/$(TREE),,/lib)
	test -z "$(REFERENCE)" || cp -R "$(REFERENCE)" "$(WORK)/$(TREE)/share/doc/yezdopin/reference"
	sed -i 's,^prefix=.*,prefix=$${pcfiledir}/../..,' "$(WORK)/$(TREE)/lib/pkgconfig/yezdopin.pc"
	cp packaging/INSTALL packaging/install.sh "$(WORK)/$(TREE)"
	test -n "$(REFERENCE)" || sed -i '/doc\/yezdopin\/reference/d' "$(WORK)/$(TREE)/INSTALL"
	sed -i 's|@processor@|$(ARCH)|' "$(WORK)/$(TREE)/install.sh"
	$(call pack,$(TREE),$(TREE).tar.gz)

# The shared library, with what dpkg-shlibdeps reads for packages that use it.
dist-deb-libyezdopin$(MAJOR): all
	rm -rf "$(WORK)/libyezdopin$(MAJOR)"
	mkdir -p "$(WORK)/libyezdopin$(MAJOR)/DEBIAN" "$(WORK)/libyezdopin$(MAJOR)$(DPKG_LIBDIR)"
	$(STRIP) --strip-unneeded --remove-section=.comment $(SHARED) \
	    -o "$(WORK)/libyezdopin$(MAJOR)$(DPKG_LIBDIR)/$(notdir $(SHARED))"
	chmod 644 "$(WORK)/libyezdopin$(MAJOR)$(DPKG_LIBDIR)/$(notdir $(SHARED))"
	ln -s $(notdir $(SHARED)) "$(WORK)/libyezdopin$(MAJOR)$(DPKG_LIBDIR)/$(SONAME)"
	cd "$(WORK)/libyezdopin$(MAJOR)/DEBIAN" && echo 'activate-noawait ldconfig' >triggers && \
	echo 'libyezdopin $(MAJOR) libyezdopin$(MAJOR) (>= $(VERSION))' >shlibs
	cp packaging/debian/libyezdopin$(MAJOR).symbols "$(WORK)/libyezdopin$(MAJOR)/DEBIAN/symbols"
	$(call deb,libyezdopin$(MAJOR))

dist-deb-libyezdopin-dev: all
	$(call install_in,$(WORK)/libyezdopin-dev,/usr,$(DPKG_LIBDIR))
	cd "$(WORK)/libyezdopin-dev/usr" && rm lib/*/libyezdopin.so.* share/doc/yezdopin/LICENSE && \
	mv share/doc/yezdopin share/doc/libyezdopin-dev && gzip -9n share/man/man3/* && \
	$(OBJCOPY) --enable-deterministic-archives --remove-section=.comment lib/*/libyezdopin.a
	$(call deb,libyezdopin-dev)

# The Python package with its extension, which has the archive in it.
dist-wheel: all
	cd python && CC='$(CC)' CFLAGS=-O2 LDFLAGS=-s YEZDOPIN_LIB_DIR="$(WHOLE_OUT)" $(PYTHON) -B -c \
	    'import build_backend as it, sys; it.build_wheel(sys.argv[1], {"platform": sys.argv[2]})' \
	    "$(DIST)" manylinux_2_17_$(ARCH)
	rm -rf "$(WORK)/wheel" && mkdir -p "$(WORK)/wheel"
	cd "$(WORK)/wheel" && $(PYTHON) -m zipfile -e "$(DIST)"/*-manylinux*.whl .
	READELF='$(READELF)' OBJDUMP='$(OBJDUMP)' \
	    packaging/wheel/manylinux "$(WORK)/wheel/yezdopin/_native.abi3.so"

# Without a cross compiler the crate has the archive for x86-64 alone.
ARM_TOOLS = $(if $(filter file,$(origin ARM_ARCHIVE)),$(or $(CROSS),aarch64-linux-gnu-)gcc)
ifeq ($(ARCH) $(origin ARM_ARCHIVE) $(origin BUILT),x86_64 file file)
$(ARM_ARCHIVE): FORCE
	$(MAKE) --no-print-directory ARCH=aarch64 OUT=$(@D) $@
FORCE:
endif

# $(call prebuilt,SYSTEM-PROCESSOR,ARCHIVE): puts an archive where the crate looks for it.
prebuilt = mkdir -p "$(WORK)/rust/prebuilt/$(1)" && cp $(2) "$(WORK)/rust/prebuilt/$(1)"

# Those for the other systems, where the tools are.
define crate_systems
	$(call without,$(MINGW_TOOLS),the crate's archive for Windows)
	$(call with,$(MINGW_TOOLS),$(call prebuilt,windows-x86_64,$(WINDOWS)/libyezdopin.a))
	$(call without,$(APPLE_TOOLS),the crate's archives for macOS)
	$(call with,$(APPLE_TOOLS),$(call prebuilt,macos-x86_64,$(firstword $(MACOS_ARCHIVES))))
	$(call with,$(APPLE_TOOLS),$(call prebuilt,macos-aarch64,$(lastword $(MACOS_ARCHIVES))))
endef

# The Rust crate with the archives in prebuilt/. `cargo package` also builds what it packed.
dist-crate: all $(call with,$(ARM_TOOLS),$(ARM_ARCHIVE))
	rm -rf "$(WORK)/rust" && mkdir -p "$(WORK)/rust"
	cp -R rust/src rust/build.rs rust/Cargo.toml rust/Cargo.lock rust/README.md LICENSE \
	    "$(WORK)/rust"
	$(call prebuilt,linux-x86_64,$(ARCHIVE))
	$(call without,$(ARM_TOOLS),the crate's archive for 64-bit ARM)
	$(call with,$(ARM_TOOLS),$(call prebuilt,linux-aarch64,$(ARM_ARCHIVE)))
	$(crate_systems)
	cd "$(WORK)/rust" && unset YEZDOPIN_LIB_DIR && CARGO_TARGET_DIR="$(WORK)/cargo" \
	    $(CARGO) package --offline --quiet --allow-dirty
	cp "$(WORK)/cargo/package/yezdopin-$(VERSION).crate" "$(DIST)"

# The crate with RustCrypto's traits, which finds the one above beside it where both are unpacked.
RUSTCRYPTO = yezdopin-rustcrypto-$(VERSION)
dist-rustcrypto:
	rm -rf "$(WORK)/$(RUSTCRYPTO)" && mkdir -p "$(WORK)/$(RUSTCRYPTO)"
	cp -R rust/rustcrypto/src LICENSE "$(WORK)/$(RUSTCRYPTO)"
	sed 's|path = "\.\."|version = "$(VERSION)", path = "../yezdopin-$(VERSION)"|' \
	    rust/rustcrypto/Cargo.toml >"$(WORK)/$(RUSTCRYPTO)/Cargo.toml"
	sed 's/\[\([^][]*\)\](\([^):]*\))/\1/g; s|path = "YEZDOPIN/.*"|path = "$(RUSTCRYPTO)"|' \
	    rust/rustcrypto/README.md >"$(WORK)/$(RUSTCRYPTO)/README.md"
	$(call pack,$(RUSTCRYPTO),$(RUSTCRYPTO).crate)

# $(call system_tree,FOLDER,PROCESSOR,SONAME,SHARED): what the packages for both systems have alike.
# SHARED is the shared library's file, seen from lib/.
define system_tree
	rm -rf "$(WORK)/$(1)"
	mkdir -p "$(WORK)/$(1)/include" "$(WORK)/$(1)/lib/pkgconfig" "$(WORK)/$(1)/lib/cmake/yezdopin" \
	    "$(WORK)/$(1)/share/doc/yezdopin/examples"
	cp $(HEADER) "$(WORK)/$(1)/include"
	cp LICENSE "$(WORK)/$(1)/share/doc/yezdopin"
	for it in README CALLS; do \
	    sed 's/\[\([^][]*\)\](\([^):]*\))/\1/g' c/$$it.md \
	        >"$(WORK)/$(1)/share/doc/yezdopin/$$it.md" || exit 1; \
	done
	cp c/examples/sign.c "$(WORK)/$(1)/share/doc/yezdopin/examples"
	sed -e 's|@prefix@|$${pcfiledir}/../..|; s|@libdir@|$${prefix}/lib|; s|@processor@|$(2)|' \
	    -e 's|@includedir@|$${prefix}/include|; s|@version@|$(VERSION)|' \
	    c/yezdopin.pc.in >"$(WORK)/$(1)/lib/pkgconfig/yezdopin.pc"
	for name in yezdopin-config yezdopin-config-version; do \
	    sed -e 's|@includedir@|$(INCLUDEDIR)|; s|@soname@|$(3)|; s|@version@|$(VERSION)|' \
	        -e 's|@major@|$(MAJOR)|; s|@shared@|$(4)|' c/cmake/$$name.cmake.in \
	        >"$(WORK)/$(1)/lib/cmake/yezdopin/$$name.cmake" || exit 1; \
	done
endef

# One of the packages by itself.
windows-zip windows-wheel macos-tarball: %:
	$(if $(strip $(LACKS_$@)),@echo 'left out: $@$(comma) without $(strip $(LACKS_$@))', \
	    mkdir -p "$(DIST)" "$(WORK)" && $(MAKE) --no-print-directory dist-$@)

packages-named:
	@echo $(CAN_MAKE)

# Each package in a Debian system of its own, which has neither the kit nor this repository. The
# systems need root, and nothing else: else out/ would be root's, and `dist` would miss the tools of
# the caller's PATH.
SUDO ?= $(if $(filter 0,$(shell id -u)),,$(if $(call missing,sudo),,sudo))
dist-check: dist
	$(SUDO) env ROOTS='$(ROOTS)' SUITES='$(SUITES)' packaging/test/packages "$(DIST)" $(ARCH)

.PHONY: dist dist-check packages-named windows-zip windows-wheel macos-tarball $(WORDS:%=dist-%)
