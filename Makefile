# SPDX-License-Identifier: ISC
# Builds libyezdopin from generated/, the assembly text of the proved crate crates/ring_c, tests it
# from C, Python and Rust, and installs it. Each folder's own makefile has its part:
#
#     make                      # builds out/libyezdopin.a and out/libyezdopin.so.0
#     make check                # tests the library and the packages for C, Python and Rust
#     make verify               # shows the library's machine code for all inputs: docs/VERIFY.md
#     make check-all            # runs all tests of the repository that need no kit
#     make lists                # writes the lists of tools/rows.py in packages and pages
#     make clean                # removes out/
#     make help                 # prints these lines, and those of all parts
#
# These may be added to each:
#
#     ARCH=aarch64              # for 64-bit ARM, by a cross compiler and under qemu-user
#     OUT=/a/folder             # in the place of out/, as where this folder can't be written
#     BUILT=libyezdopin.a       # a finished archive of another folder's out/, and its yezdopin.o
#     RT=rt                     # the kit's command
#
# The version stands in c/include/yezdopin.h, and tests/version.py compares all others with it.

SYSTEM := $(shell uname -s)
HOST := $(patsubst arm64,aarch64,$(shell uname -m))
ARCH ?= $(HOST)
ifeq ($(filter $(ARCH),x86_64 aarch64),)
$(error the library is for x86_64 and aarch64, and not for $(ARCH))
endif
OUT = out
ifneq ($(ARCH),$(HOST))
OUT = out/$(ARCH)
CROSS ?= $(ARCH)-linux-gnu-
# What runs a program of the other processor, by the C library of the cross compiler where Debian's
# libc6:arm64 isn't installed. With both a program would get the loader of one and the library of
# the other, and hang.
RUN ?= qemu-$(ARCH) \
    $(if $(wildcard /lib/ld-linux-$(ARCH).so.1),,-L /usr/$(ARCH)-linux-gnu)
# What cargo is told for the same.
CARGO_ARCH = CARGO_TARGET_$(shell echo $(ARCH) | tr a-z A-Z)_UNKNOWN_LINUX_GNU
CARGO_CROSS = $(CARGO_ARCH)_LINKER='$(CC)' $(CARGO_ARCH)_RUNNER='$(RUN)'
CARGO_TARGET = --target $(ARCH)-unknown-linux-gnu
LD = $(CROSS)ld
AR = $(CROSS)ar
ifeq ($(origin CC),default)
CC = $(CROSS)gcc
endif
ifeq ($(origin CXX),default)
CXX = $(CROSS)g++
endif
endif
CC ?= cc
CXX ?= c++
PYTHON ?= python3
MYPY ?= mypy
STUBTEST ?= stubtest
CARGO ?= cargo
VALGRIND ?= valgrind
# For traces: the emulator, and the compiler of its plugin.
EMULATOR ?= qemu-$(ARCH) -cpu max
HOSTCC ?= cc
# The version of clang and lld in their names.
LLVM ?= 19
INSTALL ?= install
NM ?= $(CROSS)nm
OBJCOPY ?= $(CROSS)objcopy
OBJDUMP ?= $(CROSS)objdump
READELF ?= $(CROSS)readelf
SIZE ?= $(CROSS)size
STRIP ?= $(CROSS)strip
RT ?= rt
RT_FLAGS ?=
PREFIX ?= /usr/local
LIBDIR ?= $(PREFIX)/lib
INCLUDEDIR ?= $(PREFIX)/include
DOCDIR ?= $(PREFIX)/share/doc/yezdopin
MANDIR ?= $(PREFIX)/share/man
CMAKEDIR = $(LIBDIR)/cmake/yezdopin
CFLAGS ?= -O2 -g
# The library's own, where nobody names CFLAGS: without debug information, so that all who build it
# get the same bytes.
LIBRARY_CFLAGS = $(if $(filter file,$(origin CFLAGS)),-O2,$(CFLAGS))

HEADER = c/include/yezdopin.h
number = $(shell sed -n 's/^\#define YZ_VERSION_$(1) //p' $(HEADER))
MAJOR := $(call number,MAJOR)
VERSION := $(MAJOR).$(call number,MINOR).$(call number,PATCH)

# `make check` refuses what a compiler warns of; another one may warn of more.
WERROR =
WARNINGS = -Wall -Wextra -Wpedantic -Wconversion -Wshadow $(WERROR)
STRICT = -std=c11 -D_POSIX_C_SOURCE=200809L $(WARNINGS) -Ic/include
# The crate's builds as assembly text: for x86-64-v2 and for x86-64-v3, or for aarch64.
ifeq ($(ARCH),x86_64)
TEXTS = generated/yezdopin_x86_64_v2.S generated/yezdopin_x86_64_v3.S
PROCESSOR = x86-64-v2
else
TEXTS = generated/yezdopin_$(ARCH).S
PROCESSOR = $(ARCH)
endif
WINDOWS_TEXTS = generated/yezdopin_windows_x86_64_v2.S generated/yezdopin_windows_x86_64_v3.S
OBJECTS = $(TEXTS:generated/%.S=$(OUT)/%.o)
# make's own `abspath` takes a path with a space for two.
WHOLE_OUT = $(if $(filter /%,$(OUT)),$(OUT),$(CURDIR)/$(OUT))
ROOT = $(WHOLE_OUT)/root
ARCHIVE = $(OUT)/libyezdopin.a
# The same as one object with the names of the header, of which the shared library is linked.
WHOLE = $(OUT)/yezdopin.o
# The archive, but that all processors get the calls of one build: for tests.
ARCHIVE_V2 = $(OUT)/v2/libyezdopin.a
ARCHIVE_V3 = $(OUT)/v3/libyezdopin.a
SONAME = libyezdopin.so.$(MAJOR)
SHARED = $(OUT)/libyezdopin.so.$(VERSION)
# OpenSSL 3.5 and Python 3.13, unpacked and not installed.
DEBIAN_13 = $(OUT)/debian13
DEBIAN_13_PATH = $(WHOLE_OUT)/debian13/usr/start
DEBIAN_13_PACKAGES = libc6 libexpat1 libffi8 libpython3.13-minimal libpython3.13-stdlib libssl3t64 \
    libzstd1 openssl openssl-provider-legacy python3.13-minimal zlib1g
calls_of_header = sed '/^static/d' $(HEADER) | grep -o '\byz_[a-z0-9_]*(' | tr -d '(' | sort -u
# The calls that have a manual page, those of the header's own text too.
pages_of_header = grep -o '\byz_[a-z0-9_]*(' $(HEADER) | tr -d '(' | sort -u
VECTORS = $(sort $(wildcard vectors/*.txt vectors/schedules/*.txt))
# The calls of all verifications, with the answers that must come.
VERIFICATIONS = $(OUT)/verifications.txt

# $(call missing,TOOLS): those that aren't here.
missing = $(foreach it,$(1),$(if $(shell command -v $(it) 2>/dev/null),,$(it)))
# $(call with,TOOLS,FILES): the files, where the tools are here.
with = $(if $(strip $(call missing,$(1))),,$(2))
# $(call without,TOOLS,WHAT): says that it is left out, where a tool isn't here.
without = $(call with_lacking,$(2),$(strip $(call missing,$(1))))
with_lacking = $(if $(2),@echo "left out: $(1)$(comma) without $(2)")
comma = ,

ifeq ($(SYSTEM),Darwin)
all: macos
else
all: $(ARCHIVE) $(SHARED)
endif

PARTS = generated/make/generated.mk c/c.mk python/python.mk rust/rust.mk openssl/openssl.mk \
    javascript/javascript.mk packaging/debian/programs.mk packaging/dist.mk \
    packaging/windows/windows.mk packaging/macos/macos.mk
include $(PARTS)

# The parts of `check`. One that lacks a tool is left out by name. The other processor has neither
# its own Python and Rust here nor its sanitizers.
CHECKED = test header installed sizes bare-check $(if $(filter $(HOST),$(ARCH)),verifications \
    builds sanitized moved python wheel rust)
PYTHON_H = $(if $(wildcard $(shell $(PYTHON) -c \
    'import sysconfig; print(sysconfig.get_paths()["include"])' 2>/dev/null)/Python.h),,Python.h)
PIP = $(if $(shell $(PYTHON) -m pip --version 2>/dev/null),,pip)
WANTS_verifications = $(call missing,$(PYTHON))
WANTS_moved = $(call missing,$(PKG_CONFIG))
WANTS_python = $(or $(call missing,$(PYTHON)),$(PYTHON_H))
WANTS_wheel = $(or $(WANTS_python),$(PIP))
WANTS_rust = $(call missing,$(CARGO) $(PYTHON))
check:
	@:$(foreach it,$(CHECKED),$(if $(strip $(WANTS_$(it))),; \
	    echo 'left out: $(it)$(comma) without $(strip $(WANTS_$(it)))'))
	$(MAKE) --no-print-directory WERROR=-Werror \
	    $(foreach it,$(CHECKED),$(if $(strip $(WANTS_$(it))),,$(it)))

$(DEBIAN_13):
	tests/lib/debian_13 $@ $(DEBIAN_13_PACKAGES)

# The gate but for what needs the kit: it names what it leaves out.
check-all:
	tests/without_kit

# The manual page is made of the header, which has lists too.
lists:
	$(PYTHON) tools/lists.py
	$(PYTHON) c/man/page.py

# In the place of these, --quick takes a minute.
VERIFY_FLAGS =
verify: $(SHARED)
	$(PYTHON) verify/check $(VERIFY_FLAGS) $(SHARED)

clean:
	rm -rf $(OUT)

# The lines of the makefiles' heads.
help:
	@sed -n 's/^#     //p' Makefile $(PARTS)

.PHONY: all check check-all clean help lists verify
