# SPDX-License-Identifier: ISC
# The programs, for x86-64 alone, built from the assembly text in generated/, as the library is; and
# the Debian package of `sums` and `passwords`: one word of PACKAGES in packaging/dist.mk.
#
#     make verify-programs      # shows the programs' code for all inputs

TOOLS_DEB = yezdopin-tools
TOOLS = ring_sums_main ring_passwords
TOOLS_TEXTS = $(wildcard $(TOOLS:%=generated/%.S))
PROGRAMS = $(WHOLE_OUT)/programs
# `bench` has another one.
ALL_PROGRAMS = $(patsubst %,$(OUT)/programs/%,$(TOOLS) ring_bench_main)

$(ALL_PROGRAMS): $(OUT)/programs/%: generated/%.S programs/build \
    programs/runtime.c c/processor.c c/processor.h $(HEADER)
	mkdir -p $(@D)
	CC='$(CC)' CFLAGS=-O2 LDFLAGS= programs/build $* $@

verify-programs: $(ALL_PROGRAMS)
	for it in $^; do $(PYTHON) verify/check $(VERIFY_FLAGS) $$it || exit 1; done

# $(call launcher,NAME): a launcher of the repository that runs the installed program, and builds
# none.
define launcher
	{ printf '%s\n' '#!/bin/bash' '# SPDX-License-Identifier: ISC' '# $(1)(1) describes the program.' \
	    'set -euo pipefail' && \
	sed -e '1,/^set -euo pipefail$$/d; /^root=/d; /^# about /,/^esac$$/d' \
	        -e '/^# With --version/d' $(1) \
	    | sed 's|^program=.*/built" \([a-z_]*\) .*|program=/usr/lib/yezdopin/\1|'; } \
	    >"$(WORK)/$(TOOLS_DEB)/usr/bin/$(1)"
	chmod 755 "$(WORK)/$(TOOLS_DEB)/usr/bin/$(1)"
	! grep -E 'programs/|\broot\b' "$(WORK)/$(TOOLS_DEB)/usr/bin/$(1)"
	sed 's|@version@|$(VERSION)|' c/man/$(1).1 | gzip -9n \
	    >"$(WORK)/$(TOOLS_DEB)/usr/share/man/man1/$(1).1.gz"
endef

dist-deb-$(TOOLS_DEB): $(TOOLS:%=$(OUT)/programs/%)
	rm -rf "$(WORK)/$(TOOLS_DEB)" && cd "$(WORK)" && mkdir -p $(TOOLS_DEB)/usr/bin \
	    $(TOOLS_DEB)/usr/lib/yezdopin $(TOOLS_DEB)/usr/share/man/man1
	for it in $(TOOLS); do \
	    $(STRIP) --strip-unneeded --remove-section=.comment "$(PROGRAMS)/$$it" \
	        -o "$(WORK)/$(TOOLS_DEB)/usr/lib/yezdopin/$$it" || exit 1; \
	    test "$$($(READELF) -d "$(PROGRAMS)/$$it" | sed -n 's/.*(NEEDED).*\[\(.*\)\]/\1/p' | xargs)" \
	        = libc.so.6 || exit 1; \
	    test "$$({ echo GLIBC_2.34; $(OBJDUMP) -T "$(PROGRAMS)/$$it" | grep -o 'GLIBC_[0-9.]*'; } \
	        | sort -V | tail -n 1)" = GLIBC_2.34 || exit 1; \
	done
	$(call launcher,sums)
	$(call launcher,passwords)
	$(call deb,$(TOOLS_DEB))

.PHONY: dist-deb-$(TOOLS_DEB) verify-programs
