# SPDX-License-Identifier: ISC
# The crate crates/ring_c proved and built by the kit:
#
#     make generated            # renews the library's text in generated/, and the module's
#     make generated-check      # whether the library's text for ARCH is what the kit makes
#     make generated-programs   # renews the programs' text in generated/, and SOURCES
#     make builds-agree         # whether both builds for x86-64 are one library
#     make instructions-diff    # prints what instructions.py changes in the module, once built
#
# The kit runs on x86-64 alone. The text for aarch64 also wants gcc-aarch64-linux-gnu, and that of
# the module Node.

# The crate, and those that it stands on, as crates.txt has them, lowest first.
CRATE = crates/ring_c
CRATES := $(shell tac crates.txt 2>/dev/null | tr -d : | awk '$$1 == "ring_c" || $$1 in used \
    { print $$1; for (i = 2; i <= NF; i++) used[$$i] }' | tac)
SOURCES = $(shell find $(wildcard $(CRATES:%=crates/%)) \
    -mindepth 1 -maxdepth 1 \( -name src -o -name specs -o -name proofs \) -exec find {} + )
KIT_OUT = $(OUT)/kit
KIT_ARCHIVE = $(KIT_OUT)/libyezdopin.a
PLANTED = $(OUT)/libplant.a
# The crate as `rt lib` builds it, where no finished archive is named.
ifneq ($(origin BUILT),command line)
BUILT = $(CRATE)/out/libring_c.$(if $(BUILT_V3),v2,$(ARCH)).a
endif
BUILT_V3 = $(if $(filter x86_64,$(ARCH)),$(CRATE)/out/libring_c.v3.a)
# What a make that is called by a make doesn't build again.
KEPT = -o $(BUILT) $(BUILT_V3:%=-o %)

define need_kit
@command -v $(RT) >/dev/null || { echo 'make: $(RT) is missing: this needs the Rattle kit, which' \
    'proves and builds crates/ring_c' >&2; exit 1; }
endef

# $(call build,FLAGS,FILE,PROGRAM FLAG..): the crate by some flags, where kit.sh has the kit's clang
# call PROGRAM (or '') on the module and take FLAGs. `rt lib` proves before it builds. It is asked
# only where a source is newer. It always writes the same file, which then gets a name of its own.
# links_of FILE is the folder of kit.sh, which keeps the module of the build.
links_of = $(WHOLE_OUT)/kit/$(basename $(notdir $(1)))
define build
	$(need_kit)
	mkdir -p $(KIT_OUT)
	generated/make/kit.sh $(RT) '$(call links_of,$(2))' $(3)
	@echo 'Proving and building ring_c: some ten minutes the first time. $(OUT)/rt.log has what rt' \
	    'says.'
	generated/make/progress.py $(OUT)/rt.log ring_c '$(call links_of,$(2))/bin/rt' lib $(1) \
	    $(RT_FLAGS) || { cat $(OUT)/rt.log; exit 1; }
	mv $(CRATE)/out/libring_c.a $(2)
	touch $(2)
endef

# What puts the processor's SHA instructions into a module, and the clang flags for them. `+sha3` is
# not among these: with it LLVM makes `eor3` and the like of plain code.
EXCHANGE = '$(PYTHON) -B "$(CURDIR)/generated/make/instructions.py" $(ARCH)' \
    $(if $(filter x86_64,$(ARCH)),-msha,-march=armv8-a+sha2)
BUILDERS = generated/make/kit.sh generated/make/instructions.py
# What chooses the form of rounds for x86-64-v3, and the order in which clang schedules instructions:
# otherwise one message of SHA-512 takes 6 per cent longer.
CHOOSE_V3 = '$(PYTHON) -B "$(CURDIR)/generated/make/instructions.py" x86_64-v3' \
    -mllvm -misched-prera-direction=topdown

ifneq ($(origin BUILT),command line)
ifneq ($(ARCH),x86_64)
# The register x18 is the system's on macOS, whose library is of the same text.
$(BUILT): $(SOURCES) crates.txt $(BUILDERS)
	$(call build,--target=$(ARCH)-unknown-linux-gnu,$@,$(EXCHANGE) -ffixed-x18)

KIT_PARTS = $(BUILT)
$(KIT_OUT)/yezdopin_$(ARCH).calls: $(KIT_OUT)/names
	cp $< $@
$(KIT_OUT)/yezdopin_$(ARCH).o: $(BUILT) $(KIT_OUT)/yezdopin_$(ARCH).calls
	$(take_calls)
else
# The SHA instructions have no encoding for AVX. Where code for AVX has left the upper halves of
# registers set, as LLVM does, they are slow on some processors: the build for x86-64-v2 has them.
$(BUILT) $(BUILT_V3) $(KIT_OUT)/libring_c.v2/flags $(KIT_OUT)/libring_c.v3/flags &: \
    $(SOURCES) crates.txt $(BUILDERS)
	$(call build,--cpu=x86-64-v3,$(BUILT_V3),$(CHOOSE_V3))
	$(call build,,$(BUILT),$(EXCHANGE))

# The builds, whose calls get the names that dispatch.c calls them by: those that it asks for where
# one build is forced. That for x86-64-v3 keeps no other name.
KIT_PARTS = $(KIT_OUT)/ring_c.v2.a $(KIT_OUT)/ring_c.v3.a
$(KIT_OUT)/v2.renamed $(KIT_OUT)/v3.renamed: $(KIT_OUT)/%.renamed: $(OUT)/%/dispatch.o
	mkdir -p $(@D)
	$(NM) -u $< | sed -n 's/^ *U $*_\(.*\)/\1 $*_\1/p' >$@
$(KIT_OUT)/ring_c.v2.a: $(BUILT) $(KIT_OUT)/v2.renamed
	$(OBJCOPY) --redefine-syms=$(KIT_OUT)/v2.renamed $(BUILT) $@
$(KIT_OUT)/ring_c.v3.a: $(BUILT_V3) $(KIT_OUT)/yezdopin_x86_64_v3.calls
	$(OBJCOPY) --redefine-syms=$(KIT_OUT)/v3.renamed \
	    --keep-global-symbols=$(KIT_OUT)/yezdopin_x86_64_v3.calls $(BUILT_V3) $@

# What the library takes of each: of that for x86-64-v3 only what dispatch.c calls.
$(KIT_OUT)/yezdopin_x86_64_v2.calls: $(KIT_OUT)/v2.renamed $(KIT_OUT)/names
	awk 'NR == FNR { name[$$1] = $$2; next } { print $$1 in name ? name[$$1] : $$1 }' $^ >$@
$(KIT_OUT)/yezdopin_x86_64_v3.calls: $(KIT_OUT)/v3.renamed
	awk '{ print $$2 }' $< >$@
$(KIT_OUT)/yezdopin_x86_64_v2.o $(KIT_OUT)/yezdopin_x86_64_v3.o: \
    $(KIT_OUT)/yezdopin_x86_64_%.o: $(KIT_OUT)/ring_c.%.a $(KIT_OUT)/yezdopin_x86_64_%.calls
	$(take_calls)

# The texts for Windows, which the kit's clang makes of the modules of the same builds. That for
# x86-64-v2 also keeps the calls that have no other name.
WINDOWS_MADE = $(WINDOWS_TEXTS:generated/%=$(KIT_OUT)/%)
$(KIT_OUT)/yezdopin_windows_x86_64_v2.S: OTHER_NAMES = $(OUT)/names
$(KIT_OUT)/yezdopin_windows_x86_64_v3.S: OTHER_NAMES = /dev/null
$(WINDOWS_MADE): $(KIT_OUT)/yezdopin_windows_x86_64_%.S: $(KIT_OUT)/libring_c.%/flags \
    $(KIT_OUT)/%.renamed $(OUT)/names generated/make/windows.py
	$(PYTHON) -B generated/make/windows.py $(<D) $*_ $(KIT_OUT)/$*.renamed $(OTHER_NAMES) $@ $(NOTES) \
	    "$(if $(filter v2,$*),$(EXCHANGED),$(CHOSEN)) $(exchanger)"
endif

# The crate's calls: those of the header without what processor.c and status.c have.
$(KIT_OUT)/names: $(OUT)/processor.o $(OUT)/status.o $(OUT)/names
	mkdir -p $(@D)
	$(NM) -g --defined-only $(filter %.o,$^) | awk 'NF == 3 { print $$3 }' \
	    | grep -vxFf - $(OUT)/names >$@

# $(take_calls): one object of what some calls of a build reach.
define take_calls
	$(LD) -r --gc-sections $$(sed 's/^/--undefined=/' $(@:.o=.calls)) -o $@ --whole-archive $<
endef

# The library as the kit's own builds make it.
$(KIT_ARCHIVE): $(if $(BUILT_V3),$(OUT)/dispatch.o) $(OUT)/processor.o $(OUT)/status.o \
    $(KIT_PARTS) $(KIT_OUT)/names $(OUT)/names
	mkdir -p $(@D)
	$(NM) -g --defined-only $(BUILT) | awk '$$2 == "T" && $$3 !~ /_wide$$/ { print $$3 }' | sort \
	    | diff $(KIT_OUT)/names -
	$(call archive,$(filter %.o,$^) --whole-archive $(filter %.a,$^))

ifeq ($(ARCH),x86_64)
# The same with one build for all processors, and what speed/run times of these.
$(KIT_OUT)/v2/libyezdopin.a $(KIT_OUT)/v3/libyezdopin.a: $(KIT_OUT)/%/libyezdopin.a: \
    $(OUT)/%/dispatch.o $(OUT)/%/processor.o $(OUT)/status.o $(KIT_PARTS) $(OUT)/names
	mkdir -p $(@D)
	$(call archive,$(filter %.o,$^) --whole-archive $(filter %.a,$^))
KIT_TIMED = $(KIT_ARCHIVE:.a=.so) $(KIT_OUT)/v2/libyezdopin.so $(KIT_OUT)/v3/libyezdopin.so
endif

# The head of each text. It has the crates as the last commit has them.
NOTES = 'SPDX-License-Identifier: ISC' '' \
    'Written by `make generated` from the proved crate ring_c: do not edit.' \
    "Kit: $$($(RT) version)" "Git trees: $(trees)"
trees = $$(for it in $(CRATES); do echo "$$it $$(git rev-parse --short=12 HEAD:crates/$$it)"; done \
    | xargs)$$(git diff --quiet HEAD -- $(CRATES:%=crates/%) || echo ', and changes since')

# The further line of a head: of a text with the processor's instructions, and of that for x86-64-v3.
EXCHANGED = Instructions: put in the place of proved functions by instructions.py, git blob
CHOSEN = Rounds: in the form chosen by instructions.py, git blob
exchanger = $$(git hash-object generated/make/instructions.py | cut -c-12)

# The text of the builds for ARCH, and for x86-64 those for Windows.
generated-$(ARCH): $(TEXTS:generated/%.S=$(KIT_OUT)/%.o) $(WINDOWS_MADE)
	for it in $(TEXTS:generated/%.S=%); do \
	    case $$it in *_v3) note='$(CHOSEN)';; *) note='$(EXCHANGED)';; esac; \
	    $(PYTHON) -B generated/make/assembly.py $(KIT_OUT)/$$it.o $(KIT_OUT)/$$it.S $(NOTES) \
	        "$$note $(exchanger)" \
	        && mv $(KIT_OUT)/$$it.S generated || exit 1; \
	done
	$(if $(WINDOWS_MADE),mv $(WINDOWS_MADE) generated)

# The kit is asked for all, even where no source is newer.
generated:
	$(MAKE) --no-print-directory -B generated-$(HOST)
	$(MAKE) --no-print-directory -B ARCH=aarch64 generated-aarch64
	$(MAKE) --no-print-directory -B generated-wasm

# What both link to, to the byte: the library of the text that stands here, and the kit's own. A
# text for Windows is compared, but for its head, with the text that is made anew.
generated-check: $(WHOLE) $(KIT_ARCHIVE) $(WINDOWS_MADE)
	for it in $(WHOLE) $(KIT_ARCHIVE); do \
	    $(LD) -s -shared --whole-archive $$it -o $(KIT_OUT)/$$(basename $${it%/*}).so || exit 1; \
	done
	cmp $(KIT_OUT)/$(notdir $(OUT)).so $(KIT_OUT)/kit.so || $(stale)
	for it in $(notdir $(WINDOWS_MADE)); do \
	    sed '1,/^ \*\/$$/d' generated/$$it >$(KIT_OUT)/here && \
	    sed '1,/^ \*\/$$/d' $(KIT_OUT)/$$it | cmp $(KIT_OUT)/here - || $(stale); \
	done
stale = { echo 'make: generated/ is not what the kit makes of crates/ring_c: renew it by' \
    '`make generated`' >&2; exit 1; }
endif

# Both builds for x86-64 by all their calls, which have names of their own in that for x86-64-v3.
builds-agree: $(BUILT)
	mkdir -p $(KIT_OUT)
	$(NM) -g --defined-only $(BUILT_V3) | awk '$$2 == "T" { print $$3, "v3_" $$3 }' >$(KIT_OUT)/all
	$(OBJCOPY) --redefine-syms=$(KIT_OUT)/all $(BUILT_V3) $(KIT_OUT)/ring_c.all.a
	$(CC) $(CFLAGS) $(STRICT) c/test/builds.c $(BUILT) $(KIT_OUT)/ring_c.all.a -o $(OUT)/builds
	! $(has_avx2) || $(OUT)/builds

# $(call apart,NAME,SOURCE,CRATES,RT FLAG..,LIBRARY): a crate that stands outside of crates/, proved
# and built in a copy outside of the repository, over links to the CRATES below, lowest first, of
# which `rt` replaces files and changes none.
define apart
	$(need_kit)
	mkdir -p $(@D)
	room=$$(mktemp -d) && trap 'rm -rf "$$room"' EXIT && mkdir -p "$$room/crates/$(1)/src" && \
	below= && for crate in $(3); do \
	    (cd crates/$$crate && mkdir -p "$$room/crates/$$crate/out" && \
	    cp -R src specs proofs "$$room/crates/$$crate" && \
	    { cp -al out/rlib "$$room/crates/$$crate/out" 2>/dev/null || \
	    cp -a out/rlib "$$room/crates/$$crate/out"; }) || exit 1; \
	    echo "$$crate:$$below" >>"$$room/crates.txt"; below=" $$crate"; \
	done && cp HANDLES "$$room" && \
	cp $(2) "$$room/crates/$(1)/src/lib.rt" && \
	echo "$(1) staticlib:$$below" >>"$$room/crates.txt" && \
	(cd "$$room/crates/$(1)" && $(4) $(RT_FLAGS) >../log 2>&1 || { cat ../log; exit 1; }) && \
	cp "$$room/crates/$(1)/out/lib$(1).a" $(5)
endef

# The planted bodies are proved and leak all the same.
$(PLANTED): $(BUILT) c/test/planted.rattle
	$(call apart,plant,c/test/planted.rattle,ring_core ring,$(RT) lib,$@)

# The module that was compiled, as text and before the exchange. `make clean` takes it away, and
# leaves the build.
MODULE = $(KIT_OUT)/$(basename $(notdir $(BUILT)))/module.ll
$(MODULE): | $(BUILT)
	test -e $@ || $(MAKE) --no-print-directory -B $(BUILT)

instructions-diff: $(MODULE)
	diff -U1 $< $(<:module.ll=changed.ll); test $$? = 1

# The build for x86-64-v2 by its kernels over the SHA instructions, on every processor, but with the
# definitions as they are proved: valgrind doesn't run the instructions.
ifeq ($(ARCH),x86_64)
DEFINED = $(OUT)/defined/libyezdopin.a
$(KIT_OUT)/defined.o: $(BUILT) $(MODULE) generated/make/instructions.py $(KIT_OUT)/v2.renamed
	$(PYTHON) -B generated/make/instructions.py --only are_there $(ARCH) $(MODULE) $(@:.o=.ll)
	sed 's|^module\.bc$$|$(@:.o=.ll)|; s|^module\.o$$|$@|' '$(call links_of,$(BUILT))/flags' \
	    | tr '\n' '\0' | xargs -0 '$(call links_of,$(BUILT_V3))/toolchain/bin/clang'
	$(OBJCOPY) --redefine-syms=$(KIT_OUT)/v2.renamed $@
$(OUT)/defined/%.o: c/%.c c/processor.h $(HEADER)
	mkdir -p $(@D)
	$(COMPILED) -DFORCED=2 -DINSTRUCTIONS=1 -c $< -o $@
$(DEFINED): $(OUT)/defined/dispatch.o $(OUT)/defined/processor.o $(OUT)/status.o \
    $(KIT_OUT)/defined.o $(OUT)/names
	$(call archive,$(filter %.o,$^))
endif

# Each function that an instruction is put in the place of, as it is proved and exchanged, beside
# each other.
COMPARED = $(OUT)/instructions
RT_LIB = lib $(if $(filter x86_64,$(ARCH)),,--target=$(ARCH)-unknown-linux-gnu)
$(COMPARED)/proved.a: $(BUILT) c/test/instructions/probe.rattle
	$(call apart,probe,c/test/instructions/probe.rattle,ring_core,$(RT) $(RT_LIB),$@)
$(COMPARED)/taken.a: $(BUILT) c/test/instructions/probe.rattle $(BUILDERS)
	generated/make/kit.sh $(RT) '$(call links_of,probe)' $(EXCHANGE)
	$(call apart,probe,c/test/instructions/probe.rattle,ring_core,'$(call links_of,probe)/bin/rt' \
	    $(RT_LIB),$@)
	$(NM) -g --defined-only $@ | sed -n 's/.* T probe_\(.*\)/probe_\1 taken_\1/p' >$@.names
	$(OBJCOPY) --redefine-syms=$@.names $@
$(COMPARED)/compare: c/test/instructions/compare.c $(COMPARED)/proved.a $(COMPARED)/taken.a
	$(CC) $(CFLAGS) $(STRICT) $^ -o $@

# By the same route, but that the module stays as it is.
$(COMPARED)/same.a: $(BUILT) c/test/instructions/probe.rattle generated/make/kit.sh
	generated/make/kit.sh $(RT) '$(call links_of,same)' cp
	$(call apart,probe,c/test/instructions/probe.rattle,ring_core,'$(call links_of,same)/bin/rt' \
	    $(RT_LIB),$@)

# Without the exchange the library is the kit's own to the byte.
instructions-compare: $(COMPARED)/compare $(COMPARED)/same.a $(MODULE)
	cmp $(COMPARED)/proved.a $(COMPARED)/same.a
	$(PYTHON) -B generated/make/instructions_test.py $(if $(filter x86_64,$(ARCH)),$(MODULE))
	if by=$$(c/test/instructions/processor '$(RUN)' $(OUT)/emulator); then $$by $< $(INPUTS); \
	else echo 'left out: each SHA instruction beside its definition, without such a processor' \
	    'or qemu 8.2'; fi

generated-programs:
	RT='$(RT)' generated/make/programs renew

.PHONY: generated generated-programs generated-$(ARCH) generated-check builds-agree \
    instructions-diff instructions-compare
