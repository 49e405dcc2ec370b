# SPDX-License-Identifier: ISC
# The library for Windows, in out/windows, built and tested on Linux, and its packages:
#
#     make windows              # builds the library for Windows in out/windows
#     make windows-check        # tests it under wine, by single steps, and its code on Linux
#     make windows-traces       # tests that no jump or address in its code depends on a secret
#     make windows-verify       # shows its machine code for all inputs: docs/VERIFY.md
#     make windows-rust         # tests the Rust crate under wine
#     make windows-zip          # packs it as a zip in out/dist
#     make windows-wheel        # packs the Python package for Windows in out/dist
#
# Where a tool is missing they say what they leave out, and make the rest. The tools are Debian's
# gcc-mingw-w64-x86-64, wine64, clang-19, lld-19 and llvm-19.

WINDOWS = $(OUT)/windows
MINGW ?= x86_64-w64-mingw32-
WINE ?= $(firstword $(wildcard /usr/lib/wine/wine64) wine)
DLL = $(WINDOWS)/yezdopin-$(MAJOR).dll
MINGW_TOOLS = $(addprefix $(MINGW),gcc ar nm objcopy objdump)
WINDOWS_STRICT = -std=c11 -D__USE_MINGW_ANSI_STDIO=1 $(WARNINGS) -Ic/include
WINDOWS_OBJECTS = $(WINDOWS_TEXTS:generated/%.S=$(WINDOWS)/%.o) $(WINDOWS)/probe.o

$(WINDOWS)/%.o: generated/%.S
	mkdir -p $(@D)
	$(MINGW)gcc -c $< -o $@
$(WINDOWS)/probe.o: c/probe.S
	mkdir -p $(@D)
	$(MINGW)gcc -c $< -o $@

# Windows' rules for unwinding don't have a function that ends by a jump to another one.
WINDOWS_COMPILED = $(MINGW)gcc -O2 -fno-optimize-sibling-calls $(WINDOWS_STRICT)
$(WINDOWS)/%.o: c/%.c c/processor.h $(HEADER)
	mkdir -p $(@D)
	$(WINDOWS_COMPILED) -c $< -o $@
$(WINDOWS)/v2/%.o: c/%.c c/processor.h $(HEADER)
	mkdir -p $(@D)
	$(WINDOWS_COMPILED) -DFORCED=2 -c $< -o $@
$(WINDOWS)/v3/%.o: c/%.c c/processor.h $(HEADER)
	mkdir -p $(@D)
	$(WINDOWS_COMPILED) -DFORCED=3 -c $< -o $@

# GNU ld's `-r` spoils the tables for unwinding, so each archive has several objects, and shows the
# names of the builds.
WINDOWS_ARCHIVES = $(WINDOWS)/libyezdopin.a $(WINDOWS)/v2/libyezdopin.a $(WINDOWS)/v3/libyezdopin.a
$(WINDOWS_ARCHIVES): %/libyezdopin.a: %/dispatch.o %/processor.o $(WINDOWS)/status.o \
    $(WINDOWS_OBJECTS)
	rm -f $@
	$(MINGW)ar rcsD $@ $^
# By the name that Microsoft's linker looks for.
$(WINDOWS)/yezdopin_static.lib: $(WINDOWS)/libyezdopin.a
	cp $< $@

# The DLL has no start of its own, and takes three functions of msvcrt.dll, which every Windows has.
$(WINDOWS)/yezdopin.def: $(OUT)/names
	mkdir -p $(@D)
	{ echo 'LIBRARY $(notdir $(DLL))' && echo EXPORTS && cat $<; } >$@
# Without the time, and where it is to be loaded said, since ld makes that of the file's path.
REPEATABLE = -Wl,--no-insert-timestamp -Wl,--image-base=0x180000000
LINKED = $(MINGW)gcc -shared -nostdlib -Wl,-e,0 $(REPEATABLE) -o $@ \
    -Wl,--whole-archive $< -Wl,--no-whole-archive $(WINDOWS)/yezdopin.def -lmsvcrt
$(DLL): $(WINDOWS)/libyezdopin.a $(WINDOWS)/yezdopin.def
	$(LINKED) -s -Wl,--out-implib,$(WINDOWS)/libyezdopin.dll.a
# The same with the names of its functions, for verify/check.
NAMED_DLL = $(WINDOWS)/named/$(notdir $(DLL))
$(NAMED_DLL): $(WINDOWS)/libyezdopin.a $(WINDOWS)/yezdopin.def
	mkdir -p $(@D)
	$(LINKED)
windows-verify: $(NAMED_DLL)
	$(PYTHON) verify/check $(VERIFY_FLAGS) $<
$(WINDOWS)/yezdopin.lib: $(DLL)
	llvm-dlltool-$(LLVM) -m i386:x86-64 -d $(WINDOWS)/yezdopin.def -l $@

WINDOWS_FILES = $(DLL) $(WINDOWS)/yezdopin_static.lib
windows: $(call with,$(MINGW_TOOLS),$(WINDOWS_FILES) \
    $(call with,llvm-dlltool-$(LLVM),$(WINDOWS)/yezdopin.lib))
	$(call without,$(MINGW_TOOLS),the library for Windows)
	$(call with,$(MINGW_TOOLS),$(call without,llvm-dlltool-$(LLVM),yezdopin.lib))

WINE_SETTINGS = WINEPREFIX='$(WHOLE_OUT)/wine' WINEDEBUG=-all WINEDLLOVERRIDES='mscoree,mshtml='
UNDER_WINE = $(WINE_SETTINGS) $(WINE)
WINDOWS_TESTED = $(WINDOWS_ARCHIVES) $(WINDOWS)/libyezdopin.dll.a
# $(call wine_test,NAME,ARGUMENTS): a test over $$archive, with its program in $$room.
wine_test = $(MINGW)gcc -O2 $(WINDOWS_STRICT) c/test/$(1).c $$archive -o $$room/$(1).exe && \
    $(UNDER_WINE) $$room/$(1).exe $(2)

# wine's own folder, of which it says more than is to be read.
$(OUT)/wine/system.reg:
	mkdir -p $(@D)
	$(UNDER_WINE) wineboot --init >$(OUT)/wine/said 2>&1

# The tests over each archive and over the DLL; the dispatcher's; the example; single steps; the
# code of c/probe.S, on Linux; and the names of the archive and of the DLL.
windows-tests: $(WINDOWS_FILES) $(WINDOWS_ARCHIVES) $(OUT)/wine/system.reg
	for it in $(STATUS_TESTS); do \
	    $(call on_each,$(WINDOWS_TESTED),$(call wine_test,$$it)) || exit 1; \
	done
	$(call on_each,$(WINDOWS_TESTED),$(call wine_test,vectors,$(VECTORS)))
	$(call on_each,$(WINDOWS_TESTED),$(call wine_test,stack))
	for it in '' 2 3; do \
	    $(MINGW)gcc -O2 $(WINDOWS_STRICT) -Wno-attributes $${it:+-DFORCED=$$it} c/test/dispatch.c \
	        -o $(WINDOWS)/dispatch.exe && $(UNDER_WINE) $(WINDOWS)/dispatch.exe || exit 1; \
	done
	$(MINGW)gcc -O2 $(WINDOWS_STRICT) c/examples/sign.c -L$(WINDOWS) -lyezdopin -o $(WINDOWS)/sign.exe
	test "$$($(UNDER_WINE) $(WINDOWS)/sign.exe 'what do ya want for nothing?' Jefe | tr -d '\r')" = \
	    5bdcc146bf60754e6a042426089575c75a003f089d2739839dec58b964ec3843 # RFC 4231, test case 2
	$(call on_each,$(filter-out $(WINDOWS)/libyezdopin.a,$(WINDOWS_ARCHIVES)), \
	    $(call wine_test,steps))
	$(MINGW)objcopy -O binary -j .text $(WINDOWS)/probe.o $(WINDOWS)/probe.code
	$(CC) -O2 -std=gnu11 $(WARNINGS) c/test/probe.c -o $(WINDOWS)/probe
	$(WINDOWS)/probe $(WINDOWS)/probe.code
	test "$$($(MINGW)nm -u $(WINDOWS)/libyezdopin.a \
	    | awk '$$1 == "U" && $$2 !~ /^(v[23]|yz)_/ { print $$2 }' | sort -u | xargs)" = \
	    'memcpy memmove memset'
	test "$$($(MINGW)objdump -p $(DLL) | awk '$$1 == "[" && $$NF ~ /^[a-z]/ { print $$NF }' | sort \
	    | xargs)" = "$$(sort $(OUT)/names | xargs)"

# A program over both libraries, as Microsoft's compiler and linker are called.
LLD_TOOLS = clang-$(LLVM) lld-link-$(LLVM) llvm-dlltool-$(LLVM)
of_mingw = "$$($(MINGW)gcc -print-file-name=$(1))"
windows-linked: $(WINDOWS_FILES) $(WINDOWS)/yezdopin.lib $(OUT)/wine/system.reg
	clang-$(LLVM) --driver-mode=cl --target=x86_64-pc-windows-msvc /std:c11 /W4 /WX /O2 /GS- \
	    /clang:-ffreestanding -Ic/include /c c/test/microsoft/linked.c /Fo$(WINDOWS)/linked.obj
	for it in yezdopin_static.lib yezdopin.lib; do \
	    lld-link-$(LLVM) /nologo /nodefaultlib /entry:start /subsystem:console \
	        /out:$(WINDOWS)/linked.exe $(WINDOWS)/linked.obj $(WINDOWS)/$$it \
	        $(call of_mingw,libmsvcrt.a) $(call of_mingw,libkernel32.a) && \
	    $(UNDER_WINE) $(WINDOWS)/linked.exe || exit 1; \
	done

# The same code on Linux, with the processor's SHA instructions too.
$(OUT)/windows_on_linux.a: c/test/on_linux $(WINDOWS_TEXTS) c/probe.S $(OUT)/dispatch.o \
    $(OUT)/processor.o $(OUT)/status.o
	CC='$(CC)' c/test/on_linux $@ $(filter %.S,$^) -- $(filter %.o,$^)
windows-code: $(OUT)/windows_on_linux.a
	CC='$(CC) $(CFLAGS) $(STRICT)' c/test/instructions/check $< '' $(VECTORS)

# No jump and no address by a secret in it.
windows-traces: $(OUT)/windows_on_linux.a
	HOSTCC='$(HOSTCC)' CC='$(CC)' NM='$(NM)' c/test/traces/compare '$(EMULATOR)' $<

windows-check: windows windows-code $(call with,$(MINGW_TOOLS) $(WINE),windows-tests \
    $(call with,$(LLD_TOOLS),windows-linked))
	$(call without,$(MINGW_TOOLS) $(WINE),the tests for Windows)
	$(call with,$(MINGW_TOOLS) $(WINE),$(call without,$(LLD_TOOLS),a program as by Microsoft's tools))

# The tests of the Rust crate under wine, where Rust's library for Windows is.
CARGO_WINDOWS = CARGO_TARGET_X86_64_PC_WINDOWS_GNU
windows-rust: $(WINDOWS)/libyezdopin.a $(OUT)/wine/system.reg
	cd rust && export YEZDOPIN_LIB_DIR='$(WHOLE_OUT)/windows' \
	    CARGO_TARGET_DIR='$(WHOLE_OUT)/cargo-windows' $(CARGO_WINDOWS)_LINKER=$(MINGW)gcc \
	    $(CARGO_WINDOWS)_RUNNER=$(WINE) $(WINE_SETTINGS) && \
	$(CARGO) test --target x86_64-pc-windows-gnu --offline --locked --quiet && \
	$(CARGO) build --target x86_64-pc-windows-gnu --offline --locked --quiet --no-default-features

# The packages.

LACKS_windows-zip = $(call missing,$(MINGW_TOOLS) llvm-dlltool-$(LLVM))
LACKS_windows-wheel = $(LACKS_wheel) $(call missing,$(MINGW_TOOLS) $(MINGW)dlltool)

WINDOWS_TREE = yezdopin-$(VERSION)-windows-x86_64
dist-windows-zip: $(WINDOWS_FILES) $(WINDOWS)/yezdopin.lib
	$(call system_tree,$(WINDOWS_TREE),x86-64-v2,,../bin/$(notdir $(DLL)))
	cp packaging/windows/INSTALL "$(WORK)/$(WINDOWS_TREE)/INSTALL"
	mkdir "$(WORK)/$(WINDOWS_TREE)/bin"
	cp $(DLL) "$(WORK)/$(WINDOWS_TREE)/bin"
	cp $(addprefix $(WINDOWS)/,libyezdopin.a libyezdopin.dll.a yezdopin.lib yezdopin_static.lib) \
	    "$(WORK)/$(WINDOWS_TREE)/lib"
	$(PYTHON) -B packaging/windows/zip "$(WORK)/$(WINDOWS_TREE)" "$(DIST)/$(WINDOWS_TREE).zip" \
	    $(SOURCE_DATE_EPOCH)

# The Python package, whose extension takes the names of Python's stable ABI from python3.dll.
WINDOWS_PYTHON = $(WORK)/python-windows
dist-windows-wheel: $(WINDOWS)/libyezdopin.a
	packaging/windows/import_library "$(WINDOWS_PYTHON)" $(MINGW) "$$($(PYTHON) -c \
	    'import sysconfig; print(sysconfig.get_paths()["include"])')" c/include
	cd python && CC=$(MINGW)gcc CFLAGS='-O2 $(WARNINGS)' \
	    LDFLAGS="-s '-L$(WINDOWS_PYTHON)' $(REPEATABLE)" \
	    YEZDOPIN_PYTHON_INCLUDE="$(WINDOWS_PYTHON)/include" \
	    YEZDOPIN_LIB_DIR="$(WHOLE_OUT)/windows" $(PYTHON) -B -c \
	    'import build_backend as it, sys; it.build_wheel(sys.argv[1], {"platform": "win_amd64"})' \
	    "$(DIST)"
	rm -rf "$(WORK)/windows-wheel" && mkdir -p "$(WORK)/windows-wheel"
	cd "$(WORK)/windows-wheel" && $(PYTHON) -m zipfile -e "$(DIST)"/*-win_amd64.whl .
	OBJDUMP=$(MINGW)objdump $(PYTHON) -B packaging/wheel/stable_abi \
	    "$(WORK)/windows-wheel/yezdopin/_native.pyd"

# What the Rust crate has of it.
dist-crate: $(call with,$(MINGW_TOOLS),$(WINDOWS)/libyezdopin.a)

.PHONY: windows windows-verify windows-code windows-traces windows-tests windows-linked windows-check windows-rust
