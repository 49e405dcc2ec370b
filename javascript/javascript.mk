# SPDX-License-Identifier: ISC
# The package for JavaScript:
#
#     make js                   # builds the package for JavaScript in out/js/package
#     make js-check             # tests it under Node 20 or later
#     make js-browsers          # tests it in Chromium, Firefox and JavaScriptCore, where they are
#     make js-demo              # serves the demonstration to this machine's browser
#     make verify-wasm          # shows the modules' code for all inputs: docs/VERIFY.md
#     make js-speed             # times it beside node:crypto and WebCrypto
#     make dist-npm             # packs it for npm; `make dist` does so too
#
# There are two modules of the same crate, yezdopin and yezdopin_simd, which has vectors of 128 bits
# (simd128). Each is made of its text in generated/, which `make generated-wasm` renews by the kit.
# The kit builds the crate for WebAssembly with 64-bit addresses, its only kind, and
# generated/make/lower.py turns the linked modules to 32-bit addresses, since not all engines have
# the former.

NODE ?= node
NPM ?= npm
TSC ?= tsc
# Node's own tests and types, which tools/node_source puts there.
NODE_SOURCE ?= /usr/local/src/node-v20.19.2
JS = $(OUT)/js
WASM_BUILT = $(CRATE)/out/libring_c.wasm64.a
# What the kit's clang was given for it: the crate as text, and the flags.
WASM_LINKS = $(call links_of,$(WASM_BUILT))
WASM_NAMES = yezdopin yezdopin_simd
WASM64 = $(WASM_NAMES:%=$(JS)/%64.wasm)
WASM = $(WASM_NAMES:%=$(JS)/package/%.wasm)
WASM_TEXTS = $(WASM_NAMES:%=generated/%_wasm.hex)
KIT_WASM = $(WASM_NAMES:%=$(JS)/kit/%.wasm)
JS_MODULES = $(wildcard javascript/package/*.js)
JS_FILES = $(wildcard javascript/package/*.ts javascript/package/package.json)
KIT = $(patsubst %/bin/,%,$(dir $(realpath $(shell command -v $(RT)))))
# What the package calls, and what it asks the module for.
JS_CALLS = digest digest_final digest_init digest_update equal hkdf hkdf_expand \
    hkdf_expand_label hkdf_extract hmac_final hmac_init hmac_key_init hmac_sign hmac_update \
    hmac_verify hotp hotp_find jws_sign jws_verify merkle_consistency_path merkle_inclusion_path \
    merkle_leaf merkle_root merkle_verify_consistency merkle_verify_inclusion output_len \
    password_hash_info password_hash_new password_hash_salt password_hash_verify pbkdf2_derive \
    pbkdf2_verify tls13_binder_key tls13_finished tls13_finished_verify totp totp_find version \
    webhook_verify_github webhook_verify_hex webhook_verify_stripe
JS_EXPORTS = memory __heap_base $(JS_CALLS:%=yz_%)
# The module's stack, which ends where the constants begin: package/calls.js has the number too.
WASM_STACK = 65536

js: $(JS)/package/package.json

# It needs Python alone.
verify-wasm:
	for it in $(WASM_TEXTS); do $(PYTHON) verify/check $(VERIFY_FLAGS) $$it || exit 1; done

# `rt lib` writes to where the build for this machine stands, which is put back. One message is run
# by the kernels over a window, which instructions.py chooses: without vectors they take less time.
$(WASM_BUILT): $(SOURCES) crates.txt $(BUILDERS)
	$(need_kit)
	mkdir -p $(JS) $(KIT_OUT)
	generated/make/kit.sh $(RT) '$(call links_of,$@)' \
	    '$(PYTHON) -B "$(CURDIR)/generated/make/instructions.py" wasm64'
	@echo 'Proving and building ring_c for WebAssembly. $(JS)/rt.log has what rt says.'
	built=$(CRATE)/out/libring_c.a; ! test -e $$built || mv $$built $$built.kept; \
	generated/make/progress.py $(JS)/rt.log ring_c '$(call links_of,$@)/bin/rt' lib \
	    --target=wasm64-unknown-unknown $(RT_FLAGS) \
	    && mv $$built $@ || { cat $(JS)/rt.log; status=1; }; \
	! test -e $$built.kept || mv $$built.kept $$built; exit $${status:-0}

$(WASM_LINKS)/module.ll: | $(WASM_BUILT)
	test -e $@ || $(MAKE) --no-print-directory -B $(WASM_BUILT)

# The same crate, compiled with vectors: `is_window_chosen` answers by its own body, so that one
# message is run by fours. Over a window SHA-1 takes as long, SHA-2 longer.
$(JS)/simd.o: $(WASM_BUILT) $(WASM_LINKS)/module.ll
	sed 's|^module\.bc$$|$(WASM_LINKS)/module.ll|; s|^module\.o$$|$@|' '$(WASM_LINKS)/flags' \
	    | tr '\n' '\0' | xargs -0 $(KIT)/toolchain/bin/clang -msimd128

$(JS)/yezdopin64.wasm: $(WASM_BUILT)
$(JS)/yezdopin_simd64.wasm: $(JS)/simd.o
$(WASM64):
	mkdir -p $(@D)
	$(KIT)/bin/rattle-link --target wasm64-unknown-unknown --toolchain $(KIT)/toolchain \
	    --stack $(WASM_STACK) -o $@ $<

# Several messages run side by side by vectors alone: without these they take longer. By the call
# for 256 bits too, `_wide`, whose words of all lanes are two vectors of 128.
$(JS)/kit/yezdopin_simd.wasm: LOWERED_BY = --simd
$(JS)/kit/yezdopin_simd.wasm: MORE_EXPORTS = yz_digest_each
$(KIT_WASM): $(JS)/kit/%.wasm: $(JS)/%64.wasm generated/make/lower.py
	mkdir -p $(@D)
	$(PYTHON) -B generated/make/lower.py $(LOWERED_BY) $< $@ $(JS_EXPORTS) $(MORE_EXPORTS)

$(WASM): $(JS)/package/%.wasm: generated/%_wasm.hex javascript/build/text.mjs \
    javascript/build/version.cjs
	mkdir -p $(@D)
	$(NODE) javascript/build/version.cjs $(@D)
	$(NODE) javascript/build/text.mjs read $< $@

# The texts of the modules, under the head that the assembly text has.
generated-wasm: $(KIT_WASM)
	for it in $(WASM_NAMES); do \
	    $(NODE) javascript/build/text.mjs write $(JS)/kit/$$it.wasm $(JS)/$${it}64.wasm \
	        generated/$${it}_wasm.hex $(NOTES) \
	        "Kernels: chosen by instructions.py, git blob $(exchanger)" || exit 1; \
	done

$(JS)/package/package.json: $(WASM) $(JS_FILES) $(JS_MODULES) javascript/build/bundle.mjs \
    javascript/README.md LICENSE
	rm -f $(@D)/*.js $(@D)/*.ts
	$(NODE) javascript/build/bundle.mjs javascript/package $(@D)
	cp $(JS_FILES) javascript/README.md LICENSE $(@D)

# What lacks the kit, a TypeScript compiler or npm is left out.
JS_KIT = $(if $(shell command -v $(RT) 2>/dev/null),js-generated js-lowered)
JS_TYPES = $(if $(shell command -v $(TSC) 2>/dev/null),js-types)
JS_PACKED = $(if $(shell command -v $(NPM) 2>/dev/null),js-packed)
JS_NODE = $(if $(wildcard $(NODE_SOURCE)),js-node $(if $(JS_TYPES),js-types-node))
js-check: js-node-20 js-test js-everyday js-traces
	$(if $(JS_KIT),$(MAKE) $(JS_KIT),@echo 'left out: js-generated js-lowered, without $(RT)')
	$(if $(JS_TYPES),$(MAKE) $(JS_TYPES),@echo 'left out: js-types, without $(TSC)')
	$(if $(JS_NODE),$(MAKE) $(JS_NODE),@echo 'left out: js-node js-types-node, without $(NODE_SOURCE)')
	$(if $(JS_PACKED),$(MAKE) $(JS_PACKED),@echo 'left out: js-packed, without $(NPM)')

# The tests use what Node 18 lacks, and the package does not.
js-node-20:
	@$(NODE) -e 'process.exit(Number(parseInt(process.versions.node) < 20))' || \
	    { echo "make: the tests want Node 20 or later: NODE=$(NODE) is $$($(NODE) --version)" >&2; \
	    exit 1; }

# Whether the texts are those of the modules that the kit makes.
js-generated: $(WASM) $(KIT_WASM)
	for it in $(WASM_NAMES); do \
	    cmp $(JS)/package/$$it.wasm $(JS)/kit/$$it.wasm && continue; \
	    echo "make: generated/$${it}_wasm.hex is not what the kit makes of crates/ring_c:" \
	        'renew it by `make generated`' >&2; exit 1; \
	done

# Node 20 wants a flag for the module of 64-bit addresses.
MEMORY64 = $$($(NODE) -p 'WebAssembly.validate(Uint8Array.of(0, 97, 115, 109, 1, 0, 0, 0, 5, 3, 1, \
    4, 1)) ? "" : "--experimental-wasm-memory64"')

# Each module beside that which it is lowered from, that with vectors beside the other one, then
# that wrong forms of generated/make/lower.py are found.
LOWERED = $(NODE) $(MEMORY64) javascript/test/lowered.mjs
js-lowered: $(WASM) $(WASM64)
	for it in $(WASM_NAMES); do \
	    $(LOWERED) $(JS)/$${it}64.wasm $(JS)/package/$$it.wasm || exit 1; \
	done
	$(LOWERED) --callers $(JS)/yezdopin64.wasm $(JS)/package/yezdopin_simd.wasm
	NODE='$(NODE)' $(PYTHON) -B javascript/test/wrong_forms.py $(WASM64) $(JS) "$(MEMORY64)" \
	    $(JS_EXPORTS)

# $(call with_each,COMMAND): a command in an engine with vectors, and in one without.
with_each = for MODULE in $(WASM_NAMES); do export MODULE; $(1) || exit 1; done
JS_TESTS = package memory during merkle tokens webhook tls13 verifications simd
js-test: $(JS)/package/package.json $(VERIFICATIONS)
	export PACKAGE="$(WHOLE_OUT)/js/package" VECTORS=vectors VERSION=$(VERSION) \
	    VERIFICATIONS=$(VERIFICATIONS) NODE_PATH="$${NODE_PATH:-/usr/share/nodejs}"; \
	$(call with_each,$(NODE) --test $(JS_TESTS:%=javascript/test/%.test.mjs))

# What each module tells of its addresses and conditions on other secrets.
js-traces: $(WASM)
	for it in $(WASM); do \
	    $(PYTHON) -B javascript/test/traced.py $$it $(JS)/traced.wasm $(JS)/planted.wasm && \
	    $(NODE) javascript/test/traces.mjs $(JS)/traced.wasm $(JS)/planted.wasm || exit 1; \
	done

# The types, by a TypeScript compiler, as browsers have them.
TYPED = $(TSC) --strict --noEmit --lib es2022,dom --target es2022 --module nodenext
js-types: $(JS)/package/package.json
	rm -rf $(JS)/types && mkdir -p $(JS)/types/node_modules
	ln -s ../../package $(JS)/types/node_modules/yezdopin
	sed 's|"yezdopin"|"../package/browser.js"|' javascript/test/types.mts >$(JS)/types/types.mts
	cd $(JS)/types && $(TYPED) types.mts

# The types as Node has them, beside Node's own, which name some of a package that isn't there.
js-types-node: $(JS)/package/package.json
	rm -rf $(JS)/types_node && mkdir -p $(JS)/types_node/node_modules/@types
	ln -s ../../package $(JS)/types_node/node_modules/yezdopin
	cp -R "$(NODE_SOURCE)/types" $(JS)/types_node/node_modules/@types/node
	mkdir $(JS)/types_node/node_modules/undici-types
	for it in FormData Headers MessageEvent Request RequestInit Response ResponseInit; do \
	    echo "export type $$it = unknown; export declare const $$it: unknown;"; \
	done >$(JS)/types_node/node_modules/undici-types/index.d.ts
	cp javascript/test/types_node.mts $(JS)/types_node
	cd $(JS)/types_node && $(TYPED) types_node.mts

# Node's own tests of what the package has, and what programs write with node:crypto.
js-node: $(JS)/package/package.json
	export PACKAGE="$(WHOLE_OUT)/js/package"; \
	$(call with_each,$(NODE) javascript/test/node_tests.mjs "$(NODE_SOURCE)")

js-everyday: $(JS)/package/package.json
	export PACKAGE="$(WHOLE_OUT)/js/package"; \
	$(call with_each,$(NODE) javascript/test/everyday.mjs)

# The package as npm makes and installs it, the same bytes twice, and as npm installs this folder.
js-packed: $(JS)/package/package.json
	NPM='$(NPM)' NODE='$(NODE)' javascript/test/packed $(<D)

# The vectors in a page and in a worker, and the demonstration in Chromium, under a content policy;
# the vectors alone in Safari's engine (Debian: libjavascriptcoregtk-4.0-bin).
js-browsers: $(JS)/package/package.json
	room=$$(mktemp -d) && trap 'rm -rf "$$room"' EXIT; mkdir "$$room/firefox"; \
	export PACKAGE="$(WHOLE_OUT)/js/package" VECTORS="$(CURDIR)/vectors" QUERY='$(QUERY)'; \
	if command -v chromium >/dev/null; then \
	    $(NODE) javascript/test/browser.mjs chromium --headless=new --no-sandbox --disable-gpu \
	        "--user-data-dir=$$room/chromium" '{}' && \
	    $(NODE) javascript/test/demo.mjs chromium "$$room" "$(WHOLE_OUT)/js/demo.png" || exit 1; \
	else echo 'left out: Chromium'; fi; \
	if command -v firefox-esr >/dev/null; then \
	    HOME="$$room" $(NODE) javascript/test/browser.mjs firefox-esr --headless --no-remote \
	        --profile "$$room/firefox" '{}' || exit 1; \
	else echo 'left out: Firefox'; fi; \
	if command -v jsc >/dev/null; then \
	    jsc -m javascript/test/jsc.mjs -- "$$PACKAGE" "$$VECTORS" || exit 1; \
	else echo 'left out: JavaScriptCore'; fi

# The demonstration, where a browser on this machine can open it: on a free port, or on PORT.
js-demo: $(JS)/package/package.json
	mkdir -p $(JS)/demo && cp javascript/demo/* $(JS)/demo
	@$(PYTHON) -B javascript/build/serve.py $(JS) demo/index.html $(PORT)

# Times beside others'. In browsers: make js-browsers QUERY='?speed'
js-speed: $(JS)/package/package.json
	@$(NODE) javascript/speed/node.mjs $(<D)

dist-npm: $(JS)/package/package.json
	mkdir -p "$(DIST)"
	NPM='$(NPM)' javascript/build/pack $(<D) "$(DIST)"

.PHONY: js js-check js-node-20 generated-wasm js-generated js-lowered js-test js-everyday \
    js-node js-traces js-types js-types-node js-packed js-browsers js-demo js-speed dist-npm verify-wasm
