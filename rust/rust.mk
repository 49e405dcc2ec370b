# SPDX-License-Identifier: ISC
# The Rust crate:
#
#     make rust                 # tests the Rust crate, and its build in a folder of others
#     make rustcrypto           # tests the crate with RustCrypto's traits, over Debian's crates

# The crate without the standard library too, and its build in a folder of others. An emulator takes
# too long for the table of verifications.
TABLE_HERE = $(if $(CARGO_TARGET),,$(VERIFICATIONS))
rust: $(ARCHIVE) $(TABLE_HERE)
	cd rust && export YEZDOPIN_LIB_DIR="$(WHOLE_OUT)" CARGO_TARGET_DIR="$(WHOLE_OUT)/cargo" \
	    $(if $(TABLE_HERE),VERIFICATIONS="$(WHOLE_OUT)/verifications.txt") $(CARGO_CROSS) && \
	$(CARGO) test $(CARGO_TARGET) --offline --locked --quiet && \
	$(CARGO) build $(CARGO_TARGET) --offline --locked --quiet --no-default-features
	CARGO='$(CARGO)' rust/tests/vendored $(ARCHIVE) $(ARCH)-unknown-linux-gnu

# The crate with RustCrypto's traits, over the crates of Debian's packages.
DEBIAN_CRATES ?= /usr/share/cargo/registry
rustcrypto: $(ARCHIVE) $(VERIFICATIONS)
	rm -rf $(OUT)/rustcrypto && mkdir -p $(OUT)/rustcrypto
	cp -R rust vectors $(OUT)/rustcrypto
	cd $(OUT)/rustcrypto/rust/rustcrypto && YEZDOPIN_LIB_DIR="$(WHOLE_OUT)" \
	    VERIFICATIONS="$(WHOLE_OUT)/verifications.txt" \
	    CARGO_TARGET_DIR="$(WHOLE_OUT)/cargo_rustcrypto" $(CARGO) test --offline --quiet \
	    --config 'source.crates-io.replace-with="debian"' \
	    --config 'source.debian.directory="$(DEBIAN_CRATES)"'

.PHONY: rust rustcrypto
