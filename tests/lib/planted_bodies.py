# SPDX-License-Identifier: ISC
"""The rules of one_kernel_one_meter.py by what each says, and bodies that keep their contracts,
each with the rule that finds it."""

import re

STORE = "crates/ring_store/src/"
ONE_CALL = "a plain form is the one call of its counted form"
NO_OTHER_METER = "no function that takes a meter calls what runs blocks under another"
NO_OTHER_NAME = (
    "no import has another name, but those of some modules and of laws that no code calls"
)
NO_VALUE = "what runs blocks under a meter of its own is called where it is named"
NO_ALIAS = "no alias names a type with such functions"
NO_MACRO = "no macro names such a function"
NO_SECOND = "no function that takes a `&mut Meter` makes another"
NO_OTHER_PLACE = "the {} places of {} that are listed make a meter, and no other one"
NONE_BELOW = "no function of a library with meters calls a plain form"
ONCE = "a body of `ring_passwords` and of `ring_c` calls what runs blocks once"
AS_LISTED = (
    "a function of `ring_schedules` runs blocks by as many calls as are listed, and in no loop"
)
ONE_DERIVATION = (
    "each call that derives stands in one place of `ring_c`, beside no other one and in no loop"
)
FEW_DERIVE = "in `ring_c` only PBKDF2 and the test and the making of a password hash derive"
NO_PLAIN_DERIVATION = (
    "`ring_c` and `ring_passwords` derive by no plain form, but for the text of a password"
)
COUNTED_ONCE = "blocks are loaded and run once beside their count, and nothing else counts one"
AHEAD_ONCE = "each family runs the rounds of one message in one place, and in no loop"
OF_EACH_FAMILY = "each family calls `{}` in one function"
OF_ONE_FUNCTION = "`{}` stands in one function"
OF_BOTH_FORMS = "`{}` stands in the two forms of SHA-2's round"
ONE_ROTATION = "one function rotates left by 5"
NO_SIGMA_1 = "no function rotates by the numbers of Σ1"
NO_NAMED_COUNT = "only those of the rotations and of the sigmas take a count that has a name"
ONE_MAKER = "one function of `cost` makes a meter, and no derive does"
ARGUMENTS = "PBKDF2_HMAC_SHA256, iterations, salt, password, credential"
SALT = "use std::num::NonZeroU32;\n"
CONTEXT = SALT, f"use ring::digest::Context;\n{SALT}"
KEY = SALT, f"use ring::hmac::Key;\n{SALT}"
OTHER_KEY = "let _ = Other::new(ring::hmac::HMAC_SHA256, password);"
STORED = "crates/ring_password_hash/src/stored.rt"
C_PASSWORDS = "crates/ring_c/src/password_hashes.rt"
C_VERIFY = "    status_from(verify_counted(text, password, max_iterations, meter))\n"
C_INFO = "    match Stored::parse(text) {\n"
C_DERIVATIONS = "crates/ring_c/src/derivations.rt"
C_VERIFY_IN = "    match pbkdf2::verify_in::<VECTOR_BITS>(\n"
SCHEDULES = "crates/ring_schedules/src/"
FINISHED = f"{SCHEDULES}tls13/traffic.rt"
EXTRACT = "    hkdf_extract(salt.hash(), salt.as_ref(), keying_material)\n"
PACKET_KEY = '        Version::V1 => secret.expand_label(b"quic key", &[], key),\n'
SHA1_BY_FOURS = "crates/ring_core/src/digest/sha1/by_fours.rt"
RUN_WORD_BLOCK = (
    "    run_block(sums, state, first, second, third, fourth);\n    meter.add_block();\n"
)
COST = "crates/ring_core/src/cost.rt"
NEW_METER = "    pub fn new() -> Self"
PUT_SUMS = "    put_first_sums(sums, [first, second, third, fourth]);\n"
RUN_AHEAD = "    run_ahead(sums, state, first, second, third, fourth);\n"
EACH = "crates/ring/src/digest/each.rt"
KEYS = "crates/ring/src/hmac/key.rt"
GENERATED = "        Key::new_counted(algorithm, value, &mut Meter::new())\n"


def before(rule, path, line, body):
    """A body planted before a line of a file."""
    return rule, path, line, f"{re.match(' *', line).group()}{body}\n{line}"


def second_round(rule, family, words, result):
    """A function beside the round of a family that is a copy of it."""
    path = f"crates/ring_core/src/digest/{family}/round.rt"
    count = words.count(",") + 1
    front = "pub(crate) fn add_state<"
    head = f"fn again<W>(v: [W; {count}], sum: W) -> [W; {count}]"
    return rule, path, front, f"{head} {{ let [{words}] = v; [{result}] }}\n{front}"


def in_matches(rule, body, *texts):
    """A body planted in `matches` of the store, before what it calls."""
    call = "    pbkdf2::verify_counted(\n"
    return *before(rule, f"{STORE}credential.rt", call, body), *texts


# Each is planted in turn: its rule, the file, a text and what stands in its place, and so on for
# further texts.
PLANTED = {
    "an extraction of a key schedule runs twice": before(
        AS_LISTED, f"{SCHEDULES}extract.rt", EXTRACT,
        "let _ = hkdf_extract(salt.hash(), salt.as_ref(), keying_material);",
    ),
    "an extraction of a key schedule runs again in a loop": before(
        AS_LISTED, f"{SCHEDULES}extract.rt",
        "    let Ok(secret) = extract_with(salt, HashValue::zeros(salt.hash()).as_ref()) else {\n",
        "for _ in 0..2 { if let Ok(found) = extract_with(salt, &[]) { return found; } }",
    ),
    "an Early Secret is extracted of zeros too": before(
        AS_LISTED, f"{SCHEDULES}tls13/early.rt",
        "        Ok(EarlySecret(extract_with(&HashValue::zeros(hash), psk)?))\n",
        "let _ = extract_zeros_with(&HashValue::zeros(hash));",
    ),
    "a packet's key is expanded twice": (
        AS_LISTED, f"{SCHEDULES}quic.rt", PACKET_KEY,
        '        Version::V1 => { let _ = secret.expand_label(b"quic key", &[], key);\n'
        '            secret.expand_label(b"quic key", &[], key) }\n',
    ),
    "plain `verify_password` answers an unknown name early": (
        ONE_CALL,
        f"{STORE}store.rt",
        "        self.verify_password_counted(name, password, &mut Meter::new())\n",
        "        self.iterations_of(name).ok_or(StoreError::WrongUsernameOrPassword)?;\n"
        "        self.verify_password_counted(name, password, &mut Meter::new())\n",
    ),
    "plain `check_password` answers an unknown name early": (
        ONE_CALL,
        f"{STORE}store.rt",
        "        self.check_password_counted(name, password, &mut Meter::new())\n",
        "        self.iterations_of(name).ok_or(StoreError::WrongUsernameOrPassword)?;\n"
        "        self.check_password_counted(name, password, &mut Meter::new())\n",
    ),
    "plain `check` of a token compares by `!=`": (
        ONE_CALL,
        f"{STORE}token.rt",
        "        self.check_counted(user, expiry, now, token, &mut Meter::new())\n",
        "        if self.issue(user, expiry)?.as_slice() != token {\n"
        "            return Err(TokenError::BadToken);\n"
        "        }\n"
        "        if now > expiry { Err(TokenError::Expired) } else { Ok(()) }\n",
    ),
    "plain `check` of a token ends at the first byte that differs": (
        ONE_CALL,
        f"{STORE}token.rt",
        "        self.check_counted(user, expiry, now, token, &mut Meter::new())\n",
        "        for (made, given) in self.issue(user, expiry)?.iter().zip(token) {\n"
        "            if made != given {\n"
        "                return Err(TokenError::BadToken);\n"
        "            }\n"
        "        }\n"
        "        self.check_counted(user, expiry, now, token, &mut Meter::new())\n",
    ),
    "plain `finish` of a context runs the last blocks twice": before(
        ONE_CALL,
        "crates/ring/src/digest/context.rt",
        "        self.finish_counted(&mut Meter::new())\n",
        "let _ = self.clone().finish_counted(&mut Meter::new());",
    ),
    "`digest_each` has a plain form": (
        NO_OTHER_PLACE.format(18, "ring"),
        EACH,
        "/// As [`digest_each_counted`], but",
        "pub fn digest_each(a: &Algorithm, m: &[&[u8]], o: &mut [Digest]) -> "
        "Result<(), Unspecified> {\n    digest_each_counted(a, m, o, &mut Meter::new())\n}\n\n"
        "/// As [`digest_each_counted`], but",
    ),
    "`Key::generate` makes its key once more": before(
        NO_OTHER_PLACE.format(18, "ring"), KEYS, GENERATED, f"let _ = {GENERATED.strip()};"
    ),
    "`Key::generate` makes its key by a plain form": (
        NONE_BELOW, KEYS, GENERATED, "        Key::new(algorithm, value)\n"
    ),
    "a conversion of an `Okm` is filled by a plain form": (
        NO_OTHER_METER,
        "crates/ring/src/hkdf/prk.rt",
        "        self.fill_counted(value, meter)?;\n",
        "        self.fill(value)?;\n",
    ),
    "`set` of the program derives once more than it counts": (
        NO_OTHER_METER,
        "crates/ring_passwords/src/change.rt",
        "    let before = store.iterations();\n",
        "    let before = store.iterations();\n"
        "    let _ = store.check_password(name, password);\n",
    ),
    "`verify` of the program derives once more by a plain form": (
        NO_PLAIN_DERIVATION,
        "crates/ring_passwords/src/order.rt",
        "    change::verify(&store, name, &password, meter)\n",
        "    let _ = store.check_password(name, &password);\n"
        "    change::verify(&store, name, &password, meter)\n",
    ),
    "`verify` of the program derives once more under another meter": (
        NO_SECOND,
        "crates/ring_passwords/src/order.rt",
        "    change::verify(&store, name, &password, meter)\n",
        "    let _ = change::verify(&store, name, &password, &mut Meter::new());\n"
        "    change::verify(&store, name, &password, meter)\n",
    ),
    "`verify` of a text tests it with no limit first": before(
        ONE_CALL,
        STORED,
        "    verify_counted(text, password, max_iterations, &mut Meter::new())\n",
        "let _ = verify_counted(text, password, u32::MAX, &mut Meter::new());",
    ),
    "`Stored::verify` tests a value with no limit first": before(
        ONE_CALL,
        STORED,
        "        self.verify_counted(password, max_iterations, &mut Meter::new())\n",
        "let _ = self.verify_counted(password, u32::MAX, &mut Meter::new());",
    ),
    "`Stored::new` derives before it refuses": before(
        ONE_CALL,
        STORED,
        f"{'':8}Stored::new_counted(scheme, password, salt, iterations, room, &mut Meter::new())\n",
        "let _ = pbkdf2::derive(scheme.row().algorithm, iterations, salt, password, &mut [0; 64]);",
    ),
    "`Stored::new_counted` derives before it refuses, under another meter": before(
        NO_SECOND,
        STORED,
        "        keep(scheme, password, salt, iterations, room, kept, meter)?;\n",
        "let _ = derive(scheme, password, salt, iterations, kept, &mut Meter::new());",
    ),
    "`keep` derives before it refuses, by a plain form": before(
        NO_OTHER_METER,
        STORED,
        "    if !has_room(scheme, salt, iterations, &*kept, room) {\n",
        "let _ = pbkdf2::derive(scheme.row().algorithm, iterations, salt, password, kept);",
    ),
    "`Stored::verify_counted` derives before the limit, by a plain form": before(
        NO_OTHER_METER,
        STORED,
        "        if self.iterations.get() > max_iterations {\n",
        "let _ = pbkdf2::verify(self.scheme.row().algorithm, self.iterations, &self.salt, "
        "password, &self.kept);",
    ),
    "`read_as` of a text derives": before(
        NONE_BELOW,
        STORED,
        "    if !kept_into(scheme, rest, kept_len, &mut kept) {\n",
        "let _ = pbkdf2::verify(scheme.row().algorithm, iterations, &salt, rest, &kept);",
    ),
    "`yz_password_hash_verify` tests a text with no limit first": before(
        ONE_CALL,
        C_PASSWORDS,
        "    yz_password_hash_verify_counted(text, password, max_iterations, &mut Meter::new())\n",
        "let _ = verify(text, password, u32::MAX);",
    ),
    "`yz_password_hash_verify_counted` tests a text with no limit first, by a plain form": before(
        NO_OTHER_METER,
        C_PASSWORDS,
        C_VERIFY,
        "let _ = ring_password_hash::verify(text, password, u32::MAX);",
    ),
    "`yz_password_hash_verify_counted` tests a text first, by another function": (
        *before(ONE_DERIVATION, C_PASSWORDS, C_VERIFY, "early(text, password);"),
        SALT,
        f"{SALT}fn early(text: &[u8], password: &[u8]) {{\n"
        "    let _ = verify_counted(text, password, u32::MAX, &mut Meter::new());\n}\n",
    ),
    "`yz_password_hash_verify_counted` tests a text twice, in a loop": before(
        ONE_DERIVATION,
        C_PASSWORDS,
        C_VERIFY,
        "for _ in 0..2 { let _ = verify_counted(text, password, max_iterations, meter); }",
    ),
    "`yz_password_hash_info` tests the text by a plain form": before(
        NO_PLAIN_DERIVATION,
        C_PASSWORDS,
        C_INFO,
        "let _ = ring_password_hash::verify(text, &[], u32::MAX);",
    ),
    "`yz_password_hash_info` tests the value by a plain form": before(
        NO_PLAIN_DERIVATION,
        C_PASSWORDS,
        "            *iterations = stored.iterations().get();\n",
        "let _ = stored.verify(&[], u32::MAX);",
    ),
    "`yz_password_hash_info` tests the text by the call for it": before(
        FEW_DERIVE, C_PASSWORDS, C_INFO, "let _ = yz_password_hash_verify(text, &[], u32::MAX);"
    ),
    "`yz_password_hash_salt` derives by a plain form": before(
        NO_PLAIN_DERIVATION,
        C_PASSWORDS,
        "    let len = new_salt_len(scheme);\n",
        "let _ = pbkdf2::derive(scheme.row().algorithm, NonZeroU32::MAX, &[], random, &mut [0]);",
    ),
    "`yz_equal` tests a text by the call for it": before(
        FEW_DERIVE,
        "crates/ring_c/src/comparison.rt",
        "    verify_slices_are_equal(a, b).is_ok()\n",
        "let _ = crate::password_hashes::yz_password_hash_verify(a, b, u32::MAX);",
    ),
    "`yz_pbkdf2_derive` derives in a loop": before(
        ONE_DERIVATION,
        C_DERIVATIONS,
        "    derive::<SSE>(algorithm, iterations, Salted { salt, secret }, out)\n",
        "for _ in 0..1 { derive::<SSE>(algorithm, iterations, Salted { salt, secret }, out); }",
    ),
    "`yz_pbkdf2_derive_wide` tests a text by the call for it": before(
        ONE_DERIVATION,
        C_DERIVATIONS,
        "    derive::<AVX2>(algorithm, iterations, Salted { salt, secret }, out)\n",
        "let _ = crate::password_hashes::yz_password_hash_verify(salt, secret, u32::MAX);",
    ),
    "`verify` below `yz_pbkdf2_verify` derives once more by the function beside it": before(
        ONE_DERIVATION,
        C_DERIVATIONS,
        C_VERIFY_IN,
        "let _ = derive::<VECTOR_BITS>(1, iterations.get(), Salted { salt, secret }, &mut [0]);",
    ),
    "`verify` below `yz_pbkdf2_verify` derives once more by a plain form": before(
        NO_PLAIN_DERIVATION,
        C_DERIVATIONS,
        C_VERIFY_IN,
        "let _ = pbkdf2::derive(algorithm, iterations, salt, secret, &mut [0]);",
    ),
    "`yz_password_hash_new` derives before it refuses": before(
        ONE_CALL,
        C_PASSWORDS,
        "    yz_password_hash_new_counted(\n",
        "let _ = ring::pbkdf2::derive(PBKDF2_HMAC_SHA256, iterations, salt, password, &mut [0]);",
    ),
    "`write_encoded` of the program tests the password by a plain form": before(
        NO_PLAIN_DERIVATION,
        "crates/ring_passwords/src/main.rt",
        "    encode_salted(\n",
        "let _ = ring_password_hash::verify(&password, &password, u32::MAX);",
    ),
    "`test` of the program's texts derives twice": before(
        ONCE,
        "crates/ring_passwords/src/check.rt",
        "    match stored.verify_counted(password, most.get(), meter) {\n",
        "let _ = stored.verify_counted(password, most.get(), meter);",
    ),
    "`verify` of a Finished ends at the first byte that differs": (
        ONE_CALL,
        FINISHED,
        "        self.verify_counted(transcript, verify_data, &mut Meter::new())\n",
        "        if self.verify_data(transcript).as_ref() == verify_data {\n"
        "            Ok(())\n"
        "        } else {\n"
        "            Err(Unspecified)\n"
        "        }\n",
    ),
    "`verify_counted` of a Finished signs once more by a plain form": before(
        NO_OTHER_METER,
        FINISHED,
        "        verify_slices_are_equal_counted(tag.as_ref(), verify_data, meter)\n",
        "let _ = self.verify_data(transcript);",
    ),
    "`take_in` of checksums runs blocks under a further meter": before(
        "at most 1 places of ring_sums make a meter",
        "crates/ring_sums/src/lanes.rt",
        "        match update_each(&mut self.contexts, &pieces, &mut Meter::new()) {\n",
        "let _ = ring::digest::digest_counted(&ring::digest::SHA256, &[], &mut Meter::new());",
    ),
    "the program of test lines runs a block under a meter of its own": before(
        "no other crate makes a meter",
        "crates/ring_test_lines/src/main.rt",
        "        let answered = answer(rt.alloc(), line.as_str());\n",
        "let _ = ring::digest::digest_counted(&ring::digest::SHA256, &[], &mut "
        "ring::cost::Meter::new());",
    ),
    "`matches` derives once more than it counts": in_matches(
        NO_OTHER_METER, f"let _ = pbkdf2::verify({ARGUMENTS});"
    ),
    "`matches` derives once more under a meter of its own": in_matches(
        NO_SECOND, "let _ = derive(db_salt, name, password, iterations, &mut Meter::new());"
    ),
    "`matches` derives once more under a meter that a function in a local makes": in_matches(
        NO_SECOND,
        f"let make = Meter::new; let _ = pbkdf2::verify_counted({ARGUMENTS}, &mut make());",
    ),
    "`matches` derives once more under a meter whose type it writes in angle brackets": in_matches(
        NO_SECOND, f"let _ = pbkdf2::verify_counted({ARGUMENTS}, &mut <Meter>::new());"
    ),
    "`matches` derives once more through a module under another name": in_matches(
        NO_OTHER_METER, f"use ring::pbkdf2 as other; let _ = other::verify({ARGUMENTS});"
    ),
    "`matches` calls a method of what it has just made": in_matches(
        NO_OTHER_METER, "let _ = Context::new(&ring::digest::SHA256).finish();", *CONTEXT
    ),
    "`matches` writes its type in angle brackets": in_matches(
        NO_OTHER_METER, "let _ = <ring::hmac::Key>::new(ring::hmac::HMAC_SHA256, password);"
    ),
    "`matches` makes a key by `try_into`": in_matches(
        NO_OTHER_METER, "let _: Result<Key, _> = okm.try_into();", *KEY
    ),
    "`matches` hands a conversion over": in_matches(
        NO_VALUE, "let _: Option<Result<Key, _>> = okm.map(TryInto::try_into);", *KEY
    ),
    "`matches` derives once more by an import under another name": in_matches(
        NO_OTHER_NAME, f"let _ = another({ARGUMENTS});",
        SALT, f"use ring::pbkdf2::verify as another;\n{SALT}",
    ),
    "`matches` derives once more by one of several imports under another name": in_matches(
        NO_OTHER_NAME, f"let _ = another({ARGUMENTS});",
        "pbkdf2::{self, PBKDF2_HMAC_SHA256};",
        "pbkdf2::{self, PBKDF2_HMAC_SHA256, verify as another};",
    ),
    "`matches` derives once more by an import of its own under another name": in_matches(
        NO_OTHER_NAME, f"use ring::pbkdf2::verify as another; let _ = another({ARGUMENTS});"
    ),
    "`matches` imports a type under another name": in_matches(
        NO_OTHER_NAME, f"use ring::hmac::Key as Other; {OTHER_KEY}"
    ),
    "`ring` gives `verify` under another name": (
        NO_OTHER_NAME,
        "crates/ring/src/lib.rt",
        "pub use ring_core::{",
        "pub use crate::pbkdf2::verify as another;\npub use ring_core::{",
    ),
    "`matches` keeps a function in a local": in_matches(
        NO_VALUE, f"let another = pbkdf2::verify; let _ = another({ARGUMENTS});"
    ),
    "`matches` keeps an imported function in a local": in_matches(
        NO_VALUE, f"use ring::pbkdf2::verify; let another = verify; let _ = another({ARGUMENTS});"
    ),
    "`matches` hands a method over": in_matches(
        NO_VALUE,
        "let _ = Some(Context::new(&ring::digest::SHA256)).map(Context::finish);",
        *CONTEXT,
    ),
    "`matches` makes a key by an alias of its type": in_matches(
        NO_ALIAS, f"type Other = ring::hmac::Key; {OTHER_KEY}"
    ),
    "`matches` derives once more by a macro": in_matches(
        NO_MACRO, f"let _ = another!({ARGUMENTS});", SALT,
        f"macro_rules! another {{ ($($it:expr),*) => {{ pbkdf2::verify($($it),*) }}; }}\n{SALT}",
    ),
    "a block of words is run twice": (
        COUNTED_ONCE,
        SHA1_BY_FOURS,
        RUN_WORD_BLOCK,
        f"    run_block(sums, &mut {{ *state }}, first, second, third, fourth);\n{RUN_WORD_BLOCK}",
    ),
    "the rounds of a block are run twice": (
        AHEAD_ONCE,
        SHA1_BY_FOURS,
        RUN_AHEAD,
        f"    run_ahead(sums, &mut {{ *state }}, first, second, third, fourth);\n{PUT_SUMS}"
        f"{RUN_AHEAD}",
    ),
    "SHA-1's round stands twice, over its function": second_round(
        OF_ONE_FUNCTION.format("plus_function"),
        "sha1",
        "a, b, c, d, e",
        "plus_function(e.plus(sum), 0, b, c, d).plus(a.rotr(n)), a, b.rotr(2), c, d",
    ),
    "SHA-1's round stands twice, by Ch": second_round(
        OF_EACH_FAMILY.format("plus_choose"),
        "sha1",
        "a, b, c, d, e",
        "plus_choose(e.plus(sum), b, c, d).plus(a.rotr(n)), a, b.rotr(2), c, d",
    ),
    "SHA-1's round stands twice, by its rotation": second_round(
        ONE_ROTATION,
        "sha1",
        "a, b, c, d, e",
        "a.rotr(32 - 5).plus(b.bit_xor(c).bit_xor(d)).plus(e).plus(sum), a, b.rotr(2), c, d",
    ),
    "SHA-1's round stands twice, by shifts": second_round(
        ONE_ROTATION,
        "sha1",
        "a, b, c, d, e",
        "(a << 5 | a >> 27) + (b ^ c ^ d) + e + sum, a, b << 30 | b >> 2, c, d",
    ),
    "SHA-2's round stands twice, over its constants": second_round(
        OF_BOTH_FORMS.format("BIG_SIGMA_1"),
        "sha2",
        "a, b, c, d, e, f, g, h",
        "h.plus(big_sigma_nested(e, S::One::BIG_SIGMA_1)).plus(sum), a, b, c, d, e, f, g",
    ),
    "SHA-2's round stands twice, by Ch": second_round(
        OF_EACH_FAMILY.format("plus_choose"),
        "sha2",
        "a, b, c, d, e, f, g, h",
        "plus_choose(h.plus(sum), e, f, g).plus(big_sigma_apart(e, n)), a, b, c, d, e, f, g",
    ),
    "SHA-2's round stands twice, by its rotations": second_round(
        NO_SIGMA_1,
        "sha2",
        "a, b, c, d, e, f, g, h",
        "h + (e.rotr(6) ^ e.rotr(11) ^ e.rotr(25)) + (g ^ e & (f ^ g)) + sum, a, b, c, d, e, f, g",
    ),
    "SHA-2's round stands twice, by its numbers": second_round(
        "Σ1 of SHA-512 stands in one place",
        "sha2",
        "a, b, c, d, e, f, g, h",
        "h.plus(big_sigma_apart(e, (14, 18, 41))).plus(sum), a, b, c, d, e, f, g",
    ),
    "SHA-1's round stands twice, by a rotation whose count has a name": second_round(
        NO_NAMED_COUNT,
        "sha1",
        "a, b, c, d, e",
        "a.rotr(left).plus(b.bit_xor(c).bit_xor(d)).plus(e).plus(sum), a, b.rotr(2), c, d",
    ),
    "a second function makes a meter": (
        ONE_MAKER,
        COST,
        NEW_METER,
        f"    pub fn fresh() -> Self {{\n        Self::new()\n    }}\n\n{NEW_METER}",
    ),
    "a meter is made by a derive": (
        ONE_MAKER,
        COST,
        "#[derive(Drop)]\npub struct Meter",
        "#[derive(Default, Drop)]\npub struct Meter",
    ),
}
