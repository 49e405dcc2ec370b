# SPDX-License-Identifier: ISC
"""Bodies that leak a secret and keep their contracts, each of which secrets_in_bb.py finds."""

FINISHED = "crates/ring_schedules/src/tls13/traffic.rt"
FINISHED_COMPARED = "        verify_slices_are_equal_counted(tag.as_ref(), verify_data, meter)\n"
WEBHOOK = "crates/ring_tokens/src/webhook.rt"
WEBHOOK_COMPARED = (
    "    let is_same = verify_slices_are_equal_counted(tag, given, meter).is_ok();\n"
)
WEBHOOK_ANSWERED = "    if !is_named(prefix, tag.as_ref(), header, meter) {\n"
SIGNATURE = "crates/ring_tokens/src/signature.rt"
SIGNATURE_COMPARED = (
    "    let is_same = verify_slices_are_equal_counted(tag, &given[..tag.len()], meter).is_ok();\n"
)
PASSWORD = "crates/ring_tokens/src/otp.rt"
PASSWORD_COMPARED = (
    "    verify_slices_are_equal_counted(&written[8 - digits.count()..], text, meter).is_ok()\n"
)
TOKEN = "crates/ring_store/src/token.rt"
TOKEN_COMPARED = "        if verify_slices_are_equal_counted(&made, token, meter).is_err() {\n"
STORED = "crates/ring_password_hash/src/stored.rt"
STORED_COMPARED = (
    "        match verify_slices_are_equal_counted(&self.kept[..self.kept_len], derived, meter) {\n"
)
TLS13 = "crates/ring_c/src/tls13.rt"
TLS13_COMPARED = "    match verify_slices_are_equal(tag.as_ref(), verify_data) {\n"
TAG = "crates/ring/src/hmac.rt"
TAG_COMPARED = "    verify_slices_are_equal_counted(made.as_ref(), tag, meter)\n"
RECEIVER = "crates/ring/src/pbkdf2/receiver.rt"
RECEIVER_COMPARED = "    verify_slices_are_equal_counted(derived, value, meter).is_ok()\n"
REFUSES = "{ return Err(Unspecified); }"


def beside(path, line, body, *texts):
    """A body planted before a line of a file."""
    return path, line, f"{body}\n{line}", *texts


def helper(path, line, body, front, function):
    """A body planted before a line, with a function that it calls before another function."""
    return *beside(path, line, body), front, f"{function}\n{front}"


# Each by its name: the file, a text and what stands in its place, and so on for further texts.
PLANTED = {
    "a Finished is compared by `!=` too": beside(
        FINISHED, FINISHED_COMPARED,
        f"if tag.as_ref() != verify_data {REFUSES}",
    ),
    "a Finished is compared by `==` of its bytes in a loop": beside(
        FINISHED, FINISHED_COMPARED,
        "for (made, given) in tag.as_ref().iter().zip(verify_data) {"
        f" if made != given {REFUSES} }}",
    ),
    "a Finished is compared by `all`": beside(
        FINISHED, FINISHED_COMPARED,
        f"if !tag.as_ref().iter().zip(verify_data).all(|(a, b)| a == b) {REFUSES}",
    ),
    "a Finished is handed to a function that compares by `==`": helper(
        FINISHED, FINISHED_COMPARED, f"if !is_it(tag.as_ref(), verify_data) {REFUSES}",
        "/// The key of a Finished message or of a PSK binder",
        "fn is_it(made: &[u8], given: &[u8]) -> bool { made == given }\n",
    ),
    "a Finished is compared by a closure": beside(
        FINISHED, FINISHED_COMPARED,
        f"let is_it = |made: &[u8]| made == verify_data; if !is_it(tag.as_ref()) {REFUSES}",
    ),
    "a Finished is compared by a trait's function": beside(
        FINISHED, FINISHED_COMPARED,
        f"if !PartialEq::eq(tag.as_ref(), verify_data) {REFUSES}",
    ),
    "a Finished is compared as its iterator goes on": beside(
        FINISHED, FINISHED_COMPARED,
        "let mut pairs = tag.as_ref().iter().zip(verify_data);"
        f" while let Some((a, b)) = pairs.next() {{ if a != b {REFUSES} }}",
    ),
    "a Finished is matched with a zero byte": beside(
        FINISHED, FINISHED_COMPARED,
        "match tag.as_ref() { [0, ..] => meter.blocks(), _ => 0 };",
    ),
    "a Finished key of zeros is refused": beside(
        FINISHED, FINISHED_COMPARED,
        f"if self.as_ref().iter().all(|byte| *byte == 0) {REFUSES}",
    ),
    "a webhook's tag ends at the first byte that differs": (
        WEBHOOK, WEBHOOK_COMPARED,
        "    let _ = verify_slices_are_equal_counted(tag, given, meter);\n"
        "    let is_same = given == tag;\n",
    ),
    "a webhook's tag is compared by its first byte too": beside(
        WEBHOOK, WEBHOOK_COMPARED, "if tag.first() != given.first() { let _ = meter.blocks(); }",
    ),
    "a webhook's tag begins with what is given": beside(
        WEBHOOK, WEBHOOK_COMPARED, "let _ = tag.starts_with(given);",
    ),
    "a webhook's tag is handed to a call that reads a text": beside(
        WEBHOOK, WEBHOOK_COMPARED, "let _ = after(given, tag);",
    ),
    "a webhook's tag is searched for a byte": beside(
        WEBHOOK, WEBHOOK_COMPARED, "let _ = memchr(given[0], tag);",
    ),
    "a webhook's tag is read by a table": beside(
        WEBHOOK, WEBHOOK_COMPARED, "let _ = b\"0123456789abcdef\"[(tag[0] >> 4) as usize];",
    ),
    "a header's tag is compared by `!=` too": beside(
        WEBHOOK, WEBHOOK_ANSWERED,
        f"if !header.is_empty() && tag.as_ref() != &header[..] {REFUSES}",
    ),
    "a header is cut where the tag says": beside(
        WEBHOOK, WEBHOOK_ANSWERED, "let _ = &header[..tag.as_ref()[0] as usize];",
    ),
    "verify_data for C is compared by `==` too": beside(
        TLS13, TLS13_COMPARED, "    if tag.as_ref() == verify_data { return OK; }",
    ),
    "verify_data for C is compared in a loop": beside(
        TLS13, TLS13_COMPARED,
        "    for (made, given) in tag.as_ref().iter().zip(verify_data) {"
        " if made != given { return UNSPECIFIED; } }",
    ),
    "verify_data for C is matched with a zero byte": beside(
        TLS13, TLS13_COMPARED, "    if let [0, ..] = tag.as_ref() { return UNSPECIFIED; }",
    ),
    "a binder's key is of a table by the pre-shared key": beside(
        TLS13, "    if psk.is_empty() {\n", "    let _ = b\"01\"[(psk[0] & 1) as usize];",
    ),
    "a base key of zeros is refused": beside(
        TLS13, "    let mut room = [0; MAX_OUTPUT_LEN];\n",
        "    if base_key.iter().all(|byte| *byte == 0) { unreachable!() }",
    ),
    "a signature is compared by `==` too": beside(
        SIGNATURE, SIGNATURE_COMPARED, "if given[..tag.len()] == *tag { let _ = meter.blocks(); }",
    ),
    "a signature is compared in a `while`": beside(
        SIGNATURE, SIGNATURE_COMPARED,
        "let mut i = 0; while i < tag.len() && tag[i] == given[i] { i += 1; }",
    ),
    "a signature's copy is compared": beside(
        SIGNATURE, SIGNATURE_COMPARED,
        "let mut copy = [0; 64]; copy[..tag.len()].copy_from_slice(tag);"
        " if copy[0] == given[0] { let _ = meter.blocks(); }",
    ),
    "a signature is compared as public text is": beside(
        SIGNATURE, SIGNATURE_COMPARED,
        "if ring_text::is_same(tag, &given[..tag.len()]) { let _ = meter.blocks(); }",
    ),
    "a signature's byte counts the rounds of a loop": beside(
        SIGNATURE, SIGNATURE_COMPARED, "for _ in 0..tag[0] { let _ = meter.blocks(); }",
    ),
    "a one-time password is compared by `==`": (
        PASSWORD, PASSWORD_COMPARED,
        f"    let is_it = &written[8 - digits.count()..] == text;\n{PASSWORD_COMPARED.rstrip()}"
        " | is_it\n",
    ),
    "a one-time password is compared as a number": beside(
        PASSWORD, "    let written = eight_digits(hotp_counted(secret, counter, digits, meter));\n",
        "if hotp(secret, counter, digits) == 0 { let _ = meter.blocks(); }",
    ),
    "a one-time password's digit is looked up": beside(
        PASSWORD, PASSWORD_COMPARED, "let _ = text.get(written[7] as usize);",
    ),
    "a token is compared by `cmp`": beside(
        TOKEN, TOKEN_COMPARED, "let _ = made.as_slice().cmp(token);",
    ),
    "a token is compared by a pattern": beside(
        TOKEN, TOKEN_COMPARED, "if let [0, ..] = made { let _ = meter.blocks(); }",
    ),
    "a kept hash is compared by `==` too": beside(
        STORED, STORED_COMPARED, "let _ = self.kept[..self.kept_len] == *derived;",
    ),
    "a derived hash ends with what is kept": beside(
        STORED, STORED_COMPARED, "let _ = derived.ends_with(&self.kept[..1]);",
    ),
    "a tag is compared by `matches!`": beside(
        TAG, TAG_COMPARED, "let _ = matches!(made.as_ref(), [0, ..]);",
    ),
    "a tag is compared by a conversion": beside(
        TAG, TAG_COMPARED,
        "let first = made.as_ref()[0] as usize; let _ = tag.get(first);",
    ),
    "a key of zeros is refused": beside(
        "crates/ring/src/hmac/key.rt",
        "        Key::new_counted(algorithm, key_value, &mut Meter::new())\n",
        f"if key_value == [0; 32] {REFUSES}",
    ),
    "a part of a derived key is compared by `==`": beside(
        RECEIVER, RECEIVER_COMPARED, "let _ = derived == value;",
    ),
    "a tag of C is compared by its last byte too": beside(
        "crates/ring_c/src/tags.rt", "    match hmac::verify(key, message, tag) {\n",
        "if tag.last() == Some(&0) { return UNSPECIFIED; }",
    ),
    "a secret's type derives a comparison": (
        "crates/ring_schedules/src/secret.rt", "#[derive(Drop)]\npub struct Secret {\n",
        "#[derive(PartialEq, Eq)]\npub struct Secret {\n",
    ),
}
