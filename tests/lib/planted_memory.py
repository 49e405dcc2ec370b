# SPDX-License-Identifier: ISC
"""Bodies that say that memory is wanting and keep their contracts, which ample_memory.py finds."""

TOKENS = "crates/ring_tokens/src/"
TEXT = "crates/ring_store_text/src/"
BENCH = "crates/ring_bench/src/"
SCRATCH = "    let mut scratch = Scratch::new(alloc);\n"


def before(path, line, body):
    """A body planted before a line of a file."""
    return path, line, f"{body}\n{line}"


# Each by its name: the file, a text, and what stands in its place.
PLANTED = {
    "long claims are out of memory": before(
        f"{TOKENS}claims.rt", SCRATCH, "if payload.len() > 65536 { return Err(AllocError); }",
    ),
    "claims that are no object are out of memory": (
        f"{TOKENS}claims.rt",
        "        Ok(claims) => Ok(are_current(&claims, now, leeway)),\n",
        "        Ok(claims) if !is_object(&claims) => Err(AllocError),\n"
        "        Ok(claims) => Ok(are_current(&claims, now, leeway)),\n",
    ),
    "claims of many levels are out of memory": (
        f"{TOKENS}claims.rt",
        "        Err(_) => Ok(false),\n",
        '        Err(Error::Invalid) if text.contains("[[[[[[[[") => Err(AllocError),\n'
        "        Err(_) => Ok(false),\n",
    ),
    "claims that are no JSON are out of memory": (
        f"{TOKENS}claims.rt", "        Err(_) => Ok(false),\n",
        "        Err(_) => Err(AllocError),\n",
    ),
    "claims with a name twice are out of memory": (
        f"{TOKENS}claims.rt",
        "        Err(Error::OutOfMemory) => Err(AllocError),\n",
        "        Err(Error::DuplicateKey) | Err(Error::OutOfMemory) => Err(AllocError),\n",
    ),
    "claims of many members are out of memory": (
        f"{TOKENS}claims.rt",
        "        Ok(claims) => Ok(are_current(&claims, now, leeway)),\n",
        "        Ok(Value::Object(members)) if members.len() > 65535 => Err(AllocError),\n"
        "        Ok(claims) => Ok(are_current(&claims, now, leeway)),\n",
    ),
    "a header with escapes is out of memory": before(
        f"{TOKENS}header.rt", SCRATCH,
        "if text.as_bytes().contains(&92) { return Err(AllocError); }",
    ),
    "a header that is no JSON is out of memory": (
        f"{TOKENS}header.rt", "        Err(_) => Ok(false),\n",
        "        Err(Error::TooLong | Error::Invalid) => Err(AllocError),\n"
        "        Err(_) => Ok(false),\n",
    ),
    "a header with x5c is out of memory": (
        f"{TOKENS}header.rt",
        "        Ok(header) => Ok(names(&header, alg)",
        '        Ok(header) if header.get("x5c").is_some() => Err(AllocError),\n'
        "        Ok(header) => Ok(names(&header, alg)",
    ),
    "a long header is out of memory": before(
        f"{TOKENS}header.rt", SCRATCH, "if text.len() > 4096 { return Err(AllocError); }",
    ),
    "a long token is not signed": before(
        f"{TOKENS}jws.rt",
        "    let mut token = vec![in alloc; 0; len]?;\n",
        "if len > 2_000_000 { return Err(TokenError::Memory); }",
    ),
    "a long payload is out of memory": (
        f"{TOKENS}jws.rt",
        "        Ok(true) => decode(alloc, parts.payload),\n",
        "        Ok(true) if parts.payload.len() > 65536 => Err(TokenError::Memory),\n"
        "        Ok(true) => decode(alloc, parts.payload),\n",
    ),
    "a text with an odd number of symbols is out of memory": (
        f"{TOKENS}decoded.rt",
        "        Err(DecodeAllocError::DecodeError(_)) => Err(TokenError::Invalid),\n",
        "        Err(DecodeAllocError::DecodeError(_)) if text.len() % 2 == 1 => {\n"
        "            let memory = TokenError::Memory;\n            Err(memory)\n        }\n"
        "        Err(DecodeAllocError::DecodeError(_)) => Err(TokenError::Invalid),\n",
    ),
    "a text that is no base64url is out of memory": (
        f"{TOKENS}decoded.rt",
        "        Err(DecodeAllocError::DecodeError(_)) => Err(TokenError::Invalid),\n",
        "        Err(DecodeAllocError::DecodeError(_)) => Err(TokenError::Memory),\n",
    ),
    "a store of many records is out of memory": before(
        f"{TEXT}saved.rt", "        rest = behind;\n",
        "if store.len() > 100_000 { return Err(LoadError::Memory); }",
    ),
    "a long line is out of memory": before(
        f"{BENCH}line.rt",
        "    let fields = parts_between(alloc, text, b' ', MOST_FIELDS + 1)?;\n",
        "if text.len() > 1_000_000 { return Err(AllocError); }",
    ),
    "a long field of hex is out of memory": before(
        f"{BENCH}field.rt", "    let mut bytes = vec![in alloc; 0u8; digits.len() / 2]?;\n",
        "if digits.len() > 1_000_000 { return Err(Fault::Memory); }",
    ),
    "a long name is out of memory": before(
        "crates/ring_store/src/records.rt",
        "        let name = Vec::from_slice(self.alloc, name)?;\n",
        "if name.len() > 60 { return Err(AllocError); }",
    ),
    "a list of many lines is out of memory": before(
        "crates/ring_sums/src/check.rt", "        *known = known_after(*known, line);\n",
        "if counts.bad_lines > 9 { return Err(AllocError); }",
    ),
}
