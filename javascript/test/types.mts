// SPDX-License-Identifier: ISC
// tsc --noEmit: the types of the package as browsers have it. A line with an error must have it.

import all, {
  createHash, createHmac, digest, hkdf, hkdfExpand, hkdfSync, hmacVerify, jws, merkle, otp,
  passwordHash, pbkdf2Sync, pbkdf2, subtle, timingSafeEqual, tls13, webhook, type Hash,
  type PasswordHashScheme,
} from "yezdopin";

export const bytes: Uint8Array = digest("sha256", "abc");
const running: Hash = createHash("SHA-512/256").update(bytes).update(new ArrayBuffer(3));
export const text: string = running.copy().digest("hex");
export const later: Promise<Hash> = running.updateFrom(new Blob(["a"]), {
  progress: (it) => console.log(it + 1),
});
export const stream: Promise<Hash> = running.updateFrom(new Blob(["a"]).stream());
const tag = createHmac({ name: "SHA-1" }, "key").update(text, "utf8").digest();
export const same: boolean = timingSafeEqual(tag, hkdfSync("SHA-256", bytes, "", "", 20));
export const derived: Uint8Array = pbkdf2Sync("a", "b", 1, 20, "sha1");
pbkdf2("a", "b", 1, 20, "RSA-SHA256", (error, it) => console.log(error?.message, it.length));
hkdf("sha1", "a", "b", "c", 20, (_, it) => console.log(it.byteLength));
export const hex: string = all.hash("sha1", "a");
export const isRight: Promise<boolean> = passwordHash.verify("", "", { maxIterations: 9 });
export const kept: Promise<string> = passwordHash.new("phc-sha256", "pw", { iterations: 9 });
export const scheme: PasswordHashScheme = passwordHash.info("").scheme;
export const leaf: Uint8Array = merkle.leaf("an entry");
export const path: Uint8Array[] = all.merkle.inclusionPath(new Set([leaf]), 0);
export const isLogged: boolean = merkle.verifyInclusion(leaf, 0, 2n ** 63n, path, leaf.buffer);
const token: string = jws.sign("HS256", "a key", JSON.stringify({ sub: "a user" }));
export const payload: Uint8Array | null = all.jws.verify("HS512", bytes, token);
export const password: string = otp.totp("sha1", "a key", 59, { digits: 8, allowShortKey: true });
export const step: bigint | null = otp.findTotp("SHA-256", bytes, password, { time: 59n });
declare const headers: Record<string, string | undefined>;
export const isSigned: boolean = webhook.verifyGithub("a secret", bytes, headers["a"])
  && all.webhook.verifyStripe(bytes, text, headers["b"] ?? null, { tolerance: 60, now: 59n })
  && webhook.verifyHex("sha1", "a secret", text, bytes, { prefix: "v0=" });
const binder: Uint8Array = tls13.binderKey("sha256", bytes, { isExternal: false });
export const isBound: boolean = all.tls13.verifyFinished(
  "SHA-256", binder, bytes, tls13.finished("SHA-256", binder, bytes));
export const made: Promise<ArrayBuffer> = subtle.digest("SHA-1", bytes);

// @ts-expect-error no tag of SHA-512/256
createHmac("sha512-256", "key");
// @ts-expect-error no such algorithm
pbkdf2Sync("a", "b", 1, 20, "md5");
// @ts-expect-error no callback
pbkdf2("a", "b", 1, 20, "sha1");
// @ts-expect-error text is no tag
hmacVerify("sha1", "key", "message", "tag");
// @ts-expect-error text is no PRK
hkdfExpand("sha1", "prk", "info", 20);
// @ts-expect-error bytes have no encoding
createHash("sha1").update(bytes, "hex");
// @ts-expect-error no such encoding of the digest
createHash("sha1").digest("latin1");
// @ts-expect-error no limit
passwordHash.verify("", "", {});
// @ts-expect-error no such scheme
passwordHash.newSync("md5", "pw", { iterations: 9 });
// @ts-expect-error text is no hash
merkle.root(["leaf"]);
// @ts-expect-error no size
merkle.verifyInclusion(leaf, 0, "8", path, leaf);
// @ts-expect-error a token may be none of the key
jws.verify("HS256", "a key", token).length;
// @ts-expect-error no algorithm of tokens
jws.sign("sha256", "a key", "");
// @ts-expect-error no window
otp.findHotp("sha1", "a key", password, { first: 0 });
// @ts-expect-error text is no hash of a transcript
tls13.finished("sha256", bytes, "transcript");
// @ts-expect-error no word of whose PSK it is
tls13.binderKey("sha256", bytes, {});
// @ts-expect-error no header is a number
webhook.verifyGithub("a secret", bytes, 7);
// @ts-expect-error no time as text
webhook.verifyStripe("a secret", bytes, text, { now: "59" });
// @ts-expect-error no prefix in its place
webhook.verifyHex("sha256", "a secret", bytes, text, "sha256=");
