// SPDX-License-Identifier: ISC
// What the package has in Node and in browsers alike. B is what bytes are answered as: a Buffer in
// Node (node.d.ts), a Uint8Array in browsers (browser.d.ts).

/** Of HMAC, HKDF and PBKDF2, in letters of either case. SHA-1 is broken: for old data alone. */
// algorithms: made by tools/lists.py
export type HmacAlgorithm = "sha1" | "sha256" | "sha384" | "sha512" | "SHA1" | "SHA256" | "SHA384"
  | "SHA512" | "SHA-1" | "SHA-256" | "SHA-384" | "SHA-512" | "RSA-SHA1" | "RSA-SHA256"
  | "RSA-SHA384" | "RSA-SHA512" | { name: string };
export type Algorithm = HmacAlgorithm | "sha512-256" | "SHA-512/256" | "RSA-SHA512/256";
// /algorithms
/** A buffer, or a view of one. A call reads a copy, so that a shared one may change meanwhile. */
export type Bytes = ArrayBufferLike | ArrayBufferView;
/** Text stands for its bytes in UTF-8. */
export type Input = Bytes | string;
/** Pieces of a message, one after another. */
export type Source = Blob | ReadableStream<Input> | Iterable<Input> | AsyncIterable<Input>;
export type Encoding = "hex" | "base64" | "base64url";

export interface SourceOptions {
  /** Is called with the count of bytes read after each piece, and waited for. */
  progress?: (bytes: number) => unknown;
  /** Ends the reading before the next piece. */
  signal?: AbortSignal;
}

/** The digest or the tag of a message in pieces. */
export interface Running<B, E> {
  /** Appends to the message. Where it throws, the message stays as it was. */
  update(data: Bytes): this;
  update(data: string, encoding?: "utf8" | "utf-8" | E): this;
  /**
   * Appends each piece of a source: a Blob is read 4 MiB at a time. Other calls throw until it is
   * read. Where reading fails or is ended, all later calls throw.
   */
  updateFrom(source: Source, options?: SourceOptions): Promise<this>;
  /** The digest or the tag. All later calls throw. */
  digest(): B;
  digest(encoding: "buffer"): B;
  digest(encoding: E): string;
}

type Told<T> = (error: Error | null, answer: T) => void;

export interface Api<B, K, E> {
  /** The digest of a whole message. */
  digest(algorithm: Algorithm, message: Input): B;
  /** The same as text. */
  hash(algorithm: Algorithm, input: Input, encoding?: E): string;
  hash(algorithm: Algorithm, input: Input, encoding: "buffer"): B;
  /** The digest of each message. */
  digestEach(algorithm: Algorithm, messages: Iterable<Input>): B[];
  /** The tag by HMAC of a whole message. */
  hmac(algorithm: HmacAlgorithm, key: K, message: Input): B;
  /** Whether `tag` is the whole tag. */
  hmacVerify(algorithm: HmacAlgorithm, key: K, message: Input, tag: Bytes): boolean;
  /** HKDF: the secret comes before the salt, and in C behind it. Throws a RangeError past 255 times
   * the algorithm's output. */
  hkdfSync(algorithm: HmacAlgorithm, key: K, salt: Input, info: Input, length: number): ArrayBuffer;
  hkdf(algorithm: HmacAlgorithm, key: K, salt: Input, info: Input, length: number,
    callback: Told<ArrayBuffer>): void;
  /** The first step of HKDF: the PRK. */
  hkdfExtract(algorithm: HmacAlgorithm, key: K, salt: Input): B;
  /** The second step of HKDF. */
  hkdfExpand(algorithm: HmacAlgorithm, prk: Bytes, info: Input, length: number): B;
  /** HKDF-Expand-Label of TLS 1.3 and QUIC. The label is without "tls13 ". */
  hkdfExpandLabel(algorithm: HmacAlgorithm, secret: Bytes, label: Input, context: Input,
    length: number): B;
  /** PBKDF2, of 1 to 2^31 - 1 iterations. */
  pbkdf2Sync(password: Input, salt: Input, iterations: number, keylen: number,
    digest: HmacAlgorithm): B;
  /** The same by a worker. */
  pbkdf2(password: Input, salt: Input, iterations: number, keylen: number, digest: HmacAlgorithm,
    callback: Told<B>): void;
  /** Whether `derived` is not empty and is what `pbkdf2Sync` gives for its length. */
  pbkdf2Verify(password: Input, salt: Input, iterations: number, derived: Bytes,
    digest: HmacAlgorithm): boolean;
  /** Whether both are equal, each byte read. Throws a RangeError where the lengths differ. */
  timingSafeEqual(buf1: Bytes, buf2: Bytes): boolean;
  /** The algorithms of digests. */
  getHashes(): string[];
}

/** The schemes of password hashes, by their names in the other packages. */
// schemes: made by tools/lists.py
export type PasswordHashScheme = "django-sha256" | "django-sha1" | "werkzeug-sha256"
  | "werkzeug-sha512" | "phc-sha256" | "phc-sha512" | "mosquitto" | "passlib-sha1"
  | "passlib-sha256" | "passlib-sha512" | "postgresql" | "werkzeug-sha1";
// /schemes
export interface NewPasswordHash {
  iterations: number;
  /** Random bytes of this hash alone, which are made where it is left out. */
  salt?: Input;
}
export interface PasswordHashLimit {
  /** A text that names more is refused before anything is derived: whoever wrote it chose them. */
  maxIterations: number;
}
/**
 * Password hashes as Django, Werkzeug, PHC strings, Mosquitto, passlib and PostgreSQL keep them.
 * PostgreSQL prepares a password that is not ASCII by SASLprep: do so before these calls.
 */
export interface PasswordHash {
  readonly SCHEMES: readonly PasswordHashScheme[];
  /** Whether the text is that of the password, by a worker. Rejects a text that is no hash's. */
  verify(text: Input, password: Input, options: PasswordHashLimit): Promise<boolean>;
  verifySync(text: Input, password: Input, options: PasswordHashLimit): boolean;
  /** The text of a new hash, by a worker. */
  "new"(scheme: PasswordHashScheme, password: Input, options: NewPasswordHash): Promise<string>;
  newSync(scheme: PasswordHashScheme, password: Input, options: NewPasswordHash): string;
  /** Whether a text is of one of `SCHEMES`, so that `info` does not throw, nor `verify` where its
   * iterations are within the limit. */
  isSupported(text: Input): boolean;
  /** Of which scheme a text is, and how many iterations it names. */
  info(text: Input): { scheme: PasswordHashScheme; iterations: number };
}

/** An index or a size. A number past 2^53 - 1 may be a rounded one, and raises a RangeError. */
export type Count = number | bigint;
/**
 * Merkle trees of transparency logs (RFC 9162; RFC 6962 has the same). A hash has 32 bytes. That a
 * root is the log's is for the caller to know: who signed it, and whether others see the same.
 */
export interface Merkle<B> {
  /** The hash of an entry as a leaf, which is not its digest: a byte 0 stands before it. */
  leaf(entry: Input): B;
  /** The root of the tree over the hashes of leaves. */
  root(leaves: Iterable<Bytes>): B;
  /** The path that proves that the leaf at `index`, from 0 on, is in the tree over `leaves`. Throws
   * a RangeError where there is no such leaf. */
  inclusionPath(leaves: Iterable<Bytes>, index: Count): B[];
  /** The path that proves that the tree over the first `firstSize` of `leaves` is the beginning of
   * the tree over all. Throws a RangeError where `firstSize` is 0 or not below their number. */
  consistencyPath(leaves: Iterable<Bytes>, firstSize: Count): B[];
  /** Whether the path proves that the leaf with this hash, which `leaf` gives, is at `index` in the
   * tree of `size` leaves with this root. False too for what no tree has, as -1 or 31 bytes. */
  verifyInclusion(hash: Bytes, index: Count, size: Count, path: Iterable<Bytes>,
    root: Bytes): boolean;
  /** Whether the path proves that the tree of `firstSize` leaves with the root `first` is the
   * beginning of the tree of `secondSize` leaves with the root `second`. There is no proof for an
   * empty tree, or for two of one size: compare their roots. */
  verifyConsistency(firstSize: Count, first: Bytes, secondSize: Count, second: Bytes,
    path: Iterable<Bytes>): boolean;
}

// tokens: made by tools/lists.py
export type JwsAlgorithm = "HS256" | "HS384" | "HS512";
// /tokens
/**
 * JSON Web Signatures in the compact form under HMAC (RFC 7515), of which JSON Web Tokens are made.
 * A key is for one algorithm, and has as many bytes as its digest at least: a shorter one raises a
 * RangeError.
 */
export interface Jws<B, K> {
  /** The text of a new token, under the header {"alg":"HS256","typ":"JWT"} or that of another
   * algorithm. */
  sign(algorithm: JwsAlgorithm, key: K, payload: Input): string;
  /** The payload of a token that the key signed, and null for any other text. The header is one of
   * {"alg":..,"typ":"JWT"}, {"typ":"JWT","alg":..} and {"alg":..}, letter by letter: with a `kid`
   * it is null too. No claim is read: whether the token has expired is for the caller to test. */
  verify(algorithm: JwsAlgorithm, key: K, token: Input): B | null;
}
/** The digits of a one-time password: 6, 7 or 8, and 6 where it is left out; and whether the key may
 * have less than 16 bytes, for which RFC 4226 asks. */
export interface OtpDigits { digits?: number; allowShortKey?: boolean }
/** The seconds of a step of time: 30 where it is left out. */
export interface OtpStep extends OtpDigits { step?: number }
/** The counters that are tried: `count` ones from `first` on, none past 2^64 - 1. */
export interface HotpWindow extends OtpDigits { first: Count; count: Count }
/** The steps that are tried: that of a time in seconds since 1970, `back` ones before it and
 * `ahead` behind it, each 1 where it is left out. */
export interface TotpWindow extends OtpStep { time: Count; back?: number; ahead?: number }
/** One-time passwords: HOTP (RFC 4226), and TOTP (RFC 6238). Most devices have "sha1". */
export interface Otp<K> {
  /** The password of a counter, with leading zeros. */
  hotp(algorithm: HmacAlgorithm, key: K, counter: Count, options?: OtpDigits): string;
  /** The password of a time in seconds since 1970, which is `Math.floor(Date.now() / 1000)` now. */
  totp(algorithm: HmacAlgorithm, key: K, time: Count, options?: OtpStep): string;
  /** The first counter whose password a text is, or null. A password is for one use: keep the
   * counter, and refuse one that is not above the last. */
  findHotp(algorithm: HmacAlgorithm, key: K, text: Input, window: HotpWindow): bigint | null;
  /** The first step of time whose password a text is, or null. The same is true of steps. */
  findTotp(algorithm: HmacAlgorithm, key: K, text: Input, window: TotpWindow): bigint | null;
}

/** A header of a request: null and undefined where it has none. Several values are joined by a comma
 * and a blank, as Node joins them. */
export type WebhookHeader = Input | readonly string[] | null | undefined;
/** What stands before the hex digits: nothing where it is left out. */
export interface HexPrefix { prefix?: Input }
/** The seconds that a header may be old, 300 where it is left out, and the time in seconds since
 * 1970, which is that of `Date.now()` where it is left out. */
export interface StripeTime { tolerance?: Count; now?: Count }
/**
 * The headers with which GitHub, Stripe and others sign what they send to a webhook. A body is the
 * bytes of the request, before anything reads them as JSON. False for a header that is missing, for
 * any other that is not the body's, and for an empty secret, under which everybody can sign.
 */
export interface Webhook<K> {
  /** Whether the header is `prefix` and behind it the tag of the body in hex digits, in lower
   * case. */
  verifyHex(algorithm: HmacAlgorithm, secret: K, body: Input, header: WebhookHeader,
    options?: HexPrefix): boolean;
  /** Whether the header is what GitHub sends as `X-Hub-Signature-256`. */
  verifyGithub(secret: K, body: Input, header: WebhookHeader): boolean;
  /** Whether the header is what Stripe sends as `Stripe-Signature`, signed within the tolerance. The
   * secret is the endpoint's, with its `whsec_`. It may be sent again: keep the ids of events. */
  verifyStripe(secret: K, body: Input, header: WebhookHeader, options?: StripeTime): boolean;
}

/** Whether a PSK is one that the parties have from elsewhere, or else of a ticket. */
export interface PskKind { isExternal: boolean }
/**
 * The Finished messages and PSK binders of TLS 1.3 (RFC 8446, 4.4.4 and 4.2.11.2). A base key is a
 * traffic secret, or for a binder the binder key. It and the hash of the transcript have as many
 * bytes as a digest, or a RangeError is thrown.
 */
export interface Tls13<B, K> {
  /** The verify_data of a Finished, or a binder. */
  finished(algorithm: HmacAlgorithm, baseKey: Bytes, transcriptHash: Bytes): B;
  /** Whether the other party's `verifyData` is what `finished` gives, each byte read. */
  verifyFinished(algorithm: HmacAlgorithm, baseKey: Bytes, transcriptHash: Bytes,
    verifyData: Bytes): boolean;
  /** The base key of the binders of a PSK. Throws a RangeError where that is empty. */
  binderKey(algorithm: HmacAlgorithm, psk: K, options: PskKind): B;
}

/** A key of `subtle.importKey`, which is for this package's `subtle` alone. */
export interface Key {
  readonly type: "secret";
  readonly extractable: false;
  readonly algorithm: { readonly name: string };
  readonly usages: readonly string[];
}
type Hashed = string | { name: string };
/** What WebCrypto's `subtle` has of digests, HMAC, HKDF and PBKDF2, over raw keys. */
export interface Subtle {
  digest(algorithm: Hashed, data: Bytes): Promise<ArrayBuffer>;
  importKey(format: "raw", keyData: Bytes,
    algorithm: Hashed | { name: string; hash: Hashed; length?: number }, extractable: false,
    usages: readonly ("sign" | "verify" | "deriveBits")[]): Promise<Key>;
  sign(algorithm: Hashed, key: Key, data: Bytes): Promise<ArrayBuffer>;
  verify(algorithm: Hashed, key: Key, signature: Bytes, data: Bytes): Promise<boolean>;
  deriveBits(algorithm: { name: "HKDF"; hash: Hashed; salt: Bytes; info: Bytes }
    | { name: "PBKDF2"; hash: Hashed; salt: Bytes; iterations: number },
    key: Key, length: number): Promise<ArrayBuffer>;
}
