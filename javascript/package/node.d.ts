// SPDX-License-Identifier: ISC
/// <reference types="node" />
import type { KeyObject } from "node:crypto";
import { Transform, type TransformOptions } from "node:stream";
import type { Algorithm, Api, HmacAlgorithm, Input, Jws, Merkle, Otp, PasswordHash, Running,
  Subtle, Tls13, Webhook } from "./types.js";
export * from "./types.js";

type Secret = Input | KeyObject;
type It = Api<Buffer, Secret, BufferEncoding>;
export interface HashOptions extends TransformOptions { outputLength?: number }
export interface HmacOptions extends TransformOptions { encoding?: BufferEncoding }

/** A message in pieces, which is a stream too: what is written to it is what it digests. */
export interface Hash extends Transform, Running<Buffer, BufferEncoding> {
  /** A copy, which goes on by itself. */
  copy(options?: HashOptions): Hash;
}
export interface Hmac extends Hash {}
export const Hash: {
  new (algorithm: Algorithm, options?: HashOptions | null): Hash;
  (algorithm: Algorithm, options?: HashOptions | null): Hash;
};
export const Hmac: {
  new (algorithm: HmacAlgorithm, key: Secret, options?: HmacOptions | null): Hmac;
  (algorithm: HmacAlgorithm, key: Secret, options?: HmacOptions | null): Hmac;
};
export const createHash: (algorithm: Algorithm, options?: HashOptions | null) => Hash;
export const createHmac:
  (algorithm: HmacAlgorithm, key: Secret, options?: HmacOptions | null) => Hmac;
export const digest: It["digest"];
export const hash: It["hash"];
export const digestEach: It["digestEach"];
export const hmac: It["hmac"];
export const hmacVerify: It["hmacVerify"];
export const hkdfSync: It["hkdfSync"];
export const hkdf: It["hkdf"];
export const hkdfExtract: It["hkdfExtract"];
export const hkdfExpand: It["hkdfExpand"];
export const hkdfExpandLabel: It["hkdfExpandLabel"];
export const pbkdf2Sync: It["pbkdf2Sync"];
export const pbkdf2: It["pbkdf2"];
export const pbkdf2Verify: It["pbkdf2Verify"];
export const timingSafeEqual: It["timingSafeEqual"];
export const getHashes: It["getHashes"];
export const jws: Jws<Buffer, Secret>;
export const merkle: Merkle<Buffer>;
export const otp: Otp<Secret>;
export const passwordHash: PasswordHash;
export const subtle: Subtle;
export const tls13: Tls13<Buffer, Secret>;
export const webhook: Webhook<Secret>;
export const webcrypto: { subtle: Subtle };
declare const all: It & {
  Hash: typeof Hash; Hmac: typeof Hmac; createHash: typeof createHash;
  createHmac: typeof createHmac; jws: typeof jws; merkle: typeof merkle; otp: typeof otp;
  passwordHash: PasswordHash; subtle: Subtle; tls13: typeof tls13; webcrypto: { subtle: Subtle };
  webhook: typeof webhook;
};
export default all;
