// SPDX-License-Identifier: ISC
import type { Algorithm, Api, Encoding, HmacAlgorithm, Input, Jws, Merkle, Otp, PasswordHash,
  Running, Subtle, Tls13, Webhook } from "./types.js";
export * from "./types.js";

type It = Api<Uint8Array, Input, Encoding>;
/** A message in pieces, and a copy of it, which goes on by itself. */
export interface Hash extends Running<Uint8Array, Encoding> { copy(): Hash }
export const createHash: (algorithm: Algorithm, options?: { outputLength?: number }) => Hash;
export const createHmac: (algorithm: HmacAlgorithm, key: Input) => Hash;
export const digest: It["digest"];
export const hash: It["hash"];
export const digestEach: It["digestEach"];
export const hmac: It["hmac"];
export const hmacVerify: It["hmacVerify"];
export const hkdfSync: It["hkdfSync"];
export const hkdf: It["hkdf"];
export const hkdfExtract: It["hkdfExtract"];
export const hkdfExpand: It["hkdfExpand"];
export const hkdfExpandLabel: It["hkdfExpandLabel"];
export const pbkdf2Sync: It["pbkdf2Sync"];
export const pbkdf2: It["pbkdf2"];
export const pbkdf2Verify: It["pbkdf2Verify"];
export const timingSafeEqual: It["timingSafeEqual"];
export const getHashes: It["getHashes"];
export const jws: Jws<Uint8Array, Input>;
export const merkle: Merkle<Uint8Array>;
export const otp: Otp<Input>;
export const passwordHash: PasswordHash;
export const subtle: Subtle;
export const tls13: Tls13<Uint8Array, Input>;
export const webhook: Webhook<Input>;
export const webcrypto: { subtle: Subtle };
declare const all: It & {
  createHash: typeof createHash; createHmac: typeof createHmac; jws: typeof jws;
  merkle: typeof merkle; otp: typeof otp; passwordHash: PasswordHash; subtle: Subtle;
  tls13: typeof tls13; webcrypto: { subtle: Subtle }; webhook: typeof webhook;
};
export default all;
