// SPDX-License-Identifier: ISC
// tsc --noEmit: the types of the package as Node has it, with @types/node.

import { createSecretKey } from "node:crypto";
import { createReadStream } from "node:fs";
import type { IncomingMessage } from "node:http";
import { pipeline } from "node:stream/promises";
import { promisify } from "node:util";
import yz, {
  Hash, createHash, createHmac, hash, jws, merkle, otp, pbkdf2, pbkdf2Sync, subtle, tls13, webhook,
} from "yezdopin";

export const text: string = pbkdf2Sync("a", "b", 1, 20, "sha1").toString("base64");
export const latin: string = createHash("sha256", { highWaterMark: 9 }).update("61", "hex")
  .digest("latin1");
const tagged = createHmac("sha256", createSecretKey(Buffer.of(1)), { encoding: "hex" });
await pipeline(createReadStream("a"), tagged);
export const tag: Buffer = tagged.digest();
export const later: Buffer = await promisify(pbkdf2)("a", "b", 1, 20, "sha512");
export const same: boolean = new Hash("sha1").copy() instanceof yz.Hash;
export const bytes: Buffer = hash("sha1", "a", "buffer");
export const proof: Buffer[] = merkle.consistencyPath([merkle.leaf("a"), yz.merkle.leaf("b")], 1n);
const key = createSecretKey(Buffer.alloc(32)), token = jws.sign("HS256", key, "a payload");
export const payload: string | undefined = jws.verify("HS256", key, token)?.toString();
export const password: string = otp.hotp("sha1", key, 0n);
declare const request: IncomingMessage;
export const isSigned: boolean = webhook.verifyStripe(key, bytes,
  request.headers["stripe-signature"], { now: BigInt(59) })
  && webhook.verifyGithub(key, bytes, request.headersDistinct["x-hub-signature-256"]);
export const binder: Buffer = yz.tls13.finished("sha256",
  tls13.binderKey("sha256", key, { isExternal: true }), bytes);
export const made: ArrayBuffer = await subtle.digest("SHA-1", bytes);

// @ts-expect-error no such encoding
createHash("sha1").digest("utf-9");
// @ts-expect-error no number is digested
createHash("sha1").update(5);
