// SPDX-License-Identifier: ISC
// Whether the engine has vectors of 128 bits, which the module yezdopin_simd.wasm takes.

// A module whose function adds a vector to itself.
const PROBE = Uint8Array.of(0, 0x61, 0x73, 0x6d, 1, 0, 0, 0, 1, 4, 1, 0x60, 0, 0, 3, 2, 1, 0,
  10, 16, 1, 14, 0, 0x41, 0, 0xfd, 0x11, 0x41, 0, 0xfd, 0x11, 0xfd, 0xae, 1, 0x1a, 0x0b);

export const hasVectors = () => WebAssembly.validate(PROBE);
