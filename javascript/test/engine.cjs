// SPDX-License-Identifier: ISC
// Makes the engine one without vectors, for the package, where MODULE names the module without.

if (process.env.MODULE === "yezdopin") WebAssembly.validate = () => false;
