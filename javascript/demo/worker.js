// SPDX-License-Identifier: ISC
// Digests and keys, beside the page: a digest's progress and each answer are posted to it. It
// listens before the package is loaded, so that no message is lost.

const loading = import("../package/browser.js");

const CALLS = {
  async digest({ createHash }, { algorithm, file }, progress) {
    return (await createHash(algorithm).updateFrom(file, { progress })).digest("hex");
  },
  derive({ pbkdf2Sync }, { password, salt, iterations, length, algorithm }) {
    return pbkdf2Sync(password, salt, iterations, length, algorithm);
  },
};

// One call after another, in the order of the messages.
let last = Promise.resolve();
addEventListener("message", ({ data: { id, call, words } }) => {
  last = last.then(async () => {
    try {
      const answer = await CALLS[call](await loading, words, (bytes) => postMessage({ id, bytes }));
      postMessage({ id, answer });
    } catch (error) {
      postMessage({ id, fault: String(error?.message ?? error) });
    }
  });
});
loading.then(() => postMessage({ id: 0 }), (error) => postMessage({ id: 0, fault: String(error) }));
