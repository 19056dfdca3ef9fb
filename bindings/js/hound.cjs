// For `require`, and for programs that find no `exports`: the same functions, over the module.
"use strict";
let loaded;
const loading = import("./hound.js").then((module) => (loaded = module));

/** Arguments as they are at the call. */
const copied = (one) => Array.isArray(one) ? one.map(copied) : ArrayBuffer.isView(one) && one.slice ? one.slice() : one;

async function after(name, given) {
  await loading;
  return loaded[name](...given);
}

const FUNCTIONS = [
  "append", "appendTo", "continueFile", "findDamage", "findDamageInFile", "guess", "guessStart", "info", "read",
  "record", "repair", "repairFile", "write",
];
for (const name of FUNCTIONS) {
  exports[name] = async (...given) => loaded ? loaded[name](...given) : after(name, given.map(copied));
}

exports.follow = async function* follow(...given) {
  await loading;
  yield* loaded.follow(...given);
};

/** The errors of the module, which isn't there yet, are of this class, too. */
exports.HoundError = class HoundError extends Error {
  static [Symbol.hasInstance](error) {
    return error instanceof Error && error.name === "HoundError";
  }
};
