// The same as answer.c, for a WebAssembly module.   node [--experimental-wasm-memory64] answer.js MODULE < REQUESTS
const fs = require("fs");
const { exports: hound } = new WebAssembly.Instance(new WebAssembly.Module(fs.readFileSync(process.argv[2])), {});
const pages = (n) => { try { return hound.memory.grow(BigInt(n)); } catch { return hound.memory.grow(n); } };
const start = 65536 * Number(pages(2));
const memory = new Uint8Array(hound.memory.buffer, start, 65536);
const value = { "@": (word) => BigInt(start) + BigInt(word.slice(1)), "#": (word) => Number(word.slice(1)) };
const argument = (word) => (value[word[0]] ?? ((word) => BigInt.asIntN(64, BigInt(word))))(word);

// Reads the part that is requested by the effect at a place, and reports it.
function readPart(file, used, effect) {
  const view = new DataView(hound.memory.buffer), place = view.getBigUint64(effect, true);
  const from = Number(place < used ? place : used);
  const to = Math.min(from + view.getUint32(effect + 8, true), Number(used));
  const bytes = memory.subarray(Number(file) - start).slice(from, to);
  new Uint8Array(hound.memory.buffer).set(bytes, effect + 16);
  view.setUint32(effect + 8, bytes.length, true);
  view.setUint16(effect + 14, 1, true);
}

// Walks to the data of a file in memory, by a walk in the page after it.
const walked = (next) => (file, used, info) => {
  const walk = start + 65536;
  new Uint8Array(hound.memory.buffer, walk, 80).fill(0);
  for (;;) {
    const code = next(BigInt(walk), info);
    if (code !== 1) return code;
    readPart(file, used, walk);
  }
};

// Repairs a file in memory by what a repairer requests.
function repaired(file, used, mode, found) {
  const repairer = start + 65536, at = Number(file);
  let length = Number(used);
  hound.hound_repairer_begin(used, mode, BigInt(repairer));
  for (;;) {
    const code = hound.hound_repairer_next(BigInt(repairer), found);
    if (code !== 1) return code < 0 ? code : length;
    const view = new DataView(hound.memory.buffer), all = new Uint8Array(hound.memory.buffer);
    const place = Number(view.getBigUint64(repairer, true));
    const count = view.getUint32(repairer + 8, true), kind = view.getUint16(repairer + 12, true);
    if (kind === 1) readPart(file, used, repairer);
    if (kind === 2) all.copyWithin(at + place, repairer + 16, repairer + 16 + count);
    if (kind === 2) length = Math.max(length, place + count);
    view.setUint16(repairer + 14, 1, true);
  }
}

const own = {
  walk_next: walked(hound.hound_walk_next),
  walk_to_end: walked(hound.hound_walk_to_end),
  repairer: repaired,
};
const answers = [];
let before = new Uint8Array(0);
for (const line of fs.readFileSync(0, "latin1").trimEnd().split("\n")) {
  const [name, ...words] = line.split(" ");
  if (name === "memory") {
    before = new Uint8Array(Number(words[0])).fill(0x5a);
    before.set(Buffer.from(words[1], "hex"));
    continue;
  }
  memory.set(before);
  const result = (own[name] ?? hound["hound_" + name])(...words.map(argument)) ?? 0;
  let sum = 2166136261;
  for (let i = 0; i < before.length; i++) sum = Math.imul(sum ^ memory[i], 16777619);
  answers.push(`${result} ${(sum >>> 0).toString(16).padStart(8, "0")}`);
}
fs.writeSync(1, answers.join("\n") + "\n");
