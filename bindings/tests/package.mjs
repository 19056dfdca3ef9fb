// The JavaScript package beside the exports of its module, over the files of requests.py: a file that is read by parts
// gives what the calls over the whole one give.   node package.mjs < REQUESTS
import fs from "node:fs";
import * as hound from "../js/hound.js";
import { module } from "../js/module.js";

// Where requests.py has the file in memory, and how much room for samples and after the file there is here.
const FILE = 960, ROOM = 16384, MORE = 1024;
const ARRAYS = { int16: [Int16Array, "i16"], int32: [Int32Array, "i32"], float32: [Float32Array, "f32"] };
const { exports } = await WebAssembly.instantiate(await module());
const start = 65536 * exports.memory.grow(4), out = start + 64, file = out + ROOM, scaled = file + 65536;
const memory = new Uint8Array(exports.memory.buffer), view = new DataView(exports.memory.buffer);
const call = (name, ...words) => Number(exports["hound_" + name](...words.map(BigInt)));
// The names of the codes, as hound.h has them.
const header = fs.readFileSync(new URL("../c/hound.h", import.meta.url), "utf8");
const coded = [...header.matchAll(/^ {4}HOUND_(\w+) = (-\d+)/gm)];
const names = new Map(coded.map(([, name, code]) => [Number(code), name]));
const tried = new Map(), STATES = ["whole", "cutOff", "hasChunksAfterData", "allCounted"];

/** What a call of the package gives: its result, or its error's name. */
async function given(what, promise) {
  const result = await promise.catch((error) => {
    if (error instanceof hound.HoundError) return error.code;
    throw error;
  });
  tried.set(what, (tried.get(what) ?? 0) + (typeof result !== "string"));
  return result;
}

function must(holds, what, bytes, ...values) {
  if (!holds) throw new Error(`${what} differs for ${Buffer.from(bytes).toString("hex")}: ${JSON.stringify(values)}`);
}

const bytesAt = ({ buffer, byteOffset, byteLength }) => Buffer.from(buffer, byteOffset, byteLength);
const same = (a, b) =>
  a === b || typeof a !== "string" && typeof b !== "string" && bytesAt(a).equals(bytesAt(b));
const bytesOf = async (one) => one instanceof Blob ? new Uint8Array(await one.arrayBuffer()) : one;
const put = (bytes) => memory.fill(0, file).set(bytes, file);

async function compare(bytes, kind) {
  put(bytes);
  const code = call("info", file, bytes.length, start), info = await given("info", hound.info(kind));
  const [channels, format] = [4, 10].map((n) => view.getUint16(start + n, true));
  const counted = view.getUint32(start + 12, true);
  if (code < 0) {
    must(info === names.get(code), "info", bytes, info, code);
  } else {
    const isRead = info.frames * channels === counted && info.sampleRate === view.getUint32(start, true);
    must(isRead && info.dataStart === Number(view.getBigUint64(start + 16, true)), "info", bytes, info);
  }

  for (const [type, [array, suffix]] of Object.entries(ARRAYS)) {
    const isScaled = suffix === "f32" && code === 0 && format === 0; // Integers that are read as floats.
    const count = call(isScaled ? "read_i32" : "read_" + suffix, file, bytes.length, 0, out, ROOM / 4);
    const read = await given("read", hound.read(kind, { type }));
    if (isScaled && count > 0) {
      const data = file + Number(view.getBigUint64(start + 16, true));
      call("to_f32", start, data, file + bytes.length - data, scaled, count);
    }
    const whole = count - count % channels;
    const samples = () => new array(memory.buffer, isScaled ? scaled : out, whole);
    const expected = count < 0 ? names.get(count) : count > 0 && whole === 0 ? "TRUNCATED" : samples();
    must(same(read, expected), "read", bytes, type, read, expected);
  }

  for (const [what, toEnd] of [["repair", false], ["repair_to_end", true]]) {
    put(bytes);
    const found = await given(what, hound.repair(kind, { toEnd }));
    const length = call(what, file, bytes.length + 1, bytes.length, start);
    if (length < 0) {
      must(found === names.get(length), what, bytes, found, length);
      continue;
    }
    const [frames, leftOver, state] = [12, 16, 20].map((n) => view.getUint32(start + n, true));
    const isFound = found.frames === frames && found.leftOver === leftOver && found.state === STATES[state];
    // A copy of a file that was repaired ends after its frames and a pad byte, which is 0.
    const isCopy = found.file !== kind && leftOver > 0;
    if (isCopy) memory[file + length - leftOver] = 0;
    const end = length - leftOver + (length - leftOver - found.dataStart) % 2;
    const isSame = isFound && same(await bytesOf(found.file), memory.subarray(file, file + (isCopy ? end : length)));
    must(isSame, what, bytes, found);
  }

  put(bytes);
  const samples = new Int16Array(code < 0 || channels > 64 ? 0 : 2 * channels).fill(100);
  const longer = await given("append", hound.append(kind, samples, { overwrite: true }));
  if (longer === "NEEDS_MEND") return;
  new Int16Array(memory.buffer, out, samples.length).set(samples);
  const size = call("append_i16", file, bytes.length + MORE, bytes.length, out, samples.length);
  // Where two errors hold, either is returned.
  const isSame = size < 0 ? typeof longer === "string" :
    same(await bytesOf(longer), memory.subarray(file, file + size));
  must(isSame, "append", bytes, longer, size);
}

let files = 0, last = "";
for (const line of fs.readFileSync(0, "latin1").split("\n")) {
  const [name, , hex] = line.split(" ");
  if (name !== "memory" || hex.slice(2 * FILE) === last) continue;
  last = hex.slice(2 * FILE);
  const bytes = new Uint8Array(Buffer.from(last, "hex"));
  await compare(bytes, files++ % 2 ? new Blob([bytes]) : bytes);
}
for (const what of ["info", "read", "repair", "repair_to_end", "append"]) {
  must(tried.get(what) >= 50, what, [], tried.get(what));
}
const counts = [...tried].map(([what, count]) => `${count} ${what}`).join(", ");
console.log(`package: ${files} files, and of these ${counts} without an error`);
