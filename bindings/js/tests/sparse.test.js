// Long files, of which a repair looks at a few parts, beside the same calls over the whole files.
import assert from "node:assert/strict";
import { test } from "node:test";
import { HoundError, findDamage, repair, write } from "../hound.js";
import { module } from "../module.js";

const FILES = 600, LONG = 1 << 21, PAGE = 65536;
const { exports: hound } = await WebAssembly.instantiate(await module());
const start = PAGE * hound.memory.grow(LONG / PAGE + 3);

/** What hound_repair or hound_repair_to_end finds in a whole file, and leaves of it; or its error's code. */
function whole(call, file) {
  const memory = new Uint8Array(hound.memory.buffer, start), view = new DataView(hound.memory.buffer, start);
  memory.set(file, PAGE);
  const length = Number(hound[call](BigInt(start + PAGE), BigInt(file.length + 1), BigInt(file.length), BigInt(start)));
  if (length < 0) return length;
  const [frames, leftOver, state] = [12, 16, 20].map((n) => view.getUint32(n, true));
  const states = ["whole", "cutOff", "hasChunksAfterData", "allCounted"];
  return { state: states[state], frames, leftOver, file: memory.slice(PAGE, PAGE + length) };
}

let seed = 1;
const some = (n) => (seed = Math.imul(seed, 1664525) + 1013904223 >>> 0, Math.floor(seed / 2 ** 32 * n));
const of = (...choices) => choices[some(choices.length)];

/** Puts chunks into a file from a place on: mostly up to its end, and with tags that aren't known; some headers lie on
    two pages. */
function putChunks(file, place) {
  const view = new DataView(file.buffer);
  while (place + 8 <= file.length) {
    const left = file.length - place - 8, toPage = (2 * PAGE - 4 - (place + 8) % PAGE) % PAGE;
    const length =
      of(some(300000), some(300000), toPage, toPage, left, some(6) ? left : of(0, 1, left - 1, left + 1, 2 ** 32 - 1));
    file.set(Buffer.from(some(20) ? of("abcd", "~ ~ ") : of("LIST", "a\0cd", "\x7fabc"), "latin1"), place);
    view.setUint32(place + 4, length, true);
    place += 8 + length + length % 2;
  }
}

/** A long file whose sizes may be right or wrong, and which chunks or a tag may follow. */
async function made() {
  const bits = of(8, 16, 24), channels = of(1, 2, 3), frame = channels * bits / 8;
  const head = await write(new Int16Array(0), { sampleRate: 8000, channels, bitsPerSample: bits });
  const file = new Uint8Array(LONG + some(PAGE)).fill(of(0, 0, 65, 200)), view = new DataView(file.buffer);
  file.set(some(20) ? head : head.subarray(0, 20));
  const held = file.length - head.length, right = held - held % frame;
  const length = of(
    0, 1, 6, some(held), held - some(200), held, held + 1, held - 128, 2 ** 32 - 1, right, some(held), some(held) | 1,
  );
  view.setUint32(head.length - 4, length, true);
  if (some(2)) view.setUint32(4, head.length - 8 + length + length % 2, true);
  if (some(4)) putChunks(file, head.length + length + of(length % 2, length % 2, 0));
  if (some(3) === 0) file.set(Buffer.from("TAG"), file.length - 128);
  return file;
}

test("parts and the whole give the same", async () => {
  const seen = new Map();
  for (let i = 0; i < FILES; i++) {
    const bytes = await made(), file = of(bytes, new Blob([bytes])), toEnd = i % 4 === 3;
    const expected = whole(toEnd ? "hound_repair_to_end" : "hound_repair", bytes);
    const found = await repair(file, { toEnd }).catch((error) => error);
    const looked = toEnd ? found : await findDamage(file).catch((error) => error);
    seen.set(expected.state ?? expected, 1 + (seen.get(expected.state ?? expected) ?? 0));
    if (typeof expected === "number") {
      assert.ok(found instanceof HoundError && looked instanceof HoundError && found.code === looked.code, `${found}`);
      continue;
    }
    for (const name of ["state", "frames", "leftOver"]) {
      assert.equal(found[name], expected[name]);
      assert.equal(looked[name], expected[name]);
    }
    const left = file instanceof Blob ? new Uint8Array(await found.file.arrayBuffer()) : found.file;
    // A copy ends after its frames and a pad byte, which is 0.
    const isCopy = found.file !== file && found.leftOver > 0;
    const data = found.frames * found.channels * found.bytesPerSample, end = found.dataStart + data;
    const copy = Buffer.concat([expected.file.subarray(0, end), Buffer.alloc(data % 2)]);
    assert.ok(Buffer.compare(left, isCopy ? copy : expected.file) === 0, `file ${i} is another one`);
  }
  for (const state of ["whole", "cutOff", "hasChunksAfterData", "allCounted"]) {
    assert.ok(seen.get(state) >= 20, `${state}: ${seen.get(state)}`);
  }
});
