// Runs a case of the JavaScript package beside a plain loop, for scripts/speed/measure.py.
//   node package.mjs CASE COUNT FOLDER     prints the best nanoseconds a sample of both, of seven runs in turn
// Samples have 16 bits, two channels, and values that no processor guesses. A plain loop is what a program would write
// that knows where the samples are, and calls no package: it checks nothing.
import fs from "node:fs";
import fsp from "node:fs/promises";
import path from "node:path";
import * as hound from "../../bindings/js/hound.js";

const [, , name, text, folder] = process.argv, count = Number(text) & ~1, spec = { sampleRate: 48000, channels: 2 };
const samples = new Int16Array(count);
for (let i = 0, state = 1; i < count; i++) {
  state = Math.imul(state, 1664525) + 1013904223 | 0;
  samples[i] = state >> 16;
}
const file = await hound.write(samples, spec), floats = await hound.read(file, { type: "float32" });
const data = () => new Int16Array(file.buffer, 44, count);

function writeLoop(given, value) {
  const out = new Uint8Array(44 + 2 * count), to = new Int16Array(out.buffer, 44);
  out.set(file.subarray(0, 44));
  for (let i = 0; i < count; i++) to[i] = value(given[i]);
  return out;
}

const clamped = (x) => {
  const whole = Math.round(x * 32768);
  return whole < -32768 ? -32768 : whole > 32767 ? 32767 : whole;
};

function planarLoop() {
  const from = data(), left = new Float32Array(count / 2), right = new Float32Array(count / 2);
  for (let i = 0; i < left.length; i++) {
    left[i] = from[2 * i] / 32768;
    right[i] = from[2 * i + 1] / 32768;
  }
  return [left, right];
}

const BLOCK = 4096, take = path.join(folder, "take.wav");
async function record() {
  const recorder = await hound.record(take, { ...spec, bitsPerSample: 16 });
  for (let i = 0; i < count; i += BLOCK) await recorder.write(samples.subarray(i, i + BLOCK));
  await recorder.close();
}

async function recordLoop() {
  const handle = await fsp.open(take, "w");
  await handle.write(file.subarray(0, 44));
  for (let i = 0; i < count; i += BLOCK) {
    const block = samples.subarray(i, i + BLOCK);
    await handle.write(new Uint8Array(block.buffer, block.byteOffset, block.byteLength));
  }
  await handle.close();
}

const CASES = {
  node_write_int16: [() => hound.write(samples, spec), () => writeLoop(samples, (x) => x)],
  node_write_float32: [
    () => hound.write(floats, { ...spec, bitsPerSample: 16, onClipped() {} }), () => writeLoop(floats, clamped),
  ],
  node_read_int16: [() => hound.read(file), () => data().slice()],
  node_read_planar_float32: [() => hound.read(file, { type: "float32", planar: true }), planarLoop],
  node_record_blocks_4096: [record, recordLoop],
};
const best = [Infinity, Infinity];
for (let k = 0; k < 7; k++) {
  for (const [i, call] of CASES[name].entries()) {
    fs.rmSync(take, { force: true }); // To empty it takes long, and is no part of a recording.
    const start = performance.now();
    await call();
    best[i] = Math.min(best[i], (performance.now() - start) * 1e6);
  }
}
fs.rmSync(take, { force: true });
console.log(best.map((took) => (took / count).toFixed(3)).join(" "));
