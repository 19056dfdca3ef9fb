// Files written, read, appended to and repaired, beside bytes that were made by hand from the format.
import assert from "node:assert/strict";
import { test } from "node:test";
import { spawnSync } from "node:child_process";
import { openAsBlob } from "node:fs";
import fs from "node:fs/promises";
import os from "node:os";
import path from "node:path";
import {
  HoundError, append, findDamage, findDamageInFile, guess, guessStart, info, read, repair, repairFile, write,
} from "../hound.js";

const text = (characters) => [...Buffer.from(characters, "latin1")];
const u16 = (n) => [n & 255, n >> 8 & 255];
const u32 = (n) => [...u16(n), ...u16(n >>> 16)];

/** A PCM file of these data, whose header may count others. */
function byHand(data, { counted = data.length, after = [], riff, channels = 1, bits = 16, tag = 1 } = {}) {
  const frame = channels * Math.ceil(bits / 8);
  const fmt =
    [...u32(16), ...u16(tag), ...u16(channels), ...u32(8000), ...u32(8000 * frame), ...u16(frame), ...u16(bits)];
  const rest = [...text("WAVEfmt "), ...fmt, ...text("data"), ...u32(counted), ...data, ...after];
  return Uint8Array.from([...text("RIFF"), ...u32(riff ?? rest.length), ...rest]);
}

const LIST = [...text("LIST"), ...u32(4), ...text("INFO")];
const fails = (promise, code) => assert.rejects(promise, (error) => error instanceof HoundError && error.code === code);
const bytesIn = ({ buffer, byteOffset, byteLength }) => new Uint8Array(buffer, byteOffset, byteLength);
const bytes = async (file) => file instanceof Blob ? new Uint8Array(await file.arrayBuffer()) : file;

/** Both kinds of files. */
const kinds = (file) => [file, new Blob([file])];

/** A Blob that counts the bytes that are read of it, and may be said to have more than it has: zeros. */
class Counted extends Blob {
  constructor(file, size = file.length) {
    super([]);
    Object.assign(this, { file, said: size, taken: 0 });
  }
  get size() {
    return this.said;
  }
  slice(from, to) {
    const part = new Uint8Array(Math.max(Math.min(to, this.said) - from, 0));
    part.set(this.file.subarray(from, to));
    this.taken += part.length;
    return new Blob([part]);
  }
}

test("integers of 16 bits are written in the canonical layout", async () => {
  const file = await write(Int16Array.of(2, -3, 5, -7), { sampleRate: 8000, channels: 2 });
  assert.deepEqual(file, byHand([2, 0, 253, 255, 5, 0, 249, 255], { channels: 2 }));
});

test("odd data have a pad byte, and 8 bits are stored from 128 on", async () => {
  const file = byHand([0, 128, 255], { bits: 8, after: [0] });
  assert.deepEqual(await write(Int8Array.of(-128, 0, 127), { sampleRate: 8000 }), file);
  assert.deepEqual(await write(Int16Array.of(-128, 0, 127), { sampleRate: 8000, bitsPerSample: 8 }), file);
  assert.deepEqual(await read(file, { type: "int8" }), Int8Array.of(-128, 0, 127));
  assert.deepEqual(await read(file), Int16Array.of(-128, 0, 127));
});

test("a stream of unknown length is read to its end", async () => {
  const data = [1, 0, 2, 0, 3, 0, 4, 0];
  for (const counted of [0, 2, 0x7ffff000, 0x7fffffff, 0xffffffff]) {
    for (const file of kinds(byHand([...data, 5, 0, 6], { counted, channels: 2 }))) {
      assert.deepEqual(await read(file, { toEnd: true }), Int16Array.of(1, 2, 3, 4));
      assert.deepEqual(await read(file, { toEnd: true, start: 1, frames: 5 }), Int16Array.of(3, 4));
      assert.deepEqual(await read(file, { toEnd: true, start: 2 }), new Int16Array(0));
      assert.equal((await info(file, { toEnd: true })).frames, 2);
    }
  }
  const unknown = byHand(data, { counted: 0xffffffff });
  await fails(read(unknown), "DATA_LENGTH");
  await assert.rejects(info(unknown), /a stream of unknown length can be read to its end/);
  await fails(read(unknown.subarray(0, 43), { toEnd: true }), "ENDED");
});

test("where samples may begin after a damaged header is guessed", async () => {
  const file = byHand([1, 0, 2, 0]), form = { sampleRate: 8000, bitsPerSample: 16 };
  for (const given of kinds(file.fill(0, 16, 36))) {
    assert.equal(await guessStart(given), 44);
    assert.deepEqual(await bytes((await repair(given, { like: form })).file), byHand([1, 0, 2, 0]));
  }
  assert.equal(await guessStart(new Uint8Array(43)), 0);
  assert.equal((await repair(new Uint8Array(4), { like: form })).frames, 2);
});

test("the form of samples whose header is lost is guessed", async () => {
  const swell = (i, channel) => Math.sin(i / (20 + 3 * channel)) + 0.1 * Math.sin(i * i / 40000);
  const swells = (channel) => Float32Array.from({ length: 9000 }, (_, i) => swell(i, channel) / 3);
  for (const [bitsPerSample, isFloat, channels, head] of [
    [8, false, 1, 44], [16, false, 2, 44], [24, false, 2, 80], [32, false, 1, 44], [32, true, 2, 58],
    [16, false, 4, 68],
  ]) {
    const samples = Array.from({ length: channels }, (_, channel) => swells(channel));
    const form = { sampleRate: 8000, bitsPerSample, isFloat }, whole = await write(samples, form);
    const { dataStart, bytesPerSample } = await info(whole), data = whole.subarray(dataStart);
    const like = { bitsPerSample, bytesPerSample, isFloat, channels };
    for (const given of kinds(Uint8Array.from([...Array(head).fill(0), ...data]))) {
      assert.deepEqual(await guess(given), { like, skip: head });
      assert.deepEqual(await guess(given, { skip: head }), { like, skip: head });
      const { file } = await repair(given, { like: { ...like, sampleRate: 8000 }, skip: head });
      assert.deepEqual(await bytes(file), whole);
    }
    const named = Uint8Array.from([...Array(100).fill(1), ...whole.subarray(dataStart - 8)]);
    assert.deepEqual(await guess(named), { like, skip: 108 }); // The header of the data is found.
  }
  for (const length of [0, 44, 60000]) assert.equal(await guess(new Uint8Array(length)), null);
  await assert.rejects(guess(new Uint8Array(9), { skip: 10 }), /^RangeError: skip is 10/);
});

/** Numbers from -1 to 1, which are the same in each run. */
function noise() {
  let state = 3;
  return () => (state = Math.imul(state, 1664525) + 1013904223 >>> 0) / 2 ** 31 - 1;
}

test("sound that was stored in more bits, or at twice its rate, or has noise of a high pitch, is guessed", async () => {
  const next = noise(), like = { bitsPerSample: 16, bytesPerSample: 2, isFloat: false, channels: 1 };
  const made = (sample) => Array.from({ length: 20001 }, (_, i) => sample(i));
  let hiss = 0, slow = 0, high = 0;
  const slowly = made(() => (slow = 0.9 * slow + next()) * 3000);
  for (const samples of [
    made(() => 256 * Math.round(hiss = 0.8 * hiss + 40 * next())), // 8 bits
    made(() => 256 * Math.round(hiss = 0.8 * hiss + 20 * next()) + [0, 0, 0, 1, -1][Math.floor(2.5 * (next() + 1))]),
    made((i) => i % 2 > 0 ? (slowly[i >> 1] + slowly[(i >> 1) + 1]) / 2 : slowly[i >> 1]), // twice the rate
    made((i) => 3000 * Math.sin(i / 20) + 20 * (high = -0.6 * high + next())),
  ]) {
    const whole = await write(Int16Array.from(samples), { sampleRate: 8000 }), lost = whole.slice().fill(0, 0, 44);
    assert.deepEqual(await guess(lost), { like, skip: 44 });
    assert.deepEqual(await guess(whole.subarray(51)), { like, skip: 45 }); // cut off within a sample
  }
  // Where the lowest byte has little of the sound, samples that begin a byte later are quieter; but the header's place
  // is even.
  const rough = made(() => 256 * Math.round(hiss = 0.8 * hiss + 20 * next()) + Math.round(10 * next()));
  const lost = (await write(Int16Array.from(rough), { sampleRate: 8000 })).fill(0, 0, 44);
  assert.deepEqual(await guess(lost), { like, skip: 44 });
});

test("a point of a cue chunk isn't taken for the header of the data", async () => {
  const tone = Float32Array.from({ length: 48000 }, (_, i) => Math.sin(i / 40) * Math.sin(i / 4000) / 2);
  for (const bitsPerSample of [16, 24]) {
    const file = await write(tone, { sampleRate: 48000, bitsPerSample }), { dataStart } = await info(file);
    const point = (id, chunk) => [...u32(id), ...u32(0), ...text("data"), ...u32(chunk), ...u32(0), ...u32(0)];
    const none = "\0\0\0\0";
    for (const [tag, chunk, counted] of [["cue ", 0, 1], ["cue ", 7, 1], ["cue ", 0, 0], [none, 0, 1], [none, 0, 0]]) {
      const cue = [...text(tag), ...u32(52), ...u32(2), ...point(1, chunk), ...point(2, chunk)];
      const lost = Uint8Array.from([...Array(dataStart - 8).fill(0), ...cue, ...file.subarray(dataStart - 8)]);
      const skip = dataStart + cue.length;
      if (!counted) lost.fill(0, skip - 4, skip); // The header of a killed recorder counts nothing.
      else lost.set(text("data"), skip + 300); // in the sound
      assert.equal(await guessStart(lost), skip);
      const { like, skip: found } = await guess(lost);
      assert.deepEqual([like.bitsPerSample, like.channels, found], [bitsPerSample, 1, skip]);
    }
  }
});

test("24 bits take three bytes or four, and floats keep their bits", async () => {
  const three = await write(Int32Array.of(1, -1), { sampleRate: 48000, bitsPerSample: 24 });
  assert.deepEqual([...three.subarray(68)], [1, 0, 0, 255, 255, 255]);
  const four = await write(Int32Array.of(1, -1), { sampleRate: 48000, bitsPerSample: 24, bytesPerSample: 4 });
  assert.deepEqual([...four.subarray(68)], [1, 0, 0, 0, 255, 255, 255, 0]); // The fourth byte is 0.
  assert.deepEqual(await read(three), Int32Array.of(1, -1));
  const floats = await write(Float32Array.of(0.5, -0), { sampleRate: 48000 });
  assert.deepEqual([...floats.subarray(68)], [0, 0, 0, 63, 0, 0, 0, 128]);
  assert.deepEqual(await read(floats), Float32Array.of(0.5, -0));
  assert.equal((await info(floats)).isFloat, true);
});

test("a file at an odd place of its buffer, which the library decodes, has the same samples", async () => {
  const data = Array.from({ length: 480 }, (_, i) => i * i * 37 % 256);
  for (const [bits, tag] of [[8, 1], [16, 1], [24, 1], [32, 1], [32, 3]]) {
    const file = byHand(data, { bits, tag, channels: 2 }), odd = new Uint8Array(file.length + 1).subarray(1);
    odd.set(file);
    for (const type of [undefined, "int8", "int16", "int32", "float32", "float64"]) {
      const all = (given) => read(given, { type }).then((samples) => [...bytesIn(samples)], ({ code }) => code);
      assert.deepEqual(await all(file), await all(odd), `${bits} bits as ${type}`);
    }
    assert.equal((await read(odd)).length, 3840 / bits);
  }
});

test("integers are read as floats whose full scale is 1", async () => {
  for (const [bits, data, floats] of [
    [8, [192, 0, 128, 255], [0.5, -1, 0, 127 / 128]],
    [16, [0, 64, 0, 128, 1, 0], [0.5, -1, 1 / 32768]],
    [24, [0, 0, 64, 0, 0, 128, 1, 0, 0], [0.5, -1, 1 / 8388608]],
    [32, [0, 0, 0, 192, 0, 0, 0, 1], [-0.5, 1 / 128]],
  ]) {
    for (const file of kinds(byHand(data, { bits }))) {
      assert.deepEqual(await read(file, { type: "float32" }), Float32Array.from(floats));
    }
  }
  await fails(read(byHand([0, 0, 0, 63], { bits: 32, tag: 3 }), { type: "int32" }), "OTHER_FORMAT");
});

test("floats are rounded to integers, of two to the even one, and what is clipped is counted", async () => {
  const floats = Float32Array.of(0.5, -1, 1, 2, -3, NaN, 0.5 / 32768, 1.5 / 32768, 2.5 / 32768), counts = [];
  const onClipped = (count) => counts.push(count);
  const data = [0, 64, 0, 128, 255, 127, 255, 127, 0, 128, 0, 0, 0, 0, 2, 0, 2, 0];
  assert.deepEqual(await write(floats, { sampleRate: 8000, bitsPerSample: 16, onClipped }), byHand(data));
  for (const file of kinds(byHand([7, 0]))) {
    assert.deepEqual(await bytes(await append(file, floats, { onClipped })), byHand([7, 0, ...data]));
  }
  assert.deepEqual(counts, [3, 3, 3]);
  const narrow = await write(Float32Array.of(0.5, -1), { sampleRate: 8000, bitsPerSample: 8, onClipped });
  assert.deepEqual(narrow, byHand([192, 0], { bits: 8 }));
  const wide = await write(Float32Array.of(0.5), { sampleRate: 8000, isFloat: false });
  assert.deepEqual([...wide.slice(-4)], [0, 0, 0, 64]);
  const long = await write(new Float32Array(600001).fill(2), { sampleRate: 8000, bitsPerSample: 16, onClipped });
  assert.deepEqual([long.length, ...long.slice(-2)], [44 + 2 * 600001, 255, 127]);
  assert.deepEqual(counts, [3, 3, 3, 600001]);
});

// What is expected was computed with fractions.
test("noise is that of its seed, however the samples come", async () => {
  const values = [0, 0, 0, 0, 0, 0, 2.5 / 32768, -2.5 / 32768, 0.5, 1, -1, 32767 / 32768, -1.5];
  const wanted = Int16Array.of(0, 0, 0, 0, 0, 0, 2, -3, 16385, 32767, -32768, 32767, -32768), counts = [];
  const format = { sampleRate: 8000, bitsPerSample: 16, dither: true, onClipped: (count) => counts.push(count) };
  const file = await write(Float64Array.from(values), format);
  assert.deepEqual([await read(file), counts], [wanted, [1]]);
  assert.deepEqual(await write(Float64Array.from(values), { ...format, seed: 1 }), file);
  const narrow = await write(Float32Array.of(0.1, -0.3, 0.7, 1), { ...format, bitsPerSample: 24 });
  assert.deepEqual(await read(narrow), Int32Array.of(838861, -2516583, 5872025, 8388607));
  const empty = await write(new Int16Array(0), { sampleRate: 8000 });
  const zeros = await append(empty, Float64Array.of(0, 0, 0, 0, 0), { dither: true, seed: 2 });
  assert.deepEqual(await read(zeros), await read(await write(new Float64Array(5), { ...format, seed: 2 })));
  const many = Float32Array.from({ length: 200001 }, (_, i) => Math.sin(i));
  const planar = await write([many, many], { ...format, seed: 5 });
  const flat = new Float32Array(2 * many.length);
  many.forEach((value, i) => flat.fill(value, 2 * i, 2 * i + 2));
  assert.deepEqual(await write(flat, { ...format, channels: 2, seed: 5 }), planar);
  assert.notDeepEqual(await write(flat, { ...format, channels: 2, seed: 6 }), planar);
  for (const [given, options] of [
    [Int16Array.of(1), {}], [Float32Array.of(1), { bitsPerSample: 32 }], [Float32Array.of(1), { seed: -1 }],
    [Float32Array.of(1), { seed: 0.5 }], [Float32Array.of(1), { dither: 1 }],
  ]) {
    await assert.rejects(write(given, { ...format, ...options }), /^(Type|Range)Error: (dither|seed) is/);
  }
});

test("without a call for it a warning says what is clipped", async (t) => {
  const { mock } = t.mock.method(console, "warn", () => {});
  await write(Float32Array.of(0, 1), { sampleRate: 8000, bitsPerSample: 24 });
  await append(byHand([]), Float32Array.of(-2, 0.5));
  await write(Float32Array.of(2), { sampleRate: 8000 }); // A float is stored as it is.
  const warning = "hound_bindings: samples out of full scale were clipped: 1";
  assert.deepEqual(mock.calls.map((call) => call.arguments), Array(2).fill([warning]));
});

test("a file of 24 bits is the same by way of floats, with its spec", async () => {
  for (const bytesPerSample of [3, 4]) {
    const samples = Int32Array.of(1, -1, 8388607, -8388608, 1234567, -7);
    const file = await write(samples, { sampleRate: 48000, channels: 2, bitsPerSample: 24, bytesPerSample });
    assert.deepEqual(await write(await read(file, { type: "float32" }), await info(file)), file);
  }
});

test("each channel has an array, as Web Audio has them", async () => {
  const file = byHand([1, 0, 2, 0, 3, 0, 4, 0], { channels: 2 });
  const [left, right] = [Int16Array.of(1, 3), Int16Array.of(2, 4)];
  assert.deepEqual(await write([left, right], { sampleRate: 8000 }), file);
  for (const kind of kinds(file)) {
    assert.deepEqual(await read(kind, { planar: true }), [left, right]);
    const floats = await read(kind, { planar: true, type: "float32", start: 1 });
    assert.deepEqual(floats, [Float32Array.of(3 / 32768), Float32Array.of(4 / 32768)]);
    const longer = await append(kind, [Float32Array.of(0.5), Float32Array.of(-0.5)]);
    assert.deepEqual(await bytes(longer), byHand([1, 0, 2, 0, 3, 0, 4, 0, 0, 64, 0, 192], { channels: 2 }));
  }
  const nan = new Float32Array(Uint8Array.of(1, 0, 128, 127, 0, 0, 128, 63).buffer); // A signalling NaN, and 1.
  const floats = await write([nan, nan], { sampleRate: 8000 });
  assert.deepEqual([...floats.slice(-16)], [1, 0, 128, 127, 1, 0, 128, 127, 0, 0, 128, 63, 0, 0, 128, 63]);
  const bits = (await read(floats, { planar: true })).map(({ buffer }) => [...new Uint8Array(buffer)]);
  assert.deepEqual(bits, Array(2).fill([1, 0, 128, 127, 0, 0, 128, 63]));
});

/** The number of a sample at the front of some bytes, by the format. */
const NUMBERS = {
  8: (view) => view.getUint8(0) - 128,
  16: (view) => view.getInt16(0, true),
  24: (view) => view.getUint16(0, true) + 65536 * view.getInt8(2),
  32: (view) => view.getInt32(0, true),
  float: (view) => view.getFloat32(0, true),
};

test("the channels of each form are read to arrays of their own, wherever the file is in its buffer", async () => {
  for (const form of [8, 16, 24, 32, "float"]) for (let channels = 1; channels < 8; channels++) {
    const [bits, tag] = form === "float" ? [32, 3] : [form, 1], start = channels % 3;
    const frames = channels === 2 ? 33000 : 40; // Of two channels there are two blocks.
    const data = Uint8Array.from({ length: frames * channels * bits / 8 }, (_, i) => (i * i * 37 >>> 5) % 251);
    if (tag === 3) for (let i = 3; i < data.length; i += 4) data[i] %= 127; // It is no NaN then.
    const file = byHand(data, { bits, tag, channels }), odd = new Uint8Array(file.length + 1).subarray(1);
    odd.set(file);
    const at = (frame, channel) => new DataView(data.buffer, (frame * channels + channel) * bits / 8);
    for (const type of [undefined, "float32", "float64"]) for (const given of [file, odd]) {
      const scale = type && tag === 1 ? 2 ** (bits - 1) : 1;
      const found = await read(given, { planar: true, type, start });
      assert.deepEqual(found.map(({ length }) => length), Array(channels).fill(frames - start));
      found.forEach((samples, channel) => {
        const wanted = samples.map((_, frame) => NUMBERS[form](at(start + frame, channel)) / scale);
        assert.ok(samples.every((one, i) => one === wanted[i]), `${form} ${channels} ${type}`);
      });
    }
  }
});

test("an ArrayBuffer is taken for its bytes", async () => {
  const { buffer } = byHand([1, 0, 2, 0], { counted: 0 });
  assert.equal((await info(buffer)).frames, 0);
  assert.equal((await findDamage(buffer)).frames, 2);
  const { file } = await repair(buffer);
  assert.deepEqual(file, byHand([1, 0, 2, 0]));
  assert.deepEqual(await read(file.buffer), Int16Array.of(1, 2));
  assert.deepEqual(await append(file.buffer, Int16Array.of(3)), byHand([1, 0, 2, 0, 3, 0]));
});

test("the header and a part of the frames are read of both kinds", async () => {
  const data = Array.from({ length: 20 }, (_, i) => [i, 0]).flat();
  for (const file of kinds(byHand(data, { channels: 2, after: LIST }))) {
    assert.deepEqual(await info(file), {
      sampleRate: 8000, channels: 2, bitsPerSample: 16, bytesPerSample: 2, isFloat: false, frames: 10, dataStart: 44,
    });
    assert.deepEqual(await read(file, { start: 3, frames: 2 }), Int16Array.of(6, 7, 8, 9));
    assert.deepEqual(await read(file, { start: 9, type: "int32" }), Int32Array.of(18, 19));
    assert.equal((await read(file, { start: 10 })).length, 0);
    await fails(read(file, { type: "int8" }), "TOO_WIDE");
  }
});

test("blocks are joined", async () => {
  const samples = Int32Array.from({ length: 600001 }, (_, i) => i * 13 % 8388608 - 4000000);
  const file = await write(samples, { sampleRate: 44100, bitsPerSample: 24 });
  assert.equal(file.length, 68 + 3 * 600001 + 1);
  for (const place of [0, 262143, 262144, 600000]) {
    const at = 68 + 3 * place;
    assert.equal((file[at] | file[at + 1] << 8 | file[at + 2] << 16) << 8 >> 8, samples[place]);
  }
  for (const kind of kinds(file)) assert.deepEqual(await read(kind), samples);
});

test("of a long file only the header and the frames are read", async () => {
  const head = byHand([], { counted: 1e9, riff: 1e9 + 36 });
  const file = new Counted(head, 1e9 + 44);
  assert.equal((await info(file)).frames, 5e8);
  assert.equal(file.taken, 44);
  assert.deepEqual(await read(file, { start: 4e8, frames: 3 }), Int16Array.of(0, 0, 0));
  assert.equal(file.taken, 44 + 44 + 6);
});

test("a file that was cut off is repaired", async () => {
  const data = [2, 0, 253, 255, 5, 0, 249, 255, 9, 9];
  const good = byHand([2, 0, 253, 255, 5, 0, 249, 255], { channels: 2 });
  for (const [counted, riff] of [[0, 36], [4, 40], [400, 436], [0xffffffff, 0xffffffff], [10, 46], [3, 39]]) {
    const cut = byHand(data, { channels: 2, counted, riff }), before = cut.slice();
    for (const file of kinds(cut)) {
      const expected = {
        state: "cutOff", frames: 2, counted: Math.floor(counted / 4), leftOver: 2, dataStart: 44, dataLength: counted,
        sampleRate: 8000, channels: 2, bitsPerSample: 16, bytesPerSample: 2, isFloat: false,
      };
      assert.deepEqual(await findDamage(file), expected);
      const { file: repaired, ...found } = await repair(file);
      assert.deepEqual(found, expected);
      assert.deepEqual(await bytes(repaired), good); // without the torn frame
      const again = await repair(repaired);
      assert.deepEqual([again.state, again.leftOver, again.file], ["whole", 0, repaired]);
    }
    assert.deepEqual(cut, before);
  }
});

test("a repair reports how many frames the header counted, also before a chunk that was itself cut off", async () => {
  for (const file of kinds(byHand([1, 0, 2, 0], { after: [...text("abcd"), ...u32(100), 7, 7] }))) {
    const { state, frames, counted } = await repair(file);
    assert.deepEqual({ state, frames, counted }, { state: "cutOff", frames: 2 + 5, counted: 2 });
  }
});

test("a missing pad byte is added", async () => {
  const cut = byHand([1, 2, 3], { bits: 8, counted: 2, riff: 38 });
  for (const file of kinds(cut)) {
    assert.deepEqual(await bytes((await repair(file)).file), byHand([1, 2, 3], { bits: 8, after: [0] }));
  }
});

test("a repaired file ends after its frames and a pad byte that is 0", async () => {
  for (const [channels, bits] of [[1, 24], [2, 24], [3, 8], [5, 8], [1, 16]]) {
    const frame = channels * bits / 8, data = Array.from({ length: 3 * frame }, (_, i) => i + 1);
    const whole = byHand(data, { channels, bits, after: Array(data.length % 2).fill(0) });
    for (let torn = 0; torn < frame; torn++) {
      for (const counted of [0, frame, 2 * frame + 1]) {
        const cut = byHand([...data, ...Array(torn).fill(7)], { channels, bits, counted, riff: 36 });
        for (const [file, toEnd] of [...kinds(cut), cut].map((file, i) => [file, i > 1])) {
          const found = await repair(file, { toEnd });
          assert.deepEqual([found.state, found.frames, found.leftOver], ["cutOff", 3, torn]);
          assert.deepEqual(await bytes(found.file), whole);
        }
      }
    }
  }
});

test("a file whose frames are all counted stays, and is made canonical where that is wanted", async () => {
  const odd = [[1, 2, 3], { bits: 8 }];
  for (const [file, canonical] of [
    [byHand(odd[0], odd[1]), byHand(odd[0], { ...odd[1], after: [0], riff: 40 })], // as without a pad byte
    [byHand(odd[0], { ...odd[1], after: [0], riff: 39 }), byHand(odd[0], { ...odd[1], after: [0], riff: 40 })],
    [byHand([1, 0, 2, 0], { riff: 0 }), byHand([1, 0, 2, 0])],
    [byHand([1, 0, 2, 0], { after: [7], riff: 41 }), byHand([1, 0, 2, 0])], // with a torn frame
  ]) {
    for (const kind of kinds(file)) {
      const { state, frames, counted, file: same } = await repair(kind);
      assert.deepEqual([state, counted, same], ["allCounted", frames, kind]);
      for (const how of [{ canonical: true }, { toEnd: true }]) {
        const made = await repair(kind, how);
        assert.deepEqual([made.state, made.frames], ["allCounted", frames]);
        assert.deepEqual(await bytes(made.file), canonical);
        assert.equal((await findDamage(made.file)).state, "whole");
      }
    }
  }
  const followed = byHand([1, 0], { after: LIST });
  assert.equal((await repair(followed, { canonical: true })).file, followed);
  const cut = byHand([1, 0, 2, 0], { counted: 0 });
  assert.deepEqual((await repair(cut, { canonical: true })).file, byHand([1, 0, 2, 0]));
});

test("chunks and a tag after the data stay", async () => {
  const tag = [...text("TAG"), ...Array(125).fill(32)];
  for (const after of [LIST, tag, [...text("abcd"), ...u32(1), 7, 0, ...LIST]]) {
    for (const file of kinds(byHand([1, 0, 2, 0], { after, riff: 40 }))) {
      const found = await repair(file);
      assert.equal(found.state, "hasChunksAfterData");
      assert.equal(found.file, file);
      assert.equal(found.frames, 2);
    }
  }
});

test("with toEnd chunks and a tag are taken for samples", async () => {
  for (const after of [LIST, [...text("TAG"), ...Array(125).fill(32)]]) {
    for (const file of kinds(byHand([1, 0], { after }))) {
      const { state, frames, leftOver, file: repaired } = await repair(file, { toEnd: true });
      assert.deepEqual({ state, frames, leftOver }, { state: "cutOff", frames: 1 + after.length / 2, leftOver: 0 });
      assert.deepEqual(await bytes(repaired), byHand([1, 0, ...after]));
      assert.equal((await repair(repaired, { toEnd: true })).state, "whole");
    }
  }
  const odd = byHand([1], { bits: 8, after: LIST });
  const mended = await repair(odd, { toEnd: true });
  assert.deepEqual(await bytes(mended.file), byHand([1, ...LIST], { bits: 8, after: [0] }));
  await fails(repair(byHand([1, 0], { channels: 0 }), { toEnd: true }), "ZERO_CHANNELS");
});

test("a lost header is made like another one", async () => {
  const data = [1, 0, 2, 0, 3, 0, 4, 0], like = await info(byHand([], { channels: 2 }));
  for (const lost of [Array(44).fill(0), [7], []]) {
    for (const file of kinds(Uint8Array.from([...lost, ...data]))) {
      const { state, frames, leftOver, file: found } = await repair(file, { like, skip: lost.length });
      assert.deepEqual({ state, frames, leftOver }, { state: "cutOff", frames: 2, leftOver: 0 });
      assert.deepEqual(await bytes(found), byHand(data, { channels: 2 }));
    }
  }
  const torn = await repair(Uint8Array.from([...data, 9]), { like });
  assert.deepEqual([torn.frames, torn.leftOver, torn.file], [2, 1, byHand(data, { channels: 2 })]);
  const odd = await repair(Uint8Array.of(5, 6, 7), { like: { sampleRate: 8000, bitsPerSample: 8 } });
  assert.deepEqual(odd.file, byHand([5, 6, 7], { bits: 8, after: [0] }));
  assert.equal((await repair(new Uint8Array(2), { like, skip: 2 })).frames, 0);
  await assert.rejects(repair(Uint8Array.from(data), { like, skip: 9 }), { name: "RangeError", message: /^skip / });
  const withoutBits = repair(Uint8Array.from(data), { like: { sampleRate: 8000 } });
  await assert.rejects(withoutBits, { name: "TypeError", message: /^bitsPerSample / });
  await fails(repair(Uint8Array.from(data), { like: { sampleRate: 8000, bitsPerSample: 12 } }), "NOT_WRITABLE");
});

test("frames are appended", async () => {
  for (const file of kinds(byHand([1, 0, 2, 0]))) {
    assert.deepEqual(await bytes(await append(file, Int16Array.of(3, -1))), byHand([1, 0, 2, 0, 3, 0, 255, 255]));
  }
  for (const file of kinds(byHand([1], { bits: 8, after: [0] }))) {
    const two = await append(file, Int8Array.of(-1));
    assert.deepEqual(await bytes(two), byHand([1, 127], { bits: 8 }));
    assert.deepEqual(await bytes(await append(two, Int8Array.of(0))), byHand([1, 127, 128], { bits: 8, after: [0] }));
  }
  await fails(append(byHand([], { channels: 2 }), Int16Array.of(1)), "UNFINISHED_FRAME");
  await fails(append(byHand([], { bits: 32, tag: 3 }), Int32Array.of(1)), "OTHER_FORMAT");
  await fails(append(byHand([], { bits: 8 }), Int16Array.of(128)), "TOO_WIDE");
});

test("an append overwrites only what it may", async () => {
  const one = Int16Array.of(7), followed = byHand([1, 0], { after: LIST });
  for (const file of kinds(followed)) {
    await fails(append(file, one), "NEEDS_OVERWRITE");
    assert.deepEqual(await bytes(await append(file, one, { overwrite: true })), byHand([1, 0, 7, 0]));
    assert.deepEqual(await bytes(await append(file, one.subarray(1), { overwrite: true })), byHand([1, 0]));
  }
  for (const overwrite of [false, true]) {
    for (const counted of [0, 3]) {
      await fails(append(byHand([1, 0, 2, 0], { counted }), one, { overwrite }), "NEEDS_MEND");
    }
    await fails(append(byHand([1, 0], { counted: 4 }), one, { overwrite }), "TRUNCATED");
  }
});

test("a byte after odd data that isn't 0 is a sample, and nothing is appended over it", async () => {
  for (const file of kinds(byHand([1, 2, 3], { bits: 8, after: [4] }))) {
    await fails(append(file, Int8Array.of(5)), "NEEDS_MEND");
  }
});

test("the samples that are written or appended are those of the call", async () => {
  for (const file of kinds(byHand([1, 0]))) {
    const samples = Int16Array.of(7, 8), longer = append(file, samples), other = write(samples, { sampleRate: 8000 });
    samples.fill(9);
    assert.deepEqual(await read(await longer), Int16Array.of(1, 7, 8));
    assert.deepEqual(await read(await other), Int16Array.of(7, 8));
  }
});

test("a Blob takes many appends, of which each copy can be read", async () => {
  let file = new Blob([byHand([1], { bits: 8, after: [0] })]), middle;
  for (let i = 0; i < 10000; i++) {
    file = await append(file, Int8Array.of(i % 100, -(i % 100), 3));
    if (i === 4999) middle = file;
  }
  const wanted = Int8Array.from([-127, ...Array.from({ length: 10000 }, (_, i) => [i % 100, -(i % 100), 3]).flat()]);
  assert.deepEqual(await read(file, { type: "int8" }), wanted);
  assert.equal((await repair(file)).state, "whole");
  const samples = await read(await append(middle, Int8Array.of(5)), { type: "int8" });
  assert.deepEqual(samples, Int8Array.of(...wanted.subarray(0, 15001), 5));
});

test("a file at a path is repaired in place", async () => {
  const folder = await fs.mkdtemp(path.join(os.tmpdir(), "hound-")), name = path.join(folder, "a.wav");
  const whole = byHand([1, 2, 3], { bits: 8, after: [0] }), followed = byHand([1, 0], { after: LIST });
  const odd = [[byHand([1, 2, 3], { bits: 8, counted: 0, riff: 36 }), "cutOff", whole], [whole, "whole", whole]];
  const long = byHand(Array(3e6).fill(5), { channels: 2, counted: 0 });
  const chunks = [followed, "hasChunksAfterData", followed];
  const repaired = [long, "cutOff", byHand(Array(3e6).fill(5), { channels: 2 })];
  for (const [before, state, after] of [...odd, repaired, chunks]) {
    await fs.writeFile(name, before);
    assert.deepEqual(await findDamageInFile(name), await findDamage(before));
    assert.ok((await fs.readFile(name)).equals(before));
    assert.equal((await repairFile(name)).state, state);
    assert.ok((await fs.readFile(name)).equals(after));
  }
  assert.equal((await repairFile(name, { toEnd: true })).frames, 1 + LIST.length / 2);
  await fs.writeFile(name, "RIFX");
  for (const call of [repairFile, findDamageInFile]) await fails(call(name), "NO_RIFF_TAG");
  await assert.rejects(repairFile(path.join(folder, "none.wav")), { code: "ENOENT" });
  await fs.rm(folder, { recursive: true });
});

test("a header that counts more than there is", async () => {
  const file = byHand([1, 0, 2, 0, 3], { counted: 400 });
  assert.deepEqual(await read(file), Int16Array.of(1, 2));
  await fails(read(file, { start: 2 }), "TRUNCATED");
});

test("errors have the sentences of hound.h", async () => {
  for (const [file, code, sentence] of [
    [[], "ENDED", "the bytes end before the data begin"],
    [[...text("RIFY"), ...Array(60).fill(0)], "NO_RIFF_TAG", "no RIFF tag found"],
    [[...text("RIFF"), ...u32(4), ...text("AVI ")], "NO_WAVE_TAG", "no WAVE tag found"],
    [byHand([], { channels: 0 }), "ZERO_CHANNELS", "file contains zero channels"],
    [byHand([1], { counted: 1 }), "FRAME_LENGTH", /./],
  ]) {
    for (const kind of kinds(Uint8Array.from(file))) {
      const expected = sentence instanceof RegExp ? {} : { code, message: sentence };
      await assert.rejects(info(kind), { name: "HoundError", ...expected });
    }
  }
  await fails(write(Int32Array.of(128), { sampleRate: 8000, bitsPerSample: 8 }), "TOO_WIDE");
  await fails(write(Int16Array.of(1), { sampleRate: 8000, bitsPerSample: 12 }), "NOT_WRITABLE");
  await fails(write(Int16Array.of(1), { sampleRate: 8000, channels: 2 }), "UNFINISHED_FRAME");
});

test("an error names what a file is that isn't read, and what to do", async () => {
  const wide = byHand([0, 0, 0, 0, 0, 0, 240, 63], { bits: 64, tag: 3 });
  const folder = await fs.mkdtemp(path.join(os.tmpdir(), "hound-")), name = path.join(folder, "a.wav");
  const rifx = "RIFX, whose numbers have their highest byte first";
  const by = (codec) => `ffmpeg -i FILE -c:a ${codec} NEW.wav`;
  for (const [file, code, kind, command] of [
    [byHand([], { tag: 2, bits: 4 }), "BITS_NOT_WHOLE_BYTES", "Microsoft ADPCM", by("pcm_s16le")],
    [byHand([0], { tag: 6, bits: 8 }), "UNSUPPORTED", "A-law", by("pcm_s16le")],
    [wide, "BITS_NOT_32", "floats of 64 bits", by("pcm_f32le")],
    [[...text("RIFX"), ...Array(60).fill(0)], "NO_RIFF_TAG", rifx, "sox FILE -L NEW.wav"],
    [[...text("RF64"), ...Array(60).fill(0)], "NO_RIFF_TAG", "RF64, which is for more than 4 GiB", by("pcm_s32le")],
    [text("fLaC\0\0\0\x22"), "NO_RIFF_TAG", "FLAC", by("pcm_s32le")],
  ]) {
    const message = `the file holds ${kind}, and isn't read: convert it by ${command}`;
    await fs.writeFile(name, Uint8Array.from(file));
    const calls = [info, read, repair, findDamage], given = kinds(Uint8Array.from(file));
    const all = calls.flatMap((call) => given.map((one) => [call, one]));
    for (const [call, one] of [...all, [findDamageInFile, name], [repairFile, name]]) {
      await assert.rejects(call(one), { name: "HoundError", code, kind, message });
    }
  }
  for (const file of [[], text("just text"), byHand([], { channels: 0 }), byHand([1, 0], { counted: 3 })]) {
    const says = ({ kind, message }) => kind === undefined && !/holds/.test(message);
    await assert.rejects(info(Uint8Array.from(file)), says);
  }
  await fs.rm(folder, { recursive: true });
});

test("the command names a chunk that a repair would take for audio, however long it is", async () => {
  const folder = await fs.mkdtemp(path.join(os.tmpdir(), "hound-")), name = path.join(folder, "a.wav");
  const command = new URL("../command.js", import.meta.url).pathname;
  for (const length of [6000, 1 << 20]) {
    const after = Buffer.concat([Buffer.from([...text("iXML"), ...u32(length)]), Buffer.alloc(length, " ")]);
    await fs.writeFile(name, Buffer.concat([byHand([1, 0, 2, 0], { counted: 0 }), after]));
    const { stderr } = spawnSync(process.execPath, [command, "info", name], { encoding: "utf8" });
    assert.match(stderr, new RegExp(`its last ${(length + 8).toLocaleString("en")} bytes look like a chunk named iXML`));
  }
  await fs.rm(folder, { recursive: true });
});

test("doubles hold integers of 32 bits, and are rounded once", async () => {
  const integers = Int32Array.of(2147483647, -2147483648, -16777217, 1);
  const file = await write(integers, { sampleRate: 8000 }), doubles = await read(file, { type: "float64" });
  assert.deepEqual(doubles, Float64Array.from(integers, (sample) => sample / 2 ** 31));
  assert.deepEqual(await write(doubles, await info(file)), file);
  assert.deepEqual(await read(await append(file, doubles)), Int32Array.of(...integers, ...integers));
  let clipped = 0;
  const onClipped = (count) => (clipped += count), half = 2.5 / 32768;
  const given = Float64Array.of(1, -1, half, half + 2 ** -60, NaN, -Infinity, 3.5 / 32768);
  const short = await write(given, { sampleRate: 8000, bitsPerSample: 16, onClipped });
  assert.deepEqual([await read(short), clipped], [Int16Array.of(32767, -32768, 2, 3, 0, -32768, 4), 2]);
});

test("doubles in a file of floats are the nearest ones", async () => {
  const given = [Float64Array.of(0.1, -0, Infinity), Float64Array.of(1e-46, 1 + 2 ** -24, 1 + 3 * 2 ** -24)];
  const file = await write(given, { sampleRate: 8000 });
  assert.deepEqual(await read(file, { planar: true }), given.map((channel) => Float32Array.from(channel)));
  const back = given.map((channel) => Float64Array.from(Float32Array.from(channel)));
  assert.deepEqual(await read(file, { planar: true, type: "float64" }), back);
  await fails(write(Float64Array.of(0, 3.5e38), { sampleRate: 8000 }), "TOO_WIDE");
});

test("arrays of channels longer than a block are interleaved, and read back", async () => {
  for (const [channels, frames] of [[1, 70000], [2, 40000], [3, 30000], [7, 20001]]) {
    const given = Array.from({ length: channels }, (_, i) => Int16Array.from({ length: frames }, (_, k) => k * 7 + i));
    const all = Int16Array.from({ length: channels * frames }, (_, k) => given[k % channels][Math.floor(k / channels)]);
    const file = await write(given, { sampleRate: 8000 });
    assert.deepEqual(file, await write(all, { sampleRate: 8000, channels }));
    for (const kind of kinds(file)) {
      assert.deepEqual(await read(kind), all);
      const expected = given.map((channel) => channel.slice(5, 5 + frames - 9));
      assert.deepEqual(await read(kind, { planar: true, start: 5, frames: frames - 9 }), expected);
    }
  }
});

test("an argument out of range is named", async () => {
  const file = byHand([1, 0]), one = Int16Array.of(1);
  for (const [call, kind, name] of [
    [() => info("a.wav"), TypeError, "file"],
    [() => info(new DataView(file.buffer)), TypeError, "file"],
    [() => repair(null), TypeError, "file"],
    [() => findDamage([1]), TypeError, "file"],
    [() => append(undefined, one), TypeError, "file"],
    [() => append(file, [1]), TypeError, "samples"],
    [() => write(Uint16Array.of(1), { sampleRate: 1 }), TypeError, "samples"],
    [() => write([], { sampleRate: 1 }), TypeError, "samples"],
    [() => write([one, Int8Array.of(1)], { sampleRate: 1 }), TypeError, "samples"],
    [() => write([one, Int16Array.of(1, 2)], { sampleRate: 1 }), RangeError, "samples"],
    [() => write([one, one], { sampleRate: 1, channels: 1 }), RangeError, "samples"],
    [() => append(file, [one, one]), RangeError, "samples"],
    [() => write(one, { sampleRate: 1, isFloat: 0 }), TypeError, "isFloat"],
    [() => write(one), TypeError, "sampleRate"],
    [() => write(one, { sampleRate: "8000" }), TypeError, 'sampleRate is "8000", and not a'],
    [() => write(one, { sampleRate: 0 }), RangeError, "sampleRate"],
    [() => write(one, { sampleRate: 2 ** 32 }), RangeError, "sampleRate"],
    [() => write(one, { sampleRate: 8000, channels: 65536 }), RangeError, "channels"],
    [() => write(one, { sampleRate: 8000, bitsPerSample: NaN }), RangeError, "bitsPerSample"],
    [() => write(one, { sampleRate: 8000, bytesPerSample: -1 }), RangeError, "bytesPerSample"],
    [() => read(file, { start: -1 }), RangeError, "start"],
    [() => read(file, { start: 1n }), TypeError, "start"],
    [() => read(file, { frames: 0.5 }), RangeError, "frames"],
    [() => read(file, { type: "int24" }), TypeError, "type"],
    [() => read(file, { type: "toString" }), TypeError, "type"],
  ]) {
    await assert.rejects(call(), (error) => error instanceof kind && error.message.startsWith(name + " "), `${call}`);
  }
});

test("an array whose memory was transferred is an error, and an empty one isn't", async () => {
  const detached = (array) => (structuredClone(array.buffer, { transfer: [array.buffer] }), array);
  const file = byHand([1, 0]), given = () => detached(Int16Array.of(1, 2)), gone = detached(byHand([1, 0]));
  for (const call of [
    () => write(given(), { sampleRate: 8000 }), () => write([given(), given()], { sampleRate: 8000 }),
    () => append(file, given()), () => info(gone), () => read(gone), () => repair(gone), () => info(gone.buffer),
  ]) {
    await assert.rejects(call(), { name: "TypeError", message: /detached/ }, `${call}`);
  }
  assert.deepEqual(await append(file, new Int16Array(0)), file);
  await fails(info(new Uint8Array(0)), "ENDED");
});

test("calls that are made at once don't disturb each other", async () => {
  await Promise.all(Array.from({ length: 200 }, async (_, i) => {
    const samples = Int16Array.of(i, -i, i + 1, 2 * i), cut = byHand([i, 0, 1, 0, 9], { counted: 0 });
    const file = new Blob([await write(samples, { sampleRate: 1000 + i, channels: 2 })]);
    assert.equal((await info(file)).sampleRate, 1000 + i);
    assert.deepEqual(await read(await append(file, samples)), Int16Array.of(...samples, ...samples));
    assert.deepEqual(await read((await repair(i % 2 ? cut : new Blob([cut]))).file), Int16Array.of(i, 1));
  }));
});

test("a file that fills a card of FAT32 is repaired", async () => {
  const cut = byHand([], { channels: 2, counted: 0, riff: 0 });
  const folder = await fs.mkdtemp(path.join(os.tmpdir(), "hound-"));
  const full = path.join(folder, "full.wav");
  await fs.writeFile(full, cut);
  await fs.truncate(full, 2 ** 32 - 1);
  const { state, frames, leftOver, file: repaired } = await repair(await openAsBlob(full));
  assert.deepEqual({ state, frames, leftOver }, { state: "cutOff", frames: (2 ** 32 - 48) / 4, leftOver: 3 });
  assert.equal(repaired.size, 2 ** 32 - 4);
  const head = byHand([], { channels: 2, counted: 2 ** 32 - 48, riff: 2 ** 32 - 12 });
  assert.deepEqual(await bytes(repaired.slice(0, 44)), head);
  await fs.rm(folder, { recursive: true });
  await fails(repair(new Counted(cut, 5e9)), "TOO_LONG");
});

test("a long file is repaired without being in memory, and the memory is given back", async () => {
  for (let i = 0; i < 40; i++) {
    const file = new Counted(byHand([], { channels: 2, counted: 0 }), 3e9 + 47);
    const found = await findDamage(file);
    assert.deepEqual([found.state, found.frames, found.leftOver], ["cutOff", 75e7, 3]);
    assert.ok(file.taken < 300000);
  }
  assert.ok(process.memoryUsage().rss < 5e8);
});
