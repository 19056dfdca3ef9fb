// What the page record.html does with blocks and with the clock, here without a browser: over media in memory.
import assert from "node:assert/strict";
import { test } from "node:test";
import { read } from "../hound.js";
import { MissingSound } from "../page/record/missing.js";
import { Recording } from "../page/record/recording.js";

const RATE = 48000, BLOCK = 2048, FORMAT = { sampleRate: RATE, channels: 1, bitsPerSample: 24, isFloat: false };

/** What is found to be missing of blocks that come at these seconds after they were due. */
function missingOf(lateness, count, { rate = RATE, pauseAt } = {}) {
  const sound = new MissingSound(RATE), found = [];
  for (let i = 0; i < count; i++) {
    if (i === pauseAt) found.push(sound.pause());
    found.push(sound.add(BLOCK, 1000 * ((i + 1) * BLOCK / rate + lateness(i))));
  }
  return [...found, sound.pause()].filter(Boolean);
}

/** The number of the block that comes at a time. */
const blockAt = (seconds) => Math.floor(seconds * RATE / BLOCK);
const from = (start, seconds) => (i) => i >= blockAt(start) ? seconds : 0;

test("sound that is missing is found where it is missing", () => {
  for (const [start, seconds] of [[1, 0.42], [63, 0.42], [10, 8], [10, 3600]]) {
    const [one, ...others] = missingOf(from(start, seconds), blockAt(start + 10));
    assert.equal(others.length, 0);
    assert.equal(one.frame, blockAt(start) * BLOCK);
    assert.ok(Math.abs(one.seconds - seconds) < 0.01, `${one.seconds} of ${seconds}`);
  }
  const twice = missingOf((i) => from(5, 0.5)(i) + from(20, 2)(i), blockAt(30));
  assert.deepEqual(twice.map(({ seconds }) => seconds.toFixed(1)), ["0.5", "2.0"]);
  const late = missingOf((i) => from(5, 0.42)(i) + (i === blockAt(5) ? 0.25 : 0), blockAt(30));
  assert.deepEqual(late.map(({ seconds }) => seconds.toFixed(2)), ["0.42"], "the first block after it is late, too");
  const atEnd = missingOf(from(5, 1), blockAt(5) + 1);
  assert.deepEqual(atEnd.map(({ seconds }) => seconds.toFixed(1)), ["1.0"]);
});

test("what is late, drifts or pauses isn't missing", () => {
  assert.deepEqual(missingOf((i) => i % 7 ? 0 : 0.25, 1000), []);
  assert.deepEqual(missingOf((i) => i >= 200 && i < 230 ? 1 : 0, 1000), [], "caught up after a second");
  for (const rate of [0.9998 * RATE, 1.0002 * RATE]) assert.deepEqual(missingOf(() => 0, blockAt(3600), { rate }), []);
  assert.deepEqual(missingOf(from(20, 60), 1000, { pauseAt: blockAt(20) }), []);
});

/** A medium in memory, of which calls can be made to fail. */
class Memory {
  bytes = new Uint8Array(0);
  isOpen = true;
  fail = () => {}; // Gets the name of each call, and may throw.

  getSize() { return this.bytes.length; }
  read(to, { at }) {
    const part = this.bytes.subarray(at, at + to.length);
    to.set(part);
    return part.length;
  }
  write(given, { at }) {
    this.fail("write");
    const longer = new Uint8Array(Math.max(this.bytes.length, at + given.length));
    longer.set(this.bytes);
    longer.set(given, at);
    this.bytes = longer;
    return given.length;
  }
  truncate(size) { this.bytes = this.bytes.slice(0, size); }
  async flush() {
    this.fail("flush");
    await this.wait?.();
  }
  close() { this.isOpen = false; }
}

/** A recording over media that are listed; its blocks have the numbers of their frames. */
async function recorded() {
  const media = [], states = [];
  const openNext = () => media[media.push(new Memory()) - 1];
  const recording = await Recording.begin(FORMAT, openNext, (state) => states.push(state));
  let next = 0;
  const take = (state = "recording", frames = BLOCK) => {
    const samples = frames ? [Float32Array.from({ length: frames }, (_, i) => (next + i) / 2 ** 23)] : [];
    next += frames;
    recording.take({ samples, time: 1000 * next / RATE, state });
  };
  return { media, states, recording, take, done: recording.run(), given: () => next };
}

const held = async (media) => (await Promise.all(media.map(({ bytes }) => read(bytes)))).map((one) => [...one]);
const numbers = (first, end) => Array.from({ length: end - first }, (_, i) => first + i);
const pause = (milliseconds) => new Promise((resolve) => setTimeout(resolve, milliseconds));

/** Waits until the last state is like that. */
async function until(states, isSo) {
  while (states.length === 0 || !isSo(states.at(-1))) await pause(5);
}

const full = () => { throw new DOMException("there is no room", "QuotaExceededError"); };

test("all blocks are stored, also those that come during a checkpoint", async () => {
  const { media, states, take, done, given } = await recorded();
  media[0].wait = () => pause(50);
  for (let i = 0; i < 30; i++) {
    take(i === 15 ? "paused" : "recording");
    await pause(20);
  }
  take("stopped", 7);
  assert.deepEqual(await done, { frames: given(), lost: 0 });
  assert.deepEqual(await held(media), [numbers(0, given())]);
  assert.equal(states.at(-1).counted, given());
  assert.ok(!media[0].isOpen);
});

test("blocks that come during the last checkpoint of a pause are stored", async () => {
  const { media, states, take, done, given } = await recorded();
  let isWaiting = false;
  media[0].wait = async () => {
    isWaiting = true;
    await pause(100);
  };
  take("paused");
  while (!isWaiting) await pause(5);
  take();
  take("stopped", 7);
  assert.deepEqual(await done, { frames: given(), lost: 0 });
  assert.equal(states.at(-1).counted, given());
  assert.deepEqual(await held(media), [numbers(0, given())]);
});

test("what is reported as counted is in a file", async () => {
  const { media, states, take, done } = await recorded();
  for (let i = 0; i < 70; i++) {
    take();
    await pause(20);
    const { counted: said } = states.at(-1), [counted] = await held(media);
    assert.ok(said <= counted.length, `${said} of ${counted.length}`);
  }
  assert.ok(states.at(-1).counted > 0);
  take("stopped", 0);
  await done;
});

test("on a full disk all waits in memory", async () => {
  const { media, states, take, done, given } = await recorded();
  take("paused");
  await until(states, ({ counted }) => counted === BLOCK);
  media[0].fail = full;
  take();
  take();
  await until(states, ({ fault }) => fault?.name === "QuotaExceededError");
  assert.deepEqual([states.at(-1).frames, states.at(-1).counted], [given(), BLOCK]);
  take("stopped", 5);
  media[0].fail = () => {};
  assert.deepEqual(await done, { frames: given(), lost: 0 });
  assert.deepEqual(await held(media), [numbers(0, given())]);
  assert.equal(states.at(-1).fault, undefined);
});

test("a recording on a disk that stays full can be given up", async () => {
  const { media, states, recording, take, done, given } = await recorded();
  take("paused");
  await until(states, ({ counted }) => counted === BLOCK);
  const { length } = media[0].bytes;
  take(); // It is written, and no checkpoint counts it.
  while (media[0].bytes.length === length) await pause(5);
  media[0].fail = full;
  take();
  take("stopped", 5);
  await until(states, ({ fault }) => fault);
  recording.giveUp();
  assert.deepEqual(await done, { frames: BLOCK, lost: given() - BLOCK });
  assert.deepEqual((await held(media))[0].slice(0, BLOCK), numbers(0, BLOCK));
});

test("after a sync that failed it continues in another file, from the last checkpoint on", async () => {
  const { media, states, take, done, given } = await recorded();
  take("paused");
  await until(states, ({ counted }) => counted === BLOCK);
  media[0].fail = (call) => { if (call === "flush") throw new Error("the disk has a fault"); };
  take("paused");
  await until(states, ({ fault }) => fault?.message === "the disk has a fault");
  take();
  take("stopped", 5);
  assert.deepEqual(await done, { frames: given(), lost: 0 });
  const [first, second] = await held(media);
  assert.deepEqual(second, numbers(BLOCK, given()));
  assert.deepEqual(first.slice(0, BLOCK), numbers(0, BLOCK));
  assert.deepEqual(media.map(({ isOpen }) => isOpen), [false, false]);
});

test("where it can't begin its medium is closed", async () => {
  const medium = Object.assign(new Memory(), { fail: full });
  await assert.rejects(Recording.begin(FORMAT, () => medium, () => {}), { name: "QuotaExceededError" });
  assert.ok(!medium.isOpen);
});

test("too loud is what has several samples at the limit", async () => {
  const { recording, states, done } = await recorded();
  const blocks = [[[0.5, -0.75, 0], 0.75, false], [[1, 0, 0], 1, false], [[1, -1, 1], 1, true]];
  for (const [samples, peak, isLoud] of blocks) {
    recording.take({ samples: [Float32Array.from(samples)], time: 0, state: "recording" });
    assert.deepEqual([states.at(-1).peak, states.at(-1).isLoud], [peak, isLoud]);
  }
  recording.take({ samples: [], time: 0, state: "stopped" });
  await done;
});
