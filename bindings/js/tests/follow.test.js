// Recordings that are read while another program makes them. bindings/tests/follow.py kills recorders of each language.
import assert from "node:assert/strict";
import { test } from "node:test";
import { spawn } from "node:child_process";
import fs from "node:fs/promises";
import { createRequire } from "node:module";
import os from "node:os";
import path from "node:path";
import { HoundError, follow, record, write } from "../hound.js";
import { Held, SPEC, block, blocks } from "./held.js";

const folder = await fs.mkdtemp(path.join(os.tmpdir(), "hound-")), take = path.join(folder, "take.wav");
test.after(() => fs.rm(folder, { recursive: true }));
const fails = (promise, code) => assert.rejects(promise, (error) => error instanceof HoundError && error.code === code);

/** Frames that count up, from this one on. */
const frames = (from, count) => Int16Array.from({ length: 2 * count }, (_, i) => 2 * from + i);

/** All blocks of a recording, as one array of numbers. */
async function all(file, options) {
  const samples = [];
  for await (const block of follow(file, { poll: 1, idle: 60, ...options })) samples.push(...block);
  return samples;
}

test("what each checkpoint counts is given, once and in order", async () => {
  const recorder = await record(take, SPEC);
  const given = [], blocks = [];
  const followed = (async () => {
    for await (const block of follow(take, { poll: 1, idle: 400, frames: 100 })) {
      assert.ok(block instanceof Int16Array && block.length <= 200);
      given.push(...block);
      blocks.push(block.length);
    }
  })();
  let count = 0;
  for (const more of [1, 250, 3, 5000]) {
    await recorder.write(frames(count, more));
    await new Promise((resolve) => setTimeout(resolve, 20));
    assert.equal(given.length, 2 * count); // Nothing that isn't counted.
    await recorder.flush();
    count += more;
    for (let i = 0; i < 200 && given.length < 2 * count; i++) await new Promise((resolve) => setTimeout(resolve, 5));
    assert.equal(given.length, 2 * count);
  }
  await recorder.close();
  await followed;
  assert.deepEqual(given, [...frames(0, count)]);
  assert.ok(blocks.length > 50);
});

test("types and planes are those of read", async () => {
  await fs.writeFile(take, await write(frames(0, 3), { ...SPEC }));
  for await (const [left, right] of follow(take, { idle: 1, type: "float32", planar: true })) {
    assert.deepEqual([...left, ...right], [0, 2, 4, 1, 3, 5].map((value) => value / 32768));
  }
  await fails(all(take, { type: "int8" }), "TOO_WIDE");
  await assert.rejects(all(take, { type: "int99" }), TypeError);
  await assert.rejects(all(take, { block: 3 }), TypeError);
  await assert.rejects(all(take, { frames: 0 }), RangeError);
  await assert.rejects(all(path.join(folder, "none.wav")), { code: "ENOENT" });
  const { follow: required } = createRequire(import.meta.url)("../hound.cjs"), found = [];
  for await (const block of required(take, { idle: 1 })) found.push(...block);
  assert.deepEqual(found, [0, 1, 2, 3, 4, 5]);
});

test("a recording in parts is one", async () => {
  const name = path.join(folder, "parts.wav"), recorder = await record(name, SPEC, { split: 10 });
  await recorder.write(frames(0, 25));
  await recorder.close();
  assert.deepEqual(await all(name, { parts: true }), [...frames(0, 25)]);
  assert.deepEqual(await all(name), [...frames(0, 10)]);
});

test("what isn't that recording any more is an error", async () => {
  const whole = await write(frames(0, 400), { ...SPEC });
  for (const other of [whole.subarray(0, 44), whole.subarray(0, 30), await write(frames(5, 500), { ...SPEC })]) {
    await fs.writeFile(take, whole);
    const blocks = follow(take, { poll: 1, idle: 2000 });
    assert.deepEqual([...(await blocks.next()).value], [...frames(0, 400)]);
    await fs.writeFile(take, other);
    await fails(blocks.next(), "TRUNCATED");
  }
});

test("another file at the path is an error, or followed where nothing was given; a removed one is read", async () => {
  const whole = await write(frames(0, 4), SPEC), other = path.join(folder, "other.wav");
  const replace = async () => {
    await fs.writeFile(other, await write(frames(9, 5), SPEC));
    await fs.rename(other, take);
  };
  await fs.writeFile(take, whole);
  const replaced = follow(take, { poll: 1, idle: 20 });
  assert.deepEqual([...(await replaced.next()).value], [...frames(0, 4)]);
  await replace();
  await fails(replaced.next(), "TRUNCATED");

  await fs.writeFile(take, "");
  const begun = all(take, { idle: 50 });
  await new Promise((resolve) => setTimeout(resolve, 20));
  await replace();
  assert.deepEqual(await begun, [...frames(9, 5)]);

  const removed = follow(take, { poll: 1, idle: 20 });
  await removed.next();
  await fs.unlink(take);
  assert.ok((await removed.next()).done);
});

/** A handle, as a browser has it, of a file in an array, which may change in the step before each read. Its Blobs are
    copies; or as Chromium's, which can't be read once the file has changed; or as Firefox's, which have the bytes of
    now and the length of before. */
function handleOf(held, kind, step = () => {}) {
  const getFile = async () => {
    const copy = held.bytes.slice(), changes = held.calls.length;
    const read = async (from, to) => {
      await step();
      if (kind === "firefox") return held.bytes.slice(from, Math.min(to, copy.length)).buffer;
      if (kind === "copies" || held.calls.length === changes) return copy.slice(from, to).buffer;
      throw new DOMException("the file has changed", "NotReadableError");
    };
    return { slice: (from, to) => ({ arrayBuffer: () => read(from, to) }) };
  };
  return { getFile };
}

test("a browser's file is followed while it is recorded, up to its last checkpoint", async () => {
  for (const kind of ["copies", "chromium", "firefox"]) {
    const held = new Held(), recorder = await record(held, SPEC), last = 40, given = [];
    let count = 0, reads = 0;
    const step = async () => {
      if (reads++ % 5 > 0 || count === last) return;
      await recorder.write(block(count++));
      if (count % 3 === 0) await recorder.flush();
    };
    const isRecorded = async () => {
      if (count < last) return true;
      await recorder.close(); // Its last checkpoint comes right before the answer.
      return false;
    };
    for await (const samples of follow(handleOf(held, kind, step), { poll: 1, isRecorded })) {
      given.push(...samples);
      assert.ok(given.length <= 2 * recorder.counted);
    }
    assert.deepEqual(given, blocks(...Array.from({ length: last }, (_, i) => i)), kind);
  }
});

test("Blobs of a function are followed until nothing new comes, and what is wrong with them is an error", async () => {
  const whole = await write(frames(0, 6), SPEC);
  for (const blobOf of [() => new Blob([whole]), async () => new Blob([whole])]) {
    assert.deepEqual(await all(blobOf), [...frames(0, 6)]);
  }
  for (const kind of ["copies", "firefox"]) {
    const held = Object.assign(new Held(), { bytes: whole }), blocks = follow(handleOf(held, kind), { poll: 1 });
    await blocks.next();
    held.bytes = new Uint8Array(0);
    await fails(blocks.next(), "TRUNCATED");
  }
  const held = Object.assign(new Held(), { bytes: whole }), step = () => held.calls.push("write");
  await assert.rejects(all(handleOf(held, "chromium", step)), { name: "NotReadableError" });
  const gone = new DOMException("it is gone", "NotFoundError");
  await assert.rejects(all({ getFile: () => Promise.reject(gone) }), { name: "NotFoundError" });
  await assert.rejects(all(() => new Blob([whole]), { parts: true }), TypeError);
  await assert.rejects(all(new Blob([whole])), TypeError);
});

test("a header is waited for, and one that isn't read is named", async () => {
  const whole = await write(frames(0, 2), { ...SPEC });
  await fs.writeFile(take, "");
  const blocks = follow(take, { poll: 1, idle: 2000 }), first = blocks.next();
  for (const length of [1, 12, 36, 43, whole.length]) {
    await new Promise((resolve) => setTimeout(resolve, 5));
    await fs.writeFile(take, whole.subarray(0, length));
  }
  assert.deepEqual([...(await first).value], [...frames(0, 2)]);
  await blocks.return();
  await fs.writeFile(take, "RIFX\0\0\0\0WAVE");
  await assert.rejects(all(take), (error) => error.code === "NO_RIFF_TAG" && error.kind.startsWith("RIFX"));
  await fs.writeFile(take, Buffer.concat([whole.subarray(0, 40), Buffer.alloc(4, 255), whole.subarray(44)]));
  await fails(all(take), "TOO_LONG"); // As of a stream whose writer didn't know the length.
});

test("a recorder that is killed ends the iteration with its last checkpoint", async () => {
  const program = `
    import { record } from ${JSON.stringify(new URL("../hound.js", import.meta.url).href)};
    const recorder = await record(${JSON.stringify(take)}, ${JSON.stringify(SPEC)});
    for (let i = 0; ; i++) {
      await recorder.write(Int16Array.of(2 * i, 2 * i + 1));
      if (i % 10 === 9) await recorder.flush();
      if (i === 199) break;
    }
    await recorder.write(Int16Array.of(0, 0)); // This one is never counted.
    console.log("ready");
    setInterval(() => {}, 1000);`;
  await fs.rm(take);
  const words = ["--input-type=module", "-e", program];
  const child = spawn(process.execPath, words, { stdio: ["ignore", "pipe", "inherit"] });
  await new Promise((resolve) => child.stdout.once("data", resolve));
  const given = all(take, { idle: 300 });
  child.kill("SIGKILL");
  assert.deepEqual(await given, [...frames(0, 200)]);
});
