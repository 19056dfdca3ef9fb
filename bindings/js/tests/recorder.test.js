// Files that are recorded in Node: with calls at once, with system calls that fail, and by programs that are killed.
import assert from "node:assert/strict";
import { test } from "node:test";
import { spawn, spawnSync } from "node:child_process";
import node from "node:fs";
import fs from "node:fs/promises";
import os from "node:os";
import path from "node:path";
import {
  HoundError, append, appendTo, continueFile, findDamage, findDamageInFile, guess, info, read, record, repair,
  repairFile, write,
} from "../hound.js";

const SPEC = { sampleRate: 8000, channels: 2, bitsPerSample: 16 };
const COMMAND = new URL("../command.js", import.meta.url).pathname;
const folder = await fs.mkdtemp(path.join(os.tmpdir(), "hound-")), take = path.join(folder, "take.wav");
test.after(() => fs.rm(folder, { recursive: true }));
const fails = (promise, code) => assert.rejects(promise, (error) => error instanceof HoundError && error.code === code);

/** Some frames of two channels, which differ from those of each other number. */
const block = (number) => Int16Array.from({ length: 6 }, (_, i) => 10 * number + i);

/** More of them than are written at once: 66,000 bytes. */
const long = (number) => Int16Array.from({ length: 33000 }, (_, i) => 10 * number + i % 1000);

/** The file of these blocks in the canonical layout, made from the format alone. */
function fileOf(blocks) {
  const data = Buffer.concat(blocks.map((one) => Buffer.from(Int16Array.from(one).buffer)));
  const file = Buffer.concat([Buffer.alloc(44), data]);
  for (const [place, text] of [[0, "RIFF"], [8, "WAVEfmt "], [36, "data"]]) file.write(text, place, "latin1");
  const words = [[4, file.length - 8], [16, 16], [24, 8000], [28, 32000], [40, data.length]];
  for (const [place, value] of words) file.writeUInt32LE(value, place);
  for (const [place, value] of [[20, 1], [22, 2], [32, 4], [34, 16]]) file.writeUInt16LE(value, place);
  return file;
}

const content = () => fs.readFile(take);

test("a checkpoint is what a reader finds, and a closed file is canonical", async () => {
  for (const durable of [false, true]) {
    const recorder = await record(take, SPEC, { durable });
    assert.deepEqual(recorder.spec, { ...SPEC, bytesPerSample: 2, isFloat: false });
    const most = 4294967259 / 4 | 0; // The RIFF size counts all but 8 of 4294967303 bytes, 44 of which are the header.
    assert.equal(recorder.framesLeft, most);
    await recorder.write(block(1));
    assert.equal(recorder.framesLeft, most - 3);
    assert.equal((await info(await content())).frames, 0);
    await recorder.flush();
    assert.deepEqual(await content(), fileOf([block(1)]));
    await recorder.write([Float32Array.of(0.5), Float32Array.of(-0.5)]);
    await recorder.close();
    assert.deepEqual(await content(), fileOf([block(1), [16384, -16384]]));
    await recorder.close();
    for (const call of [() => recorder.write(block(2)), () => recorder.flush()]) {
      await assert.rejects(call(), { message: "the recorder is closed" });
    }
  }
});

test("calls at once are performed in their order, with the samples of the call", async () => {
  for (const durable of [false, true]) {
    const recorder = await record(take, SPEC, { durable }), blocks = [], calls = [];
    for (let i = 0; i < 50; i++) {
      const samples = i % 9 === 4 ? long(i) : block(i);
      blocks.push(samples.slice());
      calls.push(recorder.write(samples));
      samples.fill(-1);
      if (i % 7 === 0) calls.push(recorder.flush());
    }
    await Promise.all([...calls, recorder.close()]);
    assert.ok((await content()).equals(fileOf(blocks)));
  }
});

test("a short block is in the file when its call returns, also one in a call of onClipped", async () => {
  const recorder = await record(take, SPEC), clipped = Float32Array.of(2, 0.5), calls = [];
  const onClipped = () => calls.push(recorder.write(block(2)));
  calls.push(recorder.write(block(1)), recorder.write(clipped, { onClipped }), recorder.write(block(3)));
  const held = node.readFileSync(take).subarray(44);
  const blocks = [block(1), block(2), [32767, 16384], block(3)];
  assert.ok(held.equals(fileOf(blocks).subarray(44)));
  await Promise.all([...calls, recorder.close()]);
  assert.deepEqual(await content(), fileOf(blocks));
});

test("timers come in time where a program waits for short blocks alone", async () => {
  const recorder = await record(take, SPEC), end = performance.now() + 20000;
  let isDone = false;
  setTimeout(() => { isDone = true; }, 10);
  while (!isDone && performance.now() < end) await recorder.write(block(1));
  await recorder.close();
  assert.ok(isDone);
});

test("after a write that was slow threads write the blocks", async (t) => {
  const recorder = await record(take, SPEC), { writeSync } = node;
  const { mock } = t.mock.method(node, "writeSync", (...given) => {
    for (const end = performance.now() + 50; performance.now() < end;);
    return writeSync(...given);
  });
  for (let i = 0; i < 4; i++) await recorder.write(block(i));
  await recorder.close();
  mock.restore();
  assert.equal(mock.callCount(), 1);
  assert.deepEqual(await content(), fileOf([0, 1, 2, 3].map(block)));
});

/** The path of a part of the recording. */
const partAt = (number) => number === 1 ? take : path.join(folder, `take-00${number}.wav`);
const partsOf = (count) => Promise.all(Array.from({ length: count }, (_, i) => fs.readFile(partAt(i + 1))));
const removeParts = () => Promise.all([2, 3, 4, 5].map((number) => fs.rm(partAt(number), { force: true })));

test("a recording continues in a next file, with a block that has no room, or the frames of a larger one", async () => {
  const sizes = [4, 4, 4, 9, 25], parts = [8, 4, 10, 10, 10, 4], all = Int16Array.from({ length: 92 }, (_, i) => i);
  for (const [where, durable] of [[take, false], [new URL(`file://${take}`), true]]) {
    let done = 0;
    const recorder = await record(where, SPEC, { split: 10, durable });
    const calls = sizes.map((count) => recorder.write(all.subarray(2 * done, 2 * (done += count))));
    await Promise.all([...calls, recorder.close()]);
    assert.deepEqual(recorder.paths.map((name) => name.pathname ?? name), [1, 2, 3, 4, 5, 6].map(partAt));
    done = 0;
    for (const [i, file] of (await partsOf(6)).entries()) {
      assert.deepEqual(file, fileOf([all.subarray(2 * done, 2 * (done += parts[i]))]));
    }
    await removeParts();
    await fs.rm(partAt(6));
  }
  const plain = await record(take, SPEC), most = plain.framesLeft;
  await plain.close();
  const recorder = await record(take, SPEC, { split: Infinity });
  assert.deepEqual([recorder.framesLeft, plain.paths], [most, []]);
  await recorder.close();
  for (const split of [0, -1, 1.5]) await assert.rejects(record(take, SPEC, { split }), RangeError);
});

test("a next file that is there is an error, before the file before it is ended", async () => {
  await fs.writeFile(partAt(2), "mine");
  await assert.rejects(record(take, SPEC, { split: 4 }), { code: "EEXIST" });
  await removeParts();
  const recorder = await record(take, SPEC, { split: 4 });
  await recorder.write(block(1));
  await fs.writeFile(partAt(2), "mine");
  for (let i = 0; i < 2; i++) await assert.rejects(recorder.write(block(2)), { code: "EEXIST", path: partAt(2) });
  assert.equal((await info(await content())).frames, 0);
  await recorder.write(block(3).subarray(0, 2));
  await recorder.close();
  assert.deepEqual(await content(), fileOf([block(1), block(3).subarray(0, 2)]));
  assert.equal(String(await fs.readFile(partAt(2))), "mine");
  await removeParts();
});

test("of a block that is larger than a file may be, an error says how much is in", async () => {
  const some = (first, last) => Int16Array.from({ length: 2 * (last - first) }, (_, i) => 2 * first + i);
  const recorder = await record(take, SPEC, { split: 4 });
  assert.equal(recorder.tell(), 0);
  await fs.writeFile(partAt(3), "in the way");
  await recorder.write(some(0, 3));
  for (const [last, written] of [[14, 5], [13, 0]]) { // One frame fills the first file, and four the second one.
    const first = recorder.tell();
    await assert.rejects(recorder.write(some(first, last)), { code: "EEXIST", framesWritten: written });
    assert.equal(recorder.tell(), first + written);
  }
  await fs.rm(partAt(3));
  await recorder.write(some(recorder.tell(), 14));
  await recorder.close();
  assert.deepEqual([recorder.tell(), recorder.paths.length], [14, 4]);
  for (const [i, file] of (await partsOf(4)).entries()) {
    assert.deepEqual(file, fileOf([some(4 * i, Math.min(4 * i + 4, 14))]));
  }
  await removeParts();
});

test("a second file that can't be made is an error before anything is recorded", async () => {
  const name = (length) => path.join(folder, "a".repeat(length - 4) + ".wav");
  for (const where of [name(252), new URL(`file://${name(252)}`)]) {
    await assert.rejects(record(where, SPEC, { split: 4 }), { code: "ENAMETOOLONG" });
  }
  await (await record(name(251), SPEC, { split: 4 })).close();
  await fs.rm(name(251));
  const closed = path.join(folder, "closed"), there = path.join(closed, "take.wav");
  await fs.mkdir(closed);
  await fs.writeFile(there, "mine");
  await fs.chmod(there, 0o666);
  await fs.chmod(folder, 0o755);
  await fs.chmod(closed, 0o555);
  const program = `
    import fs from "node:fs";
    import { info, record } from ${JSON.stringify(new URL("../hound.js", import.meta.url))};
    await info(new Uint8Array(0)).catch(() => {}); // The module is there before the program becomes another user.
    if (process.getuid() === 0) process.setuid(65534);
    for (const how of [{ split: 4 }, {}]) {
      const made = record("${there}", ${JSON.stringify(SPEC)}, how);
      const code = await made.then(() => {}, (error) => error.code);
      console.log(code, fs.readFileSync("${there}").length);
    }`;
  const { stdout } = spawnSync(process.execPath, ["--input-type=module", "-e", program], { encoding: "utf8" });
  assert.equal(stdout, "EACCES 4\nundefined 44\n");
  await fs.rm(closed, { recursive: true });
});

test("all files of a recording are in one folder, whatever the program's folder is then", async () => {
  const before = process.cwd(), others = ["a", "b"].map((name) => path.join(folder, name));
  for (const other of others) await fs.mkdir(other);
  try {
    process.chdir(others[0]);
    const recorder = await record("take.wav", SPEC, { split: 3 });
    await recorder.write(block(1));
    process.chdir(others[1]);
    await recorder.write(block(2));
    await recorder.close();
    assert.deepEqual(recorder.paths, ["take.wav", "take-002.wav"].map((name) => path.join(others[0], name)));
  } finally {
    process.chdir(before);
  }
  assert.deepEqual(await Promise.all(others.map((other) => fs.readdir(other))), [["take-002.wav", "take.wav"], []]);
  for (const other of others) await fs.rm(other, { recursive: true });
});

test("blocks with noise are a file with noise", async () => {
  const samples = Float64Array.from({ length: 200 }, (_, i) => i / 300), options = { dither: true, seed: 9 };
  const recorder = await record(take, SPEC);
  for (let i = 0; i < 200; i += 40) await recorder.write(samples.subarray(i, i + 40), options);
  await assert.rejects(recorder.write(block(1), options), { message: "dither is for floats that become integers" });
  await recorder.close();
  assert.deepEqual(new Uint8Array(await content()), await write(samples, { ...SPEC, ...options }));
});

test("arguments and files that can't be recorded to", async () => {
  await fs.writeFile(take, "older");
  await assert.rejects(record(take, { sampleRate: 8000 }), { name: "TypeError", message: /^bitsPerSample / });
  await fails(record(take, { ...SPEC, bitsPerSample: 12 }), "NOT_WRITABLE");
  await assert.rejects(record(take, SPEC, { exclusive: true }), { code: "EEXIST" });
  assert.equal(String(await content()), "older");
  await assert.rejects(record(path.join(folder, "none", "a.wav"), SPEC), { code: "ENOENT" });
  const recorder = await record(take, SPEC);
  await fails(recorder.write(Int16Array.of(1)), "UNFINISHED_FRAME");
  await fails(recorder.write(Int32Array.of(1, 40000)), "TOO_WIDE");
  await assert.rejects(recorder.write([block(1)]), RangeError);
  await recorder.write(block(2));
  await recorder.close();
  assert.deepEqual(await content(), fileOf([block(2)]));
});

/** By hand: a file of SPEC with these chunks before its samples. */
function fileWith(chunks, data) {
  const laidOut = chunks.map(([name, content]) => {
    const size = Buffer.alloc(4);
    size.writeUInt32LE(content.length);
    return Buffer.concat([Buffer.from(name), size, content, Buffer.alloc(content.length % 2)]);
  });
  const plain = fileOf([]), end = plain.length - 8, tag = Buffer.from("data"), [riff, size] = [4, 4].map(Buffer.alloc);
  let front = Buffer.concat([plain.subarray(0, end), ...laidOut]);
  const start = front.length + 8;
  if (Math.floor((start - 4) / 512) !== Math.floor((start - 1) / 512)) {
    front = Buffer.concat([front, Buffer.from("JUNK\x02\0\0\0\0\0")]);
  }
  riff.writeUInt32LE(front.length + data.length + data.length % 2);
  riff.copy(front, 4);
  size.writeUInt32LE(data.length);
  return Buffer.concat([front, tag, size, data, Buffer.alloc(data.length % 2)]);
}

test("chunks before the samples, of each file and of one that is continued", async () => {
  const data = fileOf([block(2)]).subarray(fileOf([]).length);
  const bytes = Buffer.from(Array.from({ length: 700 }, (_, i) => i));
  for (const length of [0, 1, 8, ...Array.from({ length: 12 }, (_, i) => 218 + i), 602]) {
    const chunks = [["bext", bytes.subarray(0, length)], ["iXML", bytes.subarray(0, length + 2)]];
    const whole = fileWith(chunks, data), begun = fileWith(chunks, data.subarray(0, 0));
    const recorded = async (recorder) => {
      await recorder.write(block(2));
      await recorder.close();
      assert.ok((await content()).equals(whole), `chunks of ${length} bytes`);
    };
    await recorded(await record(take, SPEC, { chunks }));
    const appended = await continueFile(take, SPEC, { chunks });
    await appended.write(block(2));
    await appended.close();
    assert.ok((await content()).equals(fileWith(chunks, Buffer.concat([data, data]))));
    // What a kill leaves of its header.
    for (const cut of [0, 1, 40, begun.length >> 1, begun.length - 1, begun.length]) {
      await fs.writeFile(take, begun.subarray(0, cut));
      await recorded(await continueFile(take, SPEC, { chunks }));
    }
    const other = Buffer.from(begun.subarray(0, -1));
    other[13] ^= 1;
    await fs.writeFile(take, other);
    await assert.rejects(continueFile(take, SPEC, { chunks }), { name: "HoundError" });
    assert.ok((await content()).equals(other));
    const parts = await record(take, SPEC, { split: 2, chunks, durable: true });
    await parts.write(block(2));
    await parts.write(block(2));
    await parts.close();
    const chunksOf = (file) => file.subarray(8, begun.length - 8); // Between the two sizes.
    for (const name of parts.paths) assert.deepEqual(chunksOf(await fs.readFile(name)), chunksOf(begun));
    for (const name of parts.paths.slice(1)) await fs.rm(name);
  }
  await fs.writeFile(take, "older");
  for (const [chunks, message] of [
    [[["data", bytes]], /^a chunk is named data, as one/], [[["fmt ", bytes]], /^a chunk is named fmt , as one/],
    [[["bex", bytes]], /^a chunk is named bex,/], [[["b\u20acxt", bytes]], /^a chunk is named/],
    [[["bext", "text"]], /^the content of the chunk bext is no Uint8Array/], [7, /./],
  ]) await assert.rejects(record(take, SPEC, { chunks }), { name: "TypeError", message });
  assert.equal(String(await content()), "older");
});

test("what is no regular file is rejected at once, also by the command", async () => {
  const fifo = path.join(folder, "fifo");
  spawnSync("mkfifo", [fifo]);
  for (const where of [fifo, "/dev/null"]) for (const call of [
    () => findDamageInFile(where), () => repairFile(where), () => appendTo(where), () => continueFile(where, SPEC),
    () => record(where, SPEC), () => record(where, SPEC, { split: 4 }),
  ]) {
    await assert.rejects(call(), { code: "ESPIPE", message: `ESPIPE: this is no regular file, '${where}'` });
  }
  for (const word of ["info", "repair", "guess"]) {
    const { status, stderr } = spawnSync(process.execPath, [COMMAND, word, fifo], { encoding: "utf8", timeout: 20000 });
    assert.deepEqual([status, stderr], [1, `${fifo}: this is no regular file\n`]);
  }
  await fs.rm(fifo);
});

test("an option that a call doesn't know, or of another argument, is an error before anything is done", async () => {
  const whole = fileOf([block(1)]), one = block(1), recorder = await record(take, SPEC);
  await recorder.write(one);
  await recorder.close();
  for (const [call, name] of [
    [() => record(take, { ...SPEC, exclusive: true }), "exclusive"],
    [() => record(take, { ...SPEC, split: 100 }), "split"],
    [() => record(take, SPEC, { exclusiv: true }), "exclusiv"],
    [() => record(take, SPEC, { split: 4, sampleRate: 8000 }), "sampleRate"],
    [() => continueFile(take, SPEC, { exclusive: true }), "exclusive"],
    [() => continueFile(take, { ...SPEC, durable: true }), "durable"],
    [() => appendTo(take, SPEC), "sampleRate"],
    [() => repairFile(take, { toend: true }), "toend"],
    [() => info(whole, { type: "int32" }), "type"],
    [() => read(whole, { dither: true }), "dither"],
    [() => write(one, { ...SPEC, clipped: true }), "clipped"],
    [() => append(whole, one, { toEnd: true }), "toEnd"],
    [() => repair(whole, { overwrite: true }), "overwrite"],
    [() => repair(whole, { like: { ...SPEC, skip: 44 } }), "skip"],
    [() => guess(whole, { start: 44 }), "start"],
    [() => findDamage(whole, { toEnd: true }), "toEnd"],
    [() => findDamageInFile(take, { toEnd: true }), "toEnd"],
    [async () => (await record(take, SPEC, { split: 9 })).write(one, { channels: 2 }), "channels"],
  ]) {
    const message = new RegExp(`^${name} is no option of this argument, which has [a-z]`);
    await assert.rejects(call(), { name: "TypeError", message }, `${call}`);
    if (name !== "channels") assert.ok((await content()).equals(whole));
  }
  // What is reported of a file is a format, and an option that is undefined isn't given.
  for (const format of [await info(whole), await findDamage(whole), await repair(whole)]) {
    assert.deepEqual(Buffer.from(await write(one, { ...format, seed: undefined })), whole);
    assert.deepEqual((await repair(whole, { like: format, skip: 44 })).frames, 3);
  }
});

test("a file is appended to, by what append rejects elsewhere", async () => {
  await fs.writeFile(take, fileOf([block(1)]));
  for (const durable of [false, true]) {
    const recorder = await appendTo(take, { durable });
    await recorder.write(block(2));
    await recorder.close();
  }
  assert.deepEqual(await content(), fileOf([block(1), block(2), block(2)]));
  for (const [bytes, code] of [
    [Buffer.concat([fileOf([block(1)]), Buffer.from("LIST\x04\0\0\0INFO", "latin1")]), "NEEDS_OVERWRITE"],
    [Buffer.concat([fileOf([block(1)]), Buffer.alloc(8, 1)]), "NEEDS_MEND"],
    [fileOf([block(1)]).subarray(0, 50), "TRUNCATED"],
    [Buffer.from("RIFX"), "NO_RIFF_TAG"],
  ]) {
    await fs.writeFile(take, bytes);
    await fails(appendTo(take), code);
    await fails(append(bytes, block(2)), code);
    assert.deepEqual(await content(), bytes);
  }
});

test("a recording is continued, whatever a kill or a loss of power has left of it", async () => {
  const whole = fileOf([block(1), block(2)]), sizes = (riff, data, file = whole) => {
    const changed = Buffer.from(file);
    changed.writeUInt32LE(riff, 4);
    changed.writeUInt32LE(data, 40);
    return changed;
  };
  const begun = sizes(0, 0, fileOf([]));
  for (const [left, kept] of [
    [whole, [block(1), block(2)]],
    [sizes(36, 0), [block(1), block(2)]],
    [sizes(48, 12).subarray(0, 63), [block(1), block(2).subarray(0, 2)]], // The header counts less than there is.
    [whole.subarray(0, 60), [block(1), block(2).subarray(0, 2)]], // It counts more.
    [sizes(49, 13).subarray(0, 57), [block(1)]], // It counts a part of a frame.
    ...[0, 1, 20, 40, 43, 44].map((length) => [begun.subarray(0, length), []]),
    [undefined, []],
  ]) {
    for (const durable of [false, true]) {
      await fs.rm(take, { force: true });
      if (left) await fs.writeFile(take, left);
      const recorder = await continueFile(take, SPEC, { durable });
      await recorder.write(block(3));
      await recorder.close();
      assert.ok((await content()).equals(fileOf([...kept, block(3)])), `${left?.length} bytes`);
    }
  }
  const chunk = Buffer.from("LIST\x04\0\0\0INFO", "latin1"), other = { ...SPEC, sampleRate: 44100 };
  for (const [left, code, spec = SPEC] of [
    [whole.subarray(0, 43), "ENDED"], [begun.subarray(0, 43), "ENDED", other], [Buffer.from("text"), "NO_RIFF_TAG"],
    [begun, "OTHER_FORMAT", other], [whole.subarray(0, 60), "OTHER_FORMAT", { ...SPEC, channels: 1 }],
    [Buffer.concat([whole, chunk]), "NEEDS_OVERWRITE"],
  ]) {
    await fs.writeFile(take, left);
    await fails(continueFile(take, spec), code);
    assert.ok((await content()).equals(left), code);
  }
});

/** Has each call of the system made by `made` while something is done: its name, what makes it, and its arguments. A
    call that is made at once returns how many bytes it wrote, and others a promise. */
async function system(t, made, during) {
  const handle = await fs.open(take, "w"), kind = Object.getPrototypeOf(handle), mocks = [], { writeSync } = node;
  await handle.close();
  for (const name of ["write", "truncate", "sync", "stat"]) {
    const real = kind[name];
    mocks.push(t.mock.method(kind, name, async function (...given) {
      return made(name, (...changed) => real.apply(this, changed), given);
    }));
  }
  mocks.push(t.mock.method(node, "writeSync", (descriptor, ...given) =>
    made("write", (...changed) => writeSync(descriptor, ...changed), given)));
  await during().finally(() => mocks.forEach(({ mock }) => mock.restore()));
}

test("each call of the system fails where a recording continues in a next file", async (t) => {
  const some = (count, first) => Int16Array.from({ length: 2 * count }, (_, i) => first + i);
  for (const durable of [false, true]) for (const once of [true, false]) {
    let at = 0, failed = true;
    for (; failed; at++) {
      let made = 0, isOn = false, isDone = true;
      failed = false;
      await removeParts();
      await system(t, (name, real, given) => {
        if (isOn && name !== "stat" && (made++ === at || (made > at && !once))) {
          failed = true;
          throw new Error("a fault");
        }
        return real(...given);
      }, async () => {
        const recorder = await record(take, SPEC, { split: 4, durable });
        await recorder.write(some(3, 1));
        isOn = true;
        await recorder.write(some(3, 20)).catch(() => (isDone = false));
        isOn = false;
        assert.equal((await fs.readdir(folder)).length, recorder.paths.length, `${durable} ${at}`);
        const isAlive = await recorder.write(some(4, 40)).then(() => true, () => false);
        assert.equal(isAlive || durable, true);
        await recorder.close().catch((error) => assert.equal([error.code, isAlive].join(), "SYNC_FAILED,false"));
        if (!isAlive) return;
        const files = await Promise.all(recorder.paths.map((name) => fs.readFile(name)));
        const found = (await Promise.all(files.map((file) => read(file)))).flatMap((samples) => [...samples]);
        assert.deepEqual(found, [...some(3, 1), ...isDone ? some(3, 20) : [], ...some(4, 40)], `${durable} ${at}`);
      });
    }
    assert.ok(at > 4);
  }
  await removeParts();
});

test("what is durable is synced before the header counts it, and what was written in part is continued", async (t) => {
  for (const durable of [false, true]) {
    const calls = [], kinds = () => calls.filter((name, i) => name !== calls[i - 1]).join();
    await system(t, (name, real, [bytes, from, length, place]) => {
      if (name !== "write") return calls.push(name), real(bytes);
      calls.push(place < 44 ? "header" : "block");
      return real(bytes, from, Math.min(length, 3), place);
    }, async () => {
      const recorder = await record(take, SPEC, { durable });
      // The first sync is the folder's, after a look at what kind of file it is.
      const begun = durable ? /^stat,sync,stat,(truncate,)?sync,header,sync,header,sync$/ : /^stat,(truncate,)?header$/;
      assert.match(kinds(), begun);
      calls.length = 0;
      await recorder.write(block(1));
      await recorder.flush();
      assert.deepEqual(await content(), fileOf([block(1)]));
      assert.match(kinds(), durable ? /^block,sync,header,sync(,header,sync)?$/ : /^block,header$/);
      await recorder.close();
    });
  }
});

/** Makes one call of the system fail: a write after half of its bytes. The calls that came are counted. */
async function failing(t, number, during) {
  let calls = 0;
  await system(t, (name, real, [bytes, from, length, place]) => {
    if (calls++ !== number) return name === "write" ? real(bytes, from, length, place) : real(bytes);
    const fail = () => {
      throw Object.assign(new Error("injected"), { code: "EIO", sync: name === "sync" });
    };
    const half = name === "write" ? real(bytes, from, length >> 1, place) : 0;
    return half instanceof Promise ? half.then(fail) : fail();
  }, during);
  return calls;
}

test("after an error a block is in the file only if its write was fulfilled", async (t) => {
  for (const [durable, made] of [[false, block], [true, block], [false, long], [true, long]]) {
    let calls = Infinity, lost = 0, number = 0;
    for (; number < calls; number++) {
      const held = [], frames = made(0).length / 2;
      let stored = 0, isClosed = false, broken;
      calls = await failing(t, number, async () => {
        const recorder = await record(take, SPEC, { durable }).catch((error) => error);
        if (recorder instanceof Error) return assert.equal(recorder.code, "EIO");
        const tried = (promise, then) => promise.then(then, (error) => {
          if (broken) assert.equal(error.code, "SYNC_FAILED");
          else assert.equal(error.code, "EIO");
          broken ||= error.sync;
          lost++;
        });
        for (let i = 1; i < 10; i++) {
          await tried(recorder.write(made(i)), () => held.push(made(i)));
          if (i % 3 === 0) await tried(recorder.flush(), () => { stored = held.length; });
        }
        await tried(recorder.close(), () => { isClosed = true; });
      });
      const file = await content(), left = file.length < 44 ? 0 : (await read(file)).length / 2 / frames;
      const holds = isClosed ? file.equals(fileOf(held)) : left >= stored && left <= held.length;
      assert.ok(holds, `call ${number}: ${left} of ${stored} to ${held.length}`);
      if (number < calls) calls = Infinity; // There may be more of them where none fails.
      const end = 44 + 4 * frames * left;
      if (left) assert.ok(file.subarray(44, end).equals(fileOf(held).subarray(44, end)));
    }
    assert.ok(number > 15 && lost > 10, `${number} calls, ${lost} lost`);
  }
});

test("a program that is killed leaves what its header counts, and a repair invents nothing", async () => {
  const program = `
    import fs from "node:fs";
    import { record } from ${JSON.stringify(new URL("../hound.js", import.meta.url))};
    const recorder = await record(${JSON.stringify(take)}, { sampleRate: 8000, bitsPerSample: 16 });
    for (let i = 0;; i += 500) {
      await recorder.write(Int16Array.from({ length: 500 }, (_, k) => (i + k) % 30000));
      if (i % 1500) continue;
      await recorder.flush();
      fs.writeSync(1, (i + 500) + "\\n");
    }`;
  for (let round = 0; round < 12; round++) {
    const words = ["--input-type=module", "-e", program];
    const child = spawn(process.execPath, words, { stdio: ["ignore", "pipe", "inherit"] });
    let said = "";
    child.stdout.on("data", (part) => {
      if (said === "") setTimeout(() => child.kill("SIGKILL"), 3 * Math.random() + 20 * (round % 3));
      said += part;
    });
    await new Promise((resolve) => child.on("close", resolve));
    const flushed = Number(said.trimEnd().split("\n").at(-1));
    const right = (samples) => samples.every((sample, i) => sample === i % 30000);
    const before = await read(await content());
    assert.ok(before.length >= flushed && flushed > 0 && right(before), `${before.length} of ${flushed}`);
    await repairFile(take);
    const after = await read(await content());
    assert.ok(after.length >= before.length && right(after));
  }
});

test("require gives the same, with the samples of the call", async () => {
  const program = `
    const hound = require("../hound.cjs"), samples = Int16Array.of(7, 8);
    const written = hound.write([samples], { sampleRate: 8000 });
    samples.fill(9);
    written.then(hound.read).then((read) => console.log(read.join(), Object.keys(hound).sort().join()));
    const isOne = (error) => error instanceof hound.HoundError;
    hound.info(new ArrayBuffer(3)).catch((error) => console.log(isOne(error), isOne(new Error()), error.code));`;
  const cwd = new URL(".", import.meta.url);
  const { stdout } = spawnSync(process.execPath, ["-e", program], { cwd, encoding: "utf8" });
  const { default: _, ...all } = await import("../hound.js");
  assert.deepEqual(stdout.trimEnd().split("\n").sort(), [`7,8 ${Object.keys(all).sort()}`, "true false ENDED"]);
});

test("the command says what files are, and repairs them", async () => {
  const cut = path.join(folder, "cut.wav"), other = path.join(folder, "other.txt");
  const run = (...words) => {
    const { status, stdout, stderr } = spawnSync(process.execPath, [COMMAND, ...words], { encoding: "utf8" });
    return [status, stdout, stderr];
  };
  await fs.writeFile(take, fileOf([block(1)]));
  await fs.writeFile(cut, Buffer.concat([fileOf([block(1)]), Buffer.from([1, 2, 3, 4, 5])]));
  await fs.writeFile(other, "text");
  const spec = "8000 Hz, 2 channels, integers of 16 bits\n";
  const whole = `${take}: whole, 3 frames (0.000 s), ${spec}`;
  const found = (counts) => `cut off, 4 frames (0.001 s), of which the header ${counts} 3, 1 byte left over, ${spec}`;
  assert.deepEqual(run("info", take, cut), [0, whole + `${cut}: ${found("counts")}`, ""]);
  const repaired = [1, `${cut}: found ${found("counted")}`, `${other}: no RIFF tag found\n`];
  assert.deepEqual(run("repair", other, cut), repaired);
  assert.deepEqual(run("info", cut), [0, `${cut}: whole, 4 frames (0.001 s), 1 byte left over, ${spec}`, ""]);
  await fs.writeFile(cut, Buffer.concat([fileOf([block(1)]), Buffer.from("LIST\x04\0\0\0INFO", "latin1")]));
  assert.equal(run("repair", cut)[1], `${cut}: found chunks or a tag follow the audio, 3 frames (0.000 s), ${spec}`);
  const toEnd = `${cut}: found cut off, 6 frames (0.001 s), of which the header counted 3, ${spec}`;
  assert.equal(run("repair", "--to-end", cut)[1], toEnd);
  await fs.truncate(cut, 52);
  assert.match(run("info", cut)[1], /: cut off, 2 frames \(0\.000 s\), and the header counts 6, /);
  await fs.truncate(cut, 2 ** 32 + 44); // Of these bytes 44 are left where a size has 32 bits.
  for (const word of ["info", "repair"]) {
    assert.deepEqual(run(word, cut), [1, "", `${cut}: the sizes of the file would not fit in 32 bits\n`]);
  }
  const uses = [
    [], ["info"], ["repair", "--to-end"], ["info", "--to-end", take], ["show", take], ["repair", "--help"],
    ["repair", "--to-end", "--canonical", take], ["repair", "--details", take], ["toString", take],
  ];
  for (const words of uses) assert.deepEqual(run(...words).slice(0, 2), [2, ""]);
  assert.match(run("info", path.join(folder, "none.wav"))[2], /none\.wav: .*(ENOENT|no such file)/i);
  assert.deepEqual(run("info", folder), [1, "", `${folder}: it is a folder, and files are named here\n`]);
  assert.deepEqual(run("--help"), [0, run()[2], ""]);
});

test("the command worries nobody about a file whose frames are all counted", async () => {
  const file = path.join(folder, "odd.wav"), mono = fileOf([block(1)]).subarray(0, 44 + 3);
  for (const [place, value] of [[22, 1], [32, 1], [34, 8]]) mono.writeUInt16LE(value, place);
  for (const [place, value] of [[4, 39], [28, 8000], [40, 3]]) mono.writeUInt32LE(value, place); // without a pad byte
  await fs.writeFile(file, mono);
  const run = (...words) => spawnSync(process.execPath, [COMMAND, ...words], { encoding: "utf8" }).stdout;
  const says = "whole, 3 frames (0.000 s), 8000 Hz, 1 channel, integers of 8 bits";
  const details = "; its RIFF size or pad byte isn't as the format asks";
  assert.equal(run("info", file), `${file}: ${says}\n`);
  assert.equal(run("info", "--details", file), `${file}: ${says}${details}\n`);
  assert.equal(run("repair", file), `${file}: found ${says}\n`);
  assert.ok((await fs.readFile(file)).equals(mono));
  assert.equal(run("repair", "--canonical", file), `${file}: found ${says}${details}\n`);
  mono.writeUInt32LE(40, 4);
  assert.ok((await fs.readFile(file)).equals(Buffer.concat([mono, Buffer.alloc(1)])));
  assert.equal(run("info", "--details", file), `${file}: ${says}\n`);
});

test("the command makes copies of files whose header is lost, and names chunks that count as audio", async () => {
  const file = path.join(folder, "lost.wav"), copy = path.join(folder, "lost.repaired.wav");
  const run = (...words) => {
    const { status, stdout, stderr } = spawnSync(process.execPath, [COMMAND, ...words], { encoding: "utf8" });
    return [status, stdout, stderr];
  };
  const tone = (_, i) => 9000 * Math.sin(Math.floor(i / 2) / (20 + i % 2));
  const whole = fileOf([Int16Array.from({ length: 8000 }, tone)]);
  await fs.writeFile(file, Buffer.from(whole).fill(0, 0, 44));
  const form = "8000 Hz, 2 channels, integers of 16 bits, from byte 44 on";
  const guess = `${file}: a guess: ${form}: 4,000 frames in ${copy}\n`;
  assert.deepEqual(run("guess", "--rate", "8000", file), [0, guess, ""]);
  assert.ok((await fs.readFile(copy)).equals(whole));
  assert.deepEqual(run("guess", "--rate", "8000", file), [1, "", `${file}: ${copy} exists: rename or remove it\n`]);
  assert.deepEqual(run("guess", copy), [1, "", `${copy}: its header isn't lost, so nothing is guessed\n`]);
  await fs.unlink(copy);
  const assumed = "48000 Hz is assumed, since no guess finds a rate: --rate HZ is that of your recorder\n";
  assert.deepEqual(run("guess", file), [0, guess.replace("8000 Hz", "48000 Hz"), `${file}: ${assumed}`]);
  await fs.unlink(copy);
  await fs.writeFile(file, Buffer.alloc(5000));
  const nothing = "there is nothing to guess by, since nothing in it is predictable, as silence and noise\n";
  assert.deepEqual(run("guess", file), [1, "", `${file}: ${nothing}`]);
  await assert.rejects(fs.stat(copy), /ENOENT/);
  const uses = [["--rate", file], ["--rate", "0", file], ["--rate", "1e3", file], ["--rate"], ["--to-end", file]];
  for (const words of uses) {
    assert.deepEqual(run("guess", ...words).slice(0, 2), [2, ""]);
  }
  const cut = Buffer.concat([fileOf([block(1)]), Buffer.from("LIST\x04\0\0\0INFO", "latin1")]).fill(0, 40, 44);
  await fs.writeFile(file, cut);
  const named = `${file}: its last 12 bytes look like a chunk named LIST (a title, markers), and count as audio: ` +
    "leave them out of a copy to repair that\n";
  for (const [word, says] of [["info", named], ["repair", named], ["info", ""], ["repair", ""]]) {
    const [status, , said] = run(word, file);
    assert.deepEqual([status, said], [0, says]);
  }
});
