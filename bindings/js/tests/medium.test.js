// Recorders and repairs over media, which are modelled here: a browser's files, and what was seen of full disks.
import assert from "node:assert/strict";
import { test } from "node:test";
import {
  HoundError, appendTo, continueFile, findDamageInFile, info, read, record, repairFile,
} from "../hound.js";
import { Held, SPEC, START, block, blocks, fileOf, through } from "./held.js";

const fails = (promise, code) => assert.rejects(promise, (error) => error instanceof HoundError && error.code === code);

const atOnce = (held) => held;
const byPromises = (held) => through(held, async (_, real, given) => {
  await new Promise((resolve) => setImmediate(resolve));
  return real(...given);
});

/** A medium on which this happens to the writes while `isOn`. */
function wrong(held, happens) {
  const made = (name, real, given) => name === "write" && medium.isOn ? happens(real, given) : real(...given);
  const medium = Object.assign(through(held, made), { isOn: false });
  return medium;
}

test("files are recorded, continued and repaired in media whose calls return promises, or none", async () => {
  for (const most of [Infinity, 5]) for (const made of [atOnce, byPromises]) {
    const held = new Held(most), medium = made(held), recorder = await record(medium, SPEC, { durable: true });
    assert.deepEqual(held.bytes, fileOf());
    const written = recorder.write(block(1));
    if (made === atOnce) assert.deepEqual(held.bytes.slice(START), fileOf(1).slice(START)); // when the call returns
    await written;
    assert.equal((await info(held.bytes)).frames, 0);
    await recorder.flush();
    assert.deepEqual(held.bytes, fileOf(1));
    await Promise.all([recorder.write(block(2)), recorder.write(block(3)), recorder.close()]);
    assert.deepEqual([held.bytes, held.calls.at(-1)], [fileOf(1, 2, 3), "close"]);
    const longer = await appendTo(medium);
    await longer.write(block(4));
    await longer.close();
    assert.deepEqual(held.bytes, fileOf(1, 2, 3, 4));

    held.calls.length = 0;
    held.bytes = held.bytes.slice(0, -7); // A frame and three bytes of the one before it are lost.
    assert.equal((await findDamageInFile(medium)).state, "cutOff");
    const { state, frames, counted, leftOver } = await repairFile(medium);
    assert.deepEqual([state, frames, counted, leftOver], ["cutOff", 10, 12, 1]);
    assert.deepEqual([...await read(held.bytes)], blocks(1, 2, 3, 4).slice(0, 20));
    assert.ok(!held.calls.includes("close") && held.calls.includes("flush"));
    held.bytes = held.bytes.slice(0, START + 3 * 12);
    const again = await continueFile(medium, SPEC);
    await again.write(block(5));
    await again.close();
    assert.deepEqual(held.bytes, fileOf(1, 2, 3, 5));
    held.bytes = fileOf().fill(0, 4, 8).slice(0, 30); // A kill left a part of a header that has no sizes yet.
    await (await continueFile(medium, SPEC)).close();
    assert.deepEqual(held.bytes, fileOf());

    held.calls.length = 0;
    await assert.rejects(record(medium, SPEC, { exclusive: true }), { code: "EEXIST" });
    assert.deepEqual([held.bytes, held.calls], [fileOf(), []]);
    await (await record(medium, SPEC)).close();
    assert.deepEqual(held.bytes, fileOf());
  }
});

test("a browser has no setImmediate, and none is called", async (t) => {
  const held = new Held(), recorder = await record(held, SPEC), { setImmediate } = globalThis;
  globalThis.setImmediate = undefined;
  t.after(() => { globalThis.setImmediate = setImmediate; });
  for (let i = 0, end = performance.now() + 20; i === 0 || performance.now() < end; i++) await recorder.write(block(i));
  await recorder.close();
});

test("what is durable is flushed before the header counts it, and else nothing is", async () => {
  for (const [durable, begun, after] of [
    [true, /^(truncate,)?flush,header,flush(,header,flush)?$/, /^block,flush,header,flush(,header,flush)?$/],
    [false, /^(truncate,)?header$/, /^block,header$/],
  ]) {
    const held = new Held(), recorder = await record(held, SPEC, { durable });
    assert.match(held.kinds, begun);
    held.calls.length = 0;
    await recorder.write(block(1));
    await recorder.flush();
    assert.match(held.kinds, after);
  }
});

test("a recording continues in the media that are given, each of which has to be empty", async () => {
  for (const made of [atOnce, byPromises]) {
    const all = [new Held()], numbers = [];
    const next = (number) => {
      numbers.push(number);
      all.push(new Held());
      return made(all.at(-1));
    };
    const recorder = await record(made(all[0]), SPEC, { split: 5, next });
    for (let i = 0; i < 4; i++) await recorder.write(block(i));
    await recorder.close();
    assert.deepEqual([numbers, recorder.paths.length, recorder.tell(), recorder.counted], [[2, 3, 4], 4, 12, 12]);
    assert.deepEqual(all.map(({ bytes }) => bytes), [0, 1, 2, 3].map((number) => fileOf(number)));
    assert.ok(all.every(({ calls }) => calls.at(-1) === "close"));
  }
});

test("a next medium that can't be begun is closed and as it was, and its number is asked for again", async () => {
  const [first, full, used, empty] = [new Held(), new Held(), new Held(), new Held()], numbers = [];
  used.bytes = fileOf(9);
  const isFull = wrong(full, (real, [bytes, where]) => real(bytes.subarray(0, 3), where) && 0);
  isFull.isOn = true;
  const given = [isFull, used, empty];
  const next = (number) => {
    numbers.push(number);
    return given.shift();
  };
  const recorder = await record(first, SPEC, { split: 4, next });
  await recorder.write(block(1));
  await fails(recorder.write(block(2)), "NOT_PERFORMED");
  assert.deepEqual([full.bytes.length, full.calls.at(-1)], [0, "close"]);
  await assert.rejects(recorder.write(block(2)), { code: "EEXIST" });
  assert.deepEqual([used.bytes, used.calls], [fileOf(9), ["close"]]);
  await recorder.write(block(2));
  await recorder.close();
  assert.deepEqual([first.bytes, empty.bytes, numbers], [fileOf(1), fileOf(2), [2, 2, 2]]);
});

test("a write that says more than it did is a failed write", async () => {
  const some = (count, says) => (real, [bytes, where]) => {
    if (count > 0) real(bytes.subarray(0, count), where);
    return says ?? bytes.length;
  };
  const changed = (real, [bytes, where]) => real(bytes.map((byte, i) => i === 3 ? byte ^ 1 : byte), where);
  for (const made of [atOnce, byPromises]) for (const happens of [
    some(0), some(5), some(5, 32721), some(0, 0), some(0, -1), some(2, 2.5), changed,
    (real, given) => void real(...given),
  ]) {
    const held = new Held(), medium = wrong(made(held), happens), recorder = await record(medium, SPEC);
    await recorder.write(block(1));
    await recorder.flush();
    medium.isOn = true;
    for (let i = 0; i < 2; i++) await fails(recorder.write(block(2)), "NOT_PERFORMED");
    assert.deepEqual([...await read(held.bytes)], blocks(1));
    medium.isOn = false; // There is room again.
    await recorder.write(block(3));
    await recorder.close();
    assert.deepEqual(held.bytes, fileOf(1, 3));
  }
});

test("what is no medium is an error that says why, and nothing of it is called", async () => {
  const stream = { write() {}, truncate() {}, close() {}, seek() {}, getWriter() {} }; // of createWritable
  const handle = { getFile() {}, createWritable() {}, createSyncAccessHandle() {} };
  for (const [given, says] of [
    [stream, /no getSize, read, flush: .*createWritable doesn't, because/], [{}, /no medium/],
    [handle, /createSyncAccessHandle returns one/],
  ]) {
    for (const call of [
      () => record(given, SPEC), () => appendTo(given), () => continueFile(given, SPEC), () => repairFile(given),
      () => findDamageInFile(given),
    ]) await assert.rejects(call(), { name: "TypeError", message: says });
  }
  await assert.rejects(record(new Held(), SPEC, { split: 4 }), { name: "TypeError", message: /^next / });
  await assert.rejects(record("a.wav", SPEC, { split: 4, next() {} }), { name: "TypeError", message: /^next / });
  const recorder = await record(new Held(), SPEC, { split: 3, next: () => stream });
  await recorder.write(block(1));
  await assert.rejects(recorder.write(block(2)), TypeError);
});

/** A medium the flushes of which fail while `isOn`, from this one on. */
function failingFlushes(held, first) {
  let number = 0;
  const medium = Object.assign(through(held, (name, real, given) => {
    if (name === "flush" && medium.isOn && ++number >= first) throw new Error("EIO");
    return real(...given);
  }), { isOn: false });
  return medium;
}

test("a sync that failed is final, and what wasn't counted goes on in another medium", async () => {
  const how = { durable: true }, all = Int16Array.from(blocks(1, 2, 3));
  for (const made of [atOnce, byPromises]) for (const first of [1, 2]) { // before and after the header's bytes
    const held = new Held(), medium = failingFlushes(held, first), recorder = await record(made(medium), SPEC, how);
    await recorder.write(block(1));
    assert.equal(recorder.counted, 0);
    await recorder.flush();
    await recorder.write(block(2));
    medium.isOn = true;
    await assert.rejects(recorder.flush(), { message: "EIO" });
    medium.isOn = false;
    for (const call of [() => recorder.flush(), () => recorder.write(block(3)), () => recorder.close()]) {
      await fails(call(), "SYNC_FAILED");
    }
    assert.deepEqual([recorder.counted, recorder.tell(), held.calls.at(-1)], [3, 6, "close"]);

    const other = new Held(), next = await record(made(other), SPEC, how);
    await next.write(all.subarray(2 * recorder.counted));
    await next.close();
    const older = await read(held.bytes);
    assert.deepEqual(older, all.subarray(0, older.length));
    assert.deepEqual([...older.subarray(0, 2 * recorder.counted), ...await read(other.bytes)], [...all]);
  }
});

test("a write makes a checkpoint that is due, later after one that took long, and else none", async (t) => {
  let now = 5000, takes = 0;
  t.mock.method(performance, "now", () => now);
  const held = new Held(), medium = through(held, (name, real, given) => {
    if (name === "flush") now += takes;
    return real(...given);
  });
  const recorder = await record(medium, SPEC, { durable: true, checkpoint: 1000 });
  /** Writes a block at this time, and returns how many blocks are counted then. */
  const writeAt = async (time) => {
    now = time;
    await recorder.write(block(0));
    return recorder.counted / 3;
  };
  assert.deepEqual([await writeAt(5999), await writeAt(6000), await writeAt(6999)], [0, 1, 1]);
  takes = 400;
  assert.equal(await writeAt(7000), 3);
  const taken = now - 7000; // Of a checkpoint, which has some flushes.
  assert.ok(taken > 500);
  assert.deepEqual([await writeAt(7000 + 3 * taken - 1), await writeAt(7000 + 3 * taken)], [3, 5]);
  takes = 0;
  await recorder.flush(); // The next one is due a second after this one, too.
  const before = now;
  assert.deepEqual([await writeAt(before + 999), await writeAt(before + 1000)], [6, 7]);
  assert.equal((await info(held.bytes)).frames, 3 * 7);
  now += 1000;
  const { write } = medium;
  medium.write = () => {
    throw new Error("full");
  };
  await assert.rejects(recorder.write(block(9)), { message: "full" }); // So the block isn't there.
  medium.write = write;
  await recorder.close();
  assert.deepEqual(held.bytes, fileOf(...Array.from({ length: 8 }, () => 0)));
  for (const checkpoint of [0, 1.5, -1, NaN]) await assert.rejects(record(held, SPEC, { checkpoint }), RangeError);
});

test("after a call that failed a block is in the file only if its write was fulfilled", async () => {
  for (const made of [atOnce, byPromises]) for (const durable of [false, true]) {
    let number = 0, calls = Infinity;
    for (; number < calls; number++) {
      const held = new Held(), kept = [];
      calls = 0;
      const medium = made(through(held, (name, real, [first, ...others]) => {
        if (calls++ !== number) return real(first, ...others);
        if (name === "write") real(first.subarray(0, first.length >> 1), ...others);
        throw new Error("EIO");
      }));
      const recorder = await record(medium, SPEC, { durable }).catch(() => undefined);
      for (let i = 1; recorder && i < 6; i++) {
        await recorder.write(block(i)).then(() => kept.push(i), () => {});
        if (i % 2 === 0) await recorder.flush().catch(() => {});
      }
      const isWhole = await recorder?.close().then(() => true, () => false);
      if (isWhole) assert.deepEqual(held.bytes, fileOf(...kept));
      else if (recorder) {
        const found = await read(held.bytes);
        assert.ok(found.length >= 2 * recorder.counted);
        assert.deepEqual([...found], blocks(...kept).slice(0, found.length));
      }
      if (number < calls) calls = Infinity; // There may be more of them where none fails.
    }
    assert.ok(number > 20, `${number} calls`);
  }
});
