// The program of docs/BINDINGS.md that records in a browser: its worklet and worker, in one that is modelled here.
import assert from "node:assert/strict";
import { test } from "node:test";
import fs from "node:fs";
import os from "node:os";
import path from "node:path";
import { pathToFileURL } from "node:url";
import { Held, through } from "./held.js";
import { writeProgram } from "./program.js";

const RATE = 1280, FRAMES = 128, START = 12 + 8 + 40 + 8; // The fmt chunk of 24 bits has 40 bytes.
const folder = fs.mkdtempSync(path.join(os.tmpdir(), "hound-"));
test.after(() => fs.rmSync(folder, { recursive: true }));
const load = (name) => import(pathToFileURL(path.join(folder, name)));

/** The numbers of 24 bits in a file. */
function numbersIn(file) {
  const data = Buffer.from(file.subarray(START));
  return Array.from({ length: data.length / 3 }, (_, i) => data.readIntLE(3 * i, 3));
}

test("what the microphone gives is stored, on a full disk and after a crash, too", { timeout: 60000 }, async (t) => {
  const held = new Held(), said = [];
  let Microphone, isFull = false, now = 0;
  const handle = through(held, (name, real, given) => {
    if (name === "write" && isFull) throw new Error("full");
    return real(...given);
  });
  const getFileHandle = async () => ({ createSyncAccessHandle: async () => handle });
  const globals = {
    navigator: { storage: { getDirectory: async () => ({ getFileHandle }) } },
    registerProcessor: (_, kind) => { Microphone = kind; },
    AudioWorkletProcessor: class { port = {}; },
    postMessage: (seconds) => said.push(seconds),
    onmessage: null,
  };
  for (const [name, value] of Object.entries(globals)) {
    Object.defineProperty(globalThis, name, { value, writable: true, configurable: true });
  }
  t.mock.method(performance, "now", () => now);
  writeProgram(folder);
  await Promise.all(["worklet.js", "worker.js"].map(load));

  let given = 0;
  /** Begins the recording, and returns what gives it blocks of a tenth of a second, and what is a crash to it. */
  const visit = async () => {
    const { port1, port2 } = new MessageChannel(), microphone = new Microphone();
    t.after(() => port1.close());
    const listened = globalThis.onmessage({ data: RATE, ports: [port2] });
    microphone.port.onmessage({ ports: [port1] });
    const give = async (count) => {
      for (let i = 0; i < count; i++, now += 100, given += FRAMES) {
        const before = said.length;
        microphone.process([[Float32Array.from({ length: FRAMES }, (_, k) => (given + k) / 2 ** 23)]]);
        while (said.length === before) await new Promise((resolve) => setImmediate(resolve));
      }
    };
    assert.equal(microphone.process([[]]), true); // Nothing comes of a microphone that gives nothing.
    await listened;
    return { give, crash: () => port1.close() };
  };
  const first = await visit();
  await first.give(25);
  assert.equal(said.at(-1), 2);
  isFull = true;
  await first.give(15);
  assert.equal(said.at(-1), 2); // What is counted, and not what was given.
  isFull = false;
  await first.give(1);
  assert.equal(said.at(-1), 2.5); // The checkpoint was due before what waited was written.
  await first.give(10);
  assert.equal(said.at(-1), 5);
  first.crash();
  const all = Array.from({ length: given }, (_, i) => i);
  assert.deepEqual(numbersIn(held.bytes), all);

  const second = await visit();
  await second.give(11);
  assert.equal(said.at(-1), 5.1 + 1);
  second.crash();
  assert.deepEqual(numbersIn(held.bytes), [...all, ...Array.from({ length: 11 * FRAMES }, (_, i) => all.length + i)]);
});
