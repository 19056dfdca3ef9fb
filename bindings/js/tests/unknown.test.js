// A module that requests what hound.js can't do: each call fails, and reports no such effect as done.
import assert from "node:assert/strict";
import { test } from "node:test";
import fs from "node:fs/promises";
import os from "node:os";
import path from "node:path";
import { append, appendTo, findDamage, info, read, record, repair, repairFile, write } from "../hound.js";

// What hound.h has: where the kind and the report of an effect are, and the numbers of a report and of kinds.
const [KIND, REPORT, DONE, READ, WRITE, WRITE_BLOCK, SYNC, SHORTEN, SYNC_FOLDER] = [12, 14, 1, 1, 2, 3, 4, 5, 6];
const SPEC = { sampleRate: 8000, bitsPerSample: 16 };
// The kind of which effects get another one, and which.
let from, to;

const { instantiate } = WebAssembly;
WebAssembly.instantiate = async (module) => {
  const { exports } = await instantiate(module), changed = { ...exports };
  const names = ["walk_next", "walk_to_end", "repairer_next", "recorder_next", "beginning"];
  for (const name of names.map((name) => "hound_" + name)) {
    changed[name] = (...places) => {
      const place = Number(places[name === "hound_beginning" ? 2 : 0]);
      const effect = new DataView(exports.memory.buffer, place), kind = () => effect.getUint16(KIND, true);
      const isDone = effect.getUint16(REPORT, true) === DONE;
      assert.ok(from === undefined || kind() !== to || !isDone, "it is reported as done");
      const code = exports[name](...places);
      if (code === 1 && kind() === from) effect.setUint16(KIND, to, true);
      return code;
    };
  }
  return { exports: changed };
};

/** Makes a call while effects of a kind are of others that aren't known. */
async function fails(kind, call) {
  for (const other of [SYNC_FOLDER + 1, 0xffff]) {
    [from, to] = [kind, other];
    await assert.rejects(call(), /the WebAssembly module requests what this hound\.js can't do/, `${kind}: ${call}`);
    from = undefined;
  }
}

const folder = await fs.mkdtemp(path.join(os.tmpdir(), "hound-")), take = path.join(folder, "take.wav");
test.after(() => fs.rm(folder, { recursive: true }));
const one = Int16Array.of(7), whole = await write(Int16Array.of(1, 2), SPEC);
const cut = whole.slice().fill(0, 40, 44), followed = Uint8Array.from([...whole, ...Buffer.from("LIST\x04\0\0\0INFO")]);

test("over files in memory", async () => {
  for (const kind of [(file) => file, (file) => new Blob([file])]) {
    const reads = [
      () => info(kind(whole)), () => info(kind(whole), { toEnd: true }), () => read(kind(whole)),
      () => findDamage(kind(whole)), () => repair(kind(whole)), () => append(kind(whole), one),
    ];
    for (const call of reads) await fails(READ, call);
    for (const effect of [WRITE, SYNC]) await fails(effect, () => repair(kind(cut)));
    for (const effect of [WRITE, WRITE_BLOCK, SYNC]) await fails(effect, () => append(kind(whole), one));
    await fails(SHORTEN, () => append(kind(followed), one, { overwrite: true }));
    assert.deepEqual(await read(await append(kind(whole), one)), Int16Array.of(1, 2, 7));
  }
});

test("over files at a path", async () => {
  await fs.writeFile(take, cut);
  for (const kind of [READ, WRITE, SYNC]) await fails(kind, () => repairFile(take));
  await fails(READ, () => appendTo(take));
  assert.ok((await fs.readFile(take)).equals(cut));
  for (const kind of [SYNC_FOLDER, SHORTEN, SYNC, WRITE]) await fails(kind, () => record(take, SPEC));
  for (const [kind, frames] of [[WRITE_BLOCK, 0], [WRITE, 1], [SYNC, 0]]) {
    await fails(kind, async () => {
      from = undefined;
      const recorder = await record(take, SPEC);
      from = kind;
      try {
        await recorder.write(one);
        await recorder.flush();
      } finally {
        from = undefined;
        await recorder.close().catch((error) => assert.equal(error.code, "SYNC_FAILED"));
      }
    });
    assert.equal((await info(await fs.readFile(take))).frames, frames);
  }
});
