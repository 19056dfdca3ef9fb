// A module of another version than hound.js, or of one before versions were compared: no call is made over it.
import assert from "node:assert/strict";
import { test } from "node:test";
import { info, write } from "../hound.js";

test("a module of another version is rejected", async () => {
  const { instantiate } = WebAssembly;
  for (const hound_version of [undefined, () => 1, () => 0x7fffffff]) {
    WebAssembly.instantiate = async (module) => {
      const { exports } = await instantiate(module);
      return { exports: { ...exports, hound_version } };
    };
    for (const call of [info(new Uint8Array(44)), write(Int16Array.of(1), { sampleRate: 8000 })]) {
      await assert.rejects(call, /have different versions: install both from one version/);
    }
  }
  WebAssembly.instantiate = instantiate;
});

test("no memory grows, which would make each typed array of a program slower", async () => {
  WebAssembly.Memory.prototype.grow = () => assert.fail("the memory grows");
  assert.equal((await write(Int16Array.of(1), { sampleRate: 8000 })).length, 46);
});
