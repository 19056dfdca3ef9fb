// The program of docs/BINDINGS.md that records in a browser: its scripts, as they are there, and a page for them.
import fs from "node:fs";
import path from "node:path";
import { fileURLToPath } from "node:url";

const at = (name) => fileURLToPath(new URL(name, import.meta.url));

/** The block of the page whose first line begins with the name of this script. */
export function scriptOf(name) {
  const blocks = fs.readFileSync(at("../../../docs/BINDINGS.md"), "utf8").matchAll(/^```js\n(.*?)^```$/gms);
  const [, script] = [...blocks].find(([, text]) => text.startsWith(`// ${name}: `));
  return script;
}

/** Writes the program and what it needs of the package into a folder, which a server of 127.0.0.1 then has. */
export function writeProgram(folder) {
  for (const name of ["worklet.js", "worker.js", "page.js"]) fs.writeFileSync(path.join(folder, name), scriptOf(name));
  for (const name of ["hound.js", "guess.js", "module.js"]) fs.copyFileSync(at(`../${name}`), path.join(folder, name));
  fs.copyFileSync(at("../../lib/hound_c32.wasm"), path.join(folder, "hound_c32.wasm"));
  const page = '<!doctype html><title>Record</title><button>Record</button><script src="page.js"></script>';
  fs.writeFileSync(path.join(folder, "index.html"), page);
}
