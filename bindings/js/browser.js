// What bundlers for browsers take instead of module.js: nothing of Node, and the WebAssembly module at the place
// where they have put it.
export const nodeFiles = () => Promise.reject(), nodePaths = nodeFiles;

// A bundle that is no module, as esbuild makes one where no format is named, has no import.meta. It is the script that
// runs now, or that of a worker.
const script = globalThis.document?.currentScript?.src ?? globalThis.location?.href;

export async function module() {
  const isModule = import.meta.url !== undefined;
  const url = isModule ? new URL("./hound_c32.wasm", import.meta.url) : new URL("./hound_c32.wasm", script);
  const response = await fetch(url);
  if (!response.ok) throw new Error(`${url} isn't there: ${response.status}`);
  return WebAssembly.compile(await response.arrayBuffer());
}
