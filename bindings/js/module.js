// What Node has, and the library's WebAssembly module: next to this file in a package, and in bindings/lib in a clone.
// A bundler for browsers takes browser.js instead of this file.
export const nodeFiles = async () => (await import(/* webpackIgnore: true */ "node:fs")).default;
export const nodePaths = async () => (await import(/* webpackIgnore: true */ "node:path")).default;

async function load(url) {
  if (url.protocol === "file:") return (await nodeFiles()).promises.readFile(url);
  const response = await fetch(url);
  if (!response.ok) throw new Error(`${url} isn't there: ${response.status}`);
  return response.arrayBuffer();
}

export async function module() {
  const places = ["./hound_c32.wasm", "../lib/hound_c32.wasm"].map((path) => new URL(path, import.meta.url));
  if (places[0].protocol === "file:") places.reverse(); // Next to this file in a clone is a copy for servers.
  return WebAssembly.compile(await load(places[0]).catch(() => load(places[1])));
}
