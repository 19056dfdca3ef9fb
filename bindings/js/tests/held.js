// A medium that is modelled: the file of it is an array. And a file's bytes, made from the format alone.
export const SPEC = { sampleRate: 8000, channels: 2, bitsPerSample: 16 }, START = 44;

/** Three frames of two channels, which differ from those of each other number. */
export const block = (number) => Int16Array.from({ length: 6 }, (_, i) => 10 * number + i);
export const blocks = (...numbers) => numbers.flatMap((number) => [...block(number)]);

/** The file of these blocks in the canonical layout, made from the format alone. */
export function fileOf(...numbers) {
  const data = Buffer.from(Int16Array.from(blocks(...numbers)).buffer), file = Buffer.alloc(START + data.length);
  for (const [place, text] of [[0, "RIFF"], [8, "WAVEfmt "], [36, "data"]]) file.write(text, place, "latin1");
  const words = [[4, file.length - 8], [16, 16], [24, 8000], [28, 32000], [40, data.length]];
  for (const [place, value] of words) file.writeUInt32LE(value, place);
  for (const [place, value] of [[20, 1], [22, 2], [32, 4], [34, 16]]) file.writeUInt16LE(value, place);
  data.copy(file, START);
  return new Uint8Array(file);
}

/** A medium over an array. A read and a write do at most so many bytes. */
export class Held {
  bytes = new Uint8Array(0);
  calls = [];

  constructor(most = Infinity) {
    this.most = most;
  }

  getSize() {
    return this.bytes.length;
  }

  read(into, { at }) {
    const part = this.bytes.subarray(at, at + Math.min(into.length, this.most));
    into.set(part);
    return part.length;
  }

  write(from, { at }) {
    this.calls.push(at < START ? "header" : "block");
    const part = from.subarray(0, this.most);
    if (at + part.length > this.bytes.length) this.#resize(at + part.length);
    this.bytes.set(part, at);
    return part.length;
  }

  truncate(size) {
    this.calls.push("truncate");
    this.#resize(size);
  }

  flush() {
    this.calls.push("flush");
  }

  close() {
    this.calls.push("close");
  }

  #resize(size) {
    const bytes = new Uint8Array(size);
    bytes.set(this.bytes.subarray(0, size));
    this.bytes = bytes;
  }

  get kinds() {
    return this.calls.filter((name, i) => name !== this.calls[i - 1]).join();
  }
}

/** A medium whose calls are these, the name and the arguments of which `made` gets with what performs them. */
export const through = (held, made) => Object.fromEntries(
  ["getSize", "read", "write", "truncate", "flush", "close"].map((name) =>
    [name, (...given) => made(name, (...changed) => held[name](...changed), given)]),
);
