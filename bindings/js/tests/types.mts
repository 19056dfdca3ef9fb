// What hound.d.ts declares: `tsc` accepts this file, where each call has its arguments and its result.
import {
  HoundError, append, appendTo, continueFile, findDamage, findDamageInFile, follow, info, read, record, repair,
  repairFile, write,
} from "../hound.js";
import type { Damage, Info, Medium, Recorder } from "../hound.js";

export async function uses(blob: Blob, bytes: Uint8Array): Promise<string> {
  const wide: Int32Array = await read(blob, { type: "int32", start: 1, frames: 2 });
  const any: Int16Array | Int32Array | Float32Array = await read(bytes);
  const four = { bitsPerSample: 24, bytesPerSample: 4 };
  const written: Uint8Array = await write(wide, { sampleRate: 8000, channels: 2, ...four });
  const longer: Blob = await append(blob, any, { overwrite: true });
  const [left, right]: Float32Array[] = await read(new ArrayBuffer(44), { type: "float32", planar: true });
  await append(bytes, await read(blob, { planar: true }), { onClipped: (count: number) => count.toFixed() });
  const found: Damage = written.length > 1 ? await findDamage(written) : await findDamageInFile("take.wav");
  const mended: Blob = (await repair(longer, { toEnd: true })).file;
  const head: Info = await info(mended);
  await repair(mended, { like: head, skip: 44 });
  const added: number = found.state === "allCounted" ? 0 : found.frames - found.counted;
  await repairFile("take.wav", { canonical: added === 0, toEnd: false });
  const kind: string | undefined = new HoundError("ENDED").kind;
  // @ts-expect-error: there is no such state.
  if (found.state === "broken") throw new Error(kind);
  await write([left!, right!], { ...head, bitsPerSample: 16 });
  const form = { ...head, bitsPerSample: 24 };
  const recorder: Recorder = await record("take.wav", form, { durable: true, exclusive: true });
  await recorder.write([left!, right!], { onClipped: () => {} });
  await (await appendTo(new URL("file:///take.wav"), { durable: true })).close();
  const held: number = (await continueFile("take.wav", form, { durable: added > 0 })).tell();
  // @ts-expect-error: without samples the bits are needed.
  await record("take.wav", { sampleRate: 8000 });
  // @ts-expect-error: a repaired Uint8Array is no Blob.
  const wrong: Blob = (await repair(bytes)).file;
  // @ts-expect-error: there is no such type.
  await read(wrong, { type: "int24" });
  // @ts-expect-error: the arrays have two types.
  await write([left!, wide], head);
  // @ts-expect-error: the rate is missing.
  await write(wide, { channels: 2 });
  return found.state === "cutOff" ? new HoundError("NEEDS_MEND").code : `${head.frames} ${head.isFloat} ${held}`;
}

/** A medium of one's own, and one of a browser, where that has it: its calls return no promises. */
export async function over(medium: Medium, handle: AccessHandle): Promise<number> {
  const format = { sampleRate: 8000, bitsPerSample: 16 };
  const recorder: Recorder = await record(medium, format, { durable: true, checkpoint: 1 });
  await (await appendTo(handle, { checkpoint: 1000 })).close();
  await (await continueFile(handle, recorder.spec, { chunks: [] })).close();
  const next = async (number: number): Promise<Medium> => number === 2 ? medium : handle;
  await record(handle, recorder.spec, { split: 100, next });
  // @ts-expect-error: nothing gives the next medium.
  await record(handle, recorder.spec, { split: 100 });
  // @ts-expect-error: a path has its next files by its name.
  await record("take.wav", recorder.spec, { split: 100, next });
  return (await findDamageInFile(handle)).frames + (await repairFile(medium)).frames + recorder.counted;
}

/** Recordings that are read while they are made. */
export async function followed(file: Blob, handle: { getFile(): Promise<Blob> }): Promise<number> {
  let count = 0;
  for await (const block of follow(handle, { type: "int32", isRecorded: async () => false })) count += block.length;
  for await (const [left] of follow(() => file, { planar: true, idle: 10 })) count += left!.length;
  for await (const block of follow("take.wav", { parts: true, isRecorded: () => true })) count += block.length;
  // @ts-expect-error: a Blob doesn't change.
  follow(file);
  return count;
}

interface AccessHandle {
  getSize(): number;
  read(bytes: ArrayBufferView, options?: { at?: number }): number;
  write(bytes: ArrayBufferView, options?: { at?: number }): number;
  truncate(size: number): void;
  flush(): void;
  close(): void;
}
