// What hound.d.ts declares for a program without the types of browsers and of Node: `tsc` accepts this file by itself.
import { append, info, record, repair, write } from "../hound.js";
import type { WavFile } from "../hound.js";

export async function uses(given: WavFile): Promise<Uint8Array> {
  const file: Uint8Array = await append(await write(Int16Array.of(1), await info(given)), Int16Array.of(2));
  await (await record("take.wav", { sampleRate: 8000, bitsPerSample: 16 })).close();
  // @ts-expect-error: a path is no file.
  await repair("take.wav");
  return (await repair(file)).file;
}
