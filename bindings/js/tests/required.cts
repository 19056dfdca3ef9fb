// What hound.d.cts declares for `require`: `tsc` accepts this file beside the installed package.
import hound = require("hound_bindings");

export async function uses(file: Uint8Array): Promise<number> {
  const { frames }: hound.Info = await hound.info(file);
  // @ts-expect-error: a path is no file.
  await hound.info("a.wav");
  return frames;
}
