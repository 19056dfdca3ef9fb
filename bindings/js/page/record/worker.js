// The worker has the file that is recorded, and looks after the others. Calls come from the page, blocks from the audio
// thread, by a port of their own.
import { Recording } from "./recording.js";
import { adopt, copy, list, openSpare, remove, settle, used } from "./storage.js";

let current;

/** Begins a recording, whose blocks come from the port. When it ends the page is told. */
async function start({ format }, [port]) {
  const began = Date.now();
  let opened = [];
  const openNext = async () => {
    opened = await used(opened); // What couldn't be begun is free for another attempt.
    opened.push(await openSpare());
    return opened.at(-1).handle;
  };
  const recording = await Recording.begin(format, openNext, (state) => postMessage({ state })).catch((error) => {
    for (const { release } of opened) release();
    throw error;
  });
  current = recording;
  port.onmessage = ({ data }) => recording.take(data);
  finish(recording, async () => settle(await used(opened), began));
}

/** Waits for the end of a recording, and tells the page. Where its file can't be named it is listed by its time. */
async function finish(recording, settleFiles) {
  const result = await recording.run();
  await settleFiles().catch(() => {});
  postMessage({ ended: result });
}

const calls = {
  start, adopt, list, copy, remove,
  stop: () => current.take({ samples: [], time: Date.now(), state: "stopped" }),
  giveUp: () => current.giveUp(),
};

onmessage = async ({ data: { id, call, given }, ports }) => {
  try {
    postMessage({ id, result: await calls[call](given, ports) });
  } catch ({ name, code, message }) {
    postMessage({ id, error: { name, code, message } });
  }
};
