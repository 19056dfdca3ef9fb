// The files of the recordings, in the private file system of the page's origin.
import { findDamage, repair } from "../../hound.js";

const FOLDER = "recordings";
// Chromium syncs what a file has, and never its name: that is on the disk only when the system has written it, half a
// minute later. After a power failure before that, the file would have no name, and the next one would be written over
// it. So a recording begins in an empty file that was there before, and so many of these are kept.
const SPARES = 2, SPARE = /^spare-\d+\.wav$/;

const folder = async () => (await navigator.storage.getDirectory()).getDirectoryHandle(FOLDER, { create: true });

/** Whether a file can get another name. Where it can't, a recording keeps that of its spare file. */
const canMove = "move" in FileSystemFileHandle.prototype;

async function filesIn(there) {
  const files = [];
  for await (const [name, handle] of there.entries()) files.push({ name, handle, file: await handle.getFile() });
  return files;
}

/** Makes the spare files that lack, and returns the names of those that were there, the oldest one first. */
async function spares() {
  const there = await folder(), files = await filesIn(there), names = new Set(files.map(({ name }) => name));
  const empty = files.filter(({ name, file }) => SPARE.test(name) && file.size === 0);
  for (let number = 1, count = empty.length; count < SPARES; number++) {
    const name = `spare-${number}.wav`;
    if (names.has(name)) continue;
    await there.getFileHandle(name, { create: true });
    count++;
  }
  return empty.sort((a, b) => a.file.lastModified - b.file.lastModified).map(({ name }) => name);
}

/** The only handle of an empty file: no other tab can have one until it is closed, or its process ends. */
async function openEmpty(name) {
  const handle = await (await (await folder()).getFileHandle(name, { create: true })).createSyncAccessHandle();
  if (handle.getSize() === 0) return handle;
  handle.close();
  throw new Error(`${name} isn't empty`);
}

const lockOf = (name) => `recording in ${name}`;

/** Holds a lock by which other tabs know that a file is recorded, and returns what ends it. The end of the tab does,
    too. */
function lock(name) {
  return new Promise((resolve) => {
    navigator.locks.request(lockOf(name), () => new Promise((release) => resolve(release)));
  });
}

/** The next file to record in: its name, its handle and what releases its lock. */
export async function openSpare() {
  for (const name of await spares()) {
    const handle = await openEmpty(name).catch(() => undefined); // Another tab may have it.
    if (handle) return { name, handle, release: await lock(name) };
  }
  const name = `spare-${Date.now()}.wav`;
  return { name, handle: await openEmpty(name), release: await lock(name) };
}

/** The name of a recording that began at a time. */
function nameAt(time) {
  const two = (number) => String(number).padStart(2, "0"), date = new Date(time);
  const day = [date.getFullYear(), two(date.getMonth() + 1), two(date.getDate())].join("-");
  return `${day} ${[date.getHours(), date.getMinutes(), date.getSeconds()].map(two).join(".")}`;
}

/** Gives files, which are the parts of a recording, a name that is free. */
async function moveTo(stem, names) {
  const there = await folder(), files = await filesIn(there), used = new Set(files.map(({ name }) => name));
  const partOf = (free, i) => `${free}${i === 0 ? "" : `-${String(i + 1).padStart(3, "0")}`}.wav`;
  let free = stem;
  for (let number = 2; names.some((_, i) => used.has(partOf(free, i))); number++) free = `${stem} ${number}`;
  for (const [i, name] of names.entries()) await (await there.getFileHandle(name)).move(partOf(free, i));
}

const fileOf = async (name) => (await (await folder()).getFileHandle(name)).getFile();

/** Those of the files of a recording that have bytes. The others are released. */
export async function used(files) {
  const sizes = await Promise.all(files.map(async ({ name }) => (await fileOf(name)).size));
  files.filter((_, i) => sizes[i] === 0).forEach(({ release }) => release());
  return files.filter((_, i) => sizes[i] > 0);
}

/** Ends a recording that began at a time, in these files: they get its name. A file without sound is removed. */
export async function settle(files, began) {
  try {
    const names = [];
    for (const { name } of files) {
      if ((await findDamage(await fileOf(name))).frames > 0) names.push(name);
      else await remove({ name });
    }
    if (canMove) await moveTo(nameAt(began), names);
    await spares();
  } finally {
    for (const { release } of files) release();
  }
}

/** How a file is found; of one that is recorded, nothing is read. */
async function found({ name, file }, isRecorded) {
  const seen = { name, time: file.lastModified, isRecorded };
  if (isRecorded) return seen;
  const report = await findDamage(file).catch(({ code, message }) => ({ frames: 0, code, message }));
  return { ...seen, ...report, wasCutOff: report.state === "cutOff" || / cut off\b/.test(name) };
}

/** The recordings as they are found, the last one first. */
export async function list() {
  await spares();
  const files = (await filesIn(await folder())).filter(({ file }) => file.size > 0);
  const held = new Set((await navigator.locks.query()).held.map(({ name }) => name));
  const all = await Promise.all(files.map((one) => found(one, held.has(lockOf(one.name)))));
  return all.sort((a, b) => b.time - a.time);
}

/** Names the recordings that are still in spare files, since their tabs were ended by force. Returns how they are
    found. */
export async function adopt() {
  const left = (await list()).filter(({ name, isRecorded }) => SPARE.test(name) && !isRecorded);
  for (const { name, time, frames, sampleRate } of canMove ? left : []) {
    const stem = `${nameAt(time - (frames ? 1000 * frames / sampleRate : 0))} cut off`;
    await navigator.locks.request(lockOf(name), { ifAvailable: true }, (held) => held && moveTo(stem, [name]));
  }
  return left;
}

/** A copy of a recording whose header counts all its frames. Its parts are read from the file, which stays as it is. */
export async function copy({ name }) {
  return (await repair(await fileOf(name))).file;
}

export async function remove({ name }) {
  await (await folder()).removeEntry(name);
}
