#!/usr/bin/env node
// Looks at files, or repairs them in place; or serves the pages that record and repair in a browser.
import { createWriteStream, openAsBlob } from "node:fs";
import { open, stat, unlink } from "node:fs/promises";
import { Readable } from "node:stream";
import { pipeline } from "node:stream/promises";
import { SEARCHED_LENGTH, chunksAtEnd } from "./guess.js";
import { findDamageInFile, guess, repair as repaired, repairFile } from "./hound.js";
import { USUAL_PORT, serve } from "./serve.js";

// The rate of a guess that isn't given.
const USUAL_RATE = 48000;
const USAGE = `usage: hound_bindings info [--details] FILE..                     says what each file is
       hound_bindings repair [--to-end | --canonical] FILE..  repairs each in place: copy what you have only once
       hound_bindings guess [--rate HZ] FILE..                for a lost header: makes a copy NAME.repaired.wav
       hound_bindings serve [--port PORT]                     serves a page that records in your browser

With --to-end all that follows the header of the data is taken for samples.
Where a whole file has another RIFF size or pad byte than the format asks for --details says so, --canonical writes it.
A guess finds channels and bits, and may be wrong: listen. It finds no rate: ${USUAL_RATE} is assumed without --rate.
The pages are served to this computer alone, at port ${USUAL_PORT} without --port: a browser keeps recordings by it.
The status is 0 if all files could be read or repaired, 1 if one couldn't, and 2 if the arguments are wrong.`;

const number = (n) => n.toLocaleString("en");
const counted = (n, what) => `${number(n)} ${what}${n === 1 ? "" : "s"}`;
const STATES = {
  whole: "whole", cutOff: "cut off", hasChunksAfterData: "chunks or a tag follow the audio", allCounted: "whole",
};

function specText({ sampleRate, channels, bitsPerSample, isFloat }) {
  const type = `${isFloat ? "floats" : "integers"} of ${bitsPerSample} bits`;
  return `${sampleRate} Hz, ${counted(channels, "channel")}, ${type}`;
}

function text(found, counts, details) {
  const { state, frames, leftOver, sampleRate } = found;
  const seconds = sampleRate ? ` (${(frames / sampleRate).toFixed(3)} s)` : "";
  const of = found.counted > frames ? "and" : "of which";
  const before = state === "cutOff" ? `, ${of} the header ${counts} ${number(found.counted)}` : "";
  const left = leftOver ? `, ${counted(leftOver, "byte")} left over` : "";
  const other = details && state === "allCounted" ? "; its RIFF size or pad byte isn't as the format asks" : "";
  return `${STATES[state]}, ${counted(frames, "frame")}${seconds}${before}${left}, ${specText(found)}${other}`;
}

/** Says where a file seems to end in chunks, which a repair of what it found takes for sound. */
async function sayWhatIsCounted(path, { state, dataStart }) {
  if (state !== "cutOff") return;
  const { size } = await stat(path), start = Math.max(dataStart, size - SEARCHED_LENGTH), handle = await open(path);
  const { buffer, bytesRead } = await handle.read(Buffer.alloc(size - start), 0, size - start, start);
  await handle.close();
  const chunks = chunksAtEnd(buffer.subarray(0, bytesRead));
  if (chunks) {
    const bytes = `its last ${number(chunks.length)} bytes look like a chunk named ${chunks.name} (a title, markers)`;
    console.error(`${path}: ${bytes}, and count as audio: leave them out of a copy to repair that`);
  }
}

/** An error where no regular file is at a path. */
async function checkFile(path) {
  const found = await stat(path);
  if (found.isDirectory()) throw new Error("it is a folder, and files are named here");
  if (!found.isFile()) throw new Error("this is no regular file");
}

async function look(path, { details }) {
  const found = await findDamageInFile(path);
  await sayWhatIsCounted(path, found);
  return text(found, "counts", details);
}

async function repair(path, { toEnd, canonical }) {
  if (!toEnd) await sayWhatIsCounted(path, await findDamageInFile(path));
  return `found ${text(await repairFile(path, { toEnd, canonical }), "counted", canonical)}`;
}

/** Whether the header of a file can be read. */
const isRead = (path) => findDamageInFile(path).then(() => true, () => false);

async function recover(path, { rate }) {
  if (await isRead(path)) throw new Error("its header isn't lost, so nothing is guessed");
  const file = await openAsBlob(path), found = await guess(file);
  const copy = path.replace(/\.[^./\\]*$/, "") + ".repaired.wav";
  if (!found) throw new Error("there is nothing to guess by, since nothing in it is predictable, as silence and noise");
  const made = await repaired(file, { ...found, like: { ...found.like, sampleRate: rate ?? USUAL_RATE } });
  const stream = createWriteStream(copy, { flags: "wx" });
  await pipeline(Readable.fromWeb(made.file.stream()), stream).catch(async (error) => {
    if (error.code === "EEXIST") throw new Error(`${copy} exists: rename or remove it`);
    await unlink(copy);
    throw error;
  });
  const assumed = `${USUAL_RATE} Hz is assumed, since no guess finds a rate: --rate HZ is that of your recorder`;
  if (!rate) console.error(`${path}: ${assumed}`);
  return `a guess: ${specText(made)}, from byte ${number(found.skip)} on: ${counted(made.frames, "frame")} in ${copy}`;
}

// What each command does, and which option it may have; one with a value ends in =.
const COMMANDS = {
  info: [look, "--details"], repair: [repair, "--to-end", "--canonical"], guess: [recover, "--rate="],
};

/** The options at the front of words, which are taken off; nothing where a value is wrong. */
function optionsOf(words, options) {
  const how = {}, [word, value] = words;
  const name = options.find((option) => option.replace("=", "") === word);
  if (!name) return how;
  words.splice(0, name.endsWith("=") ? 2 : 1);
  if (name.endsWith("=") && !/^[1-9]\d{0,8}$/.test(value)) return null;
  return { [name.slice(2).replace("=", "").replace("-e", "E")]: name.endsWith("=") ? Number(value) : true };
}

/** Serves the pages until the program is ended. */
async function servePages({ port = USUAL_PORT }) {
  const address = `http://127.0.0.1:${port}/record.html`;
  try {
    await serve(port);
    console.log(`Open ${address} to record. Ctrl-C ends this; what was recorded stays in the browser.`);
    return 0;
  } catch (error) {
    const advice = `if this command has it already, open ${address}; else choose another one by --port`;
    console.error(error.code === "EADDRINUSE" ? `port ${port} is in use: ${advice}` : error.message);
    return 1;
  }
}

async function main([command, ...words]) {
  if (command === "--help") return console.log(USAGE), 0;
  if (command === "serve") {
    const how = optionsOf(words, ["--port="]);
    const isUsed = how && words.length === 0 && (how.port ?? USUAL_PORT) < 65536;
    return isUsed ? servePages(how) : (console.error(USAGE), 2);
  }
  const [work, ...options] = Object.hasOwn(COMMANDS, command) ? COMMANDS[command] : [];
  const how = optionsOf(words, options);
  const isUsed = work && how && words.length > 0 && !words.some((word) => word.startsWith("--"));
  if (!isUsed) return console.error(USAGE), 2;
  let status = 0;
  for (const path of words) {
    try {
      await checkFile(path);
      console.log(`${path}: ${await work(path, how)}`);
    } catch (error) {
      console.error(`${path}: ${error.message}`);
      status = 1;
    }
  }
  return status;
}

process.exitCode = await main(process.argv.slice(2));
