#!/usr/bin/env node
// Tries bindings/js/page/hound.html in Chromium and Firefox, opened from the disk: files are chosen and dropped, what
// is said of each is compared with what should be, and each file that is saved with the one made by hand here. Both are
// without a window, but for Firefox where Xvfb, xdotool and GTK for Python are here: its protocol drops no files, so
// they are dragged over a display. A browser that isn't here is named and passed over.
//   scripts/try_browser.mjs [FOLDER]   (pictures of the page, and the files that were given and saved, go into the
//   folder: its
//                                   page.png is docs/page.png)
import {spawnSync} from "node:child_process";
import fs from "node:fs";
import os from "node:os";
import path from "node:path";
import {fileURLToPath} from "node:url";
import {chromium, contrasts, firefox, must, once, pause, until} from "./browsers.mjs";

const PAGE = fileURLToPath(new URL("../bindings/js/page/hound.html", import.meta.url));
const FOLDER = process.argv[2];
const work = fs.mkdtempSync(path.join(os.tmpdir(), "try_browser-"));
const text = (characters) => [...Buffer.from(characters, "latin1")];
const u16 = (n) => [n & 255, n >> 8 & 255];
const u32 = (n) => [...u16(n), ...u16(n >>> 16)];

/** A file of these data, whose header may count others. */
function wav(data, {
  counted = data.length,
  after = [],
  riff,
  channels = 1,
  rate = 8000,
  bits = 16,
  bytes = bits / 8,
  tag = 1,
  valid,
  mask = 0
} = {}) {
  const frame = channels * bytes;
  const guid = valid ?
    [...u16(22), ...u16(valid), ...u32(mask), ...u16(tag), ...text("\0\0\0\0\x10\0\x80\0\0\xaa\0\x38\x9b\x71")] :
    [];
  const fmt = [
    ...u16(valid ? 0xfffe : tag), ...u16(channels), ...u32(rate), ...u32(rate * frame), ...u16(frame),
    ...u16(8 * bytes), ...guid
  ];
  const rest = [...text("WAVEfmt "), ...u32(fmt.length), ...fmt, ...text("data"), ...u32(counted)];
  const pieces = [Buffer.from(rest), Buffer.from(data), Buffer.from(after)];
  const length = pieces.reduce((sum, piece) => sum + piece.length, 0);
  return Buffer.concat([Buffer.from([...text("RIFF"), ...u32(riff ?? length)]), ...pieces]);
}

const tone = Array.from({length: 16000}, (_, i) => u16(Math.round(20000 * Math.sin(i / 20)) & 65535)).flat();
const WHOLE = "The file is whole: its header counts all frames. There is nothing to repair.";
const ALL_COUNTED = "Its RIFF size or pad byte isn't as the format asks, which concerns no sample.";
const FOLLOWED =
  "Other data follow the sound, as a title or markers (chunks or a tag): it needs no repair. If a program rejects the file, export it from an audio editor.";
const CHOOSE = "Keep the file. Choose what was recorded, and listen.";
const NO_RIFF = `It is no WAV file, or its beginning was lost: ${CHOOSE}`;
const named = (kind, codec) => `: the file holds ${kind}, and isn't read: convert it by ffmpeg -i FILE -c:a ${codec} NEW.wav.\nAn audio editor converts it, too. Or its header is damaged: ${CHOOSE}`;
const DAMAGED = `Its header is damaged, or of a kind that this page doesn't read. ${CHOOSE}`;
const CARD = "Record nothing more on the card it came from: a recovery program may find the sound there.";
const SILENT = `The file has a header and no sound: nothing can be brought back from it. ${CARD}`;
const LISTEN =
  "\nListen to its end: if silence, noise, a click or older sound is there, stop the player before that, and press \"End it where the player is\".";
const LISTEN_TO_EACH =
  "\nChoose each in the list, and listen to its end: silence, noise, a click or older sound may be there.";
const missing = (what) => (name) =>
  `The ${what.replace(" ", ` of ${name}.wav `)}. Choose what was recorded, listen, save.`;
/** How long the sound is that came back, whose time follows the frames, for who doesn't count frames. */
const cameBack = (frames) => {
  const time = frames.match(/\((?:(\d+):)?(\d+):(\d+)\.(\d)/);
  if (!time) return `${frames} came back`;
  const [hours, minutes, seconds, tenths] = time.slice(1).map((digits) => Number(digits ?? 0));
  const rounded = (seconds + Number(frames.match(/\.(\d+)\)/)[1]) / 1000).toFixed(1);
  const length = hours ? `${hours} h ${minutes} min` : minutes ? `${minutes} min ${seconds} s` :
    seconds + tenths === 0 ? "Less than 0.1 seconds" : `${rounded} seconds`;
  return `${length} of sound came back. These are ${frames}`;
};
const comes = (frames, counted = "none", more = "") =>
  `${cameBack(frames)}, of which its header counted ${counted}.${more}`;
const cut = (...rest) => `The recording was cut off. ${comes(...rest)}${LISTEN}`;
const tooMany = (frames, counted, more = "") =>
  `The recording was cut off. ${cameBack(frames)}; its header counted ${counted}.${more}${LISTEN}`;
const toEnd = (...rest) => `All bytes up to the end are taken for sound. ${comes(...rest)}${LISTEN}`;
const uncounted = (counts, bytes, what = "the rest of the recording") => `The header counts ${counts}, but ${bytes} bytes follow. They may be ${what}: repair the file to its end, and listen.`;
const LIST = [...text("LIST"), ...u32(4), ...text("INFO")], TAG = [...text("TAG"), ...Array(125).fill(32)],
      ABCD = [...text("abcd"), ...u32(124), ...Array(124).fill(1)];
const damaged = (rest) => Buffer.concat([wav([]).subarray(0, 20), Buffer.from(rest)]);
/**
   A file without a header, and what it is saved as: all of it in 16 bits, of one channel where the samples are
   predictable then. They begin after the header of the data, if there is one.
 */
function headless(name, content, why, channels = 1, otherwise = 0) {
  const tag = Buffer.from(content).indexOf("data", 12), start = tag < 0 ? otherwise : tag + 8,
        sound = content.subarray(start);
  const whole = sound.length - sound.length % (2 * channels);
  const saved = wav(sound.subarray(0, whole), {channels, rate: 48000});
  return [
    name, content, typeof why === "string" ? `${name}.wav${why}` : why(name), `Sound beginsat byte ${start}`, saved
  ];
}
const unread = (why) => ` can't be read: ${why}`;
const instead = (name, beginning, why) =>
  headless(name, Buffer.from([...text(beginning), ...wav(tone).subarray(4)]), why);
// Each file, what is said of it, a fact that is shown, and the repaired file, if there is one.
const CASES = [
  ["whole", wav(tone), WHOLE, "16,000 frames"],
  ["cut", wav(tone, {counted: 0, riff: 36}), cut("16,000 frames (0:02.000)"), "counts 0 frames", wav(tone)],
  [
    "cut, and in part counted", wav(tone, {counted: 8}), cut("16,000 frames (0:02.000)", "4"), "counts 4 frames",
    wav(tone)
  ],
  [
    "too large", wav(tone, {counted: 0xfffffffe, riff: 0xffffffff}),
    tooMany("16,000 frames (0:02.000)", "2,147,483,647"), "counts 2,147,483,647 frames", wav(tone)
  ],
  [
    "half a frame", wav(tone.slice(0, 8003), {channels: 2, counted: 32000, riff: 32036}),
    tooMany("2,000 frames (0:00.250)", "8,000", " Of one more frame only 3 bytes are there."),
    "3 bytesThey stay in the original", wav(tone.slice(0, 8000), {channels: 2})
  ],
  [
    "one byte more", wav(tone.slice(0, 8001), {counted: 0, riff: 36}),
    cut("4,000 frames (0:00.500)", "none", " Of one more frame only 1 byte is there."),
    "1 byteIt stays in the original", wav(tone.slice(0, 8000))
  ],
  [
    "no whole frames", wav(tone.slice(0, 8), {counted: 3, riff: 39}), cut("4 frames (0:00.001)", "1"), "counts 1 frame",
    wav(tone.slice(0, 8))
  ],
  [
    "odd", wav([1, 2, 3], {bits: 8, riff: 36, counted: 2}), cut("3 frames (0:00.000)", "2"), "8 bits",
    wav([1, 2, 3], {bits: 8, after: [0]})
  ],
  // All frames are counted, and the RIFF size or the pad byte is as some programs write them.
  ["no pad byte", wav([1, 2, 3], {bits: 8}), WHOLE, ALL_COUNTED],
  ["no pad byte counted", wav([1, 2, 3], {bits: 8, after: [0], riff: 39}), WHOLE, ALL_COUNTED],
  ["no RIFF size", wav(tone, {riff: 0}), WHOLE, ALL_COUNTED],
  [
    "no rate", wav(tone, {counted: 0, riff: 36, rate: 0}), cut("16,000 frames"), "Duration16,000 framesA frame",
    wav(tone, {rate: 0})
  ],
  ["again repaired", wav(tone, {counted: 0, riff: 36}), cut("16,000 frames (0:02.000)"), "counts 0 frames", wav(tone)],
  [
    "again repaired 9", wav(tone, {counted: 0, riff: 36}), cut("16,000 frames (0:02.000)"), "counts 0 frames", wav(tone)
  ],
  ["take 9", wav(tone, {counted: 0, riff: 36}), cut("16,000 frames (0:02.000)"), "counts 0 frames", wav(tone)],
  ["followed", wav(tone, {after: LIST}), FOLLOWED, "16,000 frames"],
  ["tagged", wav(tone, {after: TAG}), FOLLOWED, "16,000 frames"],
  ["followed and tagged", wav(tone, {after: [...ABCD, ...TAG], riff: 36 + 32000}), FOLLOWED, "16,000 frames"],
  ["odd and tagged", wav([...tone, 7], {bits: 8, after: [0, ...TAG]}), FOLLOWED, "32,001 frames"],
  [
    "24 in 4", wav([0, 0, 64, 0, 0, 0, 192, 0], {bits: 24, bytes: 4, valid: 24}), WHOLE,
    "integers of 24 bits in 4 bytes"
  ],
  [
    "floats", wav([0, 0, 0, 63, 0, 0, 0, 191], {bits: 32, tag: 3, counted: 0, riff: 36}), cut("2 frames (0:00.000)"),
    "floats of 32 bits", wav([0, 0, 0, 63, 0, 0, 0, 191], {bits: 32, tag: 3})
  ],
  [
    "6 channels", wav(tone.slice(0, 24000), {channels: 6, counted: 12, riff: 48}), cut("2,000 frames (0:00.250)", "1"),
    "counts 1 frame", wav(tone.slice(0, 24000), {channels: 6})
  ],
  ["40 channels", wav(tone.slice(0, 8000), {channels: 40}), WHOLE, "The first 32 are drawn."],
  // The header counts less than there is, and something is at the end that looks like chunks or a tag.
  [
    "uncounted", wav(tone, {counted: 0, riff: 36, after: TAG}), uncounted("no sound", "32,128", "the recording"),
    "0 frames"
  ],
  [
    "uncounted, sized", wav(tone, {counted: 0, after: TAG}), uncounted("no sound", "32,128", "the recording"),
    "0 frames"
  ],
  [
    "after a chunk", wav([], {riff: 36, after: [...LIST, ...tone]}), uncounted("no sound", "32,012", "the recording"),
    "0 frames"
  ],
  [
    "a quarter", wav(tone, {counted: 8000, after: TAG}), uncounted("only 4,000 frames (0:00.500)", "24,128"),
    "0:00.500, 4,000 frames"
  ],
  ["nearly all", wav(tone, {counted: 31998, after: TAG}), FOLLOWED, "15,999 frames"],
  [
    "torn", wav(tone, {counted: 3, riff: 36, after: TAG}), toEnd("16,064 frames (0:02.008)", "1"), "counts 1 frame",
    wav([...tone, ...TAG])
  ],
  // Its length is wrong: before the end of the sound, and after that of the file.
  ...[0, 4, 36, 36 + 31998, 36 + 32014, 0xffffffff].map(
    (riff) => [`missized ${riff}`, wav(tone, {riff, after: LIST}), FOLLOWED, "16,000 frames"]),
  ["sized to the sound", wav(tone, {riff: 36 + 32000, after: LIST}), FOLLOWED, "16,000 frames"],
  // There is no sound.
  ["no sound", wav([]), SILENT, "0 frames"],
  ["header", wav([], {counted: 8, riff: 36}), SILENT, "0 frames"],
  ["a byte", wav([1], {counted: 0, riff: 36}), SILENT, "0 frames"],
  ["empty", Buffer.alloc(0), `empty.wav is empty. ${CARD}`],
  ["short", wav([]).subarray(0, 30), `short.wav ends before any sound. ${CARD}`],
  // Its header can't be read.
  headless("lost", Buffer.concat([wav(tone).subarray(0, 36), Buffer.alloc(8), wav(tone).subarray(44)]),
    missing("beginning is lost"), 1, 44),
  headless("cleared", Buffer.concat([Buffer.alloc(44), wav(tone).subarray(44)]), missing("beginning is lost"), 1, 44),
  headless("damaged before sound", Buffer.concat([damaged(Buffer.alloc(24)), Buffer.from(tone)]),
    missing("header is damaged"), 1, 44),
  headless("damaged", damaged(Buffer.alloc(50000)), unread(`file contains zero channels.\n${DAMAGED}`), 2),
  headless("damaged by sound", damaged([...u16(1), ...u16(2), ...Array(50001).fill(3)]),
    unread(`inconsistent fmt chunk.\n${DAMAGED}`), 2),
  headless("compressed", wav(tone, {tag: 999}),
    unread(
      `the format is neither PCM nor IEEE float.\nIts sound is compressed, and an audio editor may read it; or its header is damaged: ${CHOOSE}`)),
  headless("16-bit floats", wav(tone, {tag: 3}),
    unread(
      `bits per sample is not 32.\nThis page reads integers of 8, 16, 24 and 32 bits, and floats of 32 bits: an audio editor may read it. If its header is damaged: ${CHOOSE}`)),
  headless("another", Buffer.from([...text("RIFF"), ...u32(4), ...text("AVI "), ...Array(100).fill(0)]),
    unread(`no WAVE tag found.\nIt is another RIFF file, or its beginning was lost: ${CHOOSE}`), 2),
  instead("zeros", "\0\0\0\0", missing("beginning is lost")),
  headless("no WAV file", Buffer.from("A text, and no sound. ".repeat(9)), unread(`no RIFF tag found.\n${NO_RIFF}`), 2),
  // What it is has a name.
  headless("IMA ADPCM", wav(tone, {tag: 17}), named("IMA ADPCM", "pcm_s16le")),
  headless("64 bits", wav(tone, {tag: 3, bits: 64}), named("floats of 64 bits", "pcm_f32le")),
  instead("RF64", "RF64", named("RF64, which is for more than 4 GiB", "pcm_s32le")),
  headless("mp3", Buffer.from([255, 251, 144, 100, ...Array(400).fill(0)]),
    named("MP3, or another MPEG audio", "pcm_s32le"), 2),
];
// The names of the files that are saved, without their end, where they aren't the file's own and a word.
const SAVED = {
  "again repaired": "again repaired 2",
  "again repaired 9": "again repaired 10"
};
const nameOfSaved = (name) => `${SAVED[name] ?? `${name} repaired`}.wav`;

/** Does something that lets the page look at a file, and waits until that is drawn. */
async function drawn(browser, what, act) {
  browser.given = (browser.given ?? 0) + 1;
  await act();
  await once(browser, `document.getElementById("said").dataset.done === "${browser.given}"`, `${what} is drawn`);
}

/** Gives the page a file: dropped, if that is said and can be done, or chosen. */
const give = (browser, file, isDropped = true) =>
  drawn(browser, file, () => (isDropped && browser.drop ? browser.drop : browser.choose)(file));

const said = (browser) => browser.evaluate(`document.getElementById("said").textContent.trim()`);

/** Saves what the page repaired, and returns where it is once it has this size. */
async function saved(browser, name, size, how = () => browser.click("#save")) {
  const file = path.join(work, "saved", name);
  fs.rmSync(file, {force: true});
  await how();
  await until(() => fs.existsSync(file) && fs.statSync(file).size === size);
  await pause(300);
  return file;
}

/** Leaves something in the folder. */
function keep(name, content) {
  if (!FOLDER) return;
  fs.mkdirSync(FOLDER, {recursive: true});
  fs.writeFileSync(path.join(FOLDER, name), content);
}

/** Tries one file. */
async function tryCase(browser, [name, content, says, fact, repaired], isDropped) {
  const file = path.join(work, `${name}.wav`);
  fs.writeFileSync(file, content);
  await give(browser, file, isDropped);
  must(await said(browser) === says, `${name}: it says ${JSON.stringify(await said(browser))}`);
  const kind = [WHOLE, FOLLOWED].includes(says) ? "good" :
    / can't be read: |: the file holds |^The file has a header and no sound: | is empty\. | ends before any sound\. /
      .test(says) ?
                                                  "bad" :
                                                  "cut";
  must(
    await browser.evaluate(`document.getElementById("said").className`) === kind, `${name}: it isn't said as ${kind}`);
  const facts = await browser.evaluate(
    `document.getElementById("result").hidden ? "" : document.getElementById("facts").textContent`);
  must(fact ? facts.includes(fact) : facts === "", `${name}: it shows ${facts}`);
  const save =
    await browser.evaluate(`(({ hidden, download }) => hidden ? null : download)(document.getElementById("save"))`);
  must(save === (repaired ? nameOfSaved(name) : null), `${name}: it saves ${save}`);
  await mustHavePlayer(browser, name, facts);
  keep(`${name}.wav`, content);
  if (repaired) await mustSave(browser, name, repaired);
  must(fs.readFileSync(file).equals(content), `${name}: the file was changed`);
}

/** The player, and what it can't play, have to be there only where there are frames and a rate. */
async function mustHavePlayer(browser, name, facts) {
  const isSilent = facts.includes("0:00.000, 0 frames") || facts.includes("Sample rate0 Hz");
  if (isSilent) await pause(500);
  const [player, sentence] =
    await browser.evaluate(`["audio", "#player"].map((one) => document.querySelector(one).checkVisibility())`);
  must(player === (facts !== "" && !isSilent) && !(sentence && !player),
    `${name}: it ${player ? "has" : "lacks"} a player${sentence ? ", and a sentence on it" : ""}`);
}

/** What is saved has to be this file. */
async function mustSave(browser, name, repaired, how) {
  const file = fs.readFileSync(await saved(browser, nameOfSaved(name), repaired.length, how));
  keep(nameOfSaved(name), file);
  must(file.equals(repaired), `${name}: the file that is saved is another one`);
}

/** A file that chunks or a tag follow: it is left, repaired to its end, and left again. */
async function tryToEnd(browser, one, asks, back, [frames, counted], repaired) {
  const [name, , says] = one, choice = `document.querySelector("#choice span").textContent`;
  await tryCase(browser, one, true);
  must(await browser.evaluate(choice) === asks, `${name}: it asks ${await browser.evaluate(choice)}`);
  await drawn(browser, "the file up to its end", () => browser.click("#end"));
  must(await said(browser) === toEnd(frames, counted), `${name}: it says ${await said(browser)}`);
  must(await browser.evaluate(choice) === back, `${name}: it asks ${await browser.evaluate(choice)}`);
  await mustHavePlayer(browser, name, frames);
  await mustSave(browser, name, repaired);
  await drawn(browser, "the file as it was", () => browser.click("#end"));
  must(await said(browser) === says && await browser.evaluate(`document.getElementById("save").hidden`),
    `${name}: it isn't left any more`);
}

/**
 * A recording that was cut off where it looks like a chunk, and those of which the header counts nothing, or too
 * little.
 */
async function triesToEnd(browser) {
  const data = tone.slice(0, 8000), frames = ["4,006 frames (0:00.501)", "4,000"];
  await tryToEnd(browser, ["to the end", wav(data, {after: LIST}), FOLLOWED, "4,000 frames"],
    "Only if you hear that its end is missing: then it was cut off, and its last 12 bytes only look like chunks or a tag.",
    "If it ends in noise now, chunks or a tag were there, and the file needs no repair.", frames,
    wav([...data, ...LIST]));
  for (const [name, counted, content] of [
         ["uncounted", "none", wav([...tone, ...TAG])], ["a quarter", "4,000", wav([...tone, ...TAG])]]) {
    await tryToEnd(browser, CASES.find((one) => one[0] === name),
      "Chunks or a tag among them (a title, markers) become a click, which an audio editor can cut off.",
      "If it ends in a click now, chunks or a tag were there.", ["16,064 frames (0:02.008)", counted], content);
  }
}

/**
   A recording that was cut off, or seems to be, after whose sound a chunk comes: that is left out, and taken again.
   Then the recording is ended where the player is.
 */
async function tryEnds(browser) {
  const name = "a chunk at its end", file = path.join(work, `${name}.wav`),
        shown = (id) => browser.evaluate(
          `document.getElementById("${id}").checkVisibility() && document.getElementById("${id}").textContent`);
  fs.writeFileSync(file, wav(tone, {counted: 0, riff: 36, after: LIST}));
  const [before, end] = cut("16,006 frames (0:02.001)").split("\n"),
                 all = `${before} Its last 12 bytes look like a LIST chunk (a title, markers), which becomes a click.\n${end}`;
  await give(browser, file, false);
  must(await said(browser) === all, `${name}: it says ${await said(browser)}`);
  must(await shown("end") === "Leave out the LIST chunk", `${name}: the button is ${await shown("end")}`);
  await mustSave(browser, name, wav([...tone, ...LIST]));
  await drawn(browser, "the file without its chunk", () => browser.click("#end"));
  must(await said(browser) === cut("16,000 frames (0:02.000)"), `${name}, left out: it says ${await said(browser)}`);
  await mustSave(browser, name, wav(tone));
  must(await duration(browser) === 2, `${name}, left out: the player has another length`);
  must(await shown("end") === "Take all of it", `${name}, left out: the button is ${await shown("end")}`);
  await browser.click("#shorter");
  must(await said(browser) === "Play it first, and stop where the sound ends.",
    `${name}, from the beginning: it says ${await said(browser)}`);
  await browser.evaluate(`document.querySelector("audio").currentTime = 0.25`);
  await drawn(browser, "the file up to a time", () => browser.click("#shorter"));
  must(await said(browser) === cut("2,000 frames (0:00.250)"), `${name}, up to a time: it says ${await said(browser)}`);
  await mustSave(browser, name, wav(tone.slice(0, 4000)));
  await drawn(browser, "all of it again", () => browser.click("#end"));
  must(await said(browser) === all, `${name}, again: it says ${await said(browser)}`);
  for (const [what, after] of [["longer", [...text("LIST"), ...u32(5), ...text("INFO")]],
         ["shorter", [...text("LIST"), ...u32(3), ...text("INFO1")]],
         ["of no name", [...text("abcd"), ...u32(4), ...text("INFO")]]]) {
    const other = path.join(work, `a chunk that is ${what}.wav`);
    fs.writeFileSync(other, wav(tone, {counted: 0, riff: 36, after}));
    await give(browser, other, false);
    must(!(await said(browser)).includes("look like"), `a chunk that is ${what}: it says ${await said(browser)}`);
  }
}

/** Samples of these channels, each of which is a sine of its own, in little-endian containers that `put` writes. */
function sines(channels, bytes, put, count = 6000) {
  const data = Buffer.alloc(channels * bytes * count);
  for (let i = 0; i < channels * count; i++)
    put(data, Math.sin(Math.floor(i / channels) / (20 + 3 * (i % channels)) + i % channels), i * bytes);
  return data;
}

/** Samples of one channel in two, each of which is a step by chance from the one before. */
function walkOfChance(count = 6000) {
  const data = Buffer.alloc(4 * count);
  for (let i = 0, value = 0, seed = 1; i < count; i++) {
    seed = (Math.imul(seed, 1664525) + 1013904223) >>> 0;
    value = 0.99 * value + seed / 2 ** 20 - 2048;
    for (const place of [4 * i, 4 * i + 2]) data.writeInt16LE(Math.round(value / 2), place);
  }
  return data;
}

/** Files of many kinds that begin with zeros in the place of their headers: each is guessed, and saved as it was. */
async function tryLost(browser) {
  for (const [form, channels, lost, skip, bits, bytes, tag, put] of [
         ["integers of 16 bits", 2, 44, 44, 16, 2, 1, (data, x, at) => data.writeInt16LE(Math.round(9000 * x), at)],
         ["integers of 16 bits", 2, 48, 44, 16, 2, 1],
         ["integers of 24 bits", 2, 44, 44, 24, 3, 1, (data, x, at) => data.writeIntLE(Math.round(4e6 * x), at, 3)],
         ["integers of 24 bits", 4, 560, 80, 24, 3, 1, (data, x, at) => data.writeIntLE(Math.round(4e6 * x), at, 3)],
         ["floats of 32 bits", 2, 58, 58, 32, 4, 3, (data, x, at) => data.writeFloatLE(x / 3, at)],
         ["integers of 32 bits", 1, 80, 80, 32, 4, 1, (data, x, at) => data.writeInt32LE(Math.round(1e9 * x), at)],
         ["integers of 8 bits", 1, 44, 44, 8, 1, 1, (data, x, at) => data.writeUInt8(Math.round(128 + 100 * x), at)],
  ]) {
    const name = `no header, ${form}, ${channels}, ${lost}`, file = path.join(work, `${name}.wav`),
          data = put ? sines(channels, bytes, put) : walkOfChance();
    const chosen =
      `(({ form, channels, rate, skip }) => [form.selectedOptions[0].text, ...[channels, rate, skip].map(({ value }) => Number(value))])(document.getElementById("lost").elements)`;
    fs.writeFileSync(file, Buffer.concat([Buffer.alloc(lost), data]));
    await give(browser, file, false);
    must(await said(browser) === missing("beginning is lost")(name), `${name}: it says ${await said(browser)}`);
    const guess = JSON.stringify(await browser.evaluate(chosen));
    must(guess === JSON.stringify([form, channels, 48000, skip]), `${name}: the guess is ${guess}`);
    must((await browser.evaluate(`document.getElementById("guess").textContent`))
           .startsWith("This is a guess, except the rate: no guess finds it, and 48,000 Hz is assumed."),
      `${name}: it isn't said to be a guess`);
    must(await browser.evaluate(`document.getElementById("save").textContent`) ===
        `Save the repaired file with 48,000 Hz as ${name} repaired.wav`,
      `${name}: the button says no rate`);
    for (const [field, value] of [["rate", 8000], ["skip", lost]]) {
      await drawn(browser, name,
        () => browser.evaluate(`((field) => { field.value = ${value}; field.dispatchEvent(new Event("change", { bubbles: true })); })(document.getElementById("lost").elements.${field})`));
    }
    must(await said(browser) ===
        "6,000 frames (0:00.750) of that are there. Listen: if it is noise, or too fast or too slow, choose otherwise.",
      `${name}: it says ${await said(browser)}`);
    must(await browser.evaluate(`document.getElementById("guess").textContent`) === "This is what you chose.",
      `${name}: it is still said to be a guess`);
    const isLong =
      bits > 16 || tag === 3;  // Those have the longer header, with a bit for each channel and the subformat.
    await mustSave(browser, name,
      wav(data, isLong ? {channels, bits, bytes, tag, valid: bits, mask: 2 ** channels - 1} : {channels, bits}));
  }
}

/** A header whose rate is lost, which is chosen; and a file in which nothing is found. */
async function tryNoRate(browser) {
  await tryCase(browser, CASES.find(([name]) => name === "no rate"), false);
  must(await browser.evaluate(`document.getElementById("guess").textContent`) === "Its rate is lost: choose one.",
    "no rate: none is asked for");
  await drawn(browser, "another rate",
    () => browser.evaluate(
      `((rate) => { rate.value = 8000; rate.dispatchEvent(new Event("change", { bubbles: true })); })(document.getElementById("lost").elements.rate)`));
  await mustSave(browser, "no rate", wav(tone));
  await tryCase(browser, CASES.find(([name]) => name === "damaged"), false);
  must(await browser.evaluate(`document.getElementById("guess").textContent`) ===
      "No guess: nothing in it is predictable, as sound is, or it is too short.",
    "damaged: it is said to be something");
  await tryCase(browser, CASES[0], false);
  must(
    !await browser.evaluate(`document.getElementById("lost").checkVisibility()`), "the choice stays for another file");
}

/** Several files at once, and a folder where it can be dropped. */
async function tryMany(browser) {
  const folder = path.join(work, "card"), cutOff = wav(tone, {counted: 0, riff: 36});
  const files = [
    ["b 2.wav", cutOff], ["b 10.WAV", wav(tone, {riff: 0})], ["c.wav", Buffer.from("OggS")],
    ["d.wav", wav(tone, {after: LIST})],
    [path.join("day", "e.wav"), wav(tone.slice(0, 8000), {channels: 2, counted: 4})], ["f.wav", wav([])],
    ["g.wav", Buffer.concat([Buffer.alloc(44), Buffer.from(tone)])],
    ["h.wav", wav(tone.slice(0, 4000), {counted: 0, after: LIST})]
  ];
  fs.mkdirSync(path.join(folder, "day"), {recursive: true});
  for (const [name, content] of files) fs.writeFileSync(path.join(folder, name), content);
  fs.writeFileSync(path.join(folder, "notes.txt"), "none");
  const rows = [
    ["b 2.wav", "0:02.000", "was cut off"], ["b 10.WAV", "0:02.000", "whole"], ["c.wav", "", "Ogg: look at it"],
    ["d.wav", "0:02.000", "other data follow the sound"], ["f.wav", "0:00.000", "no sound"],
    ["g.wav", "", "its beginning may be lost: look at it"],
    ["h.wav", "0:00.251", "was cut off, and seems to end in a LIST chunk: look at it"],
    ["e.wav", "0:00.250", "was cut off"]
  ];
  const places = rows.map(([name]) => path.join(folder, name === "e.wav" ? path.join("day", name) : name));
  for (const [what, act] of [["several files", () => browser.choose(...places)],
         ...(browser.call ? [["a folder", () => browser.drop(folder)]] : [])]) {
    await drawn(browser, what, act);
    const shown = await browser.evaluate(
      `[...document.querySelectorAll("tbody tr")].map((row) => [...row.cells].map((cell) => cell.textContent))`);
    must(JSON.stringify(shown) === JSON.stringify(rows), `${what}: the table has ${JSON.stringify(shown)}`);
    must(await said(browser) === `8 files, of which 3 were cut off and can be saved repaired.${LISTEN_TO_EACH}`,
      `${what}: it says ${await said(browser)}`);
    fs.rmSync(path.join(work, "saved", "e repaired.wav"), {force: true});
    await mustSave(browser, "b 2", wav(tone), () => browser.click("#all"));
    await once(browser, "true", "");
    for (let i = 0; i < 100 && !fs.existsSync(path.join(work, "saved", "e repaired.wav")); i++) await pause(50);
    await pause(300);
    must(fs.readFileSync(path.join(work, "saved", "e repaired.wav")).equals(wav(tone.slice(0, 8000), {channels: 2})),
      `${what}: the second file that is saved is another one`);
    await tryLooks(browser, what);
    await drawn(browser, "a file of the table", () => browser.click("tbody tr:nth-child(1) button"));
    must(await said(browser) === cut("16,000 frames (0:02.000)"),
      `${what}: of the first file it says ${await said(browser)}`);
    must(await browser.evaluate(`document.getElementById("list").checkVisibility()`), `${what}: the table is gone`);
  }
  await drawn(browser, "two whole files", () => browser.choose(places[1], places[3]));
  must(await said(browser) === "2 files, of which none can be repaired." &&
      !await browser.evaluate(`document.getElementById("all").checkVisibility()`),
    `two whole files: it says ${await said(browser)}`);
  await give(browser, places[1], false);
  must(await said(browser) === WHOLE && !await browser.evaluate(`document.getElementById("list").checkVisibility()`),
    "one file after several");
}

/** In the page: which of four places of the waveform are loud. */
function loud() {
  const canvas = document.querySelector("canvas"),
        pen = new OffscreenCanvas(canvas.width, canvas.height).getContext("2d", {willReadFrequently: true});
  pen.drawImage(canvas, 0, 0);
  return [1, 3, 5, 7]
    .map((n) => pen.getImageData(canvas.width * n / 8, canvas.height * 0.3, 1, 1).data[3] ? 1 : 0)
    .join("");
}

/** A second of silence and one of noise, of which parts are shown. */
async function tryZoom(browser) {
  const file = path.join(work, "zoom.wav");
  fs.writeFileSync(file, wav(Array.from({length: 16000}, (_, i) => u16(i < 8000 ? 0 : i % 2 ? 20000 : 45536)).flat()));
  await give(browser, file);
  const shows = async (loudness, label, first) => {
    await once(browser, `(${loud})() === "${loudness}"`, `${loudness} is shown, ${label}`);
    must(await browser.evaluate(`document.querySelector("canvas").getAttribute("aria-label")`) ===
        `Waveform of 1 channel, 0:02 long${label}`,
      `the label${label}`);
    must(await browser.evaluate(`document.querySelector("#axis span").textContent`) === first, `the axis${label}`);
  };
  await shows("0011", "", "0:00.00");
  for (const [button, loudness, label, first] of [["nearer", "0011", ", from 0:00.500 to 0:01.500", "0:00.60"],
         ["later", "1111", ", from 0:01.000 to 0:02.000", "0:01.00"],
         ["nearer", "1111", ", from 0:01.250 to 0:01.750", "0:01.30"],
         ["earlier", "1111", ", from 0:01.000 to 0:01.500", "0:01.00"],
         ["earlier", "0011", ", from 0:00.750 to 0:01.250", "0:00.80"],
         ["earlier", "0000", ", from 0:00.500 to 0:01.000", "0:00.50"],
         ["wider", "0001", ", from 0:00.250 to 0:01.250", "0:00.40"],
  ]) {
    await browser.click(`#${button}`);
    await shows(loudness, label, first);
  }
  await browser.wheel("#wave", -100);
  await shows("0001", ", from 0:00.350 to 0:01.150", "0:00.40");
  for (let i = 0; i < 2; i++) await browser.click("#wider");
  await shows("0011", "", "0:00.00");
}

/** The length of the file in seconds, by the player. */
const duration = (browser) => once(browser, `document.querySelector("audio").duration`, "the player has the file");

/** Looks at the page with a file in two widths and color schemes. */
async function tryLooks(browser, what) {
  for (const [name, width] of [["wide", 1000], ["phone", 360]]) {
    await browser.resize(width);
    for (const scheme of browser.schemes) {
      await browser.setScheme(scheme);
      await browser.evaluate("scrollTo(0, 0)");
      await pause(200);
      must(await browser.evaluate("document.documentElement.scrollWidth") <= width,
        `${what}, ${name}: wider than the window`);
      const low = await browser.evaluate(`(${contrasts})()`);
      must(low.length === 0, `${what}, ${name}, ${scheme}: too little contrast: ${low}`);
      keep(`${browser.name.split(/[ /]/)[0]} ${what} ${name} ${scheme}.png`,
        Buffer.from(await browser.picture(), "base64"));
    }
  }
  await browser.resize(1000);
}

/** Looks at what a screen reader has of the page, and at what the Tab key reaches. */
async function tryReader(browser) {
  const {nodes} = await browser.call("Accessibility.getFullAXTree");
  const unnamed = nodes.filter(({role, name, ignored}) => !ignored &&
      ["button", "link", "image", "progressbar"].includes(role?.value) && !name?.value);
  must(unnamed.length === 0, `a screen reader has no name for ${JSON.stringify(unnamed)}`);
  must(nodes.some(({role, name}) => role?.value === "image" && name.value === "Waveform of 1 channel, 0:02 long"),
    "the waveform has another name");
  const reached = new Set();
  await browser.evaluate("document.activeElement.blur()");
  for (let i = 0; i < 20; i++) {
    for (const type of ["keyDown", "keyUp"])
      await browser.call("Input.dispatchKeyEvent", {type, key: "Tab", code: "Tab", windowsVirtualKeyCode: 9});
    reached.add(await browser.evaluate("document.activeElement.id || document.activeElement.localName"));
  }
  for (const one of ["input", "save", "nearer", "wider", "earlier", "later", "audio"])
    must(reached.has(one), `the Tab key doesn't reach ${one}: ${[...reached]}`);
}

/** Gives the page a file of so many bytes, most of which is a hole on the disk, and stops its drawing. */
async function giveLong(browser, name, header, length) {
  const file = path.join(work, `${name}.wav`);
  fs.writeFileSync(file, header);
  fs.truncateSync(file, length);
  const given = give(browser, file, true);
  await once(browser, `!document.getElementById("busy").hidden`, "the progress of a long file is shown");
  await browser.click("#stop");
  await given;
  must(await browser.evaluate(`document.querySelector("progress").value < 0.9`), `${name}: its drawing isn't stopped`);
}

/** A file that fills a card of FAT32, and longer ones, of which one is RF64. */
async function tryTooLong(browser) {
  const header = wav([], {channels: 2, rate: 48000, counted: 0, riff: 0});
  await browser.evaluate(`(() => {
    const make = URL.createObjectURL;
    URL.createObjectURL = (blob) => make.call(URL, globalThis.blob = blob);
  })()`);
  await giveLong(browser, "full", header, 4_294_967_295);
  must(await said(browser) ===
      cut("1,073,741,812 frames (6:12:49.621)", "none", " Of one more frame only 3 bytes are there."),
    `full: it says ${await said(browser)}`);
  must(await browser.evaluate(`document.getElementById("save").checkVisibility()`), "full: it isn't saved");
  const [size, ...beginning] =
    await browser.evaluate(`(async () => [blob.size, ...new Uint8Array(await blob.slice(0, 44).arrayBuffer())])()`);
  must(size === 4_294_967_292 &&
      wav([], {channels: 2, rate: 48000, counted: 4_294_967_248, riff: 4_294_967_284}).equals(Buffer.from(beginning)),
    `full: it is repaired to ${size} bytes, and ${beginning}`);
  for (const [name, beginning] of [["too long", "RIFF"], ["long RF64", "RF64"], ]) {
    const says = `${name}.wav is too large for a WAV file: it has 5,000,000,000 bytes. Keep it: an audio editor may read it as RF64, or import it as raw data, if you know its rate, channels and bits.`;
    const file = path.join(work, `${name}.wav`);
    fs.writeFileSync(file, Buffer.concat([Buffer.from(beginning), header.subarray(4)]));
    fs.truncateSync(file, 5_000_000_000);
    await give(browser, file, true);
    must(await said(browser) === says, `${name}: it says ${await said(browser)}`);
  }
}

/**
 * A recording of 500 MB with no sizes, most of which is a hole on the disk: its drawing is stopped, and it is saved.
 */
async function tryLong(browser) {
  const repaired = path.join(work, "expected.wav"), length = 500_000_000;
  fs.writeFileSync(repaired, wav([], {channels: 2, counted: length, riff: length + 36}));
  fs.truncateSync(repaired, length + 44);
  await giveLong(browser, "long", wav([], {channels: 2}), length + 44);
  must(await said(browser) === cut("125,000,000 frames (4:20:25.000)"), "long: it says something else");
  const left = await saved(browser, "long repaired.wav", length + 44);
  must(spawnSync("cmp", [left, repaired]).status === 0, "long: the file that is saved is another one");
}

/** Takes the picture of README: a recording of two channels that was cut off within a frame. */
async function takePicture(browser) {
  const swell = (time, at, length, loud) => loud * Math.exp(-(((time - at) / length) ** 2)), words = [];
  for (let i = 0; i < 40; i++)
    words.push(
      [i + 0.4 * Math.sin(7 * i), 0.12 + 0.1 * Math.sin(3 * i) ** 2, 26000 * Math.abs(Math.sin(11 * i)) ** 1.5]);
  const data = Array
                 .from({length: 297234},
                   (_, i) => {
                     const wave = Math.sin(i / 6) * words.reduce((sum, word) => sum + swell(i / 8000, ...word), 300);
                     return [...u16(Math.round(wave) & 65535), ...u16(Math.round(0.7 * wave) & 65535)];
                   })
                 .flat();
  await browser.setScheme("light");
  await browser.resize(800, 785, 1);
  await tryCase(browser,
    [
      "interview", wav([...data, 1, 2], {channels: 2, counted: 0, riff: 36}),
      cut("297,234 frames (0:37.154)", "none", " Of one more frame only 2 bytes are there."), "0:37.154",
      wav(data, {channels: 2})
    ],
    false);
  await once(browser, `document.querySelector("audio").duration > 37`, "the player has the file");
  await browser.evaluate("document.activeElement.blur(), scrollTo(0, 0)");
  await pause(500);
  keep("page.png", Buffer.from(await browser.picture(), "base64"));
  await browser.resize(1000);
}

/** Tries the page in a browser; what Firefox's protocol hasn't is tried in Chromium alone. */
async function tryIn(browser) {
  await browser.show(`file://${PAGE}`);
  await once(browser, `document.readyState === "complete" && document.getElementById("said")?.textContent === ""`,
    "the page starts");
  const promise = await browser.evaluate(`document.querySelector("p.soft").textContent`);
  must(promise === "Files aren't changed and stay on this computer: this page has no connection.",
    `the page promises ${promise}`);
  for (const [i, one] of CASES.entries()) await tryCase(browser, one, i % 2 === 0);
  await tryCase(browser, CASES.find(([name]) => name === "24 in 4"), true);
  await once(browser, `document.querySelector("audio").duration > 0`, "24 bits in four are played");
  await tryCase(browser, CASES.find(([name]) => name === "40 channels"), false);
  await once(browser,
    `document.querySelector("audio").duration > 0 || document.getElementById("player").textContent === "This browser doesn't play such samples, nor a copy in 16 bits."`,
    "40 channels are played, or not");
  await triesToEnd(browser);
  await tryLooks(browser, "followed");
  await tryEnds(browser);
  await tryLooks(browser, "ended");
  await tryLost(browser);
  await tryLooks(browser, "lost");
  await tryNoRate(browser);
  await tryMany(browser);
  await tryZoom(browser);
  await tryCase(browser, CASES[1], true);
  must(await duration(browser) === 2, "the player's length");
  await tryLooks(browser, "cut");
  if (browser.call) await tryReader(browser);
  if (browser.call && FOLDER) await takePicture(browser);
  await tryLong(browser);
  await tryTooLong(browser);
  must(browser.reports().length === 0, `the browser reports ${JSON.stringify(browser.reports())}`);
  console.log(`page: ${CASES.length + 25} files, ${browser.drop ? "dropped or chosen" : "chosen"}, in ${browser.name}`);
}

async function main() {
  for (const [program, start] of [["chromium", chromium], ["firefox-esr", firefox]]) {
    if (spawnSync(program, ["--version"], {env: {...process.env, HOME: work}}).status !== 0) {
      console.log(`page: passed over, since ${program} isn't here`);
      continue;
    }
    const browser = await start({profile: path.join(work, program), saved: path.join(work, "saved")});
    try {
      await tryIn(browser);
    } catch (error) {
      throw new Error(`${browser.name}: ${error.message}`);
    } finally {
      await browser.close();
    }
  }
}

// Node 20 has WebSocket only with this flag.
if (!globalThis.WebSocket && !process.execArgv.length) {
  fs.rmSync(work, {recursive: true});
  process.exit(
    spawnSync(process.execPath, ["--experimental-websocket", ...process.argv.slice(1)], {stdio: "inherit"}).status);
}
main()
  .catch((error) => {
    console.error(`page: FAILED: ${error.message}`);
    process.exitCode = 1;
  })
  .finally(() => fs.rmSync(work, {recursive: true, force: true, maxRetries: 5}));
