#!/usr/bin/env node
// Tries bindings/js/page/record.html in Chromium and Firefox, as `hound_bindings serve` serves it. The microphone is
// made here: its samples say their number. Browsers, tabs and all processes are killed while they record; then the page
// is opened again, and what it saves has to have each sample up to the last checkpoint that it had reported, in order,
// and nothing else. What else may happen to a recording is tried, too, and wrong versions of the page have to be found.
// A browser that isn't here is named and passed over.
//   scripts/try_recording.mjs [--kills COUNT] [--pictures FOLDER] [--only BROWSER] [--parts WORD,..]
//   (the parts are conditions, disk, wrong and kills, of which there are 10 unless COUNT is given)
import {spawn, spawnSync} from "node:child_process";
import fs from "node:fs";
import os from "node:os";
import path from "node:path";
import {fileURLToPath} from "node:url";
import {parseArgs} from "node:util";
import {chromium, contrasts, firefox, must, once, pause, until} from "./browsers.mjs";

const string = {type: "string"}, {values: {kills, pictures, only, parts}} = parseArgs(
  {options: {kills: {...string, default: "10"}, pictures: string, only: string, parts: string}});
const COMMAND = fileURLToPath(new URL("../bindings/js/command.js", import.meta.url));
const PORT = 20000 + process.pid % 10000, URL_OF_PAGE = `http://127.0.0.1:${PORT}/record.html`;
const PAGE = fs.readFileSync(path.join(path.dirname(COMMAND), "page", "record.html"), "utf8");
const work = fs.mkdtempSync(path.join(os.tmpdir(), "try_recording-"));
// So many frames have numbers of their own, at this rate.
const [NUMBERS, RATE] = [2 ** 20, 48000];

/**
 * In the page, before its scripts: a microphone that says the numbers of its samples, a line for each checkpoint that
 * is reported, and edits of the texts of the worker and the audio thread.
 */
function prepare(count, rate, edits) {
  if (!navigator.mediaDevices || location.protocol !== "http:") return;
  navigator.mediaDevices.getUserMedia = async () => {
    const {stream} = new MediaStreamAudioDestinationNode(new AudioContext());
    [globalThis.track] = stream.getAudioTracks();
    track.getSettings = () => ({sampleRate: rate, channelCount: 2});
    return stream;
  };
  AudioContext.prototype.createMediaStreamSource = function() {
    const buffer = new AudioBuffer({length: count, numberOfChannels: 2, sampleRate: rate});
    for (const sign of [1, -1])
      buffer.copyToChannel(Float32Array.from({length: count}, (_, i) => sign * i / 2 ** 23), (1 - sign) / 2);
    const source = new AudioBufferSourceNode(this, {buffer, loop: true});
    source.start();
    return source;
  };
  const edited = (text) => edits.reduce((all, [from, to]) => all.replace(from, to), text);
  globalThis.Blob = class extends Blob {
    constructor(parts = [], options = {}) {
      super(parts.map((part) => typeof part === "string" ? edited(part) : part), options);
    }
  };
  addEventListener("DOMContentLoaded", () => {
    const stored = document.getElementById("stored");
    new MutationObserver(() => console.info(`stored ${stored.dataset.frames}`)).observe(stored, {
      attributes: true,
      attributeFilter: ["data-frames"]
    });
  });
}

function preparation(edits) {
  for (const [from] of edits) must(PAGE.includes(from), `the page has no text ${from}`);
  return `(${prepare})(${NUMBERS}, ${RATE}, ${JSON.stringify(edits)})`;
}

// The page with a checkpoint each tenth of a second, so that kills meet more of them.
const FAST = [["[EVERY, RETRY] = [1e3, 1e3]", "[EVERY, RETRY] = [100, 1e3]"]];
const alive = (group) =>
  fs.readdirSync("/proc").filter((name) => /^\d+$/.test(name)).map(Number).filter((id) => belongs(id, group));

/** Whether a process is of a group, or looks after the crashes of its first one. */
function belongs(id, group) {
  try {
    const [state, , groupOfIt] = fs.readFileSync(`/proc/${id}/stat`, "latin1").replace(/^.*\) /, "").split(" ");
    return state !== "Z" && Number(groupOfIt) === group ||
      fs.readFileSync(`/proc/${id}/cmdline`, "latin1").includes(`crashhelper\0${group}\0`);
  } catch {
    return false;
  }
}

function kill(id) {
  try {
    process.kill(id, "SIGKILL");
  } catch {} // It has ended.
}

const started = new Set(), onStart = (child) => started.add(child);

/** Ends all processes of a browser that are left. */
async function killAll({child}) {
  await until(() => {
    alive(child.pid).forEach(kill);
    return alive(child.pid).length === 0;
  });
  started.delete(child);
}
process.on("exit", () => started.forEach(({pid}) => alive(pid).forEach(kill)));
for (const signal of ["SIGINT", "SIGTERM"]) process.on(signal, () => process.exit(1));

/** What is tried in both browsers, and what isn't the same in them. */
const BROWSERS = [
  {
    program: "chromium",
    share: 0.6, // Of the kills, each of which takes more time in Firefox.
    async start({profile, saved}, edits, isReal) {
      const asked = ["--use-fake-device-for-media-stream", ...(isReal ? [] : ["--use-fake-ui-for-media-stream"])];
      const flags = ["--no-first-run", "--disable-extensions", "--autoplay-policy=no-user-gesture-required", ...asked];
      return chromium({profile, saved, flags, onStart, preload: isReal ? "" : preparation(edits), detached: true});
    },
    /** The processes that have the tabs. */
    async tabs({send}) {
      const {processInfo} = await send("SystemInfo.getProcessInfo");
      return processInfo.filter(({type}) => type === "renderer").map(({id}) => id);
    },
    again: (profile) => profile,
  },
  {
    program: "firefox-esr",
    share: 0.4,
    async start({profile, saved}, edits) {
      const settings = {
        "media.autoplay.default": 0,
        "media.autoplay.blocking_policy": 0,
        "media.autoplay.block-webaudio": false,
        "media.cubeb.force_mock_context": true, // A computer for tests may have no sound card.
        "browser.startup.page": 0,
        "browser.shell.checkDefaultBrowser": false,
        "browser.aboutwelcome.enabled": false,
        "datareporting.policy.dataSubmissionEnabled": false,
        "app.update.disabledForTesting": true,
      };
      const preload = `() => ${preparation(edits)}`;
      return firefox({profile, saved, settings, preload, onStart, hasDisplay: false, detached: true});
    },
    async tabs({child}) {
      const hasWorker = (id) => threads(id).some((name) => name.startsWith("DOM Worker"));
      return alive(child.pid).filter((id) => id !== child.pid && hasWorker(id));
    },
    /** A profile with the same storage, since its protocol doesn't always work in one whose browser was killed. */
    again(profile) {
      const next = profile.replace(/\d+$/, (number) => Number(number) + 1);
      fs.mkdirSync(next);
      for (const name of ["storage", "storage.sqlite", "storage.sqlite-journal"])
        if (fs.existsSync(path.join(profile, name))) fs.renameSync(path.join(profile, name), path.join(next, name));
      fs.rmSync(profile, {recursive: true, force: true, maxRetries: 5});
      return next;
    },
  },
];

function threads(id) {
  try {
    return fs.readdirSync(`/proc/${id}/task`).map((one) => fs.readFileSync(`/proc/${id}/task/${one}/comm`, "latin1"));
  } catch {
    return [];
  }
}

/** A browser with a profile, on the page. A start that says nothing for a minute is ended, and tried again. */
async function open(kind, profile, edits = [], isReal = false) {
  const saved = path.join(path.dirname(profile), "saved");
  for (let attempts = 3;; attempts--) {
    const starting = kind.start({profile, saved}, edits, isReal);
    const browser = await Promise.race([starting, pause(60000)]);
    const onLine = (line) => hear(browser, line);
    if (browser) return Object.assign(browser, {kind, profile, saved, stored: 0, onLine});
    starting.then(killAll, () => {});
    if (attempts === 1) throw new Error("the browser doesn't start");
    profile = kind.again(profile);
  }
}

function hear(browser, line) {
  const [, frames] = /^stored (\d+)$/.exec(line) ?? [];
  if (frames) browser.stored = Math.max(browser.stored, Number(frames));
}

const shows = (tab, id) => tab.evaluate(`document.getElementById("${id}").textContent.trim()`);
const phase = (tab, name) => once(tab, `document.body.dataset.phase === "${name}"`, `the page is ${name}`);

async function show(tab) {
  await tab.show(URL_OF_PAGE);
  await once(tab, `location.href !== "about:blank" && document.readyState === "complete"`, "the page is there");
  await phase(tab, "ready");
}

/** Clicks: in Firefox by a call, because its protocol was seen to answer nothing to a click on a busy computer. */
const click = (tab, selector) =>
  tab.call ? tab.click(selector) : tab.evaluate(`document.querySelector(${JSON.stringify(selector)}).click()`);

async function startRecording(tab) {
  await click(tab, "#record");
  await phase(tab, "recording");
}

async function stopRecording(tab) {
  await click(tab, "#stop");
  await phase(tab, "ready");
}

const rows = (tab) => tab.evaluate(`[...document.querySelectorAll("#list li")].map((row) => row.innerText)`);
const press = (tab, row, text) => click(tab, `#list li:nth-child(${row}) button[aria-label^="${text}"]`);

/** Saves a recording, and returns what is in the file. */
async function save(tab, row = 1) {
  const {saved} = tab;
  fs.rmSync(saved, {recursive: true, force: true});
  fs.mkdirSync(saved);
  await press(tab, row, "Save");
  const names = () => fs.readdirSync(saved).filter((name) => name.endsWith(".wav"));
  const file = await until(() => names().find((name) => isComplete(path.join(saved, name))));
  must(file, `nothing is saved: ${fs.readdirSync(saved)}`);
  return read(fs.readFileSync(path.join(saved, file)));
}

/** Whether a file has all bytes that its first eight ones announce. */
function isComplete(file) {
  const bytes = fs.readFileSync(file);
  return bytes.length > 8 && bytes.length >= bytes.readUInt32LE(4) + 8;
}

/**
 * Reads a WAV file of two channels in 24 bits by what the format says, and nothing of this project: how many frames it
 * has, the numbers of the first and the last one, and where a frame isn't the next one.
 */
function read(bytes) {
  must(bytes.toString("latin1", 0, 4) + bytes.toString("latin1", 8, 16) === "RIFFWAVEfmt ", "no WAV file is saved");
  must(bytes.readUInt32LE(4) + 8 === bytes.length, "its RIFF size is another one");
  must(bytes.readUInt16LE(22) === 2 && bytes.readUInt32LE(24) === RATE && bytes.readUInt16LE(34) === 24, "its format");
  const at = 20 + bytes.readUInt32LE(16), length = bytes.readUInt32LE(at + 4);
  must(bytes.toString("latin1", at, at + 4) === "data" && at + 8 + length + length % 2 === bytes.length, "its data");
  const frames = length / 6, numberOf = (i) => bytes.readIntLE(at + 8 + 6 * i, 3), breaks = [];
  for (let i = 0; i < frames; i++) {
    const isNext = i === 0 || numberOf(i) === (numberOf(i - 1) + 1) % NUMBERS;
    if (!isNext || bytes.readIntLE(at + 11 + 6 * i, 3) !== -numberOf(i)) breaks.push(i);
  }
  return {frames, breaks, first: frames && numberOf(0), last: frames && numberOf(frames - 1)};
}

async function removeAll(tab) {
  for (let left; (left = (await rows(tab)).length) > 0;) {
    await press(tab, 1, "Delete");
    await once(tab, `document.getElementById("dialog").open`, "it asks");
    await click(tab, "#delete");
    await once(tab, `document.querySelectorAll("#list li").length === ${left - 1}`, "it is deleted");
  }
}

const clock = (frames) => {
  const seconds = Math.floor(frames / RATE);
  return `${Math.floor(seconds / 60)}:${String(seconds % 60).padStart(2, "0")}`;
};

/** Kills a browser, its tab or all its processes, and returns it or the next one, on the page. */
async function killAndOpen(browser, how) {
  const {kind, child} = browser;
  if (how === "browser") kill(child.pid);
  else if (how === "tab") (await kind.tabs(browser)).forEach(kill);
  else alive(child.pid).forEach(kill);
  if (how === "tab") await pause(300); // Lines that were written before still come.
  browser.isOver = true;
  const {stored} = browser;
  await killAll(browser);
  const next = await open(kind, kind.again(browser.profile), browser.edits);
  await show(next);
  return Object.assign(next, {edits: browser.edits, storedBefore: stored});
}

/** Looks at what is left of a recording of which so many frames were reported as stored, and deletes it. */
async function check(browser, stored) {
  const said = await shows(browser, "said"), all = await rows(browser);
  if (stored === 0 && all.every((row) => row.includes("no sound"))) return await removeAll(browser), {frames: 0};
  must(all.length === 1, `${stored} frames were reported, and the list is ${JSON.stringify(all)}`);
  const found = await save(browser);
  must(found.breaks.length === 0, `frames ${found.breaks.slice(0, 5)} are wrong of ${found.frames}`);
  must(found.frames >= stored, `${stored} frames were reported, and ${found.frames} come back`);
  must(said === `1 recording was cut off: all ${clock(found.frames)} that were stored are here.`, `it says ${said}`);
  await removeAll(browser);
  return found;
}

const WAYS = ["browser", "all", "tab"];

/** A browser with a new profile, on the page. */
async function openNew(kind, edits = [], isReal = false, folder = fs.mkdtempSync(path.join(work, `${kind.program}-`))) {
  const browser = Object.assign(await open(kind, path.join(folder, "0"), edits, isReal), {edits});
  await show(browser);
  return browser;
}

/** Kills while it records: at once when a checkpoint is reported, or at some time after it. */
async function tryKills(kind, count, edits = []) {
  const sums = {kills: 0, frames: 0, beyond: 0};
  let browser = await openNew(kind, edits);
  for (let round = 0; round < count; round++) {
    browser.stored = 0;
    await startRecording(browser);
    const checkpoints = [1, 2, 0, 3][round % 4], wait = round % 2 ? 0 : Math.random() * 1200;
    for (let i = 0, last = 0; i < checkpoints; i++) last = await until(() => browser.stored > last && browser.stored);
    await pause(wait);
    browser = await killAndOpen(browser, WAYS[round % 3]);
    const {frames} = await check(browser, browser.storedBefore).catch((error) => {
      throw new Error(`kill ${round + 1} (${WAYS[round % 3]}): ${error.message}`);
    });
    sums.kills++;
    sums.frames += frames;
    sums.beyond = Math.max(sums.beyond, frames - browser.storedBefore);
    if (sums.kills % 20 === 0) console.log(`recording: ${sums.kills} kills so far`);
  }
  await killAll(browser);
  const how = edits.length ? " with a checkpoint each 0.1 s" : "", seconds = (frames) => (frames / RATE).toFixed(2);
  console.log(`recording: ${sums.kills} kills in ${browser.name}${how}, after which all ${
    seconds(sums.frames)} s were right, and at most ${seconds(sums.beyond)} s of one were more than reported`);
}

/** How many frames the page of a tab reports as stored. */
const storedIn = (tab) => tab.evaluate(`Number(document.getElementById("stored").dataset.frames ?? 0)`);

/** Waits until a tab reports more frames as stored than these, and returns how many. */
const moreThan = (tab, frames) => until(async () => {
  const stored = await storedIn(tab);
  return stored > frames && stored;
});

const says = (tab, text, what) =>
  once(tab, `document.getElementById("said")?.textContent.includes(${JSON.stringify(text)})`, what);

/** The only recording that is left is whole, and has at least so many frames, in order. */
async function mustBeWhole(tab, frames, breaks = 0) {
  const all = await rows(tab);
  must(all.length === 1 && all[0].includes("whole"), `the list is ${JSON.stringify(all)}`);
  const found = await save(tab);
  must(found.breaks.length === breaks, `frames ${found.breaks.slice(0, 5)} are wrong of ${found.frames}`);
  must(found.frames >= frames, `${found.frames} frames are left of ${frames}`);
  return found;
}

/** A recording with a pause, which is looked at, saved, played and deleted. */
async function tryPause(tab) {
  await tryLooks(tab, "ready");
  await startRecording(tab);
  const before = await moreThan(tab, 0);
  await tryLooks(tab, "recording");
  await click(tab, "#pause");
  await phase(tab, "paused");
  const paused = await until(async () => { // The last blocks are stored, and then nothing is.
    const stored = await storedIn(tab);
    await pause(1000);
    return stored === await storedIn(tab) && stored;
  });
  must(paused >= before, `${paused} frames are stored after ${before} were`);
  await pause(1500);
  must(await storedIn(tab) === paused, "nothing is stored in a pause");
  await click(tab, "#pause");
  const after = await moreThan(tab, paused);
  await stopRecording(tab);
  const {frames, breaks} = await mustBeWhole(tab, after, 1);
  must(Math.abs(breaks[0] - paused) < RATE / 5, `the pause is at frame ${breaks[0]}, and not at ${paused}`);
  await press(tab, 1, "Play");
  const length = `document.querySelector("#list audio")?.duration`;
  await once(tab, `Math.abs(${length} - ${frames / RATE}) < 0.01`, "the player's length");
  await tryLooks(tab, "list");
  await press(tab, 1, "Delete");
  await once(tab, `document.getElementById("dialog").open`, "it asks");
  await click(tab, "#cancel");
  must((await rows(tab)).length === 1, "what isn't to be deleted is kept");
}

/** Two tabs, each of which records, and can't touch the recording of the other one. */
async function tryTabs(tab) {
  const other = await tab.another();
  await startRecording(tab);
  await moreThan(tab, 0);
  await show(other);
  const [row] = await rows(other);
  must(/is recorded now, in another tab$/.test(row), `the other tab lists ${row}`);
  const buttons = (count) => `document.querySelectorAll("#list button").length === ${count}`;
  must(await other.evaluate(buttons(0)), "the other tab has buttons for what is recorded");
  await startRecording(other);
  const stored = [await moreThan(other, RATE), await moreThan(tab, RATE)];
  await stopRecording(other);
  await stopRecording(tab);
  for (const one of [tab, other]) await once(one, buttons(6), "each tab shows both recordings when they have ended");
  for (const row of [1, 2]) {
    const {frames, breaks} = await save(tab, row);
    must(breaks.length === 0, `recording ${row}: frames ${breaks.slice(0, 5)} are wrong`);
    must(frames >= Math.min(...stored), `recording ${row} has ${frames} frames of ${stored}`);
  }
}

/** A disk that is full, and has room again; then one that stays full, so that the recording is given up. */
async function tryFull(tab) {
  const {origin} = new URL(URL_OF_PAGE), setRoom = async (room) => {
    const {usage} = await tab.evaluate("navigator.storage.estimate()");
    await tab.call("Storage.overrideQuotaForOrigin", {origin, ...(room !== undefined && {quotaSize: usage + room})});
  };
  await startRecording(tab);
  await moreThan(tab, 0);
  await setRoom(100000);
  await says(tab, "The disk is full: free some space. Nothing is lost yet", "the disk is full");
  const stored = await storedIn(tab);
  await pause(2000);
  await setRoom();
  await says(tab, "It is stored again.", "there is room again");
  const more = await moreThan(tab, stored + 2 * RATE);
  await stopRecording(tab);
  await mustBeWhole(tab, more);
  await removeAll(tab);
  await startRecording(tab);
  await moreThan(tab, 0);
  await setRoom(100000);
  await giveUp(tab);
  await setRoom();
}

/** The disk is full: the recording is stopped, waits for room, and is given up. */
async function giveUp(tab) {
  await says(tab, "The disk is full: free some space. Nothing is lost yet", "the disk is full");
  await click(tab, "#stop");
  await phase(tab, "ending");
  await once(tab, `document.getElementById("give-up").checkVisibility()`, "the rest can be given up");
  await click(tab, "#give-up");
  await phase(tab, "ready");
  const said = await shows(tab, "said"), [, stored] = /^(\d+:\d\d) are stored\. \d+\.\d s are lost\.$/.exec(said) ?? [];
  must(stored, `it says ${said}`);
  const {frames} = await mustBeWhole(tab, 0);
  must(clock(frames) === stored, `${stored} are said to be stored, and ${clock(frames)} are`);
}

/** The microphone is unplugged. */
async function tryUnplugged(tab) {
  await startRecording(tab);
  const stored = await moreThan(tab, 0);
  await tab.evaluate(`(track.dispatchEvent(new Event("ended")), 0)`);
  await phase(tab, "ready");
  must((await shows(tab, "said")).startsWith("The microphone is gone"), `it says ${await shows(tab, "said")}`);
  await mustBeWhole(tab, stored);
}

/** The computer sleeps for some seconds while it records. */
async function trySleep(tab) {
  const slept = 4;
  await startRecording(tab);
  await moreThan(tab, RATE);
  const ids = alive(tab.child.pid);
  for (const id of ids) process.kill(id, "SIGSTOP");
  await pause(1000 * slept);
  for (const id of ids) process.kill(id, "SIGCONT");
  const note = await until(async () => {
    const notes = await shows(tab, "notes"), all = notes.match(/\d+\.\d\d(?= s are missing at 0:\d\d\.)/g) ?? [];
    return all.find((seconds) => seconds >= slept - 0.5); // A busy computer may lose some before that, too.
  });
  must(note <= slept + 2, `of ${slept} s it says that these are missing: ${await shows(tab, "notes")}`);
  await stopRecording(tab);
  await mustBeWhole(tab, 0);
}

/** A worker that does nothing for 3 s, while blocks wait for it. */
const STALL = [[
  "await this.#recorder.write(", `if (this.#written > 48000 && !this.wasBusy) {
    for (const end = Date.now() + 3000; Date.now() < end; this.wasBusy = true);
  }
  await this.#recorder.write(`
]];
async function tryStall(tab) {
  await startRecording(tab);
  const stored = await moreThan(tab, 5 * RATE);
  await stopRecording(tab);
  await mustBeWhole(tab, stored);
}

/** A sync that fails: the recording continues in another file, from the last checkpoint on. */
const FAILING = [[
  "return opened.at(-1).handle",
  `return opened.length > 1 ? opened.at(-1).handle : Object.assign(opened[0].handle, {flush() {
    this.count = (this.count ?? 0) + 1;
    if (this.count === 7) throw new Error("the disk has a fault");
    FileSystemSyncAccessHandle.prototype.flush.call(this);
  }})`
]];
async function tryFailedSync(tab) {
  await startRecording(tab);
  await says(tab, "Nothing can be stored: the disk has a fault. Nothing is lost yet", "a sync has failed");
  await says(tab, "It is stored again.", "it continues");
  await moreThan(tab, 5 * RATE);
  await stopRecording(tab);
  const all = await rows(tab), second = all.findIndex((row) => row.includes("part 2")) + 1;
  must(all.length === 2 && second > 0, `the list is ${JSON.stringify(all)}`);
  const [one, two] = [await save(tab, 3 - second), await save(tab, second)];
  must(one.breaks.length + two.breaks.length === 0, `wrong are ${one.breaks} and ${two.breaks}`);
  must(two.first <= one.last + 1 && two.last > one.last, `${one.last} is followed by ${two.first} to ${two.last}`);
}

/** What a real browser's question about the microphone is answered, and taken back. */
async function tryDenied(tab) {
  const set = (setting) =>
    tab.send("Browser.setPermission", {permission: {name: "microphone"}, setting, origin: new URL(URL_OF_PAGE).origin});
  await set("denied");
  await click(tab, "#record");
  await says(tab, "This page may not use the microphone", "it isn't allowed");
  await phase(tab, "ready");
  must((await rows(tab)).length === 0, "nothing is begun");
  await set("granted");
  await startRecording(tab);
  await moreThan(tab, 0);
  await set("denied");
  await says(tab, "The microphone is gone, or may not be used any more", "it is taken back");
  await phase(tab, "ready");
  const [row, ...others] = await rows(tab);
  must(others.length === 0 && row.includes("whole"), `the list is ${row}, ${others}`);
}

/** Opened from the disk, where Chromium has no private file system. */
async function tryFromDisk(tab) {
  await tab.show(`file://${path.join(path.dirname(COMMAND), "page", "record.html")}`);
  const served = "run npx hound_bindings serve, or hound-wav serve, and open the address it prints.";
  await says(tab, `opened from the disk. To record, this page has to be served: ${served}`, "it says how it is served");
}

/** Leaves a picture in the folder. */
function keep(name, picture) {
  if (!pictures) return;
  fs.mkdirSync(pictures, {recursive: true});
  fs.writeFileSync(path.join(pictures, name), Buffer.from(picture, "base64"));
}

/** The page as it looks on a screen and a phone: no text is pale, nothing is wider, each control has a name. */
async function tryLooks(tab, what) {
  for (const [name, width] of [["wide", 800], ["phone", 360]]) {
    await tab.resize(width);
    for (const scheme of tab.schemes) {
      await tab.setScheme(scheme);
      await pause(200);
      const widest = await tab.evaluate("document.documentElement.scrollWidth");
      must(widest <= width, `${what}, ${name}: wider than the window`);
      const low = await tab.evaluate(`(${contrasts})()`);
      must(low.length === 0, `${what}, ${name}, ${scheme}: too little contrast: ${low}`);
      keep(`${tab.kind.program} ${what} ${name} ${scheme}.png`, await tab.picture());
    }
  }
  await tab.resize(1000);
  if (!tab.call) return;
  const {nodes} = await tab.call("Accessibility.getFullAXTree");
  const named = ["button", "link", "combobox", "meter", "timer", "audio", "dialog"];
  const unnamed =
    nodes.filter(({role, name, ignored}) => !ignored && named.includes(role?.value.toLowerCase()) && !name?.value);
  must(unnamed.length === 0, `${what}: a screen reader has no name for ${JSON.stringify(unnamed)}`);
}

const disks = new Set();
const unmount = (folder) => spawnSync("umount", ["--lazy", folder]);

/** Fills a disk with a file, but for half a MiB or what the browser leaves of that. */
function fill(disk, file) {
  const left = ({bavail, bsize} = fs.statfsSync(disk)) => bavail * bsize;
  try {
    while (left() > 2 ** 19) fs.appendFileSync(file, Buffer.alloc(Math.min(left() - 2 ** 19, 2 ** 20)));
  } catch (error) {
    if (error.code !== "ENOSPC") throw error;
  }
}

/** A real disk that is full while it records, and has room again: one of memory, where this system makes one. */
async function tryDisk(kind) {
  const folder = fs.mkdtempSync(path.join(work, "disk-")), filler = path.join(folder, "filler");
  if (spawnSync("mount", ["-t", "tmpfs", "-o", "size=400m", "none", folder]).status !== 0) {
    return console.log(`recording: passed over, since no disk can be mounted: a full disk in ${kind.program}`);
  }
  disks.add(folder);
  const browser = await openNew(kind, [], false, folder);
  try {
    await startRecording(browser);
    await moreThan(browser, 0);
    fill(folder, filler);
    await says(browser, "The disk is full: free some space. Nothing is lost yet", "the disk is full");
    const stored = await storedIn(browser);
    await pause(3000);
    fs.rmSync(filler);
    await says(browser, "It is stored again.", "there is room again");
    const more = await moreThan(browser, stored + 2 * RATE);
    await stopRecording(browser);
    await mustBeWhole(browser, more);
  } catch (error) {
    throw new Error(`${kind.program}, a disk that is full: ${error.message}`);
  } finally {
    await killAll(browser);
    unmount(folder);
  }
  console.log(`recording: a disk that is full, and has room again, in ${kind.program}`);
}

// What is tried in each browser but kills: its name, what is done, edits of the page, and whether only Chromium's
// protocol can do it.
const CONDITIONS = [
  ["a pause", tryPause], ["two tabs", tryTabs], ["a microphone that is unplugged", tryUnplugged],
  ["a computer that sleeps", trySleep], ["a worker that is busy for 3 s", tryStall, STALL],
  ["a sync that fails", tryFailedSync, FAILING], ["a full disk", tryFull, [], "chromium"],
  ["a microphone that is denied", tryDenied, null, "chromium"], ["a page from the disk", tryFromDisk, [], "chromium"]
];

async function tryConditions(kind) {
  const tried = CONDITIONS.filter(([, , , one]) => !one || one === kind.program);
  for (const [name, attempt, edits = []] of tried) {
    const browser = await openNew(kind, edits ?? [], edits === null);
    try {
      await attempt(browser);
      const reports = browser.reports().filter(({params}) => params.request?.url !== URL_OF_PAGE);
      must(reports.length === 0, `the browser reports ${JSON.stringify(reports)}`);
    } catch (error) {
      throw new Error(`${kind.program}, ${name}: ${error.message}`);
    } finally {
      await killAll(browser);
    }
  }
  console.log(`recording: ${tried.map(([name]) => name).join(", ")}, in ${kind.program}`);
}

// Wrong pages: what is reported is in memory alone, or follows no header. A kill has to show it.
const TELL_ALL = ["counted: this.#counted, missing", "counted: came, missing"];
const LATE_HEADER = `return ((handle, front) => ({
  getSize: () => handle.getSize(),
  read: (bytes, {at}) => at < 68 ? (bytes.set(front.subarray(at, at + bytes.length)), Math.min(bytes.length, 68 - at)) :
                                   handle.read(bytes, {at}),
  write: (bytes, {at}) => at < 68 ? (front.set(bytes, at), bytes.length) : handle.write(bytes, {at}),
  truncate: (size) => handle.truncate(size),
  flush: () => handle.flush(),
  close: () => (handle.write(front, {at: 0}), handle.close()),
}))(opened.at(-1).handle, new Uint8Array(68))`;
const WRONG = [
  [
    "the sound is in memory until the end, as in most recorders of pages", [
      TELL_ALL,
      ["while (this.#waiting.length > 0)\n", "while (this.#isEnding && this.#waiting.length > 0)\n"],
      ["} while (this.#waiting.length > 0)", "} while (this.#isEnding && this.#waiting.length > 0)"],
    ]
  ],
  [
    "it is reported before it is written", [
      TELL_ALL,
      ["await this.#recorder.write(", "await pause(this.#written > 24000 ? 700 : 0), await this.#recorder.write("],
    ]
  ],
  ["the header is written at the end", [["return opened.at(-1).handle", LATE_HEADER]]],
];

async function tryWrong(kind) {
  for (const [what, edits] of WRONG) {
    const browser = await openNew(kind, edits);
    await startRecording(browser);
    await moreThan(browser, 1.5 * RATE);
    const next = await killAndOpen(browser, "all");
    const found = await check(next, next.storedBefore).then(() => null, (error) => error);
    await killAll(next);
    must(found, `a page isn't found to be wrong: ${what}`);
  }
  console.log(`recording: ${WRONG.length} wrong pages are found in ${kind.program}`);
}

async function serving() {
  const server = spawn(process.execPath, [COMMAND, "serve", "--port", PORT], {stdio: ["ignore", "pipe", "inherit"]});
  process.on("exit", () => server.kill());
  await new Promise((resolve, reject) => (server.stdout.once("data", resolve), server.once("exit", reject)));
}

/** Takes the picture of the page: it records after a recording that was cut off. */
async function takePicture(kind) {
  let browser = await openNew(kind);
  await startRecording(browser);
  await moreThan(browser, 37 * RATE);
  browser = await killAndOpen(browser, "all");
  await browser.resize(800, 860, 1);
  await browser.setScheme("light");
  await startRecording(browser);
  await moreThan(browser, 12 * RATE);
  await browser.evaluate("scrollTo(0, 0)");
  keep("record.png", await browser.picture());
  await killAll(browser);
}

/** All that is tried in a browser. */
async function tryIn(kind) {
  const isTried = (part) => !parts || parts.split(",").includes(part);
  if (isTried("conditions")) await tryConditions(kind);
  if (isTried("disk")) await tryDisk(kind);
  if (isTried("wrong") && kind.program === "chromium") await tryWrong(kind);
  if (pictures && kind.program === "chromium") await takePicture(kind);
  if (!isTried("kills")) return;
  const count = Math.round(kind.share * kills);
  await tryKills(kind, Math.ceil(count / 2));
  await tryKills(kind, Math.floor(count / 2), FAST);
}

async function main() {
  const chosen = BROWSERS.filter(({program}) => !only || program.includes(only));
  const isThere = ({program}) => spawnSync(program, ["--version"], {env: {...process.env, HOME: work}}).status === 0;
  const here = chosen.filter(isThere);
  for (const {program} of chosen.filter((kind) => !here.includes(kind))) {
    console.log(`recording: passed over, since ${program} isn't here`);
  }
  await serving();
  await Promise.all(here.map(tryIn)); // At the same time, because most of it is waiting.
}

// Node 20 has WebSocket only with this flag.
if (!globalThis.WebSocket && !process.execArgv.length) {
  fs.rmSync(work, {recursive: true});
  process.exit(
    spawnSync(process.execPath, ["--experimental-websocket", ...process.argv.slice(1)], {stdio: "inherit"}).status);
}
main()
  .catch((error) => {
    console.error(`recording: FAILED: ${error.message}`);
    process.exitCode = 1;
  })
  .finally(() => {
    started.forEach(({pid}) => alive(pid).forEach(kill));
    disks.forEach(unmount);
    fs.rmSync(work, {recursive: true, force: true, maxRetries: 5});
    process.exit();
  });
