// The page: its buttons, what it says, and the list of recordings. The worker has the files.
const element = (id) => document.getElementById(id);
const [device, rate, form, recordButton, pauseButton, stopButton, giveUpButton, player, dialog] =
  ["device", "rate", "form", "record", "pause", "stop", "give-up", "player", "dialog"].map(element);

// How long something is waited for that a browser may never say, in milliseconds; and how many places are named where
// sound is missing.
const [PATIENCE, PLACES] = [2000, 5];
const pause = (milliseconds, value) => new Promise((resolve) => setTimeout(resolve, milliseconds, value));
const within = (promise, otherwise) => Promise.race([promise, pause(PATIENCE, otherwise)]);

/** The address of a script that is in this page as text. */
const addressOf = (id) => URL.createObjectURL(new Blob([element(id).textContent], { type: "text/javascript" }));

// The worker, and the calls of it that aren't answered yet.
const worker = new Worker(addressOf("worker")), pending = new Map();
let lastCall = 0;

function ask(call, given = {}, ports = []) {
  return new Promise((resolve, reject) => {
    pending.set(++lastCall, { resolve, reject });
    worker.postMessage({ id: lastCall, call, given }, ports);
  });
}

function answer({ id, result, error }) {
  const { resolve, reject } = pending.get(id);
  pending.delete(id);
  if (error) reject(Object.assign(new Error(error.message), error));
  else resolve(result);
}

worker.onmessage = ({ data }) => data.state ? showState(data.state) : data.ended ? ended(data.ended) : answer(data);
worker.onerror = ({ message }) => say(`Something failed: ${message}. Reload the page: what was stored is kept.`, "bad");

// What is recorded now; nothing otherwise. The other tabs with this page know when the list changes.
const tabs = new BroadcastChannel("recordings");
let session;

function clock(seconds) {
  const whole = Math.floor(seconds), hours = Math.floor(whole / 3600), two = (n) => String(n).padStart(2, "0");
  const minutes = Math.floor(whole / 60) % 60;
  return hours ? `${hours}:${two(minutes)}:${two(whole % 60)}` : `${minutes}:${two(whole % 60)}`;
}

function say(text, kind = "") {
  element("said").textContent = text;
  element("said").className = kind;
}

// What is said of an error of the browser, by its name.
const REASONS = {
  NotAllowedError: "This page may not use the microphone: allow it in the browser's settings for this page.",
  NotFoundError: "There is no microphone.",
  OverconstrainedError: "This microphone isn't there any more: choose another one.",
  NotReadableError: "The microphone can't be used: another program may have it.",
  NotSupportedError: "This browser can't record at this rate: choose another one.",
  QuotaExceededError: "There is no space for a recording: free some.",
};
const reasonOf = ({ name, message }) => REASONS[name] ?? message;

/** Shows how far the recording is. */
function showState({ frames, counted, missing, fault, peak, isLoud }) {
  if (!session) return;
  const timeOf = (frame) => clock(frame / session.sampleRate);
  element("time").textContent = timeOf(frames);
  element("stored").textContent = `Stored up to ${timeOf(counted)}`;
  element("stored").dataset.frames = counted;
  showLevel(peak, isLoud);
  if (missing.length !== session.missing) showMissing(missing, timeOf);
  if (Boolean(fault) !== session.isFaulty) showFault(fault, timeOf(counted));
}

/** Names what is missing, and of many places only the last one. */
function showMissing(missing, timeOf) {
  session.missing = missing.length;
  const each = missing.map(({ frame, seconds }) => `${seconds.toFixed(2)} s are missing at ${timeOf(frame)}.`);
  const total = missing.reduce((sum, { seconds }) => sum + seconds, 0), last = missing.at(-1);
  const texts = missing.length <= PLACES ? each :
    [`${total.toFixed(2)} s are missing at ${missing.length} places, the last one at ${timeOf(last.frame)}.`];
  const rows = texts.map((textContent) => Object.assign(document.createElement("li"), { textContent }));
  element("notes").replaceChildren(...rows);
}

function showFault(fault, stored) {
  session.isFaulty = Boolean(fault);
  show(session.phase);
  // Firefox throws nothing on a full disk: then the medium doesn't hold what was written.
  const isFull = fault?.name === "QuotaExceededError" || fault?.code === "NOT_PERFORMED";
  const why = isFull ? "The disk is full: free some space." : `Nothing can be stored: ${fault?.message}.`;
  if (fault) say(`${why} Nothing is lost yet: what follows ${stored} is in memory, and is stored as soon as that works.`, "bad");
  else say("It is stored again.", "good");
}

/** The level in decibels, which falls slowly so that it can be read; that it is too loud stays for a while. */
function showLevel(peak, isLoud) {
  const meter = element("level"), level = Math.max(-60, 20 * Math.log10(peak || 1e-3), (session.level ?? -60) - 1);
  session.level = level;
  meter.firstElementChild.style.width = `${100 * (level + 60) / 60}%`;
  meter.setAttribute("aria-valuenow", level.toFixed(0));
  if (isLoud) session.loudUntil = performance.now() + PATIENCE;
  const isShown = performance.now() < (session.loudUntil ?? 0);
  meter.classList.toggle("loud", isShown);
  element("loud").textContent = isShown ? "Too loud" : `${level.toFixed(0)} dB`;
}

/** Shows what can be done now: "ready", "starting", "recording", "paused" or "ending". */
function show(phase) {
  document.body.dataset.phase = phase;
  if (session) session.phase = phase;
  const isReady = phase === "ready", isOn = phase === "recording" || phase === "paused";
  for (const control of [device, rate, form]) control.disabled = !isReady;
  recordButton.hidden = isOn || phase === "ending";
  recordButton.disabled = !isReady;
  for (const button of [pauseButton, stopButton]) button.hidden = !isOn;
  pauseButton.textContent = phase === "paused" ? "Go on" : "Pause";
  giveUpButton.hidden = phase !== "ending" || !session?.isFaulty;
  document.title = { recording: "\u25cf Recording", paused: "Paused" }[phase] ?? "Record, and lose nothing";
}

/** The microphone as it is: nothing is filtered, or made louder. */
function openMicrophone() {
  const asIs = { echoCancellation: false, noiseSuppression: false, autoGainControl: false };
  const chosen = device.value ? { deviceId: { exact: device.value } } : {};
  return navigator.mediaDevices.getUserMedia({ audio: { ...asIs, channelCount: { ideal: 2 }, ...chosen } });
}

/** Lets the samples of a microphone go to the worker, from the audio thread, past this one. */
async function connect(stream, channels, context) {
  await context.audioWorklet.addModule(addressOf("worklet"));
  const node = new AudioWorkletNode(context, "collector", {
    channelCount: channels, channelCountMode: "explicit", processorOptions: { channels, length: 2048 },
  });
  context.createMediaStreamSource(stream).connect(node);
  node.connect(context.destination); // What it gives is silent, but browsers run only what goes somewhere.
  return node;
}

/** Begins to record. What was begun of it ends again where something fails. */
async function begin() {
  say("Allow the microphone where the browser asks.");
  element("notes").replaceChildren();
  show("starting");
  navigator.storage.persist().then((isKept) => { element("kept").hidden = isKept; }); // It may never be settled.
  const stream = await openMicrophone(), [track] = stream.getAudioTracks(), settings = track.getSettings();
  let context;
  try {
    context = new AudioContext({ sampleRate: Number(rate.value) || settings.sampleRate, latencyHint: "playback" });
    const channels = settings.channelCount ?? 1, bitsPerSample = Number(form.value), { sampleRate } = context;
    const node = await connect(stream, channels, context), { port1, port2 } = new MessageChannel();
    await ask("start", { format: { sampleRate, channels, bitsPerSample, isFloat: bitsPerSample === 32 } }, [port2]);
    node.port.postMessage(null, [port1]);
    session = { context, node, stream, sampleRate, isFaulty: false, missing: 0 };
  } catch (error) {
    track.stop();
    await context?.close();
    throw error;
  }
  await within(session.context.resume());
  proceed("recording"); // Once it runs, since the first quanta aren't one after the other.
  say("");
  watch(track, session.context);
  tabs.postMessage("changed");
  showDevices();
}

/** Goes to another phase, which the audio thread has to know. */
function proceed(phase) {
  show(phase);
  session.node.port.postMessage(phase === "ending" ? "stopped" : phase);
  holdScreen();
}

/** Looks after what may happen to the microphone. */
function watch(track, context) {
  track.onended = () => {
    if (!session || session.phase === "ending") return;
    say("The microphone is gone, or may not be used any more. The recording has ended: all it gave is stored.", "bad");
    stop();
  };
  track.onmute = () => say("The microphone gives nothing: it may be muted.", "bad");
  const isBack = () => session?.isFaulty || say("");
  track.onunmute = isBack;
  context.onstatechange = () => {
    if (session && session.phase !== "ending" && context.state !== "running") {
      say(`The browser has stopped the sound (${context.state}): what comes now is missing.`, "bad");
      context.resume().then(isBack);
    }
  };
  if (track.readyState === "ended") track.onended(); // It may have ended before.
  else context.onstatechange();
}

/** Keeps the screen on while it records, so that the computer doesn't sleep; a browser ends that with each hiding. */
async function holdScreen() {
  if (session?.phase !== "recording" || document.hidden || session.wakeLock?.released === false) return;
  session.wakeLock = await navigator.wakeLock?.request("screen").catch(() => undefined);
}

/** Ends the recording, once all is stored. */
function stop() {
  proceed("ending");
  // The audio thread may be asleep, and say nothing. What follows the end is ignored.
  session.timer = setTimeout(() => ask("stop"), PATIENCE);
}

/** The worker has ended a recording. */
async function ended({ frames, lost }) {
  const { context, stream, wakeLock, timer, sampleRate } = session;
  clearTimeout(timer);
  for (const track of stream.getTracks()) track.stop();
  wakeLock?.release();
  context.close();
  session = undefined;
  clear();
  if (lost > 0) say(`${clock(frames / sampleRate)} are stored. ${(lost / sampleRate).toFixed(1)} s are lost.`, "bad");
  else if (frames === 0) say("Nothing was recorded.");
  await showList().catch((error) => say(reasonOf(error), "bad"));
  show("ready");
  tabs.postMessage("changed");
}

/** Shows that nothing is recorded. */
function clear() {
  element("time").textContent = "0:00";
  for (const id of ["stored", "loud"]) element(id).textContent = "";
  element("stored").dataset.frames = 0;
  element("level").firstElementChild.style.width = 0;
}

// The list

const dateOf = ({ name, time }) => {
  const [, ...parts] = /^(\d+)-(\d+)-(\d+) (\d+)\.(\d+)\.(\d+)/.exec(name) ?? [];
  return parts.length ? new Date(parts[0], parts[1] - 1, ...parts.slice(2)) : new Date(time);
};

function titleOf(one) {
  const part = /-(\d{3})\.wav$/.exec(one.name);
  const date = dateOf(one).toLocaleString(undefined, { dateStyle: "medium", timeStyle: "medium" });
  return part ? `${date}, part ${Number(part[1])}` : date;
}

const lengthOf = ({ frames, sampleRate }) => clock(frames ? frames / sampleRate : 0);

/** How a recording was found. */
function foundText(one) {
  if (one.isRecorded) return session ? "is recorded now" : "is recorded now, in another tab";
  if (one.frames === 0) return one.message && one.code !== "ENDED" ? one.message : "no sound";
  return one.wasCutOff ? `was cut off: all ${lengthOf(one)} that were stored are here` : "whole";
}

const formatText = ({ sampleRate, channels, bitsPerSample, isFloat }) =>
  `${sampleRate / 1000} kHz, ${["mono", "stereo"][channels - 1] ?? `${channels} channels`}, ` +
  `${isFloat ? "32-bit floats" : `${bitsPerSample} bits`}`;

function button(text, title, act, kind = "second") {
  const made = Object.assign(document.createElement("button"), { type: "button", textContent: text, className: kind });
  made.setAttribute("aria-label", `${text} the recording of ${title}`);
  made.onclick = () => act().catch((error) => say(reasonOf(error), "bad"));
  return made;
}

function rowOf(one) {
  const row = document.createElement("li"), title = titleOf(one), buttons = document.createElement("div");
  const [name, facts] = ["strong", "span"].map((kind) => document.createElement(kind));
  name.textContent = title;
  const texts = one.frames ? [lengthOf(one), foundText(one), formatText(one)] : [foundText(one)];
  facts.textContent = texts.join(" \u00b7 ");
  facts.className = one.wasCutOff ? "cut" : "soft";
  if (one.frames) buttons.append(button("Play", title, () => play(one, row)), button("Save", title, () => save(one)));
  if (!one.isRecorded) buttons.append(button("Delete", title, () => removeOne(one), "second danger"));
  row.append(name, facts, buttons);
  return row;
}

/** Shows all recordings, and returns them. */
async function showList() {
  const all = await ask("list");
  player.remove();
  element("list").replaceChildren(...all.map(rowOf));
  element("none").hidden = all.length > 0;
  return all;
}

async function play(one, row) {
  URL.revokeObjectURL(player.src);
  player.src = URL.createObjectURL(await ask("copy", { name: one.name }));
  player.setAttribute("aria-label", `The recording of ${titleOf(one)}`);
  player.hidden = false;
  row.append(player);
  await player.play();
}

/** Saves a copy whose header counts all that is there. */
async function save({ name }) {
  const href = URL.createObjectURL(await ask("copy", { name }));
  Object.assign(document.createElement("a"), { href, download: name }).click();
  setTimeout(() => URL.revokeObjectURL(href), 60000);
}

async function removeOne(one) {
  element("question").textContent = `Delete the recording of ${titleOf(one)} (${lengthOf(one)})? Unless you saved it, it is nowhere else.`;
  dialog.returnValue = "";
  dialog.showModal();
  await new Promise((resolve) => { dialog.onclose = resolve; });
  if (dialog.returnValue !== "delete") return;
  await ask("remove", one);
  await showList();
  tabs.postMessage("changed");
}

/** Names the recordings that were cut off since the page was open the last time, and says so. */
async function look() {
  const left = (await ask("adopt")).filter(({ frames }) => frames > 0), all = await showList();
  if (left.length === 0) return all;
  const [{ sampleRate }] = left, frames = left.reduce((sum, one) => sum + one.frames, 0);
  say(left.length === 1
    ? `1 recording was cut off: all ${clock(frames / sampleRate)} that were stored are here.`
    : `${left.length} recordings were cut off: all that was stored of them is here.`, "cut");
  return all;
}

/** Lists the microphones. Browsers name them once one was used. */
async function showDevices() {
  const chosen = device.value, all = await navigator.mediaDevices.enumerateDevices();
  const named = all.filter(({ kind, label, deviceId }) => kind === "audioinput" && label && deviceId !== "default");
  device.replaceChildren(new Option("Default", ""), ...named.map((one) => new Option(one.label, one.deviceId)));
  if (named.some(({ deviceId }) => deviceId === chosen)) device.value = chosen;
}

/** Why this browser, or this way to open the page, can't record. */
function lack() {
  if (!globalThis.isSecureContext || !navigator.mediaDevices || !navigator.locks) {
    return "Browsers lend a microphone only to a page from https or from this computer.";
  }
  const isOld = !navigator.storage?.getDirectory || !globalThis.AudioWorkletNode;
  return isOld ? "This browser is too old to record here." : undefined;
}

const SERVE = "To record, this page has to be served: run npx hound_bindings serve, or hound-wav serve, and open the " +
  "address it prints.";

async function main() {
  for (const [control, act] of [[recordButton, begin], [stopButton, stop], [giveUpButton, () => ask("giveUp")],
    [pauseButton, () => proceed(session.phase === "paused" ? "recording" : "paused")]]) {
    control.onclick = async () => {
      try {
        await act();
      } catch (error) {
        say(reasonOf(error), "bad");
        if (!session) show("ready");
      }
    };
  }
  addEventListener("beforeunload", (event) => session && event.preventDefault());
  document.addEventListener("visibilitychange", holdScreen);
  for (const choice of ["cancel", "delete"]) element(choice).onclick = () => dialog.close(choice);
  if (lack()) return say(`${lack()} ${SERVE}`, "bad");
  navigator.mediaDevices.addEventListener("devicechange", showDevices);
  try {
    await look();
    await showDevices();
    show("ready");
    tabs.onmessage = () => player.paused && showList();
  } catch (error) {
    say(error.name === "SecurityError" ? `This browser stores nothing for a page that is opened from the disk. ${SERVE}` : error.message, "bad");
  }
}

main();
