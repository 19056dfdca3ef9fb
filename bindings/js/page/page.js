// The page: it looks at files that are dropped or chosen, draws one, plays it, and saves the repaired ones.
import { SEARCHED_LENGTH, chunksAtEnd } from "../guess.js";
import { HoundError, guess, guessStart, info, read, repair, write } from "../hound.js";

const element = (id) => document.getElementById(id);
const [
  drop, list, all, lost, said, busy, stop, result, save, shorter, choice, end, wave, place, axis, zoom, player, facts,
] = [
  "drop", "list", "all", "lost", "said", "busy", "stop", "result", "save", "shorter", "choice", "end", "wave", "place",
  "axis", "zoom", "player", "facts",
].map(element);
const [input, audio, canvas, progress, table] =
  ["input", "audio", "canvas", "progress", "tbody"].map((name) => document.querySelector(name));

// What is said of a file that can't be read, where hound.h's sentence is too short for somebody who knows no format.
const CHOOSE = "Keep the file. Choose what was recorded, and listen.";
const LOST = `Where its sound begins wasn't found, but sound may be in it. ${CHOOSE}`;
const DAMAGED = `Its header is damaged, or of a kind that this page doesn't read. ${CHOOSE}`;
const READS = "This page reads integers of 8, 16, 24 and 32 bits, and floats of 32 bits: an audio editor may read " +
  `it. If its header is damaged: ${CHOOSE}`;
const HINTS = {
  ENDED: LOST,
  NO_DATA_CHUNK: LOST,
  NO_FMT_CHUNK: LOST,
  NO_RIFF_TAG: `It is no WAV file, or its beginning was lost: ${CHOOSE}`,
  NO_WAVE_TAG: `It is another RIFF file, or its beginning was lost: ${CHOOSE}`,
  UNSUPPORTED: `Its sound is compressed, and an audio editor may read it; or its header is damaged: ${CHOOSE}`,
  NOT_WRITABLE: READS,
  BITS_NOT_32: READS,
};
// The errors of a file whose beginning is lost, where something in it is predictable as sound is.
const WITHOUT_BEGINNING = ["ENDED", "NO_RIFF_TAG", "NO_WAVE_TAG", "NO_FMT_CHUNK", "NO_DATA_CHUNK"];
const NAMED = `An audio editor converts it, too. Or its header is damaged: ${CHOOSE}`;
const AFTER_IT = "silence, noise, a click or older sound";
const CARD = "Record nothing more on the card it came from: a recovery program may find the sound there.";
// What samples may be, the usual ones first, the rates of most recorders, and the one that is assumed.
const FORMS = [[16, 2], [24, 3], [32, 4, true], [8, 1], [32, 4], [24, 4]]
  .map(([bitsPerSample, bytesPerSample, isFloat = false]) => ({ bitsPerSample, bytesPerSample, isFloat }));
const RATES = [8000, 11025, 16000, 22050, 32000, 44100, 48000, 88200, 96000, 192000];
const USUAL_RATE = 48000;
// How many samples are read at once to be drawn, how many channels are drawn at most, how many frames are shown at
// least, how many samples a copy has at most, and in how many bytes at the end of a file chunks are looked for.
const AT_ONCE = 1 << 20, LANES = 32, LEAST = 64, COPIED = 1 << 28;

const number = (n) => n.toLocaleString("en");
const counted = (n, what) => `${number(n)} ${what}${n === 1 ? "" : "s"}`;

function time(exact, digits = 3) {
  const seconds = Number(exact.toFixed(digits)), minutes = Math.floor(seconds / 60), hours = Math.floor(minutes / 60);
  const rest = (seconds % 60).toFixed(digits).padStart(digits ? 3 + digits : 2, "0");
  return hours ? `${hours}:${String(minutes % 60).padStart(2, "0")}:${rest}` : `${minutes}:${rest}`;
}

function say(text, kind = "") {
  said.textContent = text;
  said.className = kind;
}

/** Why a file can't be read. */
function failure(file, error) {
  if (error.code === "ENDED" && file.size < LEAST) {
    return `${file.name} ${file.size ? "ends before any sound" : "is empty"}. ${CARD}`;
  }
  const large = `it has ${number(file.size)} bytes. Keep it:`;
  if (error.code === "TOO_LONG") {
    return `${file.name} is too large for a WAV file: ${large} an audio editor may read it as RF64, ` +
      "or import it as raw data, if you know its rate, channels and bits.";
  }
  if (error.kind) return `${file.name}: ${error.message}.\n${NAMED}`;
  if (error instanceof HoundError) {
    return `${file.name} can't be read: ${error.message}.\n${HINTS[error.code] ?? DAMAGED}`;
  }
  if (error instanceof RangeError) {
    return `${file.name} is too large for this browser: ${large} a newer one, or another one, may repair it.`;
  }
  return `${file.name} could not be read: ${error.message}`;
}

const lengthOfTime = ({ frames, sampleRate }) => sampleRate ? frames / sampleRate : 0;
const framesOf = (found) =>
  counted(found.frames, "frame") + (found.sampleRate ? ` (${time(lengthOfTime(found))})` : "");

/** How long the sound is, for who doesn't count frames. */
function lengthOf(found) {
  const seconds = lengthOfTime(found), minutes = Math.floor(seconds / 60), hours = Math.floor(minutes / 60);
  if (hours) return `${hours} h ${minutes % 60} min`;
  if (minutes) return `${minutes} min ${Math.floor(seconds % 60)} s`;
  return seconds < 0.1 ? "Less than 0.1 seconds" : `${seconds.toFixed(1)} seconds`;
}

/** How many bytes follow the sound that the header counts, and whether they may be sound, too: they are more. */
function claims(file, { dataStart, dataLength }) {
  const rest = file.size - dataStart - dataLength;
  return { rest, mayBeSound: rest > dataLength };
}

/** What is said of a file that was looked at, and repaired to its end if that was requested. */
function verdict(found, { rest, mayBeSound }, toEnd, chunks) {
  const { state, frames, leftOver, counted: before } = found;
  if (state === "hasChunksAfterData") {
    const counts = frames ? `only ${framesOf(found)}` : "no sound";
    const what = frames ? "the rest of the recording" : "the recording";
    if (!mayBeSound) {
      return ["Other data follow the sound, as a title or markers (chunks or a tag): it needs no repair. " +
        "If a program rejects the file, export it from an audio editor.", "good"];
    }
    return [`The header counts ${counts}, but ${counted(rest, "byte")} follow. They may be ${what}: ` +
      "repair the file to its end, and listen.", "cut"];
  }
  if (frames === 0) return [`The file has a header and no sound: nothing can be brought back from it. ${CARD}`, "bad"];
  if (state !== "cutOff") {
    return ["The file is whole: its header counts all frames. There is nothing to repair.", "good"];
  }
  const isThere = leftOver === 1 ? "is there" : "are there";
  const left = leftOver ? ` Of one more frame only ${counted(leftOver, "byte")} ${isThere}.` : "";
  const cause = toEnd ? "All bytes up to the end are taken for sound." : "The recording was cut off.";
  const ofThese = before > frames ? `; its header counted ${number(before)}` :
    `, of which its header counted ${before ? number(before) : "none"}`;
  const areThese = frames === 1 ? "This is" : "These are";
  const all = found.sampleRate ? `${lengthOf(found)} of sound came back. ${areThese} ${framesOf(found)}` :
    `${framesOf(found)} came back`;
  const back = `${all}${ofThese}.${left}`;
  const says = chunks ? ` ${chunksText(chunks)}` : "", press = 'press "End it where the player is".';
  return [`${cause} ${back}${says}\n` +
    `Listen to its end: if ${AFTER_IT} is there, stop the player before that, and ${press}`, "cut"];
}

/** The second choice where chunks or a tag follow the sound: what it is, and its button. */
function otherChoice({ rest, mayBeSound }, toEnd) {
  const back = "Back to the file as it was", repairs = "Repair to the end";
  if (toEnd && mayBeSound) return ["If it ends in a click now, chunks or a tag were there.", back];
  if (toEnd) return ["If it ends in noise now, chunks or a tag were there, and the file needs no repair.", back];
  if (mayBeSound) {
    return ["Chunks or a tag among them (a title, markers) become a click, which an audio editor can cut off.",
      repairs];
  }
  return ["Only if you hear that its end is missing: then it was cut off, " +
    `and its last ${number(rest)} bytes only look like chunks or a tag.`, repairs];
}

/** The name of a file that is saved: `a repaired.wav` for `a.wav`, and `a repaired 2.wav` for that. */
function repairedName(name) {
  const repaired = (_, again, count = 1) => ` repaired${again ? ` ${Number(count) + 1}` : ""}.wav`;
  return name.replace(/( repaired( \d+)?)?(\.wave?)?$/i, repaired);
}

function formText({ bitsPerSample, bytesPerSample, isFloat }) {
  const inBytes = bytesPerSample * 8 === bitsPerSample ? "" : ` in ${bytesPerSample} bytes`;
  return `${isFloat ? "floats" : "integers"} of ${bitsPerSample} bits${inBytes}`;
}

/** The header's fields, with a hint for each that needs one. */
function rows(file, { head, found, begins }) {
  const { sampleRate, channels } = found;
  const duration = `${sampleRate ? `${time(lengthOfTime(found))}, ` : ""}${counted(found.frames, "frame")}`;
  const counts = `counts ${counted(found.counted, "frame")}`;
  const stays = found.leftOver === 1 ? "It stays" : "They stay";
  const where = found.state === "cutOff" ? "in the original: the repaired file ends after the last whole frame." :
    "in the file, after the last whole frame.";
  return [
    ["File", `${file.name}, ${counted(file.size, "byte")}`],
    ["Duration", duration, "A frame has one sample of each channel."],
    ["Sample rate", `${number(sampleRate)} Hz`, sampleRate ? "Frames a second." : "It is lost: choose it."],
    ["Channels", number(channels), ...(channels > LANES ? [`The first ${LANES} are drawn.`] : [])],
    ["Samples", formText(found)],
    ["Sound begins", `at byte ${number(begins)}`],
    ...(found.state === "cutOff" && head !== undefined ?
      [["Header", counts, "The repaired file counts all whole frames that are there."]] : []),
    ...(found.state === "allCounted" ?
      [["Header", counts, "Its RIFF size or pad byte isn't as the format asks, which concerns no sample."]] : []),
    ...(found.leftOver ? [["Left over", counted(found.leftOver, "byte"), `${stays} ${where}`]] : []),
  ];
}

function showRows(all) {
  facts.replaceChildren(...all.flatMap(([name, text, hint]) => {
    const [term, value, small] = ["dt", "dd", "small"].map((tag) => document.createElement(tag));
    [term.textContent, value.textContent, small.textContent] = [name, text, hint ?? ""];
    if (hint) value.append(small);
    return [term, value];
  }));
}

/** Takes the least and the largest sample of each column, from so many frames on; the sample before a column is among
    them, so that columns join. */
function takePeaks(peaks, samples, first) {
  const { columns, frames, channels, low, high } = peaks, count = samples.length / channels;
  for (let frame = 0; frame < count;) {
    const column = Math.floor((first + frame) * columns / frames);
    const end = Math.min(count, Math.max(frame + 1, Math.ceil((column + 1) * frames / columns) - first));
    for (let channel = 0; channel < channels; channel++) {
      let least = Infinity, most = -Infinity;
      for (let i = Math.max(0, frame - 1) * channels + channel; i < end * channels; i += channels) {
        if (samples[i] < least) least = samples[i];
        if (samples[i] > most) most = samples[i];
      }
      const k = column * channels + channel;
      low[k] = Math.min(low[k], least);
      high[k] = Math.max(high[k], most);
    }
    frame = end;
  }
}

function draw({ columns, channels, low, high, scale }) {
  const lanes = Math.min(channels, LANES), lane = Math.max(48, 176 / lanes), pen = canvas.getContext("2d");
  canvas.style.height = `${lanes * lane}px`;
  canvas.width = canvas.clientWidth * devicePixelRatio;
  canvas.height = lanes * lane * devicePixelRatio;
  pen.fillStyle = getComputedStyle(canvas).color;
  const step = canvas.width / columns, half = lane * devicePixelRatio * 0.46;
  const fit = (value) => Math.max(-1, Math.min(1, value * scale)) * half;
  for (let k = 0; k < low.length; k++) {
    const channel = k % channels;
    if (channel >= lanes || !(low[k] <= high[k])) continue;
    const middle = (channel + 0.5) * lane * devicePixelRatio, top = middle - fit(high[k]);
    pen.fillRect(Math.floor(k / channels) * step, top, Math.max(1, step), Math.max(1, middle - fit(low[k]) - top));
  }
}

/** Writes the times under the waveform: at most one for each 100 pixels. */
function drawAxis(from, seconds) {
  const most = Math.max(2, Math.floor(axis.clientWidth / 100));
  const steps = [
    1e-5, 2e-5, 5e-5, 1e-4, 2e-4, 5e-4, 0.001, 0.002, 0.005, 0.01, 0.02, 0.05, 0.1, 0.2, 0.5, 1, 2, 5, 10, 15, 30,
    60, 120, 300, 600, 900, 1800, 3600, 7200, 18000, 36000, 86400,
  ];
  const step = steps.find((one) => seconds / one <= most) ?? seconds;
  const digits = step < 1 ? Math.max(2, Math.ceil(-Math.log10(step))) : 0, marks = [];
  for (let i = Math.ceil(from / step); i * step < from + seconds && marks.length <= most; i++) {
    const mark = document.createElement("span"), share = (i * step - from) / seconds;
    mark.textContent = time(i * step, digits);
    mark.style.left = `${100 * share}%`;
    if (share < 1 - (60 + 8 * digits) / axis.clientWidth) marks.push(mark);
  }
  axis.replaceChildren(...marks);
}

/** Reads the frames in view in blocks and draws them, until something else is drawn or that is stopped. */
async function drawView() {
  const mine = ++drawings, { found, first, count } = shown;
  const { channels, isFloat, bitsPerSample } = found;
  const columns = Math.max(1, Math.min(count, Math.round(wave.clientWidth * devicePixelRatio)));
  const low = new Float32Array(columns * channels).fill(Infinity);
  const high = new Float32Array(columns * channels).fill(-Infinity);
  const peaks = { columns, frames: count, channels, low, high, scale: isFloat ? 1 : 2 ** (1 - bitsPerSample) };
  const block = Math.max(1, Math.floor(AT_ONCE / channels));
  shown.peaks = peaks;
  redraw();
  for (let done = 0, drawn = performance.now(); done < count; done += block) {
    takePeaks(peaks, await read(found.file, { start: first + done, frames: Math.min(block, count - done) }), done);
    if (mine !== drawings) return;
    progress.value = Math.min(1, (done + block) / count);
    busy.hidden = done + block >= count;
    if (performance.now() - drawn < 250) continue;
    draw(peaks);
    drawn = performance.now();
  }
  draw(peaks);
}

/** Shows so many frames from one on, as far as there are any. */
function look(first, count) {
  const { frames } = shown.found;
  shown.count = Math.min(frames, Math.max(LEAST, Math.round(count)));
  shown.first = Math.max(0, Math.min(frames - shown.count, Math.round(first)));
  return drawView();
}

/** Shows more or fewer frames; the one at this share of the view stays where it is. */
function zoomBy(factor, share) {
  const { found, first, count } = shown, wanted = Math.min(found.frames, Math.max(LEAST, count * factor));
  return look(first + share * (count - wanted), wanted);
}

/** Where the player is, as a share of the view; nothing if it isn't there. */
function played() {
  const share = (audio.currentTime / audio.duration * shown.found.frames - shown.first) / shown.count;
  return share > 0 && share <= 1 ? share : null;
}

/** A copy in 16 bits, for a browser that plays no other samples; nothing if it isn't wanted any more. */
async function copied({ file, frames, channels, isFloat, bitsPerSample, sampleRate }, isCurrent) {
  const samples = new Int16Array(frames * channels), block = Math.max(1, Math.floor(AT_ONCE / channels));
  const scale = isFloat ? 32768 : 2 ** (16 - bitsPerSample);
  for (let first = 0; first < frames; first += block) {
    const part = await read(file, { start: first, frames: Math.min(block, frames - first) });
    if (!isCurrent()) return null;
    const scaled = (value) => Math.max(-32768, Math.min(32767, Math.round(value * scale)));
    samples.set(Int16Array.from(part, scaled), first * channels);
  }
  return new Blob([await write(samples, { sampleRate, channels })], { type: "audio/wav" });
}

// The number of the file that is looked at, and of the drawing; what is shown, and the addresses of its files.
let turn = 0, drawings = 0, shown = null, urls = [];

function redraw() {
  if (!shown) return;
  const { found, first, count, peaks } = shown, whole = lengthOfTime(found);
  const [from, seconds] = [first, count].map((n) => found.frames ? whole * n / found.frames : 0);
  const part = count < found.frames ? `, from ${time(from)} to ${time(from + seconds)}` : "";
  canvas.setAttribute("aria-label", `Waveform of ${counted(found.channels, "channel")}, ${time(whole, 0)} long${part}`);
  draw(peaks);
  drawAxis(from, seconds);
  showPlace();
}

function showPlace() {
  place.hidden = played() === null;
  place.style.left = `${100 * played()}%`;
}

function urlOf(blob) {
  urls.push(URL.createObjectURL(blob));
  return urls.at(-1);
}

function clear() {
  for (const part of [result, save, shorter, choice, place, busy, player]) part.hidden = true;
  drawings++;
  audio.removeAttribute("src");
  audio.load();
  urls.forEach((url) => URL.revokeObjectURL(url));
  urls = [];
  shown = null;
}

/** Plays a file, or a copy of it where the browser doesn't play its samples. */
function play(found, isCurrent) {
  audio.onerror = async () => {
    audio.onerror = null;
    if (!isCurrent()) return;
    player.hidden = false;
    const { frames, channels } = found;
    const tell = (rest) => { player.textContent = `This browser doesn't play such samples${rest}.`; };
    if (frames * channels > COPIED) return tell(", and they are too many for a copy in 16 bits");
    tell(", so a copy in 16 bits is made");
    const copy = await copied(found, isCurrent).catch(() => null); // There is no memory for it.
    if (!isCurrent()) return;
    if (!copy) return tell(", and a copy in 16 bits can't be made");
    tell(", so the player has a copy in 16 bits");
    audio.onerror = () => isCurrent() && tell(", nor a copy in 16 bits"); // There are too many channels.
    audio.src = urlOf(copy);
  };
  audio.src = urlOf(found.file);
}

/** What is found of a file, and what is said of that; `toEnd` is whether all of it is taken for sound. */
async function judged(file, toEnd) {
  const head = await info(file).catch(() => null), left = await repair(file, { toEnd });
  // If the header counts half a frame, and chunks or a tag seem to follow, nothing is read of the file unless it is
  // repaired.
  const isTorn = !head && left.state === "hasChunksAfterData";
  const found = isTorn ? await repair(file, { toEnd: true }) : left;
  const says = claims(file, found), chunks = found.state === "cutOff" && !toEnd ? await chunksOf(file, found) : null;
  const words = verdict(found, says, toEnd || isTorn, chunks);
  return { head, found, begins: found.dataStart, says, chunks, words };
}

/** The chunks in which a file seems to end that counts them as sound. */
async function chunksOf(file, { dataStart }) {
  const end = file.slice(Math.max(dataStart, file.size - SEARCHED_LENGTH));
  return chunksAtEnd(new Uint8Array(await end.arrayBuffer()));
}

/** What such chunks are said to be. */
const chunksText = ({ name, length }) =>
  `Its last ${number(length)} bytes look like a ${name} chunk (a title, markers), which becomes a click.`;

/** The same of a file whose header is lost: all after so many bytes is sound like that. */
async function judgedAs(file, { like, skip }) {
  const found = await repair(file, { like, skip });
  const areThere = found.frames === 1 ? "is there" : "are there";
  const text = `${framesOf(found)} of that ${areThere}. ` +
    "Listen: if it is noise, or too fast or too slow, choose otherwise.";
  return { found, begins: skip, words: [text, "cut"] };
}

/** Offers a choice of what was recorded, which begins as this. */
function offer(file, { like, skip }, text) {
  element("guess").textContent = text;
  const { form, channels, rate, skip: bytes } = lost.elements;
  const isSame = (one) => ["bitsPerSample", "bytesPerSample", "isFloat"].every((name) => one[name] === like[name]);
  form.value = FORMS.findIndex(isSame);
  [channels.value, rate.value, bytes.value, bytes.max] = [like.channels, like.sampleRate, skip, file.size];
  lost.hidden = false;
  lost.onchange = () => {
    if (!lost.reportValidity()) return;
    element("guess").textContent = "This is what you chose.";
    const [channels, sampleRate, skip] = ["channels", "rate", "skip"].map((name) => lost.elements[name].valueAsNumber);
    open(file, { like: { ...FORMS[form.value], channels, sampleRate }, skip });
  };
}

/** What of a file is lost in which sound is found all the same; nothing where it may be of another kind. */
function lossOf({ name }, { code, kind }) {
  if (WITHOUT_BEGINNING.includes(code) && !kind) return `The beginning of ${name} is lost.`;
  return kind || code in HINTS ? null : `The header of ${name} is damaged.`;
}

/** Guesses what was recorded where a header can't be read, and offers other choices; or says that there are none. */
async function withoutHeader(file, error, isCurrent) {
  if (!(error instanceof HoundError) || error.code === "TOO_LONG" || file.size < LEAST) throw error;
  const found = await guess(file), { like, skip } = found ?? { like: { ...FORMS[0], channels: 2 } };
  const given = { like: { ...like, sampleRate: USUAL_RATE }, skip: skip ?? await guessStart(file) };
  const text = found ?
    `This is a guess, except the rate: no guess finds it, and ${number(USUAL_RATE)} Hz is assumed. ` +
      "If the sound is too fast or too slow, choose the rate that your recorder was set to." :
    "No guess: nothing in it is predictable, as sound is, or it is too short.";
  const seen = await judgedAs(file, given), loss = found && lossOf(file, error);
  if (isCurrent()) offer(file, given, text);
  const words = loss ? [`${loss} Choose what was recorded, listen, save.`, "cut"] : [failure(file, error), "bad"];
  return { ...seen, words };
}

/** Offers a choice beside what is shown. */
function offerToOpen(text, button, file, how) {
  [choice.firstChild.textContent, end.textContent] = [text, button];
  end.onclick = () => open(file, how);
  choice.hidden = false;
}

/** Shows what is found of a file that was opened so; `whole` is all of it, where an end is left out. */
function show(file, { found, begins, says, chunks, words }, { whole, ...how }, isCurrent) {
  const { toEnd } = how, isLost = !says;
  result.hidden = false;
  for (const part of [wave, axis]) part.hidden = found.frames === 0;
  audio.hidden = lengthOfTime(found) === 0;
  if (!audio.hidden) play(found, isCurrent);
  if (found.state === "cutOff" && found.frames) {
    const name = repairedName(file.name);
    const rate = isLost ? ` with ${number(found.sampleRate)} Hz` : "";
    const textContent = `Save the repaired file${rate} as ${name}`;
    Object.assign(save, { href: urlOf(found.file), hidden: false, download: name, textContent });
    shorter.hidden = audio.hidden;
    shorter.onclick = () => {
      const frames = Math.round(audio.currentTime * found.sampleRate);
      if (frames < 1 || frames >= found.frames) return say("Play it first, and stop where the sound ends.", "cut");
      open(whole ?? file, { ...how, keep: begins + frames * found.channels * found.bytesPerSample });
    };
  }
  if (whole) offerToOpen("Its end is left out.", "Take all of it", whole, how);
  else if (chunks) offerToOpen("", `Leave out the ${chunks.name} chunk`, file, { keep: file.size - chunks.length });
  else if (!isLost && (toEnd || found.state === "hasChunksAfterData")) {
    offerToOpen(...otherChoice(says, toEnd), file, { toEnd: !toEnd });
  }
  say(...words);
  zoom.hidden = found.frames <= LEAST;
  shown = { file, found };
  return look(0, found.frames);
}

/** Looks at a file; with `toEnd` all of it is taken for sound, with `like` all after the first `skip` bytes. With
    `keep` only so many bytes are taken, and the others are left out. */
async function open(whole, { toEnd = false, like, skip, keep } = {}) {
  const file = keep === undefined ? whole : Object.assign(whole.slice(0, keep), { name: whole.name });
  const mine = ++turn, isCurrent = () => mine === turn;
  clear();
  if (!like) lost.hidden = true;
  say(`Looking at ${file.name}.`);
  try {
    const orChosen = (error) => withoutHeader(file, error, isCurrent);
    const seen = await (like ? judgedAs(file, { like, skip }) : judged(file, toEnd).catch(orChosen));
    if (!isCurrent()) return;
    showRows(rows(file, seen));
    if (!like && seen.says && seen.found.sampleRate === 0) {
      offer(file, { like: { ...seen.found, sampleRate: 48000 }, skip: seen.begins }, "Its rate is lost: choose one.");
    }
    await show(file, seen, { toEnd, like, skip, ...(file !== whole && { whole }) }, isCurrent);
  } catch (error) {
    if (!isCurrent()) return;
    say(failure(file, error), "bad");
  }
  if (isCurrent()) said.dataset.done = mine;
}

/** What a table says of a file, and whether it is repaired. */
function summary({ found, says, chunks }) {
  if (found.state === "hasChunksAfterData") {
    return says.mayBeSound ? "may be cut off: look at it" : "other data follow the sound";
  }
  if (found.frames === 0) return "no sound";
  if (found.state !== "cutOff") return "whole";
  return `was cut off${chunks ? `, and seems to end in a ${chunks.name} chunk: look at it` : ""}`;
}

/** Why a file of the table can't be read. */
function shortReason({ code, kind, message }) {
  return `${kind ?? (WITHOUT_BEGINNING.includes(code) ? "its beginning may be lost" : message)}: look at it`;
}

/** Adds a file to the table, and returns its repaired form, if there is one. */
async function listed(file, isCurrent) {
  const seen = await judged(file, false).catch((error) => ({ error }));
  if (!isCurrent()) return null;
  const texts = seen.error ? ["", shortReason(seen.error)] : [time(lengthOfTime(seen.found)), summary(seen)];
  const cells = ["", ...texts].map((textContent) => Object.assign(document.createElement("td"), { textContent }));
  const row = document.createElement("tr"), button = document.createElement("button");
  Object.assign(button, { type: "button", textContent: file.name, onclick: () => open(file) });
  cells[0].append(button);
  row.append(...cells);
  table.append(row);
  return seen.found?.state === "cutOff" && seen.found.frames ? [repairedName(file.name), seen.found.file] : null;
}

/** Saves files one after the other. */
async function saveAll(files) {
  for (const [download, file] of files) {
    const href = URL.createObjectURL(file);
    Object.assign(document.createElement("a"), { download, href }).click();
    await new Promise((resolve) => setTimeout(resolve, 250)); // A browser passes over what comes at once.
    setTimeout(() => URL.revokeObjectURL(href), 60000);
  }
}

/** Looks at a file, or lists what several are. */
async function openAll(files) {
  list.hidden = all.hidden = files.length < 2;
  if (files.length === 1) return open(files[0]);
  const mine = ++turn, isCurrent = () => mine === turn, repaired = [];
  clear();
  lost.hidden = true;
  table.replaceChildren();
  say(`Looking at ${counted(files.length, "file")}.`);
  for (const file of files) {
    const one = await listed(file, isCurrent);
    if (!isCurrent()) return;
    if (one) repaired.push(one);
  }
  const were = repaired.length === 1 ? "was" : "were";
  const cutOff = repaired.length ?
    `${number(repaired.length)} ${were} cut off and can be saved repaired` : "none can be repaired";
  const listen = repaired.length ? `\nChoose each in the list, and listen to its end: ${AFTER_IT} may be there.` : "";
  const found = `${counted(files.length, "file")}, of which ${cutOff}.${listen}`;
  say(files.length ? found : "There are no WAV files in it.");
  all.hidden = repaired.length === 0;
  all.textContent = `Save ${counted(repaired.length, "repaired file")}`;
  all.onclick = () => saveAll(repaired);
  said.dataset.done = mine;
}

const byName = (a, b) => a.name.localeCompare(b.name, undefined, { numeric: true });

/** The files of a folder that are named as WAV files, and of the folders in it. */
async function filesOf(folder) {
  const found = [], folders = [];
  for await (const one of folder.values()) (one.kind === "directory" ? folders : found).push(one);
  const files = await Promise.all(found.filter(({ name }) => /\.wave?$/i.test(name)).map((one) => one.getFile()));
  const within = [];
  for (const one of folders.sort(byName)) within.push(...await filesOf(one));
  return [...files.sort(byName), ...within];
}

/** A folder of a browser that has the older interface, in the form of the newer one. */
const folderOf = (entry) => ({
  kind: "directory", name: entry.name,
  async *values() {
    const reader = entry.createReader();
    const next = () => new Promise((resolve, reject) => reader.readEntries(resolve, reject));
    const fileIn = (one) => new Promise((resolve, reject) => one.file(resolve, reject));
    for (let some; (some = await next()).length > 0;) {
      for (const one of some) {
        yield one.isDirectory ? folderOf(one) : { kind: "file", name: one.name, getFile: () => fileIn(one) };
      }
    }
  },
});

/** The folder that is dropped; nothing if it is none. */
async function folderIn(item) {
  if (!item.getAsFileSystemHandle) {
    const entry = item.webkitGetAsEntry?.();
    return entry?.isDirectory ? folderOf(entry) : null;
  }
  const handle = await item.getAsFileSystemHandle(); // Where a page is opened from the disk Chromium reads no entry.
  return handle?.kind === "directory" ? handle : null;
}

async function openDropped({ items, files }) {
  // All is gone after the first await.
  const given = [...files], kept = [...items].filter(({ kind }) => kind === "file").map(folderIn);
  const folders = await Promise.all(kept);
  if (!folders.some((folder) => folder)) return openAll(given);
  const found = await Promise.all(folders.map((folder, i) => folder ? filesOf(folder) : [given[i]]));
  return openAll(found.flat());
}

const openGiven = (work) => work.catch((error) => say(`That can't be read: ${error.message}`, "bad"));

input.onchange = () => input.files.length && openGiven(openAll([...input.files]));
for (const kind of ["dragover", "dragleave", "drop"]) {
  document.addEventListener(kind, (event) => {
    event.preventDefault();
    drop.classList.toggle("over", kind === "dragover");
    if (kind !== "drop" || !event.dataTransfer.files.length) return;
    input.files = event.dataTransfer.files; // So their names are shown there.
    openGiven(openDropped(event.dataTransfer));
  });
}

/** The share of the view that is under the pointer. */
const pointedAt = (event) => (event.clientX - canvas.getBoundingClientRect().left) / canvas.clientWidth;

/** Makes a change of the view, during which the file may turn out to be gone. */
function change(view) {
  const { file } = shown, mine = turn;
  view().catch((error) => mine === turn && say(failure(file, error), "bad"));
}

audio.ontimeupdate = () => shown && showPlace();
wave.onclick = (event) => {
  if (!audio.duration) return;
  audio.currentTime = audio.duration * (shown.first + pointedAt(event) * shown.count) / shown.found.frames;
};
wave.addEventListener("wheel", (event) => {
  if (!event.ctrlKey || zoom.hidden) return; // A pinch comes as this, too.
  event.preventDefault();
  change(() => zoomBy(event.deltaY < 0 ? 0.8 : 1.25, pointedAt(event)));
}, { passive: false });
element("nearer").onclick = () => change(() => zoomBy(0.5, played() ?? 0.5));
element("wider").onclick = () => change(() => zoomBy(2, played() ?? 0.5));
element("earlier").onclick = () => change(() => look(shown.first - shown.count / 2, shown.count));
element("later").onclick = () => change(() => look(shown.first + shown.count / 2, shown.count));
stop.onclick = () => {
  drawings++;
  busy.hidden = true;
  redraw();
};
addEventListener("resize", redraw);
matchMedia("(prefers-color-scheme: dark)").addEventListener("change", redraw);
lost.onsubmit = (event) => event.preventDefault();
lost.elements.form.append(...FORMS.map((form, i) => new Option(formText(form), i)));
element("rates").append(...RATES.map((rate) => new Option(rate)));
document.querySelector("nav").hidden = location.protocol === "file:"; // What was downloaded has no page beside it.
say("");
