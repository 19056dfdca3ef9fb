// WAV files, read, written, appended to and repaired by proved code: the exports of crates/hound_c in WebAssembly.
//
// A file is a Uint8Array, an ArrayBuffer, or a Blob, of which only what is needed is read. Samples are an interleaved
// typed array, or an array of one for each channel. No call changes its arguments. A file must not change before the
// promise of a call over it is settled; samples may.
import { BLOCK_LENGTH, USUAL_START, blocksOf, formOf, startIn } from "./guess.js";
import { module, nodeFiles, nodePaths } from "./module.js";

// Each error, its code in hound.h without the sign, and its sentence there.
const ERRORS = {
  // The errors, made from hound.h by scripts/make_interface.py.
  ENDED: [1, "the bytes end before the data begin"],
  UNSUPPORTED: [2, "the format is neither PCM nor IEEE float"],
  OTHER_FORMAT: [3, "the samples are floats and the type is an integer, or vice versa"],
  TOO_WIDE: [4, "the samples are wider than the type, or a value than its bits"],
  NOT_WRITABLE: [5, "samples of this spec are not read or written (integers have 8, 16, 24 or 32 bits, floats 32)"],
  TRUNCATED: [
    6,
    "the header counts a sample that the file does not hold " +
      "(a recording that was cut off can be repaired, a stream of unknown length can be read to its end)",
  ],
  TOO_LONG: [7, "the sizes of the file would not fit in 32 bits"],
  UNFINISHED_FRAME: [8, "the samples are no whole frames"],
  NO_ROOM: [9, "more bytes are needed than the capacity"],
  NO_RIFF_TAG: [10, "no RIFF tag found"],
  NO_WAVE_TAG: [11, "no WAVE tag found"],
  NO_DATA_CHUNK: [12, "missing data chunk"],
  NO_FMT_CHUNK: [13, "missing fmt chunk"],
  FMT_SIZE: [14, "invalid fmt chunk size"],
  UNEXPECTED_FMT_SIZE: [15, "unexpected fmt chunk size"],
  ZERO_CHANNELS: [16, "file contains zero channels"],
  BITS_EXCEED_WIDTH: [17, "sample bits exceeds size of sample"],
  INCONSISTENT: [18, "inconsistent fmt chunk"],
  BITS_NOT_WHOLE_BYTES: [19, "bits per sample is not a multiple of 8"],
  ZERO_BITS: [20, "bits per sample is 0"],
  BITS_NOT_8_OR_16: [21, "bits per sample is not 8, 16 or 24 in a PCM fmt chunk of 18 or 40 bytes"],
  EX_SIZE: [22, "unexpected WAVEFORMATEX size"],
  BITS_NOT_32: [23, "bits per sample is not 32"],
  EXTENSIBLE_SIZE: [24, "unexpected WAVEFORMATEXTENSIBLE size"],
  DATA_LENGTH: [
    25,
    "data chunk length is not a multiple of sample size " +
      "(a recording that was cut off can be repaired, a stream of unknown length can be read to its end)",
  ],
  FRAME_LENGTH: [
    26,
    "invalid data chunk length " +
      "(a recording that was cut off can be repaired, a stream of unknown length can be read to its end)",
  ],
  NEEDS_CHECKPOINT: [27, "a write failed or a checkpoint is not done, and no samples are written before one is"],
  SYNC_FAILED: [28, "a sync failed, and it is unknown what is stored"],
  NEEDS_MEND: [29, "the recording was cut off, and has to be repaired first"],
  NEEDS_OVERWRITE: [30, "chunks or a tag follow the data, and would be overwritten"],
  NOT_PERFORMED: [31, "the file could not be read or written"],
  // The end of what is made from hound.h.
};
// What can be done about an error, by the names of this package.
const ADVICE = {
  OTHER_FORMAT: '{ type: "float32" } reads them',
  TOO_WIDE: '{ type: "int32" } reads them, and a larger bitsPerSample holds them',
  TRUNCATED: "repair(file), { toEnd: true }",
  DATA_LENGTH: "repair(file), { toEnd: true }",
  FRAME_LENGTH: "repair(file), { toEnd: true }",
  NEEDS_MEND: "repair(file), repairFile(path)",
  NEEDS_OVERWRITE: "{ overwrite: true }",
};
const NAMES = new Map(Object.entries(ERRORS).map(([name, [code]]) => [code, name]));

// What a file is that isn't read, by the number of its kind.
const KINDS = new Map([
  // The names of kinds of files, made from hound.h by scripts/make_interface.py.
  [2, "Microsoft ADPCM"],
  [6, "A-law"],
  [7, "mu-law"],
  [17, "IMA ADPCM"],
  [34, "TrueSpeech"],
  [49, "GSM 6.10"],
  [64, "G.721 ADPCM"],
  [80, "MPEG"],
  [85, "MP3"],
  [8192, "AC-3"],
  [65537, "RIFX, whose numbers have their highest byte first"],
  [65538, "RF64, which is for more than 4 GiB"],
  [65539, "BW64, which is for more than 4 GiB"],
  [65540, "Wave64"],
  [65541, "AIFF"],
  [65542, "FLAC"],
  [65543, "Ogg"],
  [65544, "MP3, or another MPEG audio"],
  [65545, "floats of 64 bits"],
  // The end of what is made from hound.h.
]);

/** A sentence on a file of a kind that isn't read: what it is, and what makes one of it that is read. */
function sentenceOn(kind) {
  const codec = kind < KIND_UNKNOWN ? "pcm_s16le" : kind === KIND_FLOAT64 ? "pcm_f32le" : "pcm_s32le";
  // FFmpeg 5.1 takes the bytes of RIFX in the other order, and makes noise of them.
  const command = kind === KIND_RIFX ? "sox FILE -L NEW.wav" : `ffmpeg -i FILE -c:a ${codec} NEW.wav`;
  return `the file holds ${KINDS.get(kind)}, and isn't read: convert it by ${command}`;
}

/** A call failed: `code` is the cause's name, `message` a sentence, and `kind` what a file is that isn't read, if it is
    known. */
export class HoundError extends Error {
  constructor(code, kind) {
    super(KINDS.has(kind) ? sentenceOn(kind) : [ERRORS[code][1], ADVICE[code]].filter(Boolean).join(": "));
    this.name = "HoundError";
    this.code = code;
    this.kind = KINDS.get(kind);
  }
}

const errorOf = (code, kind) => new HoundError(NAMES.get(-Number(code)), kind);

function checked(code) {
  if (code < 0) throw errorOf(code);
  return Number(code);
}

// The constants, and where fields are, made from hound.h by scripts/make_interface.py.
const VERSION = 512;
const [INT, FLOAT, EFFECT_BYTES, DONE, FAILED] = [0, 1, 40, 1, 2];
const [READ, WRITE, WRITE_BLOCK, SYNC, SHORTEN, SYNC_FOLDER] = [1, 2, 3, 4, 5, 6];
const [FIND_DAMAGE, REPAIR, REPAIR_TO_END, MAKE_CANONICAL, MEND, OVERWRITE] = [0, 1, 2, 3, 1, 2];
const [NOTHING_NEW, KIND_UNKNOWN, KIND_RIFX, KIND_FLOAT64] = [2, 65536, 65537, 65545];
const STATES = ["whole", "cutOff", "hasChunksAfterData", "allCounted"];
const LAYOUT = {
  spec: { sampleRate: 0, channels: 4, bitsPerSample: 6, bytesPerSample: 8, sampleFormat: 10, size: 12 },
  info: { spec: 0, samples: 12, dataStart: 16, size: 24 },
  repair: { spec: 0, frames: 12, leftOver: 16, state: 20, dataStart: 24, length: 32, dataLength: 40, counted: 44,
    size: 48 },
  effect: { place: 0, length: 8, kind: 12, report: 14, bytes: 16, size: 56 },
  walk: { effect: 0, spec: 56, taken: 68, part: 72, fmtLength: 76, size: 80 },
  follower: { effect: 0, dataStart: 56, spec: 64, counted: 76, last: 80, above: 84, taken: 88, part: 92,
    fmtLength: 96, unused: 100, size: 104 },
  repairer: { effect: 0, length: 56, place: 64, dataStart: 72, spec: 80, dataLength: 92, taken: 96, part: 100,
    fmtLength: 104, number: 108, mode: 112, unused: 116, size: 120 },
  recorder: { effect: 0, dataStart: 56, dataLength: 64, number: 68, block: 72, bytesPerSample: 76, channels: 78,
    health: 80, phase: 82, hasRest: 84, unused: 86, size: 88 },
};
// The end of what is made from hound.h.

const PAGE = 65536;
// How many bytes the front of a file has, where its header is.
const FRONT = 4096;
// How many samples are decoded or encoded at once, so that they stay in the processor's cache, and how many bytes they
// have at most in a file, or in an array. A frame has fewer samples.
const BLOCK = 1 << 16;
const BLOCK_BYTES = 8 * BLOCK;
// Where arguments are in the memory of the instance, from its start on: small ones in a page, then two blocks.
const [SPEC, MACHINE, FOUND, NOISE, HEADER, FIRST, SECOND] = [0, 16, 192, 240, 256, PAGE, PAGE + BLOCK_BYTES];

// Which argument of a call has 32 bits.
const WORDS = { beginning: 1, repairer_begin: 1, recorder_resume: 1 };

/** An instance of the module, and so much memory of it, which follows what the module itself uses and is there when it
    is loaded. Nothing grows it, because V8 then makes a check at each access to any typed array of a program. */
class Memory {
  constructor({ exports }, size) {
    const { memory } = exports;
    this.calls = Object.fromEntries(Object.entries(exports).map(([name, call]) => [name.replace("hound_", ""), call]));
    this.start = PAGE * Math.ceil(Number(exports.__heap_base.value) / PAGE);
    this.bytes = new Uint8Array(memory.buffer, this.start, size);
    this.view = new DataView(memory.buffer, this.start);
  }

  /** Calls an export; addresses and lengths are those of a 64-bit processor. */
  call(name, ...numbers) {
    const word = WORDS[name];
    for (let i = 0; i < numbers.length; i++) {
      if (i !== word) numbers[i] = BigInt(numbers[i]);
    }
    return this.calls[name](...numbers);
  }

  at(place) {
    return this.start + place;
  }

  putSpec(spec) {
    this.view.setUint32(SPEC + LAYOUT.spec.sampleRate, spec.sampleRate, true);
    for (const name of ["channels", "bitsPerSample", "bytesPerSample"]) {
      this.view.setUint16(SPEC + LAYOUT.spec[name], spec[name], true);
    }
    this.view.setUint16(SPEC + LAYOUT.spec.sampleFormat, spec.isFloat ? FLOAT : INT, true);
  }

  specAt(place) {
    const short = (name) => this.view.getUint16(place + LAYOUT.spec[name], true);
    return {
      sampleRate: this.view.getUint32(place + LAYOUT.spec.sampleRate, true),
      channels: short("channels"),
      bitsPerSample: short("bitsPerSample"),
      bytesPerSample: short("bytesPerSample"),
      isFloat: short("sampleFormat") === FLOAT,
    };
  }
}

// The instance of all calls, which the first one loads. What uses it is synchronous, so no two calls do at once.
let shared, loading;

async function load() {
  try {
    const instance = await WebAssembly.instantiate(await module());
    if (instance.exports.hound_version?.() !== VERSION) {
      throw new Error("hound_c32.wasm and hound.js have different versions: install both from one version");
    }
    shared = new Memory(instance, SECOND + BLOCK_BYTES);
  } finally {
    loading = undefined; // After an error the next call tries it again.
  }
}

async function ready() {
  if (!shared) await (loading ??= load());
}

// The types of samples: their arrays, and the calls that decode and encode them.
const TYPES = {
  int8: { array: Int8Array, call: "i8", bits: 8, isFloat: false },
  int16: { array: Int16Array, call: "i16", bits: 16, isFloat: false },
  int32: { array: Int32Array, call: "i32", bits: 32, isFloat: false },
  float32: { array: Float32Array, call: "f32", bits: 32, isFloat: true },
  float64: { array: Float64Array, call: "f64", bits: 32, isFloat: true },
};

function integer(name, value, low, high) {
  if (typeof value !== "number") {
    const given = typeof value === "string" ? `"${value}"` : String(value);
    throw new TypeError(`${name} is ${given}, and not a number`);
  }
  if (!Number.isInteger(value) || value < low || value > high) {
    throw new RangeError(`${name} is ${value}, and not an integer from ${low} to ${high}`);
  }
  return value;
}

const ENCODING_OPTIONS = ["onClipped", "dither", "seed"];
const FORMAT_OPTIONS = ["sampleRate", "channels", "bitsPerSample", "bytesPerSample", "isFloat"];
// What else is in what calls report of a file, which is a format, too.
const REPORTED = ["frames", "dataStart", "state", "counted", "leftOver", "dataLength", "file"];

/** Options, which have these names. Another one is an error, because one that is misspelled, or is in another argument
    than its own, would be ignored: so a file would be emptied that `exclusive` was to keep. */
function checkedOptions(options, names, ignored = []) {
  const other = Object.keys(options).find((name) => !names.includes(name) && !ignored.includes(name));
  if (other === undefined) return options;
  throw new TypeError(`${other} is no option of this argument, which has ${names.join(", ") || "none"}`);
}

function typeNamed(name) {
  if (!Object.hasOwn(TYPES, name)) {
    throw new TypeError(`type is ${String(name)}, and not one of ${Object.keys(TYPES).join(", ")}`);
  }
  return TYPES[name];
}

/** An error where the memory of an array was transferred, as to another thread: it has no elements since then. */
function checkAttached(name, { length, buffer }) {
  if (length > 0) return;
  try {
    new Uint8Array(buffer);
  } catch {
    throw new TypeError(`${name} is detached: its memory was transferred`);
  }
}

function typeOf(samples) {
  const type = Object.values(TYPES).find(({ array }) => samples instanceof array);
  if (!type) {
    throw new TypeError(
      "samples is no Int8Array, Int16Array, Int32Array, Float32Array or Float64Array, and no array of these",
    );
  }
  checkAttached("samples", samples);
  return type;
}

/** An array by which samples are copied: by that of their type a NaN could get other bits. */
function exact(samples) {
  if (!(samples instanceof Float32Array)) return samples;
  return new Int32Array(samples.buffer, samples.byteOffset, samples.length);
}

/** The given samples: their type, how many there are, and the number of channels if each has an array. */
function taken(samples) {
  if (!Array.isArray(samples)) return { type: typeOf(samples), samples, count: samples.length };
  const type = typeOf(samples[0]), channels = samples.length;
  for (const channel of samples) {
    if (typeOf(channel) !== type) throw new TypeError("samples has arrays of different types");
    if (channel.length !== samples[0].length) throw new RangeError("samples has arrays of different lengths");
  }
  return { type, samples, count: channels * samples[0].length, channels };
}

/** The same samples, which their owner may change from now on. */
function copyOf({ samples, channels, ...given }) {
  return { ...given, channels, samples: channels ? samples.map((channel) => channel.slice()) : samples.slice() };
}

/** Copies samples from a number on, which is that of a frame, into an array, as many as it has. */
function interleave({ samples, channels }, first, out) {
  if (!channels) return out.set(samples.subarray(first, first + out.length));
  const to = exact(out), start = first / channels;
  samples.forEach((channel, i) => {
    const from = exact(channel);
    for (let place = i, frame = start; place < to.length; place += channels) to[place] = from[frame++];
  });
}

/** Copies interleaved samples to the arrays of their channels, from a frame on, or all to one array. */
function spread(samples, channels, start) {
  if (channels.length === 1) return channels[0].set(samples, start);
  const parts = channels.map((channel) => channel.subarray(start)), last = parts.length - 2;
  for (let i = 0; i <= last + 1; i += 2) {
    const first = Math.min(i, last); // Of an odd number the last two but one are copied twice.
    spreadTwo(samples, first, parts.length, parts[first], parts[first + 1]);
  }
}

/** Copies two channels in one pass, which takes less time than two passes. */
function spreadTwo(from, first, step, left, right) {
  for (let place = first, frame = 0; place < from.length; place += step) {
    left[frame] = from[place];
    right[frame++] = from[place + 1];
  }
}

function checkChannels(given, channels) {
  if (given !== undefined && given !== channels) {
    throw new RangeError(`samples has ${given} arrays, and there are ${channels} channels`);
  }
}

function fileOf(file) {
  if (file instanceof Blob) return file;
  if (file instanceof Uint8Array) checkAttached("file", file);
  if (file instanceof Uint8Array) return file;
  if (file instanceof ArrayBuffer) return new Uint8Array(file);
  throw new TypeError("file is no Uint8Array, ArrayBuffer or Blob");
}

const sizeOf = (part) => part.size ?? part.length;

/** A part of a file, of the same kind as the file; nothing of it is read. */
const partOf = (file, from, to) => file instanceof Blob ? file.slice(from, to) : file.subarray(from, to);

async function bytesOf(file, from, to) {
  const part = partOf(file, from, to);
  return file instanceof Blob ? new Uint8Array(await part.arrayBuffer()) : part;
}

/** A file of these parts: a Blob, or one array. */
function joined(parts, isBlob) {
  if (isBlob) return new Blob(parts, { type: "audio/wav" });
  const whole = new Uint8Array(parts.reduce((sum, part) => sum + part.length, 0));
  let place = 0;
  for (const part of parts) {
    whole.set(part, place);
    place += part.length;
  }
  return whole;
}


/** A walk, a repairer or a recorder. It is in the memory of the instance only during a call. */
class Machine {
  constructor(name) {
    this.bytes = new Uint8Array(LAYOUT[name].size);
    this.view = new DataView(this.bytes.buffer);
  }

  /** Makes a call with it first or last among addresses, and returns the code. */
  call(name, ...numbers) {
    this.there ??= shared.bytes.subarray(MACHINE, MACHINE + this.bytes.length);
    this.there.set(this.bytes);
    const code = shared.call(name, ...numbers);
    this.bytes.set(this.there);
    return code;
  }

  /** The effect that is requested. Its bytes are a part of the machine. */
  get effect() {
    const { place, length: at, kind, bytes } = LAYOUT.effect, length = this.view.getUint32(at, true);
    return {
      place: Number(this.view.getBigUint64(place, true)), length, kind: this.view.getUint16(kind, true),
      bytes: this.bytes.subarray(bytes, bytes + Math.min(length, EFFECT_BYTES)),
    };
  }

  /** Reports the effect as done; what was read is fewer bytes only where the file ends. */
  report({ kind, bytes }, part) {
    if (kind === READ) {
      bytes.set(part);
      this.view.setUint32(LAYOUT.effect.length, part.length, true);
    }
    this.view.setUint16(LAYOUT.effect.report, DONE, true);
  }

  /** Reports it as failed. */
  fail() {
    this.view.setUint16(LAYOUT.effect.report, FAILED, true);
  }
}

/** The error of whoever performs effects at one that it can't, which is never reported as done then. */
const unknownEffect = () =>
  new Error("the WebAssembly module requests what this hound.js can't do: install both from one version");

const frontOf = (perform) => perform({ kind: READ, place: 0, length: FRONT });

/** Makes a call over the front of a file. */
function callOver(front, name) {
  shared.bytes.set(front, FIRST);
  return Number(shared.call(name, shared.at(FIRST), front.length));
}

/** Performs all that a walk or a repairer requests, and returns what `found` gives then. */
async function performAll(machine, name, perform, found) {
  for (;;) {
    const code = machine.call(name, shared.at(MACHINE), shared.at(FOUND));
    if (code === 0) return found();
    if (code < 0) throw errorOf(code, callOver(await frontOf(perform), "kind"));
    const { effect } = machine;
    machine.report(effect, await perform(effect));
  }
}

/** Returns what reads parts of a file. The last page that was read is kept, for many chunks that are short. */
function readerOf(file) {
  const size = sizeOf(file);
  let from = 0, page = new Uint8Array(0);
  return async ({ kind, place, length }) => {
    if (kind !== READ) throw unknownEffect();
    const end = Math.min(place + length, size);
    if (place >= end) return page.subarray(0, 0);
    if (place < from || end > from + page.length) {
      [from, page] = [place, await bytesOf(file, place, Math.min(place + PAGE, size))];
    }
    return page.subarray(place - from, end - from);
  };
}

/** Walks over what is before the data. Of a stream the length that its header counts isn't looked at. */
function walkOver(file, toEnd) {
  const size = sizeOf(file);
  const readPart = ({ kind, place, length }) => {
    if (kind !== READ) throw unknownEffect();
    return bytesOf(file, Math.min(place, size), Math.min(place + length, size));
  };
  return performAll(new Machine("walk"), toEnd ? "walk_to_end" : "walk_next", readPart, () => {
    const samples = shared.view.getUint32(FOUND + LAYOUT.info.samples, true);
    const dataStart = Number(shared.view.getBigUint64(FOUND + LAYOUT.info.dataStart, true));
    return { spec: shared.specAt(FOUND), samples, dataStart };
  });
}

/** What the header of a file says. The data may be missing. With `toEnd` the frames are all whole ones to its end. */
export async function info(file, options = {}) {
  const given = fileOf(file), { toEnd = false } = checkedOptions(options, ["toEnd"]);
  await ready();
  const { spec, samples, dataStart } = await walkOver(given, toEnd), { channels, bytesPerSample } = spec;
  shared.putSpec(spec);
  if (!toEnd) return { ...spec, frames: samples / channels, dataStart };
  const held = checked(shared.call("whole_frames", shared.at(SPEC), sizeOf(given) - dataStart));
  return { ...spec, frames: held / (channels * bytesPerSample), dataStart };
}

/** Whether floats of a type, whose full scale is 1, are integers in a file. */
const isScaled = (type, spec) => type.isFloat && !spec.isFloat;

/** The type that is stored where samples of a type are read or written. */
function storedAs(type, spec) {
  if (!type.isFloat) return type;
  return spec.isFloat ? TYPES.float32 : TYPES.int32;
}

/** An array of a type over the memory of the instance. */
const arrayAt = (type, place, count) => new type.array(shared.bytes.buffer, shared.at(place), count);

// The types whose containers are numbers of this machine already: what decodes and encodes these copies them only.
const OWN = [TYPES.int16, TYPES.int32, TYPES.float32];

/** The numbers in these containers, if this machine has them as they are, and they fit in a type. */
function numbersIn(bytes, { bitsPerSample, isFloat }, type) {
  const own = OWN.find((one) => one.bits === bitsPerSample && one.isFloat === isFloat);
  if (!own || own.bits > type.bits || isFloat !== type.isFloat) return undefined;
  const size = own.array.BYTES_PER_ELEMENT;
  return bytes.byteOffset % size === 0 ? new own.array(bytes.buffer, bytes.byteOffset, bytes.length / size) : undefined;
}

/** Decodes containers by the library, and returns their samples, which stay in its memory until the next call. */
function decodedIn(bytes, spec, type) {
  const isWidened = spec.isFloat && type === TYPES.float64, stored = isWidened ? TYPES.float32 : type;
  shared.putSpec(spec);
  shared.bytes.set(bytes, FIRST);
  const name = (isScaled(type, spec) ? "to_" : "decode_") + stored.call;
  const places = [shared.at(FIRST), bytes.length, shared.at(SECOND), BLOCK];
  const count = checked(shared.call(name, shared.at(SPEC), ...places));
  if (!isWidened) return arrayAt(type, SECOND, count);
  checked(shared.call("f32_to_f64", shared.at(SECOND), count, shared.at(FIRST), count));
  return arrayAt(type, FIRST, count);
}

/** The samples in these containers. */
function samplesIn(bytes, spec, type) {
  return type === storedAs(type, spec) && numbersIn(bytes, spec, type) || decodedIn(bytes, spec, type);
}

/** The containers of the first channel of two, and then those of the second one, where each has two bytes. A frame is a
    number of 32 bits then, whose lower half is the first one: V8 copies the numbers of a whole array to those of
    another type in a tenth of the time that a loop takes. */
function splitIn(bytes) {
  const count = bytes.length / 4, halves = [SECOND, SECOND + 2 * count];
  halves.forEach((place, i) => {
    shared.bytes.set(bytes, FIRST + 2 * i);
    arrayAt(TYPES.int16, place, count).set(arrayAt(TYPES.int32, FIRST + 4 * i, count));
  });
  return shared.bytes.subarray(SECOND, SECOND + bytes.length);
}

/** Decodes containers to the ends of some arrays, from this place of each on: to one, or to one for each channel. */
function decode(bytes, spec, type, parts, start) {
  if (parts.length === 2 && spec.bytesPerSample === 2) {
    const samples = samplesIn(splitIn(bytes), spec, type), half = samples.length / 2;
    return parts.forEach((part, i) => part.set(samples.subarray(i * half, (i + 1) * half), start));
  }
  const samples = samplesIn(bytes, spec, type);
  if (spec.isFloat) return spread(exact(samples), parts.map(exact), start);
  return spread(samples, parts, start);
}

/** The noise that is added to floats before they become integers, if it is requested: the state of its generator. */
function noiseOf({ dither = false, seed = 1 }) {
  if (typeof dither !== "boolean") throw new TypeError(`dither is ${String(dither)}, and not a boolean`);
  integer("seed", seed, 0, Number.MAX_SAFE_INTEGER);
  return dither ? { state: BigInt(seed) } : undefined;
}

function checkNoise(noise, type, spec) {
  if (noise && !isScaled(type, spec)) throw new TypeError("dither is for floats that become integers");
}

/** What the last call counted. */
const counted = () => Number(shared.view.getBigUint64(FOUND, true));

/** Encodes the first samples of a type in the memory of the instance, as so many bytes, and returns how many were
    clipped. The state of the noise becomes that for the next ones. */
function scale(type, count, length, noise) {
  if (noise) shared.view.setBigUint64(NOISE, noise.state, true);
  const places = [...noise ? [shared.at(NOISE)] : [], shared.at(SECOND), length, shared.at(FOUND)];
  checked(shared.call((noise ? "dither_" : "from_") + type.call, shared.at(SPEC), shared.at(FIRST), count, ...places));
  if (noise) noise.state = shared.view.getBigUint64(NOISE, true);
  return counted();
}

/** Replaces the first doubles in the memory of the instance by floats. A finite one that would be infinite is an
    error. */
function narrow(count) {
  checked(shared.call("f64_to_f32", shared.at(FIRST), count, shared.at(SECOND), count, shared.at(FOUND)));
  if (counted() > 0) throw new HoundError("TOO_WIDE");
  shared.bytes.copyWithin(FIRST, SECOND, SECOND + 4 * count);
}

/** Encodes so many given samples from a number on into an array, and returns how many were clipped. */
function encodeBlock(given, spec, first, count, out, noise) {
  const { type } = given, stored = storedAs(type, spec), numbers = numbersIn(out, spec, stored);
  if (numbers instanceof type.array) {
    interleave(given, first, numbers);
    return 0;
  }
  interleave(given, first, arrayAt(type, FIRST, count));
  let clipped = 0;
  if (isScaled(type, spec)) {
    clipped = scale(type, count, out.length, noise);
  } else {
    if (type !== stored) narrow(count);
    const places = [shared.at(FIRST), count, shared.at(SECOND), out.length];
    checked(shared.call("encode_" + stored.call, shared.at(SPEC), ...places));
  }
  out.set(shared.bytes.subarray(SECOND, SECOND + out.length));
  return clipped;
}

/**
 * Reads frames from number `start` on, at most so many, and returns their samples.
 *
 * Without `type` it is the narrowest one from 16 bits on that reads the file. Integers are also read as floats, each
 * divided by 2^(bits - 1). Of a file that holds fewer frames than its header counts these are read, and a read that
 * starts after them is an error. With `toEnd` the file is read as a stream, whose header may count any length.
 */
export async function read(file, options = {}) {
  const { start = 0, frames = Infinity, type, planar = false, toEnd = false } =
    checkedOptions(options, ["start", "frames", "type", "planar", "toEnd"]);
  const given = fileOf(file), length = sizeOf(given);
  integer("start", start, 0, Number.MAX_SAFE_INTEGER);
  if (frames !== Infinity) integer("frames", frames, 0, Number.MAX_SAFE_INTEGER);
  if (type !== undefined) typeNamed(type);
  const found = await info(given, { toEnd }), { channels, bytesPerSample, dataStart } = found;
  const form = typeNamed(type ?? (found.isFloat ? "float32" : found.bitsPerSample <= 16 ? "int16" : "int32"));
  decodedIn(new Uint8Array(0), found, form); // An error where the type doesn't read the file.
  const counted = Math.max(Math.min(frames, found.frames - start), 0);
  const count = Math.min(counted, Math.floor((length - dataStart) / (channels * bytesPerSample)) - start);
  if (count <= 0 && counted > 0) throw new HoundError("TRUNCATED");
  const held = Math.max(count, 0), step = Math.floor(BLOCK / channels);
  const each = planar ? 1 : channels;
  const parts = Array.from({ length: channels / each }, () => new form.array(held * each));
  for (let frame = 0; frame < held; frame += step) {
    const from = dataStart + (start + frame) * channels * bytesPerSample;
    const to = from + Math.min(step, held - frame) * channels * bytesPerSample;
    const bytes = given instanceof Blob ? await bytesOf(given, from, to) : given.subarray(from, to);
    decode(bytes, found, form, parts, frame * each);
  }
  return planar ? parts : parts[0];
}

/** How many bytes a sample takes; an error where the type isn't written. */
function widthOf(type, spec) {
  const stored = storedAs(type, spec);
  shared.putSpec(spec);
  new stored.array(shared.bytes.buffer, shared.at(FIRST), 1).fill(0);
  const places = [shared.at(FIRST), 1, shared.at(SECOND), BLOCK_BYTES];
  return checked(shared.call("encode_" + stored.call, shared.at(SPEC), ...places));
}

/** Encodes the given samples into the part of an array from a place on, and returns how many were clipped. */
function encode(given, spec, out, place, width, noise) {
  checkNoise(noise, given.type, spec);
  const step = given.channels ? Math.floor(BLOCK / given.channels) * given.channels : BLOCK;
  let clipped = 0;
  shared.putSpec(spec);
  for (let first = 0; first < given.count; first += step) {
    const count = Math.min(step, given.count - first), start = place + first * width;
    clipped += encodeBlock(given, spec, first, count, out.subarray(start, start + count * width), noise);
  }
  return clipped;
}

/** The containers of the given samples, and how many samples were clipped. They are at the front of `room`, if that is
    long enough. */
function encoded(given, spec, noise, room = new Uint8Array(0)) {
  // Where there are samples, the calls that encode them say whether their type is written.
  const width = given.count > 0 ? spec.bytesPerSample : widthOf(given.type, spec), length = given.count * width;
  const data = length <= room.length ? room.subarray(0, length) : new Uint8Array(length);
  return { data, clipped: encode(given, spec, data, 0, width, noise) };
}

function warn(clipped) {
  console.warn(`hound_bindings: samples out of full scale were clipped: ${clipped}`);
}

/** The spec of a file of samples of a type. Floats of other bits, or with `isFloat: false`, are stored as integers. */
function specFor(type, format) {
  const { sampleRate, channels = 1, bitsPerSample, bytesPerSample = 0, isFloat } =
    checkedOptions(format, FORMAT_OPTIONS, REPORTED);
  const bits = integer("bitsPerSample", bitsPerSample ?? type.bits, 1, 0xffff);
  if (isFloat !== undefined && typeof isFloat !== "boolean") {
    throw new TypeError(`isFloat is ${String(isFloat)}, and not a boolean`);
  }
  return {
    sampleRate: integer("sampleRate", sampleRate, 1, 0xffffffff),
    channels: integer("channels", channels, 1, 0xffff),
    bitsPerSample: bits,
    bytesPerSample: integer("bytesPerSample", bytesPerSample, 0, 0xffff),
    isFloat: isFloat ?? (type.isFloat === true && bits === type.bits),
  };
}

/** The header of a file of so many samples. */
function headerOf(spec, samples) {
  shared.putSpec(spec);
  const length = checked(shared.call("header", shared.at(SPEC), samples, shared.at(HEADER), FIRST - HEADER));
  return shared.bytes.slice(HEADER, HEADER + length);
}

/** The bytes of a chunk: its name, the length of its content, this, and a byte of 0 where the length is odd. */
function chunkOf([name, content]) {
  if (typeof name !== "string" || !/^[\x20-\x7e]{4}$/.test(name)) {
    throw new TypeError(`a chunk is named ${String(name)}, and not by four characters of ASCII`);
  }
  if (name === "data" || name === "fmt ") throw new TypeError(`a chunk is named ${name}, as one that each file has`);
  if (!(content instanceof Uint8Array || content instanceof ArrayBuffer)) {
    throw new TypeError(`the content of the chunk ${name} is no Uint8Array and no ArrayBuffer`);
  }
  const bytes = new Uint8Array(content), chunk = new Uint8Array(8 + bytes.length + bytes.length % 2);
  for (let i = 0; i < 4; i++) chunk[i] = name.charCodeAt(i);
  new DataView(chunk.buffer).setUint32(4, bytes.length, true);
  chunk.set(bytes, 8);
  return chunk;
}

/** The header of a file of no samples with these chunks before its data, or none where no chunks are given. All four
    bytes of the data length are in one sector of a disk, which a power failure stores whole or not. */
function headerWith(spec, given) {
  if (given === undefined) return undefined;
  const chunks = [...given].map(chunkOf);
  const plain = headerOf(spec, 0), end = plain.length - 8, before = joined([plain.subarray(0, end), ...chunks]);
  const filler = checked(shared.call("filler", before.length + 8, shared.at(HEADER), FIRST - HEADER));
  const header = joined([before, shared.bytes.slice(HEADER, HEADER + filler), plain.subarray(end)]);
  shared.putSpec(spec);
  checked(shared.call("sizes", shared.at(SPEC), header.length, 0, shared.at(HEADER), FIRST - HEADER));
  header.set(shared.bytes.subarray(HEADER, HEADER + 4), 4);
  return header;
}

/** Makes the file of these samples. `bitsPerSample` is the width of the samples unless it is given. With `dither`
    floats that become integers get triangular noise of at most one step before they are rounded, by a generator of this
    `seed`. */
export async function write(samples, { onClipped = warn, dither, seed, ...format } = {}) {
  let given = taken(samples);
  const noise = noiseOf({ dither, seed });
  const spec = specFor(given.type, { ...format, channels: format.channels ?? given.channels });
  checkChannels(given.channels, spec.channels);
  if (!shared) {
    given = copyOf(given); // The samples are those of the call.
    await ready();
  }
  shared.putSpec(spec);
  const size = checked(shared.call("size", shared.at(SPEC), given.count)), header = headerOf(spec, given.count);
  const width = widthOf(given.type, spec), file = new Uint8Array(size);
  file.set(header);
  const clipped = encode(given, spec, file, header.length, width, noise);
  if (clipped > 0) onClipped(clipped);
  return file;
}

/** What a repairer of this mode finds in a file of so many bytes, once all that it requests is performed. */
function repairBy(size, mode, perform) {
  const repairer = new Machine("repairer");
  repairer.call("repairer_begin", size, mode, shared.at(MACHINE));
  return performAll(repairer, "repairer_next", perform, () => {
    const number = (name) => shared.view.getUint32(FOUND + LAYOUT.repair[name], true);
    const [frames, counted, leftOver, dataLength] = ["frames", "counted", "leftOver", "dataLength"].map(number);
    const dataStart = Number(shared.view.getBigUint64(FOUND + LAYOUT.repair.dataStart, true));
    const state = STATES[number("state")], spec = shared.specAt(FOUND);
    const report = { state, frames, counted, leftOver, ...spec, dataStart, dataLength };
    return { report, found: shared.bytes.slice(FOUND, FOUND + LAYOUT.repair.size) };
  });
}

/** Reports what `repair` would find, or fails as it would. */
export async function findDamage(file, options = {}) {
  checkedOptions(options, []);
  const given = fileOf(file);
  await ready();
  const { report } = await repairBy(sizeOf(given), FIND_DAMAGE, readerOf(given));
  return report;
}

/** Where samples may begin in a file whose header is damaged: after what looks like the header of its data, or at 0. */
export async function guessStart(file, options = {}) {
  checkedOptions(options, []);
  const given = fileOf(file);
  await ready();
  const front = await frontOf(readerOf(given));
  return startIn(front, (from) => callOver(front.subarray(from), "guess_data"));
}

/**
 * Guesses what the samples of a file are whose header is lost, and where they begin: the `like` of `repair` but for the
 * rate, which can't be guessed, and its `skip`. It is null where nothing is predictable, as silence and noise. Without
 * `skip` they begin where `guessStart` finds it, or near the end of a header of the usual length.
 */
export async function guess(file, options = {}) {
  const given = fileOf(file), size = sizeOf(given), { skip } = checkedOptions(options, ["skip"]);
  const known = skip === undefined ? await guessStart(given) : integer("skip", skip, 0, size);
  await ready();
  const isKnown = skip !== undefined || known > 0, start = isKnown ? known : USUAL_START;
  const zeros = isKnown ? null : (await bytesOf(given, 0, Math.min(FRONT, size))).findIndex((byte) => byte !== 0);
  const parts = blocksOf(size, start).map((place) => bytesOf(given, place, Math.min(place + BLOCK_LENGTH, size)));
  return formOf(await Promise.all(parts), start, zeros < 0 ? FRONT : zeros, decodedAs);
}

/** All whole samples of these bytes, of one channel. */
function decodedAs(form, bytes) {
  const type = form.isFloat ? TYPES.float32 : TYPES.int32;
  const spec = { ...form, sampleRate: 1, channels: 1 };
  const samples = new type.array(Math.floor(bytes.length / form.bytesPerSample));
  decode(bytes.subarray(0, samples.length * form.bytesPerSample), spec, type, [samples], 0);
  return samples;
}

/** What a file becomes by effects: its own parts and those that were written, one after the other. The file stays. */
class Overlay {
  constructor(parts) {
    this.parts = parts;
  }

  /** The parts from one place to another. */
  between(from, to) {
    let start = 0;
    return this.parts.flatMap((part) => {
      const place = start;
      start += sizeOf(part);
      // A part of a part of a part .. of a Blob would take long.
      if (from <= place && place < start && start <= to) return [part];
      return place < to && start > from ? [partOf(part, Math.max(from - place, 0), Math.min(to, start) - place)] : [];
    });
  }

  put(part, place) {
    this.parts = [...this.between(0, place), part, ...this.between(place + sizeOf(part), Infinity)];
  }

  /** Performs an effect that isn't a read; no sync is of use here. */
  perform({ kind, place, bytes }, block) {
    switch (kind) {
      case WRITE: return this.put(bytes.slice(), place);
      case WRITE_BLOCK: return this.put(block, place);
      case SYNC: return;
      case SHORTEN: this.parts = this.between(0, place); return;
      default: throw unknownEffect();
    }
  }
}

/** What a repair does. */
const modeOf = ({ toEnd = false, canonical = false }) => toEnd ? REPAIR_TO_END : canonical ? MAKE_CANONICAL : REPAIR;

/**
 * Repairs a file whose recording was cut off, and returns how it was found and the repaired file: it has the two sizes
 * of its whole frames, and ends after them and their pad byte. A file that is whole, of which all frames are counted,
 * or that chunks or a tag follow, is returned as it is. With `canonical` one of which all frames are counted gets the
 * RIFF size and the pad byte that the format asks for; with `toEnd` all that follows the header of the data is taken
 * for samples, also what looks like chunks. Where the header is lost, all that follows the first `skip` bytes is taken
 * for samples, and a header as `like` says is put before it.
 */
export async function repair(file, options = {}) {
  const { like, skip, ...how } = checkedOptions(options, ["like", "skip", "toEnd", "canonical"]);
  const whole = fileOf(file), spec = like && specFor({}, like);
  const start = skip === undefined ? like && await guessStart(whole) : integer("skip", skip, 0, sizeOf(whole));
  await ready();
  const given = like ? joined([headerOf(spec, 0), partOf(whole, start, sizeOf(whole))], whole instanceof Blob) : whole;
  return repairedFile(given, like ? REPAIR_TO_END : modeOf(how));
}

async function repairedFile(given, mode) {
  const readPart = readerOf(given), repaired = new Overlay([given]);
  const perform = (effect) => effect.kind === READ ? readPart(effect) : repaired.perform(effect);
  const { report } = await repairBy(sizeOf(given), mode, perform);
  if (repaired.parts.length === 1) return { ...report, file: given };
  if (report.leftOver === 0) return { ...report, file: joined(repaired.parts, given instanceof Blob) };
  // The bytes of a torn frame stay in the original, since some players play nothing of a file that has them at its end.
  const { file } = await repairedFile(partOf(given, 0, sizeOf(given) - report.leftOver), REPAIR_TO_END);
  return { ...report, file };
}

/** Runs a generator, each of whose yields becomes the value of what is yielded, and returns what it returns: a promise
    only where a yielded value is one, because a promise takes longer than a short write. */
function run(steps, step = steps.next()) {
  while (!step.done) {
    const { value } = step;
    if (typeof value?.then === "function") return runAfter(Promise.resolve(value), steps);
    step = steps.next(value);
  }
  return step.value;
}

function runAfter(promise, steps) {
  return promise.then((value) => run(steps, steps.next(value)), (error) => run(steps, steps.throw(error)));
}

// A medium is what a file is recorded to or repaired in: it has these calls of a FileSystemSyncAccessHandle, each of
// which may return a promise. A read or a write may do a part of what it is asked for.
const CALLS = ["getSize", "read", "write", "truncate", "flush", "close"];

// So many bytes are written at once, by this thread, because the way to another one and back takes longer. After a
// write that took so many milliseconds a file is slow, and other threads write it. Where no call goes to another thread
// Node's loop gets a turn after so many milliseconds.
const [AT_ONCE, SLOW, TURN] = [1 << 16, 20, 5];
let turned = 0;

/** A file of Node as a medium. */
class NodeFile {
  #handle;
  #path;
  #isSlow = false;

  constructor(handle, path) {
    this.#handle = handle;
    this.#path = path;
  }

  /** How long the file is. What isn't a regular file is an error, because no effect could be performed on it. */
  async getSize() {
    const found = await this.#handle.stat(), path = this.#path;
    if (found.isFile()) return found.size;
    throw Object.assign(new Error(`ESPIPE: this is no regular file, '${path}'`), { code: "ESPIPE", path });
  }

  async read(bytes, { at }) {
    return (await this.#handle.read(bytes, 0, bytes.length, at)).bytesRead;
  }

  /** Writes, and returns a promise only where another thread does it. */
  write(bytes, { at }) {
    if (bytes.length > AT_ONCE || this.#isSlow) return this.#writeInThread(bytes, at);
    const start = performance.now(), written = node.writeSync(this.#handle.fd, bytes, 0, bytes.length, at);
    this.#isSlow = performance.now() - start > SLOW;
    return written;
  }

  async #writeInThread(bytes, place) {
    return (await this.#handle.write(bytes, 0, bytes.length, place)).bytesWritten;
  }

  truncate(size) {
    return this.#handle.truncate(size);
  }

  flush() {
    return this.#handle.sync();
  }

  close() {
    return this.#handle.close();
  }

  /** Stores the name of the file, where the system opens folders. */
  async flushName() {
    if (process.platform === "win32") return;
    const { open, realpath } = node.promises, name = await realpath(this.#path);
    const folder = await open(name.slice(0, name.lastIndexOf("/") + 1));
    await folder.sync().finally(() => folder.close());
  }
}

/** The error where a medium can't do what it is asked for. */
const notPerformed = (message) => Object.assign(new HoundError("NOT_PERFORMED"), { message });

/** How many bytes a call of a medium says that it has read or written: an error unless it is from 1 to these. */
function someOf(done, count, most) {
  if (Number.isInteger(count) && count > 0 && count <= most) return count;
  throw notPerformed(`of ${most} bytes the medium has ${done} ${count}`);
}

/** Whether the bytes are the same. A loop takes a fifth of the time of `every`. */
function areEqual(one, other) {
  for (let i = 0; i < one.length; i++) {
    if (one[i] !== other[i]) return false;
  }
  return one.length === other.length;
}

/** Reads so many bytes at a place, or fewer where the medium ends. */
function* reading(medium, length, place) {
  const bytes = new Uint8Array(length);
  for (let count = 0; count < length;) {
    const some = yield medium.read(bytes.subarray(count), { at: place + count });
    if (some === 0) return bytes.subarray(0, count);
    count += someOf("read", some, length - count);
  }
  return bytes;
}

/** Writes at a place, and reads that again unless it is in a file of Node. On a full disk Firefox 153 returns a number
    that means nothing (32,721 of 10,000 bytes, of which 8,048 were there), and the header would count what isn't. */
function* writing(medium, bytes, place) {
  for (let count = 0; count < bytes.length;) {
    const part = count > 0 ? bytes.subarray(count) : bytes;
    count += someOf("written", yield medium.write(part, { at: place + count }), part.length);
  }
  if (medium instanceof NodeFile) return;
  for (let count = 0; count < bytes.length; count += PAGE) {
    const part = bytes.subarray(count, count + PAGE);
    const held = yield* reading(medium, part.length, place + count);
    if (!areEqual(held, part)) throw notPerformed("the medium doesn't hold what it says that it has written");
  }
}

function* shortening(medium, place) {
  if ((yield medium.getSize()) > place) yield medium.truncate(place);
}

/** Performs an effect on a medium, and returns a promise only where something has to be waited for. Without `durable`
    nothing is synced: the system has what was written. Only a file of Node has a name that can be synced. */
function performOn(medium, durable, { kind, place, length, bytes }, block) {
  switch (kind) {
    case READ: return run(reading(medium, length, place));
    case WRITE: return run(writing(medium, bytes, place));
    case WRITE_BLOCK: return run(writing(medium, block, place));
    case SYNC: return durable ? medium.flush() : undefined;
    case SHORTEN: return run(shortening(medium, place));
    case SYNC_FOLDER: return durable && medium instanceof NodeFile ? medium.flushName() : undefined;
    default: throw unknownEffect();
  }
}

/** Gives Node's loop a turn where that is due, since a promise that is fulfilled already gives it none. */
function turn() {
  if (typeof setImmediate === "undefined" || performance.now() - turned < TURN) return undefined;
  return new Promise((resolve) => setImmediate(() => {
    turned = performance.now();
    resolve();
  }));
}

// What Node has for files, once `files` has loaded it.
let node;

/** Node's files, once the module is there, too. */
async function files() {
  const loaded = nodeFiles().catch(() => {
    throw new Error("files at a path are recorded and repaired in Node alone");
  });
  [node] = await Promise.all([loaded, ready()]);
  return node.promises;
}

/** Opens a file by flags whose names these are. A FIFO isn't waited for, but found by its size. */
function openAt({ constants, open }, path, ...flags) {
  return open(path, ["O_NONBLOCK", ...flags].reduce((sum, name) => sum | (constants[name] ?? 0), 0));
}

/** Whether it is a path, as Node has them. What isn't is taken for a medium. */
const isPath = (place) =>
  typeof place !== "object" || place === null || place instanceof URL || ArrayBuffer.isView(place);

/** An error unless it has the calls of a medium. What `createWritable` returns hasn't. */
function checkMedium(medium) {
  const missing = CALLS.filter((name) => typeof medium?.[name] !== "function");
  if (missing.length === 0) return;
  throw new TypeError(
    `this is no medium, because it has no ${missing.join(", ")}: createSyncAccessHandle returns one in a worker, and ` +
      "createWritable doesn't, because its file holds nothing before it is closed",
  );
}

/** The medium that is given, or a file at a path, in Node, which is opened by these flags. */
async function mediumAt(place, ...flags) {
  if (isPath(place)) return new NodeFile(await openAt(await files(), place, ...flags), place);
  checkMedium(place);
  await ready();
  return place;
}

/** Does something with the medium that is given, which stays open, or with a file at a path, which is closed then. */
async function withMedium(place, flag, task) {
  const medium = await mediumAt(place, flag);
  try {
    return await task(medium);
  } finally {
    if (medium !== place) await medium.close();
  }
}

/** What a repairer of this mode finds in a medium, which it repairs. Each step is synced. */
async function repairOn(medium, mode) {
  return repairBy(await medium.getSize(), mode, (effect) => performOn(medium, true, effect));
}

/** Repairs a file at a path, in Node, or a medium in place, and returns how it was found. */
export async function repairFile(place, options = {}) {
  const mode = modeOf(checkedOptions(options, ["toEnd", "canonical"]));
  return withMedium(place, "O_RDWR", async (medium) => (await repairOn(medium, mode)).report);
}

/** Reports what `repairFile` would find, or fails as it would; the file may be read-only. */
export async function findDamageInFile(place, options = {}) {
  checkedOptions(options, []);
  return withMedium(place, "O_RDONLY", async (medium) => (await repairOn(medium, FIND_DAMAGE)).report);
}

/** The recorder that appends to a file in which this was found, and its spec, which may have to continue another. */
function resumed({ found, report }, allowed, spec) {
  const recorder = new Machine("recorder");
  if (spec) checkContinues(spec, report);
  shared.bytes.set(found, FOUND);
  checked(recorder.call("recorder_resume", shared.at(FOUND), allowed, shared.at(MACHINE)));
  return { recorder, spec: shared.specAt(FOUND) };
}

/** An error where samples of a spec don't continue those of a file. */
function checkContinues(spec, held) {
  const names = ["sampleRate", "channels", "bitsPerSample", "bytesPerSample", "isFloat"];
  if (names.every((name) => spec[name] === held[name])) return;
  const message = "the file has samples of another rate, format or number of channels";
  throw Object.assign(new HoundError("OTHER_FORMAT"), { message });
}

/** A file that is recorded. What is requested of it is performed one after the other. */
class Recorder {
  #medium;
  #machine;
  #durable;
  #noise;
  #last = Promise.resolve();
  #requests = 0;
  #room; // What a block was in that is written: the next one is, too.
  #closing;
  #most; // How many frames a file has at most, where the recording continues in a next one.
  #places = []; // The files of such a recording.
  #before = 0; // How many frames are in those before the last one.
  #begin; // What begins the next one.
  #counted; // How many frames the last checkpoint counted.
  #interval; // How many milliseconds are between two checkpoints, where a write makes them.
  #due; // When the next one is.

  constructor(medium, { durable = false, checkpoint = Infinity }, { recorder, spec }) {
    this.#medium = medium;
    this.#durable = durable;
    this.#interval = checkpoint;
    this.#machine = recorder;
    this.spec = Object.freeze(spec);
  }

  /** A file that is recorded, once what its recorder begins with is performed. */
  static async begin(medium, how, given) {
    const recorder = new Recorder(medium, how, given);
    await recorder.#performAll();
    recorder.#counted = recorder.tell();
    recorder.#due = performance.now() + recorder.#interval;
    return recorder;
  }

  /** Lets a recording continue in a next file, which `begin` begins, after so many frames, or as many as fit. */
  static split(recorder, frames, place, begin) {
    recorder.#most = Math.min(frames, recorder.framesLeft);
    recorder.#places.push(place);
    recorder.#begin = begin;
    return recorder;
  }

  /** With `split`, the files of the recording, the last of which is written. */
  get paths() {
    return [...this.#places];
  }

  get #frameBytes() {
    return this.spec.channels * this.spec.bytesPerSample;
  }

  /** How many frames still fit after those that are written: with `split`, how many this file still takes. */
  get framesLeft() {
    const left = Number(this.#machine.call("recorder_frames_left", shared.at(MACHINE)));
    return this.#most === undefined ? left : Math.min(left, Math.max(this.#most - this.#held, 0));
  }

  /** How many frames the last file has. */
  get #held() {
    return this.#machine.view.getUint32(LAYOUT.recorder.dataLength, true) / this.#frameBytes;
  }

  /** The number of the next frame; with `split`, in all files. */
  tell() {
    return this.#before + this.#held;
  }

  /** How many frames the last checkpoint counted; with `split`, in all files. After a sync that failed those from this
      number on have to be recorded to another file. */
  get counted() {
    return this.#counted;
  }

  /** Writes whole frames after the last ones. After a write that failed it makes a checkpoint first. The seed of
      `dither` is that of the first block that has it. */
  async write(samples, options = {}) {
    this.#checkOpen();
    const { onClipped = warn, dither, seed } = checkedOptions(options, ENCODING_OPTIONS);
    const given = taken(samples), first = noiseOf({ dither, seed }), room = this.#room;
    checkChannels(given.channels, this.spec.channels);
    this.#room = undefined;
    const { data, clipped } = encoded(given, this.spec, first && (this.#noise ??= first), room);
    if (clipped > 0) onClipped(clipped);
    const waits = this.#queue(() => run(this.#writing(data, given.count)));
    if (waits) await waits;
    if (data.length <= BLOCK_BYTES) this.#room = new Uint8Array(data.buffer);
  }

  /** Writes a block, in next files what doesn't fit in this one. A checkpoint that is due comes first, so that the
      block is in no file where that is an error. */
  *#writing(data, count) {
    if (performance.now() >= this.#due) yield this.#checkpoint();
    const frames = count / this.spec.channels;
    const isHere = this.#most === undefined || !Number.isInteger(frames) || frames <= this.framesLeft;
    yield isHere ? this.#perform("recorder_write", data, count) : this.#writeInFiles(data);
  }

  /** Writes whole frames, in a next file where they don't fit in this one. A block that is larger than a file may be
      is written as several; then an error says how many of its frames are in their files. */
  async #writeInFiles(data) {
    const before = this.tell();
    try {
      await this.#writeByFiles(data);
    } catch (error) {
      throw Object.assign(error, { framesWritten: this.tell() - before });
    }
  }

  async #writeByFiles(data) {
    const { channels } = this.spec, size = this.#frameBytes, frames = data.length / size;
    for (let first = 0; first === 0 || first < frames;) {
      const room = frames <= this.#most ? frames : this.framesLeft || this.#most;
      const part = data.subarray(first * size, (first + room) * size), written = part.length / size;
      if (written > this.framesLeft) await this.#continue();
      await this.#perform("recorder_write", part, written * channels);
      first += Math.max(written, 1);
    }
  }

  /** Continues in the next file, which is made and begun before this one is ended. */
  async #continue() {
    const { place, recorder, discard } = await this.#begin(this.#places.length + 1);
    try {
      await this.#checkpoint();
    } catch (error) {
      await discard(recorder.#medium).catch(() => {});
      throw error;
    }
    const older = this.#medium;
    this.#before = this.tell();
    [this.#medium, this.#machine] = [recorder.#medium, recorder.#machine];
    this.#places.push(place);
    await older.close();
  }

  /** Makes a checkpoint: the header counts all frames that are written. */
  async flush() {
    this.#checkOpen();
    return this.#queue(() => this.#checkpoint());
  }

  #checkpoint() {
    return run(this.#checkpointing());
  }

  /** Makes a checkpoint. Where a write makes the next one, that is due after at least twice the time that this one has
      taken, so that a recording keeps up with its source where syncs are slow. */
  *#checkpointing() {
    const begun = performance.now();
    yield this.#perform("recorder_checkpoint");
    const ended = performance.now();
    this.#counted = this.tell();
    this.#due = ended + Math.max(this.#interval, 2 * (ended - begun));
  }

  /** Makes a checkpoint and closes the file, after an error, too. */
  close() {
    this.#closing ??= this.#queue(() => this.#end());
    return this.#closing;
  }

  async #end() {
    try {
      await this.#checkpoint();
    } finally {
      await this.#medium.close();
    }
  }

  #checkOpen() {
    if (this.#closing) throw new Error("the recorder is closed");
  }

  /** Does this after all that was requested before, or at once where that is done. Like what follows it returns a
      promise only where something has to be waited for. */
  #queue(task) {
    const done = this.#requests > 0 ? this.#last.then(task) : task(), end = () => { this.#requests--; };
    if (!done) return turn();
    this.#requests++;
    this.#last = done.then(end, end);
    return done;
  }

  /** Performs all effects of a request. */
  #perform(request, block, ...numbers) {
    checked(this.#machine.call(request, shared.at(MACHINE), ...numbers));
    return this.#performAll(block);
  }

  #performAll(block) {
    return run(this.#performing(block));
  }

  /** Performs what is requested. What fails is reported as failed, and the first fault is the error if the recorder
      says so. */
  *#performing(block) {
    const machine = this.#machine;
    let code, fault;
    while ((code = machine.call("recorder_next", shared.at(MACHINE))) === 1) {
      const { effect } = machine;
      try {
        machine.report(effect, yield performOn(this.#medium, this.#durable, effect, block));
      } catch (error) {
        fault ??= error;
        machine.fail();
      }
    }
    if (code < 0) throw fault ?? errorOf(code);
  }
}

const RECORDING_OPTIONS = ["durable", "checkpoint"];

/** The recorder that `prepare` gives of a medium, or of a file at a path, which these flags open, and which is closed
    again if it can't be recorded to. */
async function recorderOf(place, flags, { durable = false, checkpoint = Infinity }, prepare) {
  if (checkpoint !== Infinity) integer("checkpoint", checkpoint, 1, 0x7fffffff);
  const medium = await mediumAt(place, "O_RDWR", ...flags);
  try {
    const size = await medium.getSize();
    return await Recorder.begin(medium, { durable, checkpoint }, await prepare(medium, durable, size));
  } catch (error) {
    if (medium !== place) await medium.close();
    throw error;
  }
}

/** The effects with which a file begins, with this header or that of its spec. Writes that follow one another are one,
    so that no kill comes between the two parts of a header. */
function beginningOf(spec, header) {
  const machine = new Machine("effect"), effects = [];
  for (let number = 0; ; number++) {
    shared.putSpec(spec);
    if (checked(machine.call("beginning", shared.at(SPEC), number, shared.at(MACHINE))) === 0) {
      return effects.map((effect) => effect.kind === WRITE && header ? { ...effect, bytes: header } : effect);
    }
    const { kind, place, bytes } = machine.effect, last = effects.at(-1);
    const isRest = kind === WRITE && last?.kind === WRITE && place === last.place + last.bytes.length;
    if (isRest) last.bytes = joined([last.bytes, bytes]);
    else effects.push({ kind, place, bytes: bytes.slice() });
  }
}

/** Begins a file with this header, or that of the spec, and returns its recorder. */
async function beginOn(medium, durable, given, header) {
  for (const effect of beginningOf(given.spec, header)) await performOn(medium, durable, effect);
  return header ? resumedOn(medium, durable, 0, given.spec) : given;
}

/** Whether a file of so many bytes is less than the header with which a new one begins, and equal to it as far as it
    goes: then it holds no sample. */
async function isUnbegun(medium, size, spec, header) {
  const { place, bytes } = beginningOf(spec, header).find(({ kind }) => kind === WRITE);
  if (place !== 0 || size >= bytes.length) return false;
  return areEqual(await run(reading(medium, size, 0)), bytes.subarray(0, size));
}

/** The path of a further file of a recording, as take-002.wav is the second one of take.wav. */
function pathOfPart(path, number) {
  if (path instanceof URL) return Object.assign(new URL(path), { pathname: pathOfPart(path.pathname, number) });
  const [, stem, ending = ""] = /^(.*?)((?<=[^/\\])\.[^./\\]*)?$/s.exec(path);
  return `${stem}-${String(number).padStart(3, "0")}${ending}`;
}

/** An error where no new file can be made at a path: one is there, also a link to none, its name is too long, or its
    folder can't be written. */
async function checkPart({ access, constants, lstat }, path) {
  const isThere = await lstat(path).then(() => true, (error) => {
    if (error.code !== "ENOENT") throw error;
  });
  if (isThere) throw Object.assign(new Error(`EEXIST: file already exists, '${path}'`), { code: "EEXIST", path });
  const folder = path instanceof URL ? new URL(".", path) : (await nodePaths()).dirname(path);
  await access(folder, constants.W_OK | constants.X_OK);
}

/** What begins the next files of a recording at a path. Each mustn't be there, and is removed after an error. */
function filesAfter(fs, first, format, how) {
  return async (number) => {
    const place = pathOfPart(first, number), remove = () => fs.unlink(place);
    await checkPart(fs, place);
    const recorder = await recordOne(place, format, { ...how, exclusive: true }).catch(async (error) => {
      if (error.code !== "EEXIST") await remove().catch(() => {});
      throw error;
    });
    return { place, recorder, discard: (file) => file.close().then(remove) };
  };
}

/** What begins the next media of a recording, which `next` gives by their numbers. Each of them has to be empty, and is
    emptied and closed after an error. */
function mediaFrom(next, format, how) {
  return async (number) => {
    const place = await next(number);
    checkMedium(place);
    const discard = async () => {
      await place.truncate(0);
      await place.close();
    };
    try {
      return { place, recorder: await recordOne(place, format, { ...how, exclusive: true }), discard };
    } catch (error) {
      await (error.code === "EEXIST" ? place.close() : discard().catch(() => {}));
      throw error;
    }
  };
}

/**
 * Records to a file at a path, in Node, or to a medium. What is there is emptied; with `exclusive` it is an error.
 *
 * With `split` a file has at most so many frames, and never more than fit. The recording of take.wav continues in
 * take-002.wav, take-003.wav and so on, each of which mustn't be there: of the second one that is looked at first, of
 * each before the file before it is ended. They stay in one folder, wherever the program changes to. Media are those
 * that `next` gives.
 *
 * Each file has the `chunks` before its samples, which are pairs of a name and its content. With `checkpoint` a write
 * makes a checkpoint first where the last one was so many milliseconds ago.
 */
export async function record(place, format, options = {}) {
  const names = [...RECORDING_OPTIONS, "exclusive", "split", "chunks", ...isPath(place) ? [] : ["next"]];
  const { split, next, ...how } = checkedOptions(options, names);
  if (split === undefined) return recordOne(place, format, how);
  if (split !== Infinity) integer("split", split, 1, Number.MAX_SAFE_INTEGER);
  if (!isPath(place)) {
    if (typeof next !== "function") throw new TypeError("next is no function, which gives the media after the first");
    return Recorder.split(await recordOne(place, format, how), split, place, mediaFrom(next, format, how));
  }
  const fs = await files(), first = place instanceof URL ? place : (await nodePaths()).resolve(String(place));
  await checkPart(fs, pathOfPart(first, 2));
  return Recorder.split(await recordOne(first, format, how), split, first, filesAfter(fs, first, format, how));
}

/** The recorder of a new file of this spec. */
function begun(given) {
  const spec = { ...given }, recorder = new Machine("recorder");
  shared.putSpec(spec);
  checked(recorder.call("recorder_begin", shared.at(SPEC), shared.at(MACHINE)));
  spec.bytesPerSample = widthOf(spec.isFloat ? TYPES.float32 : TYPES.int32, spec);
  return { recorder, spec };
}

/** Records to one file. */
async function recordOne(place, format, { exclusive = false, chunks, ...how }) {
  const spec = specFor({}, format ?? {}), flags = exclusive ? ["O_CREAT", "O_EXCL"] : ["O_CREAT"];
  await ready();
  const given = begun(spec), header = headerWith(spec, chunks);
  return recorderOf(place, flags, how, (medium, durable, size) => {
    if (exclusive && size > 0) throw Object.assign(new Error("EEXIST: the medium isn't empty"), { code: "EEXIST" });
    return beginOn(medium, durable, given, header);
  });
}

/** The recorder that appends to a file, and its spec, which may have to continue another one. */
async function resumedOn(medium, durable, allowed, spec) {
  for (const kind of [SYNC, SYNC_FOLDER]) await performOn(medium, durable, { kind });
  return resumed(await repairOn(medium, FIND_DAMAGE), allowed, spec);
}

/** Continues a recording in a file at a path, in Node, or in a medium, after its frames. What `append` rejects is an
    error. */
export async function appendTo(place, options = {}) {
  const how = checkedOptions(options, RECORDING_OPTIONS);
  return recorderOf(place, [], how, (medium, durable) => resumedOn(medium, durable, 0));
}

/**
 * Goes on with the recording at a path, in Node, or in a medium, whatever a crash or a power failure has left of it:
 * after all whole frames of one that was cut off, or from the start where no file is, or one that holds less than the
 * header of a new one and nothing else. Where the header counts more than the file holds, or a part of a frame, the
 * file is repaired first, because a recorder never cuts off what is counted. A file of another spec is an error, and
 * stays as it is. A new file has the `chunks` before its samples; those of one that is continued stay as they are.
 */
export async function continueFile(place, format, options = {}) {
  const { chunks, ...how } = checkedOptions(options, [...RECORDING_OPTIONS, "chunks"]);
  const spec = specFor({}, format ?? {});
  await ready();
  const given = begun(spec), header = headerWith(spec, chunks);
  return recorderOf(place, ["O_CREAT"], how, async (medium, durable, size) => {
    if (await isUnbegun(medium, size, given.spec, header)) return beginOn(medium, durable, given, header);
    const resume = () => resumedOn(medium, durable, MEND, given.spec);
    return resume().catch(async (error) => {
      if (!["TRUNCATED", "UNFINISHED_FRAME"].includes(error.code)) throw error;
      await repairOn(medium, REPAIR);
      return resume();
    });
  });
}

// How many of the last bytes that were given are read again, to see that the file still is that recording.
const TAIL = 256;

/** A file of Node that is followed, of which a look requests a few bytes at once: those are read by this thread. */
class FollowedFile {
  #handle;

  constructor(handle) {
    this.#handle = handle;
  }

  renew() {}

  read(bytes, { at }) {
    if (bytes.length <= FRONT) return node.readSync(this.#handle.fd, bytes, 0, bytes.length, at);
    return this.#handle.read(bytes, 0, bytes.length, at).then(({ bytesRead }) => bytesRead);
  }
}

// How often a read is tried again with a new Blob, where a recorder has changed the file since the one before.
const TRIES = 100;

/** The Blobs that a browser gives of a file that is recorded, one after the other. Once the file has changed, one of
    Chromium can't be read any more, and one of Firefox has the bytes of now, but its old length. */
class FollowedBlobs {
  #blobOf;
  #blob;

  constructor(blobOf) {
    this.#blobOf = blobOf;
  }

  async renew() {
    this.#blob = await this.#blobOf();
  }

  async read(bytes, { at }) {
    for (let left = TRIES; ; left--) {
      try {
        const part = await this.#blob.slice(at, at + bytes.length).arrayBuffer();
        bytes.set(new Uint8Array(part));
        return part.byteLength;
      } catch (error) {
        if (error.name !== "NotReadableError" || left === 0) throw error;
        await this.renew();
      }
    }
  }
}

/** A file that another program records. */
class Followed {
  #file;
  #machine = new Machine("follower");
  #given = 0; // How many bytes of samples were given.
  #tail = new Uint8Array(0); // The last of them.

  constructor(file) {
    this.#file = file;
  }

  get #dataStart() {
    return Number(this.#machine.view.getBigUint64(LAYOUT.follower.dataStart, true));
  }

  /** How many bytes of whole frames are counted that weren't given. */
  get #left() {
    return this.#machine.view.getUint32(LAYOUT.follower.counted, true) - this.#given;
  }

  /** What is before the samples, as the machine has it: their spec, and where they begin. */
  #head({ bytes } = this.#machine) {
    const { dataStart, spec } = LAYOUT.follower;
    return bytes.subarray(dataStart, spec + LAYOUT.spec.size);
  }

  /** The spec of the samples, once all of the header was there. */
  get spec() {
    if (this.#dataStart === 0) return undefined;
    shared.bytes.set(this.#head().subarray(-LAYOUT.spec.size), FOUND);
    return shared.specAt(FOUND);
  }

  /** Whether samples were given. */
  get hasGiven() {
    return this.#given > 0;
  }

  /** Looks at the header, unless more is counted already than was given, and returns whether more is. The look that
      finds the header counts nothing yet. */
  *looking() {
    if (this.#left > 0) return true;
    yield this.#file.renew();
    let hasMore = true;
    while (this.#left === 0 && hasMore) hasMore = yield* this.#lookingBy(this.#machine);
    if (this.#left === 0 && this.hasGiven && !(yield* this.#comparing())) this.#replaced();
    return this.#left > 0;
  }

  /** Whether a look finds something new. */
  *#lookingBy(machine) {
    for (;;) {
      const code = machine.call("follower_next", shared.at(MACHINE)), { effect } = machine;
      if (code === 0 || code === NOTHING_NEW) return code === 0;
      if (code < 0) return yield* this.#rejecting(code);
      if (effect.kind !== READ) throw unknownEffect();
      machine.report(effect, yield* reading(this.#file, effect.length, effect.place));
    }
  }

  *#rejecting(code) {
    const error = errorOf(code, callOver(yield* reading(this.#file, FRONT, 0), "kind"));
    if (error.code !== "TRUNCATED") throw error;
    return this.#replaced();
  }

  /** Whether the last bytes that were given are where they were. Where none were the header is the same. */
  *#comparing() {
    const again = new Machine("follower"), { length } = this.#tail;
    if (this.hasGiven) {
      return areEqual(this.#tail, yield* reading(this.#file, length, this.#dataStart + this.#given - length));
    }
    yield* this.#lookingBy(again);
    return areEqual(this.#head(), this.#head(again));
  }

  /** Another recording was found in the file: an error, unless nothing was given of the one before. */
  #replaced() {
    if (this.hasGiven) throw new HoundError("TRUNCATED");
    this.#machine = new Machine("follower");
    return false;
  }

  /** The containers of the next frames that are counted, at most so many; none where it is another recording now. */
  *taking(frames) {
    const { channels, bytesPerSample } = this.spec, length = Math.min(frames * channels * bytesPerSample, this.#left);
    yield this.#file.renew();
    const bytes = yield* reading(this.#file, length, this.#dataStart + this.#given);
    if (bytes.length < length || !(yield* this.#comparing())) this.#replaced();
    if (this.#left === 0) return new Uint8Array(0);
    this.#given += length;
    this.#tail = bytes.slice(-TAIL);
    return bytes;
  }
}

/** Whether a program has a file locked, as one does that records it by another package than this one. Only Linux says
    that without locking it, too. */
async function isLocked({ readFile }, handle) {
  const locks = await readFile("/proc/locks", "latin1").catch(() => ""), { ino } = await handle.stat();
  return locks.split("\n").some((line) => line.split(/\s+/)[5]?.endsWith(`:${ino}`));
}

const pause = (milliseconds) => new Promise((resolve) => setTimeout(resolve, milliseconds));

/** Whether another file is at a path than this one. */
async function isReplaced({ stat }, handle, path) {
  const [there, { dev, ino }] = await Promise.all([stat(path).catch(() => undefined), handle.stat()]);
  return there !== undefined && (there.dev !== dev || there.ino !== ino);
}

/**
 * Reads a recording while another program makes it: a block of at most `frames` frames, as `read` returns them, as soon
 * as its header counts them. The recording is at a path, in Node, in the file of a FileSystemFileHandle, or in the
 * Blobs that a function returns. It looks every `poll` milliseconds, and ends once nothing new is counted for `idle`
 * milliseconds, then `isRecorded` is false, and then a last look finds nothing new. Without `isRecorded` it ends where
 * no other program has the file at a path locked. With `parts` it continues in the next file, as of a recorder with
 * `split`. A file that is emptied, replaced or recorded anew is an error.
 */
export async function* follow(place, options = {}) {
  const { frames = 4096, poll = 50, isRecorded, idle = isRecorded ? 0 : 2000, parts = false, ...how } =
    checkedOptions(options, ["frames", "type", "planar", "poll", "idle", "isRecorded", "parts"]);
  integer("frames", frames, 1, Number.MAX_SAFE_INTEGER);
  integer("poll", poll, 1, 0x7fffffff);
  integer("idle", idle, 0, 0x7fffffff);
  if (how.type !== undefined) typeNamed(how.type);
  const untilEnded = (isGoingOn) => async (since) => {
    await pause(poll);
    return performance.now() - since < idle || isGoingOn();
  };
  const blobOf = typeof place?.getFile === "function" ? () => place.getFile() : place;
  if (typeof blobOf === "function") {
    if (parts) throw new TypeError("parts are files at paths, and this is none");
    await ready();
    const followed = new Followed(new FollowedBlobs(blobOf));
    return yield* framesOf(followed, frames, how, untilEnded(isRecorded ?? (() => false)));
  }
  if (!isPath(place)) {
    throw new TypeError("what is followed is a path, a FileSystemFileHandle, or a function that returns Blobs");
  }
  const fs = await files(), first = place instanceof URL ? place : (await nodePaths()).resolve(String(place));
  for (let number = 1, name = first; name;) {
    const handle = await openAt(fs, name, "O_RDONLY"), next = pathOfPart(first, number + 1);
    const followed = new Followed(new FollowedFile(handle));
    let isOther;
    try {
      await new NodeFile(handle, name).getSize();
      yield* framesOf(followed, frames, how, untilEnded(isRecorded ?? (() => isLocked(fs, handle))));
      isOther = await isReplaced(fs, handle, name);
      if (isOther && followed.hasGiven) throw new HoundError("TRUNCATED");
    } finally {
      await handle.close();
    }
    if (isOther) continue; // Nothing was given of the file that was there before.
    name = parts && await fs.access(next).then(() => next, () => undefined);
    number += 1;
  }
}

/** The blocks of a file that is followed, until `goesOn` says that nothing new comes. */
async function* framesOf(followed, frames, { type, planar = false }, goesOn) {
  for (let since = performance.now(), isLast = false; ;) {
    if (await run(followed.looking())) {
      const { spec } = followed;
      const form = typeNamed(type ?? (spec.isFloat ? "float32" : spec.bitsPerSample <= 16 ? "int16" : "int32"));
      const bytes = await run(followed.taking(Math.min(frames, Math.floor(BLOCK / spec.channels))));
      if (bytes.length > 0) yield blockOf(bytes, spec, form, planar);
      [since, isLast] = [performance.now(), false];
    } else if (isLast) {
      return; // After the recorder has ended its last checkpoint was looked at, too.
    } else {
      isLast = !await goesOn(since);
    }
  }
}

/** The samples of these containers, as `read` returns them. */
function blockOf(bytes, spec, form, planar) {
  const each = planar ? 1 : spec.channels, count = bytes.length / spec.bytesPerSample;
  const parts = Array.from({ length: spec.channels / each }, () => new form.array(count * each / spec.channels));
  decode(bytes, spec, form, parts, 0);
  return planar ? parts : parts[0];
}

// The Blobs that `append` has made: their recorders, specs and parts, which an append to one of them takes over.
const made = new WeakMap();

/** Performs all that a recorder requests on an overlay. */
function performOver(overlay, recorder, block) {
  while (checked(recorder.call("recorder_next", shared.at(MACHINE))) === 1) {
    const { effect } = recorder;
    overlay.perform(effect, block);
    recorder.report(effect);
  }
}

/** Joins the Blobs at the end, as long as one isn't much longer than the next: so a file of many blocks has few parts,
    and none is a Blob of a Blob of a Blob .. that can't be read. */
function join(parts) {
  const isBlob = (part) => part instanceof Blob;
  while (parts.slice(-2).filter(isBlob).length === 2 && parts.at(-2).size < 2 * parts.at(-1).size) {
    parts.push(new Blob(parts.splice(-2)));
  }
}

/**
 * Returns the file with whole frames appended after the samples that its header counts.
 *
 * A recording that was cut off is an error, and so are chunks or a tag after the data, unless they may be overwritten.
 */
export async function append(file, samples, options = {}) {
  const { overwrite = false, onClipped = warn, dither, seed } =
    checkedOptions(options, ["overwrite", ...ENCODING_OPTIONS]);
  const given = fileOf(file), block = copyOf(taken(samples)), isBlob = given instanceof Blob;
  const noise = noiseOf({ dither, seed });
  await ready();
  const { recorder: before, spec, parts = [given] } =
    made.get(given) ?? resumed(await repairBy(sizeOf(given), FIND_DAMAGE, readerOf(given)), overwrite ? OVERWRITE : 0);
  checkChannels(block.channels, spec.channels);
  const recorder = new Machine("recorder"), overlay = new Overlay(parts);
  const { data, clipped } = encoded(block, spec, noise);
  recorder.bytes.set(before.bytes);
  checked(recorder.call("recorder_write", shared.at(MACHINE), block.count));
  performOver(overlay, recorder, isBlob ? new Blob([data]) : data);
  join(overlay.parts);
  recorder.call("recorder_checkpoint", shared.at(MACHINE));
  performOver(overlay, recorder);
  const longer = joined(overlay.parts, isBlob);
  if (isBlob) made.set(longer, { recorder, spec, parts: overlay.parts });
  if (clipped > 0) onClipped(clipped);
  return longer;
}
