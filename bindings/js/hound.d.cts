// The classes of browsers and of Node, and what stands for them in a program that has the types of neither.
type Blob = typeof globalThis extends { Blob: { prototype: infer T } } ? T : BlobLike;
type URL = typeof globalThis extends { URL: { prototype: infer T } } ? T : { readonly href: string };
interface BlobLike {
  readonly size: number;
  arrayBuffer(): Promise<ArrayBuffer>;
  slice(start?: number, end?: number): BlobLike;
}
export {}; // Else these would be exported, too.

/** A file, which must not change before a call over it has ended. Of a Blob only what is needed is read, when it is. */
export type WavFile = Uint8Array | ArrayBuffer | Blob;

/** The arrays of samples, by the names of their types. Integers are signed at every width, also at 8 bits. */
export interface Arrays {
  int8: Int8Array;
  int16: Int16Array;
  int32: Int32Array;
  float32: Float32Array;
  float64: Float64Array;
}

/**
 * Interleaved samples: a frame has one of each channel. Or an array for each channel, all of one type and length. In a
 * file of floats those of a Float64Array are the nearest ones of 32 bits; a finite one that would be infinite is an
 * error.
 */
export type Samples =
  | Arrays[keyof Arrays] | Int8Array[] | Int16Array[] | Int32Array[] | Float32Array[] | Float64Array[];

export interface Spec {
  sampleRate: number;
  channels: number;
  bitsPerSample: number;
  /** How many bytes a sample takes in the file. */
  bytesPerSample: number;
  isFloat: boolean;
}

export interface Info extends Spec {
  /** How many frames the header counts. */
  frames: number;
  /** How many bytes are before the first frame. */
  dataStart: number;
}

export interface Damage extends Spec {
  /**
   * How the file was found. With "allCounted" no sample is concerned: the header counts all whole frames, and only the
   * RIFF size isn't that of the canonical form, as where a program writes no pad byte after data of an odd length.
   */
  state: State;
  /** How many whole frames the file holds. */
  frames: number;
  /** How many whole frames the header counted; more than `frames` where it counts what the file doesn't hold. */
  counted: number;
  /** How many bytes of a torn frame follow them. */
  leftOver: number;
  /** How many bytes are before the first frame. */
  dataStart: number;
  /** How many bytes of samples the header counted. */
  dataLength: number;
}

export interface Stream {
  /** Whether the file is a stream, whose header needn't know its length: its frames are all whole ones to its end. */
  toEnd?: boolean;
}

export interface Part extends Stream {
  /** The first frame that is read; 0 without it. */
  start?: number;
  /** How many frames are read at most; all without it. */
  frames?: number;
}

/** The spec of a new file; that of another one will do. */
export interface Format {
  sampleRate: number;
  /** Without it as many as there are arrays of samples, or 1. */
  channels?: number;
  /** The width of the samples' type without it. */
  bitsPerSample?: number;
  /** As many as the bits need without it. */
  bytesPerSample?: number;
  /** Without it floats are stored as they are if `bitsPerSample` is 32, and as integers if not. */
  isFloat?: boolean;
}

/**
 * Floats that are stored as integers are multiplied by 2^(bits - 1) and rounded, of two to the even one; a NaN is 0.
 * What the bits don't hold is clipped, as 1.0 is.
 */
export interface Clipping {
  /** It is called with how many samples are clipped, if any are; without it `console.warn` says so. */
  onClipped?: (count: number) => void;
  /** Whether each gets triangular noise of at most one step before it is rounded. */
  dither?: boolean;
  /**
   * The seed of this noise, an integer from 0 on; 1 without it. The same one gives the same samples, also by the
   * packages for other languages. Of a recorder it is that of the first block with noise.
   */
  seed?: number;
}

// The names of states and errors, made from hound.h by scripts/make_interface.py.
export type State = "whole" | "cutOff" | "hasChunksAfterData" | "allCounted";
export type Code =
  | "ENDED" | "UNSUPPORTED" | "OTHER_FORMAT" | "TOO_WIDE" | "NOT_WRITABLE" | "TRUNCATED" | "TOO_LONG"
  | "UNFINISHED_FRAME" | "NO_ROOM" | "NO_RIFF_TAG" | "NO_WAVE_TAG" | "NO_DATA_CHUNK" | "NO_FMT_CHUNK" | "FMT_SIZE"
  | "UNEXPECTED_FMT_SIZE" | "ZERO_CHANNELS" | "BITS_EXCEED_WIDTH" | "INCONSISTENT" | "BITS_NOT_WHOLE_BYTES"
  | "ZERO_BITS" | "BITS_NOT_8_OR_16" | "EX_SIZE" | "BITS_NOT_32" | "EXTENSIBLE_SIZE" | "DATA_LENGTH" | "FRAME_LENGTH"
  | "NEEDS_CHECKPOINT" | "SYNC_FAILED" | "NEEDS_MEND" | "NEEDS_OVERWRITE" | "NOT_PERFORMED"
// The end of what is made from hound.h.

/** A call failed. */
export class HoundError extends Error {
  constructor(code: Code);
  /** The name of the cause in hound.h, without HOUND_. */
  readonly code: Code;
  /** What a file is that isn't read, as "Microsoft ADPCM", if that is known. */
  readonly kind?: string;
}

/** What the header of a file says. The data needn't all be there; of a stream `frames` are those that are. */
export function info(file: WavFile, options?: Stream): Promise<Info>;

/**
 * Reads frames, and returns their samples: interleaved, or with `planar` an array for each channel. Without `type` it
 * is the narrowest one from 16 bits on that reads the file. With "float32" and "float64" integers are divided by
 * 2^(bits - 1), so their full scale is 1; floats keep their values, and with "float32" their bits. Of a file that holds
 * fewer frames than its header counts these are read, and a read that starts after them is an error.
 */
export function read<T extends keyof Arrays>(
  file: WavFile,
  options: Part & { type: T; planar?: false },
): Promise<Arrays[T]>;
export function read<T extends keyof Arrays>(
  file: WavFile,
  options: Part & { type: T; planar: true },
): Promise<Arrays[T][]>;
export function read(
  file: WavFile,
  options?: Part & { planar?: false },
): Promise<Int16Array | Int32Array | Float32Array>;
export function read(
  file: WavFile,
  options: Part & { planar: true },
): Promise<Int16Array[] | Int32Array[] | Float32Array[]>;

/** Makes the file of these samples, as they are at the call. */
export function write(samples: Samples, format: Format & Clipping): Promise<Uint8Array>;

/**
 * Returns the file with whole frames appended after the samples that its header counts. A recording that was cut off is
 * an error, and so are chunks or a tag after the data, unless they may be overwritten. The samples are those of the
 * call. A Uint8Array is copied by each call: append many blocks to a Blob, of which no byte is copied.
 */
export function append(
  file: Uint8Array | ArrayBuffer,
  samples: Samples,
  options?: { overwrite?: boolean } & Clipping,
): Promise<Uint8Array>;
export function append(file: Blob, samples: Samples, options?: { overwrite?: boolean } & Clipping): Promise<Blob>;

export interface Repairing {
  /** Whether all that follows the header of the data is taken for samples, also what looks like chunks or a tag. */
  toEnd?: boolean;
  /** Whether a file that is "allCounted" gets the RIFF size and the pad byte that the format asks for. */
  canonical?: boolean;
}

export interface RepairOptions extends Repairing {
  /** The format of the samples, where the header is lost. */
  like?: Format & { bitsPerSample: number };
  /** How many bytes of what is left aren't samples, at the front; without it as many as `guessStart` returns. */
  skip?: number;
}

/** Where samples may begin in a file whose header is damaged: after what looks like the header of its data, or at 0. */
export function guessStart(file: WavFile): Promise<number>;

export interface Guess {
  /** What the samples are: the `like` of `repair`, once it has a `sampleRate`, too. */
  like: { channels: number; bitsPerSample: number; bytesPerSample: number; isFloat: boolean };
  /** Where they begin. */
  skip: number;
}

/**
 * Guesses what the samples of a file are whose header is lost, by which form makes them most predictable; the rate
 * can't be guessed. It may be wrong: listen to what `repair` makes of it. It is null where nothing is predictable, as
 * silence and noise. Without `skip` the samples begin at `guessStart`, or else near the end of a usual header.
 */
export function guess(file: WavFile, options?: { skip?: number }): Promise<Guess | null>;

/** Reports what `repair` would find, or fails as it would. */
export function findDamage(file: WavFile): Promise<Damage>;

/**
 * Repairs a file whose recording was cut off, and returns how it was found and the repaired file: it has the two sizes
 * of its whole frames, and ends after them and their pad byte, without the bytes of a torn frame. A file that is whole,
 * "allCounted", or that chunks or a tag follow, is returned as it is, unless an option says otherwise. Where the header
 * is lost all that follows the first `skip` bytes is taken for samples, and a header like that of another file, or of
 * this format, comes before it.
 *
 * A Blob of Node's `openAsBlob` is read when the result is: don't write that to the same path. `repairFile` does it.
 */
export function repair(file: Uint8Array | ArrayBuffer, options?: RepairOptions): Promise<Damage & { file: Uint8Array }>;
export function repair(file: Blob, options?: RepairOptions): Promise<Damage & { file: Blob }>;

/**
 * What a file is recorded to or repaired in that has no path, such as a `FileSystemSyncAccessHandle`, which a worker of
 * a browser has of a file of the origin's private file system: whatever has these calls, each of which may return a
 * promise. A read or a write may do a part of what it is asked for, and says how many bytes that is; only at the end of
 * the file a read says 0. An error is thrown.
 *
 * What is written is read again, because a browser was seen to say of a full disk that all is written; where it isn't
 * there, the error is NOT_PERFORMED. `write` has to give the bytes to the system, so that they outlive the program, and
 * `flush` has to store them; a recorder calls that with `durable` alone, and a repair always. Nothing else may write
 * the file meanwhile.
 *
 * A recorder closes its medium when it is closed. A repair leaves it open, and so does a call that fails to begin.
 *
 * The file's name isn't stored: Chromium was seen to sync none, so that after a power failure a new file may be
 * missing, though its samples were synced. Keep an empty file that was there for long, and record to that.
 */
export interface Medium {
  getSize(): number | Promise<number>;
  read(bytes: Uint8Array, options: { at: number }): number | Promise<number>;
  write(bytes: Uint8Array, options: { at: number }): number | Promise<number>;
  truncate(size: number): void | Promise<void>;
  flush(): void | Promise<void>;
  close(): void | Promise<void>;
}

/**
 * Repairs a file at a path, in Node, or a medium in place, and returns how it was found. Each step is synced, so that
 * a file can be repaired again after an error, a crash or a power failure. Nothing is deleted: bytes of a torn frame
 * stay. Node has no locks: no other program may write it meanwhile.
 */
export function repairFile(file: string | URL | Medium, options?: Repairing): Promise<Damage>;

/**
 * Reports what `repairFile` would find, or fails as it would. The file may be read-only, and is read as far as needed:
 * a Blob of Node 20's `openAsBlob` has its size modulo 2^32, so that of a file past 4 GiB `findDamage` looks at a part.
 */
export function findDamageInFile(file: string | URL | Medium): Promise<Damage>;

/**
 * Records a new file at a path, in Node, instead of one that is there; with `exclusive` that is an error. With
 * `durable` the samples of a checkpoint survive a power failure, without it a crash of the program. Node has no locks.
 *
 * With `split` a file has at most so many frames (`Infinity`: as many as fit), and a block that doesn't fit is
 * written to a next one, whole: after take.wav to take-002.wav, take-003.wav and so on, each of which mustn't be there.
 * That the second one can be made is looked at before anything is recorded.
 * The next file is made and begun before the one before it is ended. Where that fails `write` is the error, and the
 * recorder is as before. A block that is larger than a file may be is written as several: after an error those before
 * the failed one are in their files, and the error of such a block has their frames in `framesWritten`: write only the
 * others again.
 *
 * Each file has the `chunks` before its samples, such as `[["bext", bytes]]`. A crash leaves nothing of a new file, a
 * part of its header, or a file of no samples, and `continueFile` with the same chunks continues each of these.
 */
export function record(
  path: string | URL,
  format: Format & { bitsPerSample: number },
  options?: Beginning & { split?: number },
): Promise<Recorder>;

/**
 * Records to a medium, which is emptied; with `exclusive` one that isn't empty is an error. With `split` the recording
 * continues in the media that `next` gives by their numbers, from 2 on. Each of them has to be empty. Where it can't be
 * begun it is closed, and `write` is the error, which asks for the same number again when it is repeated.
 */
export function record(
  medium: Medium,
  format: Format & { bitsPerSample: number },
  options?: Beginning & ({ split?: undefined } | { split: number; next: (number: number) => Medium | Promise<Medium> }),
): Promise<Recorder>;

export interface Recording {
  /** Whether the samples of a checkpoint survive a power failure, and not a crash alone. */
  durable?: boolean;
  /**
   * After how many milliseconds a write makes a checkpoint of all that was written before it. After one that took more
   * than half of them the next one comes after twice its duration. So a recording keeps up with its source, however
   * long a sync takes. Without it `flush` and `close` alone make checkpoints.
   */
  checkpoint?: number;
}

export interface Beginning extends Recording {
  /** Whether a file that is there is an error. */
  exclusive?: boolean;
  /** What is before the samples. */
  chunks?: Iterable<Chunk>;
}

/** A chunk: its name, which has four characters of ASCII and is neither "data" nor "fmt ", and its content. */
export type Chunk = readonly [name: string, content: Uint8Array | ArrayBuffer];

/** Records after the frames of a file at a path, in Node, or of a medium. What `append` rejects is an error. */
export function appendTo(file: string | URL | Medium, options?: Recording): Promise<Recorder>;

/**
 * Goes on with the recording at a path, in Node, or in a medium: for a program that has to start by itself again after
 * a crash or a power failure. A recording that was cut off continues after all whole frames that it holds. A new one
 * begins where no file is, or one that holds a part of such a header and nothing else, as a crash leaves it. Where the
 * header counts more than the file holds, or a part of a frame, the file is repaired first. A file of another format is
 * an error ("OTHER_FORMAT"), and so are chunks or a tag after the data; then it stays as it is. A new file has the
 * `chunks` before its samples; those of one that is continued stay as they are.
 */
export function continueFile(
  file: string | URL | Medium,
  format: Format & { bitsPerSample: number },
  options?: Recording & { chunks?: Iterable<Chunk> },
): Promise<Recorder>;

export interface Follow {
  /** How many frames a block has at most; 4096 without it. */
  frames?: number;
  /** How many milliseconds are between two looks at the file; 50 without it. */
  poll?: number;
  /**
   * After how many milliseconds without a new frame it ends, once it isn't recorded any more: 2000 without it, and 0
   * with `isRecorded`. Recorders of this package lock nothing, so without `isRecorded` it has to be longer than the
   * time between two checkpoints.
   */
  idle?: number;
  /**
   * Whether it is still recorded, such as by a lock of `navigator.locks` that the recorder's page holds. It is asked
   * where nothing new is counted, and before a last look: so what was counted before the answer is given. Without it a
   * file is taken for recorded where another program has it locked, which only Linux says, and of files at paths.
   */
  isRecorded?: () => boolean | Promise<boolean>;
  /** Whether it continues in the next file of a split recording, as take-002.wav after take.wav. */
  parts?: boolean;
}

/**
 * What is followed: a file at a path, in Node; that of a `FileSystemFileHandle` in a browser; or the Blobs that a
 * function returns, each of which has the file as it is then.
 */
export type Followed = string | URL | { getFile(): Promise<Blob> } | (() => Blob | Promise<Blob>);

/**
 * Reads a recording while another program, worker or page makes it: the frames that its header counts so far, as `read`
 * returns them, and further ones as soon as they are counted. Each is one that the recorder accepted. It ends where the
 * recording has ended, also where its recorder was killed: `findDamageInFile` says whether a repair finds more. A file
 * that was emptied, cut off or recorded anew meanwhile, or whose path another file has, is the error TRUNCATED.
 */
export function follow<T extends keyof Arrays>(
  file: Followed,
  options: Follow & { type: T; planar?: false },
): AsyncGenerator<Arrays[T], void, void>;
export function follow<T extends keyof Arrays>(
  file: Followed,
  options: Follow & { type: T; planar: true },
): AsyncGenerator<Arrays[T][], void, void>;
export function follow(
  file: Followed,
  options?: Follow & { planar?: false },
): AsyncGenerator<Int16Array | Int32Array | Float32Array, void, void>;
export function follow(
  file: Followed,
  options: Follow & { planar: true },
): AsyncGenerator<Int16Array[] | Int32Array[] | Float32Array[], void, void>;

/**
 * A file that is recorded. Calls are performed one after the other, in the order in which they are made. After an error
 * a block is in the file only if its `write` was fulfilled (or in part, if it is larger than a file of `split` may be),
 * and the next call makes a checkpoint first; after a sync that failed each call is an error. Whenever the program is
 * killed, the header counts only samples that were written, at least those of the last checkpoint, and a repair finds
 * the others.
 *
 * A block of up to 64 KiB is written before `write` returns, unless an earlier call is under way, and so is each block
 * that goes to a medium whose calls return no promises: a worker of a browser gets no message in a loop that waits for
 * such writes alone. In Node larger blocks and syncs go to other threads, and so do all blocks of a file after one that
 * took 20 milliseconds.
 */
export interface Recorder {
  readonly spec: Readonly<Spec>;
  /** How many frames still fit after those that are written, for a program that continues in another file; with
      `split`, how many this file still takes. */
  readonly framesLeft: number;
  /** The number of the next frame, of all files with `split`: so many are written. */
  tell(): number;
  /** With `split`, the files of the recording, by their absolute paths, or their media, the last of which is written;
      else none. */
  readonly paths: (string | URL | Medium)[];
  /**
   * How many frames the last checkpoint counted, of all files with `split`; at least so many are kept, whatever comes.
   * A sync that failed is final, because nobody knows what is stored then. Go on in another file with all frames from
   * this number on, and so keep them until they are counted. Some of them may be counted in the older file, too.
   */
  readonly counted: number;
  /** Writes whole frames, as they are at the call. Floats are scaled where the file has integers. */
  write(samples: Samples, options?: Clipping): Promise<void>;
  /** Makes a checkpoint: the header counts all frames that are written. */
  flush(): Promise<void>;
  /** Makes a checkpoint and closes the file, after an error, too. An unclosed one keeps its last checkpoint. */
  close(): Promise<void>;
}
