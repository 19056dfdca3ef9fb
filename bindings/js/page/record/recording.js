// A recording: blocks come from the audio thread, and are written to a file, whose checkpoints count them each second.
import { record } from "../../hound.js";
import { MissingSound } from "./missing.js";

// So many milliseconds are between two checkpoints, and between two attempts after a fault.
const [EVERY, RETRY] = [1000, 1000];
// So many samples of a block at the limit are too loud. One alone is none: 1.0 of a 16-bit microphone is no clipping.
const LOUD = 3, LIMIT = 0.9999;

const pause = (milliseconds) => new Promise((resolve) => setTimeout(resolve, milliseconds));
const framesOf = (blocks) => blocks.reduce((sum, [channel]) => sum + channel.length, 0);

export class Recording {
  #format;
  #openNext; // Gives the medium of the next file.
  #tell;
  #recorder;
  #waiting = []; // The blocks that aren't written yet.
  #uncounted = []; // The blocks that are written, and that no checkpoint counts.
  #written = 0;
  #counted = 0;
  #before = 0; // How many frames are in the files before those of this recorder.
  #clock;
  #missing = [];
  #fault;
  #isPausing = false;
  #isEnding = false;
  #isGivenUp = false;
  #wake = () => {};

  constructor(format, openNext, tell) {
    [this.#format, this.#openNext, this.#tell] = [format, openNext, tell];
    this.#clock = new MissingSound(format.sampleRate);
  }

  /** Begins in the first medium that `openNext` gives; `tell` gets the state after each change. */
  static async begin(format, openNext, tell) {
    const recording = new Recording(format, openNext, tell);
    recording.#recorder = await recording.#recorderOfNext();
    return recording;
  }

  /** A recorder to a next file, and to further ones where that is full. */
  async #recorderOfNext() {
    const medium = await this.#openNext(), how = { split: Infinity, next: this.#openNext };
    try {
      return await record(medium, this.#format, { durable: true, checkpoint: EVERY, ...how });
    } catch (error) {
      await medium.close();
      throw error;
    }
  }

  /** Takes a block, which is the last one before the recording pauses or stops where its state says so. */
  take({ samples, time, state }) {
    const frames = samples[0]?.length ?? 0;
    if (frames > 0) {
      this.#note(this.#clock.add(frames, time));
      this.#waiting.push(samples);
    }
    if (state !== "recording") this.#note(this.#clock.pause());
    this.#isPausing = state !== "recording";
    this.#isEnding ||= state === "stopped";
    this.#report(loudnessOf(samples));
    this.#wake();
  }

  /** Ends without what can't be stored. */
  giveUp() {
    this.#isGivenUp = true;
  }

  /** Writes each block once it is there, until the recording ends. Returns how many frames are stored, and how many
      aren't. */
  async run() {
    while (!await this.#store()) await this.#more();
    await this.#recorder?.close().then(() => this.#count(), () => {});
    return { frames: this.#counted, lost: framesOf([...this.#uncounted, ...this.#waiting]) };
  }

  /** Writes all that waits, and returns whether the recording is over. What fails stays, and is tried again. */
  async #store() {
    try {
      this.#recorder ??= await this.#recorderOfNext();
      do { // During the checkpoint a block may come.
        while (this.#waiting.length > 0) await this.#writeFirst();
        if (this.#isPausing) await this.#recorder.flush();
        this.#count();
      } while (this.#waiting.length > 0);
      this.#fault = undefined;
    } catch (error) {
      this.#failed(error);
    }
    this.#report();
    return this.#isGivenUp || this.#isEnding && !this.#fault;
  }

  async #writeFirst() {
    const [samples] = this.#waiting;
    await this.#recorder.write(samples, { onClipped: () => {} });
    this.#uncounted.push(this.#waiting.shift());
    this.#written += framesOf([samples]);
    this.#count();
  }

  /** Lets go of the blocks that a checkpoint counts: nothing can lose them any more. */
  #count() {
    const counted = this.#before + this.#recorder.counted;
    while (this.#counted < counted) this.#counted += framesOf([this.#uncounted.shift()]);
  }

  /** Keeps all in memory. After a failed sync nobody knows what the disk has, so the recording continues in another
      file, from the last checkpoint on: what follows that may be in both files. */
  #failed(error) {
    this.#fault = { name: error.name, code: error.code, message: error.message };
    if (error.code !== "SYNC_FAILED") return;
    this.#recorder?.close().catch(() => {});
    this.#recorder = undefined;
    this.#waiting.unshift(...this.#uncounted);
    this.#uncounted = [];
    this.#written = this.#before = this.#counted;
  }

  /** Waits for the next block; after a fault for a while. */
  #more() {
    if (this.#fault) return pause(RETRY);
    return new Promise((resolve) => { this.#wake = resolve; });
  }

  #note(missing) {
    if (missing) this.#missing.push(missing);
  }

  #report({ peak = 0, isLoud = false } = {}) {
    const came = this.#written + framesOf(this.#waiting);
    this.#tell({ frames: came, counted: this.#counted, missing: this.#missing, fault: this.#fault, peak, isLoud });
  }
}

/** The peak of a block, and whether the microphone was too loud. */
function loudnessOf(samples) {
  let peak = 0, atLimit = 0;
  for (const channel of samples) {
    for (const sample of channel) {
      const height = Math.abs(sample);
      if (height > peak) peak = height;
      if (height >= LIMIT) atLimit++;
    }
  }
  return { peak, isLoud: atLimit >= LOUD };
}
