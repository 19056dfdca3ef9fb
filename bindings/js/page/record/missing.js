// Where sound is missing. A computer that sleeps, or has no time for the audio thread, leaves no gap in the samples and
// in none of the browser's counts: only the wall clock shows it.

// A lag of fewer seconds is none, and one of fewer milliseconds may be caught up. The clock of a sound card is a little
// too slow or too fast, so each block moves what is usual by this part of its lag.
const [LEAST, LASTING, DRIFT] = [0.3, 2000, 0.001];

/** Compares the frames that came with the wall clock. */
export class MissingSound {
  #rate;
  #frames = 0;
  #start; // When the clock and the sound began together, and the number of the frame.
  #usual = 0; // By how many seconds the sound is behind since then, without what is missing.
  #behind; // Since when and since which frame it is behind by more, and by how much at least.

  constructor(rate) {
    this.#rate = rate;
  }

  /** Takes frames of which the last one came at a time in milliseconds, and returns what was found to be missing. */
  add(frames, time) {
    const first = this.#frames;
    this.#frames += frames;
    this.#start ??= { time, frame: this.#frames };
    const lag = (time - this.#start.time) / 1000 - (this.#frames - this.#start.frame) / this.#rate;
    if (lag - this.#usual <= LEAST) {
      this.#usual += DRIFT * (lag - this.#usual);
      this.#behind = undefined;
      return undefined;
    }
    this.#behind ??= { time, frame: first, lag };
    this.#behind.lag = Math.min(this.#behind.lag, lag);
    return time - this.#behind.time >= LASTING ? this.#found() : undefined;
  }

  /** The recording pauses or ends: returns what is missing up to here. The clock begins anew with the next frames. */
  pause() {
    const found = this.#behind && this.#found();
    [this.#start, this.#usual] = [undefined, 0];
    return found;
  }

  #found() {
    const { frame, lag } = this.#behind, seconds = lag - this.#usual;
    [this.#usual, this.#behind] = [lag, undefined];
    return { frame, seconds };
  }
}
