// On the audio thread: joins its quanta to blocks, and sends each to the worker with the time by the wall clock.
// Nothing here waits for the worker: while that is busy, blocks wait in the queue of the port, and none is dropped.
registerProcessor("collector", class extends AudioWorkletProcessor {
  #channels;
  #length;
  #state = "paused";
  #block;
  #filled = 0;
  #worker;

  constructor({ processorOptions: { channels, length } }) {
    super();
    [this.#channels, this.#length] = [channels, length];
    this.port.onmessage = ({ data, ports }) => this.#obey(data, ports);
  }

  /** Takes the port of the worker, or goes to another state: "recording", "paused" or "stopped". */
  #obey(state, [port]) {
    this.#worker ??= port;
    if (state === this.#state || port) return;
    if (this.#state === "recording" || state === "stopped") this.#send(state);
    this.#state = state;
  }

  #send(state) {
    const samples = this.#block?.map((channel) => channel.slice(0, this.#filled)) ?? [];
    this.#worker.postMessage({ samples, time: Date.now(), state }, samples.map(({ buffer }) => buffer));
    this.#block = undefined;
    this.#filled = 0;
  }

  process([input]) {
    if (this.#state === "recording") this.#collect(input, input[0]?.length ?? 128);
    return this.#state !== "stopped";
  }

  /** Adds a quantum. A source that gives nothing is silent, so that the time of what follows stays right. */
  #collect(input, size) {
    this.#block ??= Array.from({ length: this.#channels }, () => new Float32Array(this.#length));
    this.#block.forEach((channel, i) => input[i] && channel.set(input[i], this.#filled));
    this.#filled += size;
    if (this.#filled + size > this.#length) this.#send("recording");
  }
});
