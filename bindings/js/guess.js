// What the samples of a file are whose header is lost, by which of all forms makes them most predictable: see "A header
// that is lost" in docs/BINDINGS.md. The Python package does the same (hound_bindings/lost.py), by the same arithmetic,
// in the same order but for sums of integers, which are exact, so both have one answer for a file:
// bindings/tests/guesses.py compares them.

// How many blocks of a file are looked at, of how many bytes each, and of which number of bytes the frames of all forms
// are a part. Fewer bytes than FEWEST_BYTES, or samples of a channel than FEWEST_SAMPLES, may be predictable by chance.
const BLOCK_COUNT = 16, BLOCK_LENGTH = 3072, COMMON = 96, FEWEST_BYTES = 1024, FEWEST_SAMPLES = 16;
// How long headers usually are; those of wide samples, of floats and of many channels are also longer ones.
const USUAL_START = 44, LONGER_STARTS = [80, 68, 58];
// How many bytes come before what may look like the header of the data, and the tag of a cue chunk.
const HEAD = 12, CUE = 0x63756520;
const SAMPLE_FORMS = [[16, false], [24, false], [32, true], [8, false], [32, false]]
  .map(([bitsPerSample, isFloat]) => ({ bitsPerSample, bytesPerSample: bitsPerSample / 8, isFloat }));
// The numbers of channels that are tried, and how many bits a sample has to become shorter by for more than one, and
// for a number of which there are signs that it is another one.
const CHANNEL_COSTS = new Map([[1, 0], [2, 0.25], [4, 2], [6, 2], [8, 2]]), DOUBT = 1;
// Samples are taken by so many of their highest bits. Where a channel needs all of these but so many, it is noise.
const HIGHEST = 16, SPARE = 1.9175;
// Two of three pairs of samples may be predicted worse in their first sample, and the sample before has to help so much
// where the one before that helps more than SOME: else the samples of a channel are of two, by turns.
const TURNS = 1 / 3, LITTLE = 0.06, SOME = 0.1;
// Channels are one if the sample before, of another one, helps each by more bits than HELP. A lowest byte that needs
// more bits than LITTLE_BYTE is a part of the audio.
const HELP = 0.1, LITTLE_BYTE = 4;
// Which share of floats has a magnitude such as audio has, as far as they aren't 0.
const USUAL = 0.95, SMALLEST = 1e-8, LARGEST = 2, CLIP = 1 << 17;

/** Where the blocks of a file begin whose samples begin at a byte. */
export function blocksOf(size, start) {
  const steps = (i) => Math.floor((size - start) * (2 * i + 1) / (2 * BLOCK_COUNT * COMMON));
  return size - start < FEWEST_BYTES ? [] : Array.from({ length: BLOCK_COUNT }, (_, i) => start + COMMON * steps(i));
}

export { BLOCK_LENGTH, USUAL_START };

/** Where samples begin by the front of a file: after the first of what looks like the header of the data that counts
    some; else after the last one, because a recorder that was killed counts none; or 0. `find` looks for one from
    twelve bytes after a place on, and returns how far from that place the data would begin. */
export function startIn(front, find) {
  const view = new DataView(front.buffer, front.byteOffset, front.length), cues = cuesIn(front, view);
  let start = 0;
  for (let from = 0, found; (found = find(from)) > 0;) {
    from += found - HEAD;
    const place = from + HEAD;
    if (cues.some(([first, end]) => first < place && place <= end)) continue;
    start = place;
    if (view.getUint32(place - 4, true) > 0) break;
  }
  return start;
}

/** From where to where cue chunks are, whose points name the data. */
function cuesIn(front, view) {
  const cues = [];
  for (let place = 0; place + HEAD <= front.length; place++) {
    if (view.getUint32(place, false) !== CUE) continue;
    const length = view.getUint32(place + 4, true);
    if (length === 4 + 24 * view.getUint32(place + 8, true)) cues.push([place, place + 8 + length]);
  }
  return cues;
}

/** How many bits numbers of this mean square need, in steps that don't depend on how a logarithm is rounded. */
const bitsOf = (square) => Math.floor(Math.log2(1 + square) * 512 + 0.5) / 1024;

/** The sum of products of samples, each so many before one, with others, from number 2 on. */
function products(samples, later, others, earlier, length = samples.length) {
  let sum = 0;
  for (let i = 2; i < length; i++) sum += samples[i - later] * others[i - earlier];
  return sum;
}

/** The weights of the sample before one and of that before it by which they predict best what has these products with
    them, by their own products. */
function weightsOf(first, second, { p11, p12, p22 }) {
  const determinant = p11 * p22 - p12 * p12;
  if (determinant > p11 * p22 * 1e-9) {
    return [(first * p22 - second * p12) / determinant, (second * p11 - first * p12) / determinant];
  }
  return [p11 > 0 ? first / p11 : 0, 0];
}

/** How the samples of a channel are predicted best by the two before each. `upper` is how many bits they need without
    their lowest byte. */
function predicted(samples) {
  const product = (later, earlier) => products(samples, later, samples, earlier), count = samples.length - 2;
  const p00 = product(0, 0), p01 = product(0, 1), p02 = product(0, 2);
  const own = { p11: product(1, 1), p12: product(1, 2), p22: product(2, 2) }, { p22 } = own;
  const [one, two] = weightsOf(p01, p02, own), left = Math.max(p00 - one * p01 - two * p02, 0);
  const bits = bitsOf(left / count), upper = bitsOf(left / count / 65536);
  const ofSecond = p22 > 0 ? bitsOf(Math.max(p00 - p02 * p02 / p22, 0) / count) : bits;
  const isAlone = p02 > 0 && ofSecond - bits < LITTLE && bitsOf(p00 / count) - ofSecond > SOME;
  return { own, one, two, left, bits, upper, isAlone, isConstant: p00 === 0 };
}

/** How many bits fewer the samples of a channel need if those of another one, so many before each, are known, too. */
function helpOf(samples, others, before, { own, one, two, left, bits }) {
  const product = (later) => products(samples, later, others, before), length = samples.length;
  const first = product(1), second = product(2), all = products(others, before, others, before, length);
  const [a, b] = weightsOf(first, second, own), rest = all - a * first - b * second;
  const common = product(0) - one * first - two * second;
  return rest > all * 1e-9 ? bits - bitsOf(Math.max(left - common * common / rest, 0) / (length - 2)) : 0;
}

/** How many pairs of samples are predicted worse in the first, less those that are in the second, and of how many. */
function turnsOf(samples, { one, two }) {
  const error = (i) => Math.abs(samples[i] - one * samples[i - 1] - two * samples[i - 2]);
  let turns = 0;
  for (let i = 2; i + 1 < samples.length; i += 2) turns += Math.sign(error(i) - error(i + 1));
  return [turns, Math.floor((samples.length - 2) / 2)];
}

/** The samples of a channel, around their mean. */
function channelOf(samples, channel, channels) {
  const some = samples.filter((_, i) => i % channels === channel), middle = Math.floor(sum(some) / some.length);
  return some.map((sample) => sample - middle);
}

const sum = (numbers) => numbers.reduce((all, one) => all + one, 0);

/** How many bits the lowest byte of samples needs that begin after so many bytes: where that is a few, they had fewer
    bits before they were stored. */
function lowestBits(blocks, shift, { bytesPerSample }) {
  const counts = Array(256).fill(0), logarithm = (n) => Math.floor(Math.log2(n) * 512 + 0.5) / 512;
  for (const block of blocks) {
    for (let i = shift; i + bytesPerSample <= block.length; i += bytesPerSample) counts[block[i]]++;
  }
  const all = sum(counts), alike = sum(counts.map((count) => count > 0 ? count * logarithm(count) : 0));
  const bits = all > 0 ? Math.floor((logarithm(all) - alike / all) * 1024 + 0.5) / 1024 : 8;
  return bits > LITTLE_BYTE ? 8 : bits;
}

/** How many bits a byte needs if blocks are of this form, whose lowest byte needs so many, and the channels of those
    that sound, with how they are predicted; nothing if they aren't of it. One with oddities is a last resort: its
    samples are never negative, or a channel is silent. */
function looked(blocks, { bitsPerSample, isFloat, bytesPerSample }, channels, lowest) {
  const highest = Math.min(bitsPerSample, HIGHEST), isWide = bitsPerSample > HIGHEST && !isFloat;
  const rest = isFloat ? 8 : isWide ? bitsPerSample - highest - 8 + lowest : 0;
  const neededBy = ({ bits, upper }) => bitsPerSample === HIGHEST ? Math.min(bits, upper + lowest) : bits + rest;
  const varies = Array(channels).fill(false), heard = [];
  let bits = 0, bytes = 0, noisy = 0, alone = 0, isSigned = false;
  for (const block of blocks.filter(({ length }) => length >= FEWEST_SAMPLES * channels)) {
    const parts = varies.map((_, channel) => channelOf(block, channel, channels)), found = parts.map(predicted);
    if (found.every(({ isConstant }) => isConstant)) continue;
    heard.push({ parts, found });
    found.forEach((one, channel) => {
      alone += one.isAlone;
      varies[channel] ||= !one.isConstant;
      bits += neededBy(one) * parts[channel].length;
    });
    bits += block.length;
    bytes += block.length * bytesPerSample;
    noisy += !isFloat && found.some((one) => one.bits > highest - SPARE);
    isSigned ||= block.some((sample) => sample < 0);
  }
  if (heard.length === 0 || noisy * 8 > heard.length || alone * 2 > heard.length * channels) return null;
  const oddities = (bytesPerSample > 1 && !isSigned) + varies.includes(false);
  return { oddities, cost: bits / bytes + CHANNEL_COSTS.get(channels) / bytesPerSample, heard };
}

/** Whether most samples of one half are predicted worse than those next to them, as where two channels are taken for
    one. */
function haveTurns(heard) {
  const all = heard.flatMap(({ parts, found }) => parts.map((part, i) => turnsOf(part, found[i])));
  return Math.abs(sum(all.map(([turns]) => turns))) > TURNS * sum(all.map(([, pairs]) => pairs));
}

/** Whether each channel is predicted better if the sample before, of another one, is known, too, as where one channel
    is taken for several. Of real ones the first of a frame has none before it of the same time. */
function areOne(heard) {
  const channels = heard[0].parts.length, helps = Array(channels).fill(0);
  for (const { parts, found } of heard) {
    parts.forEach((part, i) => { helps[i] += helpOf(part, parts[(i || channels) - 1], i > 0 ? 0 : 1, found[i]); });
  }
  return channels > 1 && Math.min(...helps) > HELP * heard.length;
}

/** Whether nearly all floats that aren't 0 have a magnitude such as audio has. */
function areUsual(blocks) {
  const sizes = blocks.flatMap((block) => [...block]).filter((one) => one !== 0).map(Math.abs);
  const usual = sizes.filter((size) => SMALLEST < size && size <= LARGEST);
  return usual.length > 0 && usual.length >= USUAL * sizes.length;
}

/** The highest bits of samples. */
function highestOf(samples, { bitsPerSample, isFloat }) {
  if (!isFloat) return samples.map((one) => bitsPerSample > HIGHEST ? one >> bitsPerSample - HIGHEST : one);
  const whole = (one) => Math.max(-CLIP, Math.min(CLIP - 1, Math.floor(one * (1 << HIGHEST - 1))));
  return samples.map((one) => Number.isNaN(one) ? 0 : whole(one));
}

/** Where samples of this form begin, if one begins so many bytes after a header of the usual length: after the longest
    header that such files have, and that fits into the zeros at the front. */
function startOf(shift, { bytesPerSample, channels }, zeros) {
  const place = USUAL_START + shift, isOne = (start) => start <= zeros && (start - place) % bytesPerSample === 0;
  return (bytesPerSample > 2 || channels > 2 ? LONGER_STARTS.find(isOne) : undefined) ?? place;
}

const isBetter = (one, best) => one && (!best || one.oddities < best.oddities ||
  (one.oddities === best.oddities && one.cost < best.cost));

/** The form of blocks from a byte on, and where its samples begin; nothing if none is predictable. If `zeros` is null
    they begin at this byte, or else within a sample of it, and the file begins with so many zeros. `decode` makes
    numbers of bytes. */
export function formOf(blocks, start, zeros, decode) {
  let best = null;
  for (const form of SAMPLE_FORMS) {
    // Chunks begin at even places: so where all of a header is zeros, samples of an even width do, too.
    const step = zeros >= USUAL_START && form.bytesPerSample % 2 === 0 ? 2 : 1;
    for (let shift = 0; shift < (zeros === null ? 1 : form.bytesPerSample); shift += step) {
      const lowest = lowestBits(blocks, shift, form);
      const decoded = blocks.map((bytes) => decode(form, bytes.subarray(shift)));
      if (form.isFloat && !areUsual(decoded)) continue;
      const samples = decoded.map((block) => highestOf(block, form));
      for (const channels of CHANNEL_COSTS.keys()) {
        const one = looked(samples, form, channels, lowest);
        if (!isBetter(one, best)) continue;
        if (haveTurns(one.heard) || areOne(one.heard)) one.cost += DOUBT / form.bytesPerSample;
        if (isBetter(one, best)) best = { ...one, like: { ...form, channels }, shift };
      }
    }
  }
  if (!best) return null;
  return { like: best.like, skip: zeros === null ? start : startOf(best.shift, best.like, zeros) };
}

// The names of chunks that programs write after the audio, and in how many bytes at the end of a file they are looked
// for: enough for a large iXML or axml chunk, and few enough to be read in an instant.
const CHUNK_NAMES = ("LIST id3 ID3 bext iXML aXML axml chna ubxt cue smpl inst plst PEAK fact JUNK FLLR PAD filr _PMX acid " +
  "strc cart levl umid minf elm1 regn ovwf DISP SNDM LGWV afsp r64m link").split(" ");
export const SEARCHED_LENGTH = 1 << 22;

/** The number that the four bytes of a chunk's name are. */
const numberOf = (name) => [...name.padEnd(4)].reduceRight((number, letter) => number * 256 + letter.charCodeAt(), 0);

/** The chunks whose last one ends exactly where a file does, of which these are the last bytes: the name of the first
    one, and how many bytes they have; nothing where there are none. */
export function chunksAtEnd(bytes) {
  const view = new DataView(bytes.buffer, bytes.byteOffset, bytes.length);
  const names = new Map(CHUNK_NAMES.map((name) => [numberOf(name), name]));
  const letters = new Set(CHUNK_NAMES.map((name) => name.charCodeAt()));
  // Where what ends there is at the end of the file, or chunks follow up to it.
  const ends = new Set([bytes.length]);
  let chunks = null;
  for (let place = bytes.length - 8; place >= 0; place--) {
    if (!letters.has(bytes[place])) continue;
    const name = names.get(view.getUint32(place, true));
    if (name === undefined) continue;
    const length = view.getUint32(place + 4, true), end = place + 8 + length;
    if (end === bytes.length || ends.has(end + length % 2)) {
      ends.add(place);
      chunks = { name, length: bytes.length - place };
    }
  }
  return chunks;
}
