// SHA-256, as FIPS 180-4 defines it. `crypto.subtle` has it, too, but not on a page that comes from a server by plain
// HTTP.

const BLOCK = 64;
const ROUNDS = 64;

/** The first 32 bits behind the point of a root of each of the first primes. */
function fractions(count, root) {
  const primes = [];
  for (let i = 2; primes.length < count; i++) if (primes.every((it) => i % it > 0)) primes.push(i);
  return Int32Array.from(primes, (it) => (root(it) % 1) * 2 ** 32);
}

const ADDED = fractions(ROUNDS, Math.cbrt);
const START = fractions(8, Math.sqrt);

/** The words of a block, and those that are made of them. */
function spread(words, view, at) {
  for (let i = 0; i < 16; i++) words[i] = view.getUint32(at + 4 * i) | 0;
  for (let i = 16; i < ROUNDS; i++) {
    const x = words[i - 15];
    const y = words[i - 2];
    const low = ((x >>> 7) | (x << 25)) ^ ((x >>> 18) | (x << 14)) ^ (x >>> 3);
    const high = ((y >>> 17) | (y << 15)) ^ ((y >>> 19) | (y << 13)) ^ (y >>> 10);
    words[i] = (words[i - 16] + low + words[i - 7] + high) | 0;
  }
}

/** Takes a block of bytes, from `at` on, into the state. `words` is room. */
function take(state, words, view, at) {
  spread(words, view, at);
  let [a, b, c, d, e, f, g, h] = state;
  for (let i = 0; i < ROUNDS; i++) {
    const high = ((e >>> 6) | (e << 26)) ^ ((e >>> 11) | (e << 21)) ^ ((e >>> 25) | (e << 7));
    const low = ((a >>> 2) | (a << 30)) ^ ((a >>> 13) | (a << 19)) ^ ((a >>> 22) | (a << 10));
    const one = (h + high + ((e & f) ^ (~e & g)) + ADDED[i] + words[i]) | 0;
    const two = (low + ((a & b) ^ (a & c) ^ (b & c))) | 0;
    h = g;
    g = f;
    f = e;
    e = (d + one) | 0;
    d = c;
    c = b;
    b = a;
    a = (one + two) | 0;
  }
  state[0] += a;
  state[1] += b;
  state[2] += c;
  state[3] += d;
  state[4] += e;
  state[5] += f;
  state[6] += g;
  state[7] += h;
}

/** What stands behind all bytes: a bit, zeros, and how many bits came before. */
function ending(length) {
  const rest = length % BLOCK;
  const view = new DataView(new ArrayBuffer(rest < BLOCK - 8 ? BLOCK - rest : 2 * BLOCK - rest));
  view.setUint8(0, 0x80);
  view.setBigUint64(view.byteLength - 8, 8n * BigInt(length));
  return new Uint8Array(view.buffer);
}

/** The sum of parts, one after the other, in lower-case digits. */
export function sha256(...parts) {
  const state = START.slice();
  const words = new Int32Array(ROUNDS);
  const block = new Uint8Array(BLOCK);
  const length = parts.reduce((sum, it) => sum + it.length, 0);
  let filled = 0;
  for (const part of [...parts, ending(length)]) {
    let at = 0;
    if (filled > 0) {
      at = Math.min(BLOCK - filled, part.length);
      block.set(part.subarray(0, at), filled);
      filled += at;
      if (filled < BLOCK) continue;
      take(state, words, new DataView(block.buffer), 0);
    }
    const view = new DataView(part.buffer, part.byteOffset, part.length);
    for (; at + BLOCK <= part.length; at += BLOCK) take(state, words, view, at);
    filled = part.length - at;
    block.set(part.subarray(at));
  }
  return Array.from(state, (it) => (it >>> 0).toString(16).padStart(8, "0")).join("");
}
