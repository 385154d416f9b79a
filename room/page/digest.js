/* The digest of a world: the first sixteen digits of the SHA-256 (FIPS 180-4) of its snapshot, but for the boot and the
   seal, which are no part of it. A page that isn't secure has no crypto.subtle. */

const BOOT = [37, 41], SEAL = 32;
const primes = [2];
for (let n = 3; primes.length < 64; n += 2) if (primes.every((prime) => n % prime)) primes.push(n);
/* The first 32 bits of the fractions of roots. */
const fraction = (root) => ((root - Math.floor(root)) * 2 ** 32) >>> 0;
const FIRST = primes.slice(0, 8).map((prime) => fraction(Math.sqrt(prime)));
const ADDED = Int32Array.from(primes, (prime) => fraction(Math.cbrt(prime)) | 0);

/* The bytes with a one, zeros, and how many bits they are, in whole blocks. */
function padded(bytes) {
  const whole = new Uint8Array((bytes.length + 72 >> 6) << 6), view = new DataView(whole.buffer);
  whole.set(bytes);
  whole[bytes.length] = 0x80;
  view.setUint32(whole.length - 8, Math.floor(bytes.length / 2 ** 29));
  view.setUint32(whole.length - 4, bytes.length << 3);
  return view;
}

function schedule(words, view, start) {
  for (let t = 0; t < 16; t++) words[t] = view.getInt32(start + 4 * t);
  for (let t = 16; t < 64; t++) {
    const x = words[t - 15], y = words[t - 2];
    const low = (x >>> 7 | x << 25) ^ (x >>> 18 | x << 14) ^ x >>> 3;
    const high = (y >>> 17 | y << 15) ^ (y >>> 19 | y << 13) ^ y >>> 10;
    words[t] = words[t - 16] + low + words[t - 7] + high;
  }
}

function compress(hash, words) {
  let a = hash[0], b = hash[1], c = hash[2], d = hash[3], e = hash[4], f = hash[5], g = hash[6], h = hash[7];
  for (let t = 0; t < 64; t++) {
    const high = (e >>> 6 | e << 26) ^ (e >>> 11 | e << 21) ^ (e >>> 25 | e << 7);
    const one = h + high + (e & f ^ ~e & g) + ADDED[t] + words[t] | 0;
    const low = (a >>> 2 | a << 30) ^ (a >>> 13 | a << 19) ^ (a >>> 22 | a << 10);
    const two = low + (a & b ^ a & c ^ b & c) | 0;
    h = g; g = f; f = e; e = d + one | 0;
    d = c; c = b; b = a; a = one + two | 0;
  }
  hash[0] += a; hash[1] += b; hash[2] += c; hash[3] += d; hash[4] += e; hash[5] += f; hash[6] += g; hash[7] += h;
}

/* The SHA-256 of bytes, in digits. */
export function sha256(bytes) {
  const view = padded(bytes), hash = Int32Array.from(FIRST, (part) => part | 0), words = new Int32Array(64);
  for (let start = 0; start < view.byteLength; start += 64) {
    schedule(words, view, start);
    compress(hash, words);
  }
  return Array.from(hash, (part) => (part >>> 0).toString(16).padStart(8, "0")).join("");
}

export function digestOf(snapshot) {
  const world = new Uint8Array(snapshot.length - (BOOT[1] - BOOT[0]) - SEAL);
  world.set(snapshot.subarray(0, BOOT[0]));
  world.set(snapshot.subarray(BOOT[1], snapshot.length - SEAL), BOOT[0]);
  return sha256(world).slice(0, 16);
}
