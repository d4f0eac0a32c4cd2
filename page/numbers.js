"use strict";
// Numbers as the pages show them, in whole arithmetic: the gap of two bounds, decimals rounded outward, and SHA-256. Nothing
// here is proved, and no verdict depends on it.

// The gap of p/q and P/Q: its numerator and denominator, not reduced. A numerator below 0 is an empty gap.
function gapOf({ p, q, P, Q }) {
  return [BigInt(P) * BigInt(q) - BigInt(p) * BigInt(Q), BigInt(Q) * BigInt(q)];
}

// The largest whole number that is at most a/b, for a positive b.
function floor(a, b) {
  return a / b - (a % b < 0n ? 1n : 0n);
}

// The decimal with so many digits that is next to a/b, above it where `up`, otherwise below; zeros at its end are left out.
function decimal([a, b], up, digits) {
  const scaled = a * 10n ** BigInt(digits);
  const whole = up ? -floor(-scaled, b) : floor(scaled, b);
  const text = String(whole < 0n ? -whole : whole).padStart(digits + 1, "0");
  const shown = `${text.slice(0, text.length - digits)}.${text.slice(text.length - digits)}`.replace(/\.?0*$/, "");
  return (whole < 0n ? "−" : "") + shown;
}

// Whether so many digits say a/b exactly.
function isExact([a, b], digits) {
  return a * 10n ** BigInt(digits) % b === 0n;
}

// How many digits are shown: six, and more where the gap is small, so that it keeps four of them.
function digitsFor([a, b]) {
  let digits = 6;
  while (a > 0n && a * 10n ** BigInt(digits - 3) < b) digits++;
  return digits;
}

// A decimal as it is printed, as a fraction; none where the text is no decimal.
function fractionOf(text) {
  const found = /^(-?)(\d+)(?:\.(\d+))?$/.exec(text.trim().replace("−", "-"));
  if (!found) return null;
  const digits = found[3] ?? "";
  return [BigInt(found[1] + found[2] + digits), 10n ** BigInt(digits.length)];
}

const ROUNDS = new Uint32Array([
  0x428a2f98, 0x71374491, 0xb5c0fbcf, 0xe9b5dba5, 0x3956c25b, 0x59f111f1, 0x923f82a4, 0xab1c5ed5, 0xd807aa98, 0x12835b01, 0x243185be,
  0x550c7dc3, 0x72be5d74, 0x80deb1fe, 0x9bdc06a7, 0xc19bf174, 0xe49b69c1, 0xefbe4786, 0x0fc19dc6, 0x240ca1cc, 0x2de92c6f, 0x4a7484aa,
  0x5cb0a9dc, 0x76f988da, 0x983e5152, 0xa831c66d, 0xb00327c8, 0xbf597fc7, 0xc6e00bf3, 0xd5a79147, 0x06ca6351, 0x14292967, 0x27b70a85,
  0x2e1b2138, 0x4d2c6dfc, 0x53380d13, 0x650a7354, 0x766a0abb, 0x81c2c92e, 0x92722c85, 0xa2bfe8a1, 0xa81a664b, 0xc24b8b70, 0xc76c51a3,
  0xd192e819, 0xd6990624, 0xf40e3585, 0x106aa070, 0x19a4c116, 0x1e376c08, 0x2748774c, 0x34b0bcb5, 0x391c0cb3, 0x4ed8aa4a, 0x5b9cca4f,
  0x682e6ff3, 0x748f82ee, 0x78a5636f, 0x84c87814, 0x8cc70208, 0x90befffa, 0xa4506ceb, 0xbef9a3f7, 0xc67178f2]);

// SHA-256 (FIPS 180-4) of bytes, as hexadecimal digits. Written out because a page that is opened from a file need not have the
// browser's own.
function sha256(bytes) {
  const state = new Uint32Array([0x6a09e667, 0xbb67ae85, 0x3c6ef372, 0xa54ff53a, 0x510e527f, 0x9b05688c, 0x1f83d9ab, 0x5be0cd19]);
  const padded = new Uint8Array((bytes.length + 72) & ~63), view = new DataView(padded.buffer), w = new Uint32Array(64);
  const turned = (x, n) => x >>> n | x << 32 - n;
  padded.set(bytes);
  padded[bytes.length] = 128;
  view.setBigUint64(padded.length - 8, BigInt(bytes.length) * 8n);
  for (let at = 0; at < padded.length; at += 64) {
    for (let t = 0; t < 64; t++) {
      const x = w[t - 15], y = w[t - 2];
      w[t] = t < 16 ? view.getUint32(at + 4 * t)
        : w[t - 16] + (turned(x, 7) ^ turned(x, 18) ^ x >>> 3) + w[t - 7] + (turned(y, 17) ^ turned(y, 19) ^ y >>> 10);
    }
    let [a, b, c, d, e, f, g, h] = state;
    for (let t = 0; t < 64; t++) {
      const one = h + (turned(e, 6) ^ turned(e, 11) ^ turned(e, 25)) + (e & f ^ ~e & g) + ROUNDS[t] + w[t] | 0;
      const two = (turned(a, 2) ^ turned(a, 13) ^ turned(a, 22)) + (a & b ^ a & c ^ b & c) | 0;
      [a, b, c, d, e, f, g, h] = [one + two | 0, a, b, c, d + one | 0, e, f, g];
    }
    [a, b, c, d, e, f, g, h].forEach((x, k) => { state[k] += x; });
  }
  return Array.from(state, word => word.toString(16).padStart(8, "0")).join("");
}

// The bytes of base64 text.
function bytesOf(text) {
  return Uint8Array.from(atob(text.trim()), letter => letter.charCodeAt(0));
}
