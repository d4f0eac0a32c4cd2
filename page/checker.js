"use strict";
// The proved C functions of the module that tools/wasm makes, called from JavaScript. What a call returns and leaves is
// proved (include/zamiachisel.h, crates/c_calls); that the bytes are moved in and out rightly is not: this file does it, and
// is kept small.

const TABLE = 2048;          // numbers of 64 bits in each of the three work tables
const RECORD = 32;           // bytes of a record
const CHECK = 9;             // numbers of the verdict on one certificate
const LINES = 1280;          // bytes, more than the lines of a pair ever have

// The exports of the module, from its bytes. It imports nothing, so it can reach nothing but its own memory.
async function checkerOf(bytes) {
  return (await WebAssembly.instantiate(bytes, {})).instance.exports;
}

// Calls a C function. Its arguments are runs of bytes, each a pointer and a length, then pointers to `singles` numbers of 64
// bits, then, where `numbers` is not 0, a run of so many for the verdict, then, where `tables` is true, the three work tables.
// The runs are lent as copies behind the stack and the module's own data, and afterwards copied back into `runs`. Returned are
// the number that the function returns, the single numbers, and the verdict, read as unsigned.
function call(exports, name, runs, singles = 0, tables = false, numbers = 0) {
  const lent = [...Array(numbers ? 1 : 0).fill(numbers), ...Array(tables ? 3 : 0).fill(TABLE)];
  const sizes = [...runs.map(run => run.length), ...Array(singles).fill(8), ...lent.map(length => 8 * length)];
  const places = [];
  let end = exports.__heap_base.value;
  for (const size of sizes) {
    places.push(end = (end + 15) & ~15);
    end += size;
  }
  const missing = end - exports.memory.buffer.byteLength;
  if (missing > 0) exports.memory.grow(Math.ceil(missing / 65536));
  const memory = new Uint8Array(exports.memory.buffer), first = runs.length, last = first + singles;
  runs.forEach((run, k) => memory.set(run, places[k]));
  const lengths = k => k < first ? [BigInt(runs[k].length)] : k < last ? [] : [BigInt(lent[k - last])];
  const number = Number(exports[name](...places.flatMap((place, k) => [place, ...lengths(k)])));
  runs.forEach((run, k) => run.set(memory.subarray(places[k], places[k] + run.length)));
  const view = new DataView(exports.memory.buffer), at = place => view.getBigUint64(place, true);
  return { number, singles: places.slice(first, last).map(at),
           verdict: Array.from({ length: numbers }, (_, k) => at(places[last] + 8 * k)) };
}

// The fields of the record at an offset: the refusal's number, 0 where the pair is accepted; p/q and P/Q; stream, place, and the
// lowest 32 bits of the key.
function fieldsOf(bytes, at = 0) {
  const view = new DataView(bytes.buffer, bytes.byteOffset + at, RECORD);
  const unsigned = offset => view.getUint32(offset, true), signed = offset => view.getInt32(offset, true);
  return { refusal: unsigned(0), p: signed(4), q: unsigned(8), P: signed(12), Q: unsigned(16),
           stream: unsigned(20), place: unsigned(24), key: unsigned(28) };
}

// The pair's verdict, by `zamiachisel_record`.
function recordOf(exports, problem, low, high) {
  const out = new Uint8Array(RECORD);
  const { number } = call(exports, "zamiachisel_record", [problem, low, high, out]);
  const fields = fieldsOf(out);
  if (number !== fields.refusal) throw new Error(`the call returned ${number}, and its record says ${fields.refusal}`);
  return fields;
}

// The very lines that gapcheck prints for three streams, by `zamiachisel_lines`.
function linesOf(exports, problem, low, high) {
  const out = new Uint8Array(LINES), { number } = call(exports, "zamiachisel_lines", [problem, low, high, out]);
  if (number > LINES) throw new Error(`the lines have ${number} bytes, and there is room for ${LINES}`);
  return new TextDecoder().decode(out.subarray(0, number)).trimEnd();
}

// The number of the refusal of one certificate, 0 where it is accepted, by `zamiachisel_check`.
function checkOf(exports, problem, certificate) {
  return call(exports, "zamiachisel_check", [problem, certificate], 0, true, CHECK).number;
}
