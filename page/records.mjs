// node page/records.mjs MODULE RECORDS ANSWERS: the records of a file, as `replay` reads them, through the C functions of the
// module, against the stored lines, whole; and to the header the returned number, that what is only read stays, that a refusal
// leaves what was lent as it was, and that the work tables come back as zeros. Ends with status 1 where anything differs.
import fs from "node:fs";
import vm from "node:vm";

const [moduleFile, recordsFile, answersFile] = process.argv.slice(2);
vm.runInThisContext(fs.readFileSync(new URL("checker.js", import.meta.url), "utf8"), "checker.js");
const checker = await checkerOf(fs.readFileSync(moduleFile));
const hex = bytes => Buffer.from(bytes).toString("hex");
const signed = number => BigInt.asIntN(64, number);
const LENT = 0xa5;                                            // what is lent for output and tables has these bytes
const STATE = 65, WINDOW = 7;                                 // numbers of a window's state, and of its verdict

// The records, each as its kind and runs.
function* recordsIn(data) {
  for (let at = 0; at < data.length;) {
    const kind = String.fromCharCode(data[at++]), runs = [];
    const count = { x: 4, d: 6 }[kind] ?? 3, lengths = at;
    at += 4 * count;
    for (let k = 0; k < count; k++) {
      const length = data.readUInt32LE(lengths + 4 * k);
      runs.push(new Uint8Array(data.subarray(at, at += length)));
    }
    yield { kind, runs };
  }
}

// A call with work tables that hold anything; what it leaves of them.
function withTables(name, runs, singles, numbers = 0) {
  const start = checker.__heap_base.value;
  const lent = runs.reduce((n, run) => n + run.length + 16, 16 * singles + 8 * numbers + 48);
  const missing = start + lent + 3 * 8 * TABLE - checker.memory.buffer.byteLength;
  if (missing > 0) checker.memory.grow(Math.ceil(missing / 65536));
  new Uint8Array(checker.memory.buffer, start, lent + 3 * 8 * TABLE).fill(LENT);
  const found = call(checker, name, runs, singles, true, numbers);
  // the tables are the last thing laid, each 16 bytes aligned
  let at = start;
  for (const run of runs) at = ((at + 15) & ~15) + run.length;
  for (let k = 0; k < singles; k++) at = ((at + 15) & ~15) + 8;
  if (numbers) at = ((at + 15) & ~15) + 8 * numbers;
  const tables = Buffer.from(checker.memory.buffer, (at + 15) & ~15, 3 * 8 * TABLE);
  return { ...found, zeros: tables.equals(ZEROS), lent: tables.equals(AS_LENT) };
}
const ZEROS = Buffer.alloc(3 * 8 * TABLE), AS_LENT = Buffer.alloc(3 * 8 * TABLE, LENT);
const lentBytes = length => new Uint8Array(length).fill(LENT);

// For each kind what the C functions say, beside what the stored line says of the same; `read` are the runs that no call may
// write.
const ratio = (verdict, k) => `${signed(verdict[k])}/${verdict[k + 1]}`;
const checkWords = (word, v) => `${word} ${v[4]} ${ratio(v, 5)} rounds ${v[7]} rule ${v[8]}`;
// A call that fills a verdict of so many numbers: its refusal as a line, or the line that `words` gives. With refusal 1 nothing
// is written.
function told(name, runs, numbers, line, words, kept = () => true) {
  const { number, verdict, singles, ...tables } = withTables(name, runs, 0, numbers);
  const written = number !== 1, unwritten = verdict.every(n => n === BigInt("0x" + "a5".repeat(8)));
  if (!number) return { number, tables, said: words(verdict), must: line };
  return { number, tables, said: written ? `refused ${verdict.slice(0, 4).join(" ")}` : `refused ${number} 0 0 0`, must: line,
           kept: kept() && (written ? verdict.slice(4).every(n => n === 0n) : unwritten) };
}
const kinds = {
  b([problem], line) {
    const out = lentBytes(576), lent = () => out.every(byte => byte === LENT);
    return told("zamiachisel_blocks", [problem, out], 7, line, v => `blocks ${v[4]} rounds ${v[5]} rule ${v[6]} ${hex(out)}`, lent);
  },
  c([problem, certificate], line) {
    return told("zamiachisel_check", [problem, certificate], 9, line, v => checkWords("check", v));
  },
  p(runs, line) {
    return told("zamiachisel_pair", runs, 13, line, v =>
      `pair ${ratio(v, 4)} ${ratio(v, 6)} gap ${v[10] ? "empty" : ratio(v, 8)} rounds ${v[11]} rule ${v[12]}`);
  },
  t(runs, line) {
    const { number: back, singles, ...tables } = withTables("zamiachisel_tighter", runs, 4);
    const said = back ? `tighter ${hex(runs[back])}` : `refused ${singles.join(" ")}`;
    const chosen = withTables("zamiachisel_choose", runs, 0, 5).verdict;
    return { number: Number(singles[0]), tables, said, must: line,
             kept: chosen.join() === [...singles, BigInt(back)].join() && (back === 0 || singles.every(single => single === 0n)) };
  },
  s([problem], line) {
    const out = lentBytes(256), lent = () => out.every(byte => byte === LENT);
    return told("zamiachisel_symmetries", [problem, out], 5, line, v => `symmetries ${v[4]} ${hex(out)}`, lent);
  },
  r([records, output], line) {
    const out = output.slice(), lent = () => hex(out) === hex(output);
    return told("zamiachisel_report", [records, out], 9, line,
                v => `report ${v[4]} lower ${ratio(v, 5)} upper ${ratio(v, 7)} ${hex(out)}`, lent);
  },
  x([problem, low, high, output], line) {
    const out = output.slice(), { number } = call(checker, "zamiachisel_record", [problem, low, high, out]);
    return { number, said: `record ${number} ${hex(out)}`, must: line };
  },
  d(runs, line) {
    return told("zamiachisel_sum", runs, 10, line, v => `sum ${ratio(v, 4)} ${ratio(v, 6)} rules ${v[8]} ${v[9]}`);
  },
  a(runs, line) {
    return told("zamiachisel_moved_bound", runs, 6, line, v => `adjusted ${ratio(v, 4)}`);
  },
  n([problem, certificate, buffer], line) {
    const out = buffer.slice(), lent = () => hex(out) === hex(buffer);
    return told("zamiachisel_office", [problem, certificate, out], 10, line,
                v => `${checkWords("office", v)} notes ${v[9]} ${hex(out)}`, lent);
  },
  // Arrivals of 16 bytes, at a state that was empty and has a number past it. A refused one leaves all of it.
  w([arrivals], line) {
    const gaps = new DataView(arrivals.buffer, arrivals.byteOffset, arrivals.length), said = [];
    const state = (checker.__heap_base.value + 15) & ~15, length = STATE + 1, run = state + 8 * length;
    const missing = run + 8 * WINDOW - checker.memory.buffer.byteLength;
    if (missing > 0) checker.memory.grow(Math.ceil(missing / 65536));
    const memory = new BigUint64Array(checker.memory.buffer, state, length + WINDOW).fill(0n);
    memory[STATE] = BigInt(LENT);
    let kept = true;
    for (let at = 0; at + 16 <= arrivals.length; at += 16) {
      const before = memory.slice(0, length);
      const number = Number(checker.zamiachisel_window_push(gaps.getBigInt64(at, true), gaps.getBigUint64(at + 8, true),
        state, BigInt(length), run, BigInt(WINDOW)));
      const verdict = memory.subarray(length);
      const wrong = before.some((one, k) => one !== memory[k] && (number || k >= STATE));
      kept = kept && Number(verdict[0]) === number && !wrong;
      said.push(number ? `${number}` : `${ratio(verdict, 4)} ${verdict[6]}`);
    }
    return { number: 0, said: `window${said.length ? " " + said.join("; ") : ""}`, must: line, kept };
  },
};

const counts = {}, answers = fs.readFileSync(answersFile, "latin1").split("\n");
let index = 0, differ = 0;
for (const { kind, runs } of recordsIn(fs.readFileSync(recordsFile))) {
  const line = answers[index++];
  counts[kind] = (counts[kind] ?? 0) + 1;
  const before = runs.map(hex).join(" ");
  const found = kinds[kind](runs, line);
  const number = line.startsWith("refused ") ? Number(line.split(" ")[1]) : kind === "x" ? Number(line.split(" ")[1]) : 0;
  const wrong = [
    found.number !== number && `the number is ${found.number}`,
    found.said !== found.must && `said is ${found.said}`,
    found.kept === false && "something was written that must stay",
    found.tables && !(number === 1 ? found.tables.lent : found.tables.zeros) && "the tables are not as the header says",
    runs.map(hex).join(" ") !== before && "what is only read was written",
  ].filter(Boolean);
  if (wrong.length && differ++ < 5) console.log(`record ${index} of kind ${kind}: ${wrong.join("; ")}; the line is ${line}`);
}
if (answers.length !== index + 1) { console.log(`${index} records and ${answers.length - 1} answers`); differ++; }
console.log(`${Object.values(counts).reduce((a, b) => a + b, 0)} records through the module, ` +
            `${Object.entries(counts).map(([kind, count]) => `${count} of ${kind}`).join(", ")}: ${differ} differ`);
process.exit(differ ? 1 : 0);
