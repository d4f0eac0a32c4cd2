// node page/speed.mjs MODULE RECORDS: nanoseconds for one pair (`zamiachisel_pair`, with its work tables) through the module,
// over the records of the kind p of a file: the fastest of the passes that fit into some seconds, after a first one. The
// bytes are moved in for each call, as the page does.
import fs from "node:fs";
import vm from "node:vm";

const [moduleFile, recordsFile] = process.argv.slice(2);
vm.runInThisContext(fs.readFileSync(new URL("checker.js", import.meta.url), "utf8"), "checker.js");
const checker = await checkerOf(fs.readFileSync(moduleFile));
const data = fs.readFileSync(recordsFile), pairs = [];
for (let at = 0; at < data.length;) {
  const lengths = [1, 5, 9].map(k => data.readUInt32LE(at + k));
  if (data[at] !== 0x70) throw new Error("a record of another kind");
  at += 13;
  pairs.push(lengths.map(length => new Uint8Array(data.subarray(at, at += length))));
}
let best = Infinity;
for (let pass = 0, end = Date.now() + 4000; pass < 3 || Date.now() < end; pass++) {
  const start = process.hrtime.bigint();
  for (const pair of pairs) call(checker, "zamiachisel_pair", pair, 0, true, 13);
  const each = Number(process.hrtime.bigint() - start) / pairs.length;
  if (pass) best = Math.min(best, each);
}
console.log(Math.round(best));
