// node page/damage.mjs SHEET: every byte of the streams that stand in a sheet is changed once, and the sheet's own
// script, taken from it, compares. Each time it must say that the hash differs; unchanged, that nothing does. Ends with
// status 1 where not.
import fs from "node:fs";
import vm from "node:vm";

const sheet = fs.readFileSync(process.argv[2], "utf8");
const [, script] = /<script>([^]*)<\/script>/.exec(sheet);
vm.runInThisContext(script, "the sheet's script");
const [, module] = /id="module">([^<]*)</.exec(sheet);
const checker = await checkerOf(bytesOf(module));
const names = ["problem.bin", "low.bin", "high.bin"].filter(name => sheet.includes(`id="${name}"`));
const streams = names.map(name => bytesOf(new RegExp(`id="${name}"[^>]*base64,([^"]*)"`).exec(sheet)[1]));
const pairs = pattern => Object.fromEntries([...sheet.matchAll(pattern)].map(found => found.slice(1)));
const printed = {
  sums: pairs(/<td class="mono">([\w.]+)<\/td><td class="mono">([0-9a-f]{64})</g),
  figures: pairs(/data-figure="([a-z ]+)">([^<]*)</g),
  lines: /<div class="narrow">.*?<pre[^>]*>([^<]*)</s.exec(sheet)[1].split("\n"),
  empty: sheet.includes('<p class="empty">'),
  side: /data-side="([a-z]+)"/.exec(sheet)?.[1] ?? null,
};
let changed = 0, accepted = 0, wrong = 0;
const whole = judged(checker, names, streams, printed).found;
if (whole.length) { console.log(`unchanged: ${whole.join("; ")}`); wrong++; }
streams.forEach((stream, k) => stream.forEach((byte, at) => {
  stream[at] = byte ^ 1 << at % 8;
  const { found } = judged(checker, names, streams, printed);
  if (!found.includes(`the SHA-256 of ${names[k]} is not the printed one`)) {
    console.log(`${names[k]}, byte ${at}: ${found}`);
    wrong++;
  }
  accepted += !found.some(text => text.startsWith("the checker says"));
  changed++;
  stream[at] = byte;
}));
console.log(`${changed} bytes changed, one at a time: ${wrong} not told; ` +
            `${accepted} of these streams are accepted, with other hashes`);
process.exit(wrong ? 1 : 0);
