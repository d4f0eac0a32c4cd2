// node page/module.mjs MODULE HEADER PROBLEM LOW HIGH: what the module is. It imports nothing; it exports its memory, where
// free memory begins, and the functions that the header declares, no others; its stack has the header's size and stands first
// in memory, so that a call with too little of it traps and says nothing: shown with the same module whose stack pointer
// begins at less. Status 1 where not.
import fs from "node:fs";
import vm from "node:vm";

const [moduleFile, headerFile, ...files] = process.argv.slice(2);
vm.runInThisContext(fs.readFileSync(new URL("checker.js", import.meta.url), "utf8"), "checker.js");
const bytes = fs.readFileSync(moduleFile), header = fs.readFileSync(headerFile, "utf8");
const streams = files.map(file => new Uint8Array(fs.readFileSync(file)));
const stack = Number(/ZAMIACHISEL_STACK_BYTES = (\d+)/.exec(header)[1]);
const wrong = [];
const must = (holds, what) => holds || wrong.push(what);

const module = await WebAssembly.compile(bytes);
const declared = [...header.matchAll(/^uint64_t (zamiachisel_\w+)\(/gm)].map(found => found[1]);
const exported = WebAssembly.Module.exports(module).map(one => one.name).sort();
must(WebAssembly.Module.imports(module).length === 0, "the module imports something");
must(exported.join() === ["__heap_base", "memory", ...declared].sort().join(), `exported are ${exported}`);

// The stack pointer: the global of type i32 that can change, and what it begins with, `i32.const N end`, with N below 2^20 in
// three bytes.
const pointer = n => Buffer.from([0x7f, 0x01, 0x41, n & 127 | 128, n >> 7 & 127 | 128, n >> 14, 0x0b]);
const at = bytes.indexOf(pointer(stack));
must(at > 0 && bytes.indexOf(pointer(stack), at + 1) < 0, "no single stack pointer that begins at the stack's size");
must((await checkerOf(bytes)).__heap_base.value >= stack, "free memory begins in the stack");

const whole = JSON.stringify(recordOf(await checkerOf(bytes), ...streams));
// The least stack, in steps of 16 bytes, with which the call returns; with less it must trap, and with more return the same.
async function told(size) {
  const less = Buffer.from(bytes);
  pointer(size).copy(less, at);
  const checker = await checkerOf(less);
  try {
    return JSON.stringify(recordOf(checker, ...streams));
  } catch (error) {
    if (error instanceof WebAssembly.RuntimeError) return "traps";
    throw error;
  }
}
let least = 0, enough = stack;
while (enough - least > 16) {
  const middle = (least + enough) / 32 << 4, said = await told(middle);
  must(said === whole || said === "traps", `with a stack of ${middle} bytes the record is ${said}`);
  if (said === "traps") least = middle; else enough = middle;
}
for (let size = 16; size < enough; size += 16 * 61) must(await told(size) === "traps", `a stack of ${size} bytes does not trap`);
must(least > 0, "no stack is too small");
for (const one of wrong) console.log(one);
console.log(`${bytes.length} bytes, ${declared.length} functions, no import; the record of this pair takes ${enough} of ` +
            `${stack} bytes of stack, and traps with less`);
process.exit(wrong.length ? 1 : 0);
