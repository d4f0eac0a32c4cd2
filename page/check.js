"use strict";
// The page: takes files, asks the proved checker, and shows what it says; beside it, marked, what this script reads from the
// bytes.

const NAMES = ["problem", "low", "high"];
const LONGEST = 65536;           // bytes of a file that are judged, as gapcheck does
const COLOURS = ["#1f5a86", "#b0601a", "#2f7547", "#7d4672", "#806112", "#4857a0", "#9c3b37", "#2f7480"];
const given = {};                // for each of the three names: the file's name and bytes
const field = id => document.getElementById(id);
const moduleBytes = bytesOf(field("module").textContent);
const ready = checkerOf(moduleBytes);

// An element with text or elements in it. Text never becomes markup.
function element(tag, attributes, ...children) {
  const svg = ["svg", "g", "rect", "text", "title"].includes(tag);
  const made = svg ? document.createElementNS("http://www.w3.org/2000/svg", tag) : document.createElement(tag);
  for (const [name, value] of Object.entries(attributes)) made.setAttribute(name, value);
  made.append(...children);
  return made;
}

// A table; where it has heads, the cells of its last column are in the letters of a machine.
function table(heads, rows) {
  const exact = (tag, row, k) => heads && tag === "td" && k === row.length - 1;
  const cells = (tag, row) => row.map((cell, k) => element(tag, exact(tag, row, k) ? { class: "mono" } : {}, String(cell)));
  return element("div", { class: "wide" }, element("table", {},
    ...(heads ? [element("thead", {}, element("tr", {}, ...cells("th", heads)))] : []),
    element("tbody", {}, ...rows.map(row => element("tr", {}, ...cells("td", row))))));
}

const own = text => element("h2", {}, `◇ ${text}`);
const say = (kind, ...children) => field("verdict").replaceChildren(element("div", { class: `proved ${kind}` }, ...children));

// The key of refusal 9 whole: the record has its lowest 32 bits, and `zamiachisel_tighter` on the certificate with itself
// has all.
function keyOf(checker, streams, fields) {
  const twice = [streams[0], streams[fields.stream], streams[fields.stream]];
  const { singles } = call(checker, "zamiachisel_tighter", twice, 4, true);
  return singles[0] === 9n && BigInt.asUintN(32, singles[3]) === BigInt(fields.key) ? singles[3] : BigInt(fields.key);
}

// The blocks of the problem, by `zamiachisel_blocks`: for each basis its indices, block by block. None where it is refused.
function blocksOf(checker, problem, bases) {
  const out = new Uint8Array(576);
  if (call(checker, "zamiachisel_blocks", [problem, out], 0, true, 7).number) return null;
  return bases.map((basis, j) => {
    const blocks = new Map();
    basis.forEach((_, i) => { const b = out[64 * j + i]; blocks.set(b, [...blocks.get(b) ?? [], i]); });
    return [...blocks.values()];
  });
}

const counted = (number, word) => `${number} ${word}${number === 1 ? "" : "s"}`;
const captionOf = (j, blocks, basis) => `basis ${j}: ${counted(blocks.length, "block")}, ${counted(basis.length, "monomial")}`;

// A basis as a picture: a matrix ordered by block, with a filled square for each.
function picture(blocks, basis, title) {
  const cell = 12, margin = 8 + 6.2 * Math.max(...basis.map(name => name.length)), size = cell * basis.length;
  const parts = [];
  let at = 0, colour = 0;
  for (const block of blocks) {
    const fill = block.length === 1 ? "#8d939c" : COLOURS[colour++ % COLOURS.length];
    const side = cell * block.length - 1;
    parts.push(element("rect", { x: margin + cell * at, y: cell * at, width: side, height: side, fill }));
    block.forEach((i, k) => {
      parts.push(element("text", { x: margin - 5, y: cell * (at + k) + 9.5, "text-anchor": "end" }, basis[i]));
    });
    at += block.length;
  }
  const words = blocks.map(block => block.map(i => basis[i]).join(", ")).join("; ");
  const frame = { x: margin, y: 0, width: size, height: size, fill: "none", stroke: "#9aa0a8", "stroke-width": ".6" };
  return element("figure", {}, element("figcaption", { class: "mark" }, title),
    element("svg", { width: margin + size, height: size, role: "img" }, element("title", {}, `${title}: ${words}`),
      element("rect", frame), ...parts));
}

// What an accepted pair says, in decimals.
function boundsShown(fields) {
  const gap = gapOf(fields), digits = digitsFor(gap);
  const bounds = [["at least", [BigInt(fields.p), BigInt(fields.q)], false, `${fields.p}/${fields.q}`],
    ["at most", [BigInt(fields.P), BigInt(fields.Q)], true, `${fields.P}/${fields.Q}`]];
  if (gap[0] >= 0n) bounds.push(["any two values differ by at most", gap, true, `${gap[0]}/${gap[1]}`]);
  const rounded = (value, up) => isExact(value, digits) ? "" : up ? ", rounded up" : ", rounded down";
  const rows = bounds.map(([word, value, up, said]) => [word, decimal(value, up, digits) + rounded(value, up), said]);
  const shown = [own("In decimals, rounded outward"), table(["the objective is", "decimal", "exactly"], rows)];
  if (gap[0] < 0n) {
    shown.push(element("p", { id: "empty" }, element("b", {}, "gap empty: "),
      "the lower bound is above the upper one, so no rational point meets all the conditions. They contradict each " +
      "other, and there is no figure to quote."));
  }
  return shown;
}

// What a refusal means.
function refusalShown(checker, streams, fields, problem) {
  const [why, todo] = REFUSALS[fields.refusal] ?? ["a number that this page does not know", ""];
  const rows = [["refusal", `${fields.refusal}: ${why}`], ["where", STREAMS[fields.stream] ?? `stream ${fields.stream}`]];
  if (fields.refusal !== 7 && fields.refusal !== 9) {
    const stream = streams[fields.stream], commands = fields.stream ? CERTIFICATE : PROBLEM;
    const { bytes, words, rule } = commandAt(stream, commands, fields.place, problem.bases);
    rows.push(["place", `byte ${fields.place} of ${stream.length}`]);
    rows.push(["what stands there", words + (bytes && ` (bytes ${bytes})`)]);
    if (rule && fields.refusal >= 3 && fields.refusal <= 6) rows.push(["its rule", rule]);
  }
  if (fields.refusal === 9) {
    const key = keyOf(checker, streams, fields);
    rows.push(["the sides differ first at", `${monomialOfKey(key)} (key ${key})`]);
  }
  rows.push(["what to do", todo]);
  return [own("In words"), table(null, rows)];
}

// What the files say.
function filesShown(checker, streams, fields, problem) {
  const shown = [];
  const readable = fields.refusal === 0 || fields.stream > 0 || fields.refusal === 7;
  if (readable) {
    shown.push(own("The problem, as its bytes say it"));
    shown.push(element("p", { class: "formula" }, `objective: ${polynomial(problem.objective)}`));
    shown.push(element("ol", { class: "formula" }, ...problem.conditions.map(one => element("li", {}, condition(one)))));
    if (!problem.conditions.length) shown.push(element("p", {}, "no condition: all points"));
    const order = problem.order ? `at most ${problem.order} rounds` : "rounds until nothing joins";
    shown.push(element("p", { class: "mark" }, `${counted(problem.variables, "variable")}, joining rule ${problem.rule}, ${order}; ` +
      `${counted(rowsOf(streams[1]), "row")} in the lower certificate, ${rowsOf(streams[2])} in the upper one.`));
    const blocks = blocksOf(checker, streams[0], problem.bases);
    if (blocks?.some(one => one.length)) {
      const drawn = (basis, j) => basis.length ? [picture(blocks[j], basis, captionOf(j, blocks[j], basis))] : [];
      shown.push(element("h2", {}, "The blocks, from the proved checker; ◇ drawn and labelled here"));
      shown.push(element("div", { class: "blocks" }, ...problem.bases.flatMap(drawn)));
    }
  }
  const file = ({ name, whole }) => [name, whole.length, sha256(whole)];
  shown.push(own("SHA-256 of the files"), table(["file", "bytes", "SHA-256"], NAMES.map(name => file(given[name]))));
  return shown;
}

// Judges the three files, as soon as all are there.
async function judge() {
  const missing = NAMES.filter(name => !given[name]);
  if (missing.length) {
    say("", element("p", {}, `Waiting for ${missing.map(name => `${name}.bin`).join(" and ")}.`));
    field("shown").replaceChildren();
    return;
  }
  const checker = await ready, streams = NAMES.map(name => given[name].bytes);
  const fields = recordOf(checker, ...streams), problem = problemOf(streams[0]);
  const long = NAMES.filter(name => given[name].whole.length > LONGEST)
    .map(name => element("p", {}, `Of ${given[name].name} the first ${LONGEST} bytes were judged.`));
  const files = filesShown(checker, streams, fields, problem), lines = element("pre", {}, linesOf(checker, ...streams));
  if (fields.refusal) {
    say("refused", element("strong", {}, "refused"), lines, ...long);
    field("shown").replaceChildren(...refusalShown(checker, streams, fields, problem), ...files);
  } else {
    const meaning = gapOf(fields)[0] < 0n ? "The bounds cross: no rational point meets all the conditions."
      : "At every rational point that meets the conditions the objective is between these bounds.";
    say("accepted", element("strong", {}, "accepted"), lines, element("p", {}, meaning), ...long);
    field("shown").replaceChildren(...boundsShown(fields), ...files);
  }
}

// Judges a week's file: up to 64 pairs, each with its own record.
async function judgeWeek(file) {
  const checker = await ready, whole = new Uint8Array(await file.arrayBuffer()), out = new Uint8Array(64 * RECORD);
  const { number: refusal } = call(checker, "zamiachisel_report", [whole, out], 0, true, 9);
  if (refusal) {
    say("refused", element("strong", {}, "refused"), element("pre", {}, `refused ${refusal}`),
      element("p", {}, `${REFUSALS[refusal]?.[0] ?? ""}.`));
    return;
  }
  const rows = [], length = at => 6 + [0, 2, 4].reduce((sum, k) => sum + number(whole, at + k, 2), 0);
  for (let at = 0; at < whole.length; at += length(at)) {
    rows.push([rows.length + 1, ...pairOf(fieldsOf(out, RECORD * rows.length))]);
  }
  const accepted = rows.filter(row => row[1] === "accepted").length;
  say(accepted === rows.length ? "accepted" : "refused", element("strong", {}, `${accepted} of ${rows.length} accepted`));
  field("shown").replaceChildren(
    element("h2", {}, "The pairs, from the proved checker"), table(["pair", "verdict", "◇ gap, rounded up", "record"], rows),
    own("SHA-256 of the file"), table(["file", "bytes", "SHA-256"], [[file.name, whole.length, sha256(whole)]]));
}

// A pair of a week: its verdict, its gap, and what its record says.
function pairOf(fields) {
  const { refusal, stream, place, key, p, q, P, Q } = fields;
  if (refusal) return ["refused", "", `refused ${refusal} ${stream} ${place} ${key}: ${REFUSALS[refusal]?.[0] ?? ""}`];
  const gap = gapOf(fields);
  return ["accepted", gap[0] < 0n ? "empty" : decimal(gap, true, digitsFor(gap)), `lower ${p}/${q} upper ${P}/${Q}`];
}

// Takes one of the three files.
async function take(name, file) {
  const whole = new Uint8Array(await file.arrayBuffer());
  given[name] = { name: file.name, whole, bytes: whole.slice(0, LONGEST) };
}

// Takes files by their names.
async function takeNamed(files) {
  const unknown = [];
  for (const file of files) {
    const name = NAMES.find(one => file.name.toLowerCase() === `${one}.bin`);
    if (name) await take(name, file);
    else if (file.name.toLowerCase() === "week.bin" && files.length === 1) return judgeWeek(file);
    else unknown.push(file.name);
  }
  if (unknown.length === files.length) {
    const which = unknown.join(", ") || "No file";
    say("", element("p", {}, `${which}: not named problem.bin, low.bin or high.bin. Choose it at its own field.`));
    return undefined;
  }
  return judge();
}

// The files of what is dropped, also those of a folder.
async function dropped(transfer) {
  const entries = Array.from(transfer.items, item => item.webkitGetAsEntry?.()).filter(Boolean), found = [];
  if (!entries.some(entry => entry.isDirectory)) return Array.from(transfer.files);
  for (const entry of entries) {
    if (entry.isFile) found.push(await new Promise((yes, no) => entry.file(yes, no)));
    if (!entry.isDirectory) continue;
    const reader = entry.createReader();
    for (let some; (some = await new Promise((yes, no) => reader.readEntries(yes, no))).length;) {
      for (const inner of some) if (inner.isFile) found.push(await new Promise((yes, no) => inner.file(yes, no)));
    }
  }
  return found;
}

// Whatever goes wrong is said in the verdict's place, so that no earlier verdict stays.
function guarded(action) {
  return async event => {
    try {
      field("shown").replaceChildren();
      await action(event);
    } catch (error) {
      say("refused", element("strong", {}, "not checked"), element("p", {}, `This page failed: ${error.message}. Use gapcheck.`));
      field("shown").replaceChildren();
    }
  };
}

for (const name of NAMES) {
  field(name).addEventListener("change", guarded(async ({ target }) => {
    delete given[name];
    if (target.files.length) await take(name, target.files[0]);
    await judge();
  }));
}
field("several").addEventListener("change", guarded(({ target }) => takeNamed(Array.from(target.files))));
field("folder").addEventListener("change", guarded(({ target }) => takeNamed(Array.from(target.files))));
field("week").addEventListener("change", guarded(({ target }) => target.files.length ? judgeWeek(target.files[0]) : judge()));
document.addEventListener("dragover", event => { event.preventDefault(); field("files").classList.add("over"); });
document.addEventListener("dragleave", () => field("files").classList.remove("over"));
document.addEventListener("drop", guarded(async event => {
  event.preventDefault();
  field("files").classList.remove("over");
  await takeNamed(await dropped(event.dataTransfer));
}));
field("digest").textContent = sha256(moduleBytes);
guarded(async () => {
  const inside = JSON.parse(field("inside").textContent);
  if (!inside.length) return;
  for (const [k, name] of NAMES.entries()) await take(name, new File([bytesOf(inside[k])], `${name}.bin`));
  await judge();
})();
