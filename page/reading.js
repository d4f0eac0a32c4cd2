"use strict";
// What the bytes say, for showing: commands, formulas, and a refusal in words. This reads streams that the checker has judged; it
// judges nothing, and no verdict depends on it. docs/FORMAT.md has the bytes.

// The commands of each kind of stream: length, what it is, and the rule of its operands.
const PROBLEM = {
  0x01: [2, "number of variables", "from 1 to 8; it stands first and nowhere else"],
  0x02: [13, "term of the objective",
    "degree at most 32, only the problem's variables, a coefficient that is not 0; each monomial once, at most 256"],
  0x03: [1, "an inequality begins", "at most 8 conditions"],
  0x04: [11, "term of a condition", "after a condition began; degree at most 16, only the problem's variables, " +
    "a coefficient that is not 0; each monomial once, at most 32"],
  0x05: [10, "monomial of a basis", "of basis 0 or of a condition that has begun; degree at most 8, " +
    "only the problem's variables; each monomial once, at most 64"],
  0x06: [1, "end", "nothing follows"],
  0x07: [1, "an equality begins", "at most 8 conditions"],
  0x08: [2, "joining rule", "1 or 2; directly after the number of variables"],
  0x09: [2, "sparse order", "from 1 to 255; directly after the number of variables or the joining rule"],
};
const CERTIFICATE = {
  0x10: [10, "side and bound", "side 0 or 1, D and q at least 1; it stands first and nowhere else"],
  0x11: [4, "a row begins", "on basis 0 or an inequality, with a weight of at least 1; at most 128 rows"],
  0x12: [4, "entry of a row", "an index of the row's basis, above the one before it, with a factor that is not 0"],
  0x13: [1, "end", "nothing follows"],
  0x14: [4, "a row on an equality begins", "on an equality, with a weight that is not 0; at most 128 rows"],
  0x15: [6, "entry of a row, wide", "an index of the row's basis, above the one before it, with a factor that is not 0"],
};
const STREAMS = ["the problem", "the lower certificate", "the upper certificate"];

// For each number of a refusal what it means, and what to do about it.
const REFUSALS = {
  1: ["something that was lent is too short", "This page lends enough: it is broken. Use gapcheck."],
  2: ["a stream is empty, cut, without its end, or goes on after it", "Write the file again, whole."],
  3: ["a command is unknown in this stream, or stands where it may not", "Look at the byte at the place."],
  4: ["an operand breaks its rule", "Look at the command at the place. Often the certificate belongs to another problem."],
  5: ["a monomial stands twice, or a row's indices do not rise", "Merge the terms, or sort the row."],
  6: ["one more than a limit allows", "Make the problem or the certificate smaller."],
  7: ["more than 2,048 monomials are to be compared", "Take smaller bases, or end the rounds sooner (command 09)."],
  8: ["a row has entries in two blocks", "Split the row; the blocks are shown below."],
  9: ["the identity is false", "The certificate proves nothing. Round it again, with more digits."],
  10: ["the first certificate is no lower bound, or the second no upper one", "Exchange the two files."],
  12: ["a record of the week is cut short, or there is a byte after the 64th", "Write the file again, whole."],
};

const lowered = number => String(number).replace(/\d/g, digit => "₀₁₂₃₄₅₆₇₈₉"[digit]);
const raised = number => String(number).replace(/\d/g, digit => "⁰¹²³⁴⁵⁶⁷⁸⁹"[digit]);

// A monomial of eight exponents.
function monomial(exponents) {
  const factors = Array.from(exponents, (e, i) => e ? `x${lowered(i + 1)}${e > 1 ? raised(e) : ""}` : "").filter(Boolean);
  return factors.join("·") || "1";
}

// The monomial of a key of 64 bits.
function monomialOfKey(key) {
  return monomial(Array.from({ length: 8 }, (_, i) => Number(key >> BigInt(8 * i) & 255n)));
}

// A term, with its sign apart.
function term(coefficient, name) {
  const size = Math.abs(coefficient);
  return [coefficient < 0 ? "−" : "+", name === "1" ? String(size) : size === 1 ? name : `${size}·${name}`];
}

// A polynomial of pairs of coefficient and monomial.
function polynomial(terms) {
  const shown = terms.map(([coefficient, name]) => term(coefficient, name));
  return shown.map(([sign, text], k) => k ? ` ${sign} ${text}` : (sign === "−" ? "−" : "") + text).join("") || "0";
}

// The commands of a stream up to the first byte that begins none or that is cut: each with its place and bytes.
function* commandsOf(stream, table) {
  for (let at = 0; at < stream.length && table[stream[at]];) {
    const length = table[stream[at]][0];
    if (at + length > stream.length) return;
    yield { at, code: stream[at], bytes: stream.subarray(at, at += length) };
  }
}

const number = (bytes, at, width, signed) => {
  const view = new DataView(bytes.buffer, bytes.byteOffset + at, width);
  return view[`get${signed ? "Int" : "Uint"}${8 * width}`](0, true);
};

// A problem as it is shown: variables, objective, conditions, bases, and the rule and order of the rounds.
function problemOf(stream) {
  const read = { variables: 0, objective: [], conditions: [], bases: [[]], rule: 1, order: 0 };
  for (const { code, bytes } of commandsOf(stream, PROBLEM)) {
    if (code === 1) read.variables = bytes[1];
    if (code === 2) read.objective.push([number(bytes, 9, 4, true), monomial(bytes.subarray(1, 9))]);
    if (code === 3 || code === 7) { read.conditions.push({ equality: code === 7, terms: [] }); read.bases.push([]); }
    if (code === 4) read.conditions.at(-1)?.terms.push([number(bytes, 9, 2, true), monomial(bytes.subarray(1, 9))]);
    if (code === 5) read.bases[bytes[1]]?.push(monomial(bytes.subarray(2, 10)));
    if (code === 8) read.rule = bytes[1];
    if (code === 9) read.order = bytes[1];
  }
  return read;
}

// A condition as it is shown.
function condition({ equality, terms }) {
  return `${polynomial(terms)} ${equality ? "=" : "≥"} 0`;
}

// The number of rows of a certificate.
function rowsOf(stream) {
  return [...commandsOf(stream, CERTIFICATE)].filter(({ code }) => code === 0x11 || code === 0x14).length;
}

// The operands of a command in words; `bases` are the problem's, for entries, and `basis` that of the row.
function operands(code, bytes, bases, basis) {
  const e = at => monomial(bytes.subarray(at, at + 8));
  const named = bases?.[basis]?.[bytes[1]], index = `index ${bytes[1]}${named ? `, monomial ${named}` : ""}`;
  const entry = width => `${index}, factor ${number(bytes, 2, width, true)}`;
  switch (code) {
    case 0x01: case 0x08: case 0x09: return String(bytes[1]);
    case 0x02: return `coefficient ${number(bytes, 9, 4, true)}, monomial ${e(1)}`;
    case 0x04: return `coefficient ${number(bytes, 9, 2, true)}, monomial ${e(1)}`;
    case 0x05: return `basis ${bytes[1]}, monomial ${e(2)}`;
    case 0x10: return `side ${bytes[1]}, D = ${number(bytes, 2, 2)}, ` +
      `bound ${number(bytes, 4, 4, true)}/${number(bytes, 8, 2)}`;
    case 0x11: return `basis ${bytes[1]}, weight ${number(bytes, 2, 2)}`;
    case 0x14: return `condition ${bytes[1]}, weight ${number(bytes, 2, 2, true)}`;
    case 0x12: return entry(2);
    case 0x15: return entry(4);
    default: return "";
  }
}

// What stands at a place of a stream: its bytes, and in words the command and its rule.
function commandAt(stream, table, place, bases) {
  const hex = bytes => Array.from(bytes, byte => byte.toString(16).padStart(2, "0").toUpperCase()).join(" ");
  if (place >= stream.length) return { bytes: "", words: "the end of the file" };
  const code = stream[place], [length, what, rule] = table[code] ?? [1, "", ""];
  const bytes = stream.subarray(place, place + length);
  if (!what) return { bytes: hex(bytes), words: "no command of this stream" };
  if (bytes.length < length) return { bytes: hex(bytes), words: `${what}, cut: ${bytes.length} of ${length} bytes`, rule };
  let basis = 0;
  for (const { at, code: row, bytes: head } of commandsOf(stream, table)) {
    if (at < place && (row === 0x11 || row === 0x14)) basis = head[1];
  }
  const said = operands(code, bytes, bases, basis);
  return { bytes: hex(bytes), words: said ? `${what}: ${said}` : what, rule };
}
