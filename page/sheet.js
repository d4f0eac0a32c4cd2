"use strict";
// The sheet checks itself as it opens: the proved checker judges the three streams that stand in it, or the two of a filing
// with one side, and what comes back, and the hashes computed anew, are compared with what is printed. The verdict is the
// checker's; comparing is this script's, which is not proved.

const FILES = ["problem.bin", "low.bin", "high.bin"], SIDES = ["lower", "upper"];

// Whether the fraction a/b is at most c/d.
const atMost = ([a, b], [c, d]) => a * d <= c * b;

// The files whose hashes are not the printed ones, in words.
function otherHashes(names, streams, printed) {
  const other = names.filter((name, k) => printed.sums[name] !== sha256(streams[k]));
  return other.length ? [`the SHA-256 of ${other.join(", ")} is not the printed one`] : [];
}

// A printed figure times the printed factor: in the model's units the figures are divided by it.
function scaledFigure(printed, name) {
  const factor = fractionOf(printed.figures.factor ?? ""), value = fractionOf(printed.figures[name] ?? "");
  return value && factor && [value[0] * factor[0], value[1] * factor[1]];
}

// Everything in which what is printed differs from what the record and the bytes say. `printed` has the hashes by file, the
// lines of gapcheck, the figures by name as text, whether the sheet says that the region is empty, and which side it says is
// not claimed.
function differences(fields, streams, printed) {
  const found = otherHashes(FILES, streams, printed);
  if (printed.side) found.push(`it is printed that no ${printed.side} bound is claimed, and both are there`);
  if (fields.refusal) return [...found, `the checker says: refused ${fields.refusal} ${fields.stream} ${fields.place}`];
  const gap = gapOf(fields), lower = [BigInt(fields.p), BigInt(fields.q)], upper = [BigInt(fields.P), BigInt(fields.Q)];
  const lines = [`lower ${fields.p}/${fields.q}`, `upper ${fields.P}/${fields.Q}`, `gap ${gap[0] < 0n ? "empty" : gap.join("/")}`];
  for (const line of lines) if (!printed.lines.includes(line)) found.push(`the printed lines do not have “${line}”`);
  if (printed.empty !== gap[0] < 0n) found.push("whether the region is empty is printed otherwise");
  if (gap[0] < 0n || printed.empty) return found;
  // The printed figures must enclose what was accepted.
  const [low, high, both] = ["lower", "upper", "gap"].map(name => scaledFigure(printed, name));
  if (!low || !atMost(low, lower)) found.push("the printed lower figure is not below the lower bound");
  if (!high || !atMost(upper, high)) found.push("the printed upper figure is not above the upper bound");
  if (!both || !atMost(gap, both)) found.push("the printed difference is less than the gap");
  return found;
}

// The same of one certificate: `number` is the refusal's; side and bound are what the certificate's first command states.
function differencesOfOne(number, side, streams, printed) {
  const found = otherHashes([FILES[0], FILES[1 + side]], streams, printed), word = SIDES[side], none = SIDES[1 - side];
  if (number) return [...found, `the checker says: refused ${number}`];
  const stated = statedIn(streams[1]);
  if (stated.side !== side) return [...found, `the certificate states the ${none} bound`];
  const line = `check ${side} ${stated.p}/${stated.q} rounds `;
  if (!printed.lines.some(text => text.startsWith(line))) found.push(`the printed lines do not have “${line}”`);
  if (printed.side !== none) found.push(`it is not printed that no ${none} bound is claimed`);
  for (const name of [none, "gap"]) {
    if (name in printed.figures) found.push(`the figure “${name}” is printed, and nothing here proves it`);
  }
  const figure = scaledFigure(printed, word), bound = [BigInt(stated.p), BigInt(stated.q)];
  const holds = figure && (side ? atMost(bound, figure) : atMost(figure, bound));
  if (!holds) found.push(`the printed ${word} figure is not ${side ? "above" : "below"} the ${word} bound`);
  return found;
}

// Side and bound p/q of a certificate, from its first command.
function statedIn(certificate) {
  const view = new DataView(certificate.buffer, certificate.byteOffset, certificate.byteLength);
  return { side: view.getUint8(1), p: view.getInt32(4, true), q: view.getUint16(8, true) };
}

// What the page prints, read from it.
function printedIn(page) {
  const sums = {}, figures = {};
  for (const row of page.querySelectorAll(".sums tr")) sums[row.cells[0].textContent] = row.cells[1].textContent;
  for (const one of page.querySelectorAll("[data-figure]")) {
    const name = one.getAttribute("data-figure");
    figures[name] = name in figures ? "twice" : one.textContent;
  }
  const lines = page.querySelector(".narrow pre").textContent.split("\n");
  const side = page.querySelector(".figure [data-side]")?.getAttribute("data-side") ?? null;
  return { sums, figures, lines, side, empty: page.querySelector(".figure .empty") !== null };
}

// What differs, and what is said where nothing does: of three streams by the pair's record, of two by the check of one
// certificate.
function judged(exports, names, streams, printed) {
  if (names.length === 3) {
    const fields = recordOf(exports, ...streams);
    return { found: differences(fields, streams, printed),
             said: `lower ${fields.p}/${fields.q}, upper ${fields.P}/${fields.Q}` };
  }
  const side = names[1] === FILES[2] ? 1 : 0, number = checkOf(exports, ...streams);
  const found = differencesOfOne(number, side, streams, printed), stated = number ? {} : statedIn(streams[1]);
  return { found, said: `${SIDES[side]} ${stated.p}/${stated.q}, one certificate; no ${SIDES[1 - side]} bound is claimed` };
}

// Checks, and says so at the figure.
async function again(page) {
  const place = page.getElementById("again");
  const say = (kind, text) => { place.className = kind; place.textContent = text; };
  try {
    const module = bytesOf(page.getElementById("module").textContent);
    const names = FILES.filter(name => page.getElementById(name));
    const streams = names.map(name => bytesOf(page.getElementById(name).getAttribute("href").split(",")[1]));
    const { found, said } = judged(await checkerOf(module), names, streams, printedIn(page));
    if (sha256(module) !== page.getElementById("digest").textContent) {
      found.push("the SHA-256 of the checker is not the one told below");
    }
    const when = new Date().toISOString().slice(0, 16).replace("T", " ");
    if (found.length) {
      say("differs", `Checked again in this page, ${when} UTC: THIS SHEET DOES NOT HOLD: ${found.join("; ")}.`);
    } else {
      say("holds", `Checked again in this page, just now (${when} UTC): accepted, ${said}; hashes as printed.`);
    }
  } catch (error) {
    say("differs", `Could not be checked again in this page: ${error.message}. Use gapcheck.`);
  }
}

if (typeof document !== "undefined") again(document);
