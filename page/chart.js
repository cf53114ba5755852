/* The data, and what is read off it. No answer is made here: answers, words and runs stand in the data. */
const T0 = performance.now(), FIRST_HASH = location.hash;
const DATA = JSON.parse(document.getElementById("data").textContent);
const NONE = 255;                 // no answer; as a region the outermost
const $ = id => document.getElementById(id);
const ESCAPES = { "&": "&amp;", "<": "&lt;", ">": "&gt;", '"': "&quot;", "'": "&#39;" };
const esc = text => String(text).replace(/[&<>"']/g, x => ESCAPES[x]);
const SHORT = ["may meet", "other phase", "masked", "single", "ordered", "section", "team of one", "no such thread"];
const KIND_COLOUR = { single: 3, masked: 2, ordered: 4, do: 4, sections: 5, section: 5 };
const TOKENS = ["#0b57d0", "#a0168f", "#0d7a5f", "#a85400", "#5a2ca0", "#5c6370", "#86600b", "#b0274a"];

let R, G, S;                      // a file, one of its regions, the sheet for a size
let L = {};                       // layout
let run = null;                   // the run that is shown: {team, moments, meet, at}
let cursor = null, spot = null, timer = null;
const st = { r: 0, g: 0, s: 0, a: null, b: null, n: null, t: null, q: "", wide: false, all: false };

function title(region) {
  return region.name || region.file.split("/").pop();
}
function number(x) {
  return x.toLocaleString("en");
}
function colourOf(c) {
  const kind = R.constructs[c].kind;
  return kind === "critical" ? "var(--crit)" : kind === "parallel" ? "var(--par)" : `var(--c${KIND_COLOUR[kind]})`;
}
function inkOf(c) {
  const kind = R.constructs[c].kind;
  return kind === "critical" || kind === "parallel" ? "var(--panel)" : `var(--c${KIND_COLOUR[kind]}t)`;
}
/* The constructs around a node, innermost first. */
function around(i) {
  const [kind, own] = R.nodes[i], out = [];
  if (own === null) return out;
  for (let c = kind === "p" || kind === "b" ? own : R.constructs[own].parent; c !== null; c = R.constructs[c].parent) out.push(c);
  return out;
}
function depthOf(c) {
  let depth = 0;
  for (let p = R.constructs[c].parent; p !== null; p = R.constructs[p].parent) depth++;
  return depth;
}
function isBarrier(i) {
  return G.barrierSet.has(i);
}
function isOutside(i) {
  return !G.inside[i];
}
/* The master around a node: its number, what words call it, and its thread. */
function masterOf(i) {
  const around_ = around(i);
  return G.masters.find(x => around_.includes(x[0]));
}
function counts(c) {
  return G.countSet.has(c);
}
/* The kind of a cell has its answer, its words and the constructs that these are about. */
function kindOf(a, b) {
  return G.kinds[S.grid[a * R.n + b]];
}
function answer(a, b) {
  return kindOf(a, b).answer;
}
function nodeName(i, region = R) {
  const [kind, own] = region.nodes[i];
  if (kind === "o") return region.constructs[own].label + " begins";
  if (kind === "e") return region.constructs[own].label + " ends";
  if (kind === "b") return i === 0 ? "Start" : i === region.nodes.length - 1 ? "Finish" : "barrier";
  return "plain";
}
function regionName(g) {
  return g === NONE ? "outermost region" : "region of the parallel at node " + R.constructs[g].begin;
}
function sizeWords() {
  if (S.size === null) return "teams of any size";
  return S.size === 1 ? "a team of one thread" : `a team of ${S.label} threads`;
}
function dedent(text) {
  const lines = text.split("\n"), blanks = lines.filter(x => x.trim()).map(x => x.match(/^\s*/)[0].length);
  const least = Math.min(99, ...blanks);
  return lines.map(x => x.slice(least)).join("\n");
}
/* A node's first line of code; of a directive what its label does not say already. */
function codeOf(i) {
  const [kind, own, , code] = R.nodes[i], first = dedent(code).split("\n")[0];
  if (kind !== "o") return first;
  const of = R.constructs[own].kind;
  return first.replace(/^#pragma\s+omp\s+|^!\$omp\s+/i, "").replace(new RegExp(`^(${of}|master)\\b\\s*`), "")
    .replace(/^\(\s*\w+\s*\)/, x => of === "critical" ? "" : x).trim();
}
function sourceIn(place) {
  return [...place.matchAll(/([^\s:,;]+):(\d+)(?:-(\d+))?/g)].map(x => ({ all: x[0], file: x[1], lines: x[0].slice(x[1].length + 1), first: +x[2], last: +(x[3] || x[2]) }));
}
function whereText(i) {
  const [found] = sourceIn(R.nodes[i][2]);
  return found ? (L.file ? found.lines : found.all) : R.nodes[i][2].slice(0, 80);
}
function betweenText(i) {
  return isBarrier(i) || isOutside(i) ? "" : G.starts[i].join(" ") + " → " + G.ends[i].join(" ");
}
/* Packed text: digits of 64, and copies of earlier text, each with a mark that says how many digits tell how far back it is and how long. */
const DIGIT = new Uint8Array(128), MARK = new Int8Array(128).fill(-1);
[..."0123456789ABCDEFGHIJKLMNOPQRSTUVWXYZabcdefghijklmnopqrstuvwxyz-_"].forEach((x, i) => { DIGIT[x.charCodeAt(0)] = i; });
[..."!#$%()*+"].forEach((x, i) => { MARK[x.charCodeAt(0)] = i; });
const codes = text => new TextEncoder().encode(text);
function value(text, at, wide) {
  let x = 0;
  for (let i = at; i < at + wide; i++) x = x * 64 + DIGIT[text[i]];
  return x;
}
function unpacked(text) {
  const from = codes(text);
  let out = new Uint8Array(from.length * 2), size = 0;
  for (let i = 0; i < from.length;) {
    const letter = from[i++], mark = MARK[letter], far = mark % 4 + 1, long = mark < 4 ? 1 : 2;
    const back = mark < 0 ? 0 : value(from, i, far), count = mark < 0 ? 1 : value(from, i + far, long);
    if (size + count > out.length) {
      const larger = new Uint8Array((size + count) * 2);
      larger.set(out);
      out = larger;
    }
    for (let k = 0; k < count; k++, size++) out[size] = back ? out[size - back] : letter;
    if (back) i += far + long;
  }
  return out.subarray(0, size);
}
/* The kinds of the cells of all sheets, a grid each. */
function grids(text, wide, count) {
  const cells = new Uint16Array(R.n * R.n * count);
  for (let i = 0, at = 0; i < text.length; i += wide + 1) {
    const kind = value(text, i, wide), end = at + value(text, i + wide, 1);
    while (at < end) cells[at++] = kind;
  }
  return Array.from({ length: count }, (_, s) => cells.subarray(s * R.n * R.n, (s + 1) * R.n * R.n));
}
/* Makes what is looked up often out of the data, once. */
function prepare(r, g, s) {
  R = DATA.regions[r];
  R.n = R.nodes.length;
  G = R.readings[g];
  if (!G.barrierSet) {
    G.barrierSet = new Set(G.barriers);
    G.countSet = new Set(G.counts);
    const numbers = text => Array.from({ length: text.length / 2 }, (_, i) => value(text, 2 * i, 2));
    for (const name of ["inside", "distances", "starts", "ends"]) G[name] = numbers(unpacked(G[name]));
    for (const name of ["starts", "ends"]) G[name] = G[name].map(x => G.sets[x]);
    G.grids = grids(unpacked(G.cells), G.wide, G.sheets.length);
    G.start = G.region === NONE ? 0 : R.constructs[G.region].begin;
    G.finish = G.region === NONE ? R.n - 1 : R.constructs[G.region].end;
  }
  S = G.sheets[s];
  S.grid = G.grids[s];
}
