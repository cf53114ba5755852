/* The page on paper, A4 across and in light colours: what the panel says, then the rows and the sheet in blocks that a page has room for. */
/* The ratio is a power of two: by any other Chromium prints canvases too small. */
const PAPER = { width: 1040, height: 600, row: 12, cell: 11, brief: 150, ratio: 2 };
let onScreen = null;

function paperRow(n) {
  return Math.max(PAPER.row, Math.min(34, Math.floor(PAPER.height / n)));
}
/* Numbers up to a count in parts: so many in the first and in each later one. */
function parts(count, first, later) {
  const out = [[0, Math.min(count, first)]];
  for (let at = first; at < count; at += later) out.push([at, Math.min(count, at + later)]);
  return out;
}
/* A window on something that is larger. */
function pane(width, height, child, x, y) {
  const box = document.createElement("div");
  box.className = "pane";
  Object.assign(box.style, { width: width + "px", height: height + "px" });
  Object.assign(child.style, { position: "absolute", left: -x + "px", top: -y + "px" });
  box.append(child);
  return box;
}
function copyOf(id) {
  const copy = $(id).cloneNode(true);
  for (const x of [copy, ...copy.querySelectorAll("[id]")]) {
    x.classList.add(x.id);
    x.removeAttribute("id");
  }
  return copy;
}
/* Numbers and texts alone, for columns that are far from the first. */
function briefRows() {
  const full = L, box = document.createElement("div");
  L = { ...full, bx: 2, textX: 34, textW: PAPER.brief - 34, whereW: 0, btwW: 0 };
  box.className = "rows";
  box.innerHTML = R.nodes.map((_, i) => rowHtml(i)).join("");
  L = full;
  return box;
}
function painted(W, H, paint) {
  const c = document.createElement("canvas"), g = sized(c, W, H, PAPER.ratio);
  paint(g);
  return c;
}
/* Some rows with their answers for some columns. */
function blockOf([top, bottom], [left, right]) {
  const isFirst = left === 0, width = isFirst ? L.leftW : PAPER.brief, W = (right - left) * L.cw, H = (bottom - top) * L.rh;
  const shifted = (x, y, paint) => g => { g.translate(-x, -y); paint(g); };
  const line = (...cells) => { const box = document.createElement("div"); box.className = "line"; box.append(...cells); return box; };
  const head = painted(W, L.head, shifted(left * L.cw, 0, paintHead));
  const sheet = painted(W, H, shifted(left * L.cw, top * L.rh, g => paintSheet(g, [top, bottom], [left, right])));
  const rows = isFirst ? copyOf("left") : briefRows(), block = document.createElement("section");
  Object.assign(rows.style, { width: width + "px", height: L.H + "px" });
  block.className = "block";
  block.innerHTML = `<p>${esc(paperTitle())}${top || left || bottom < R.n || right < R.n ? `: nodes ${top} to ${bottom - 1} with ${left} to ${right - 1}` : ""}</p>` +
    `<div class="key">${SHORT.map((x, v) => `${swatch(v)}${x}`).join("")}</div>`;
  block.append(line(pane(width, L.head, isFirst ? copyOf("headleft") : document.createElement("div"), 0, 0), head), line(pane(width, H, rows, 0, top * L.rh), sheet));
  return block;
}
function paperTitle() {
  return `${title(R)}, ${regionName(G.region)}, ${sizeWords()}`;
}
function toPaper() {
  const root = document.documentElement;
  if (onScreen) return;
  onScreen = { theme: root.dataset.theme };
  root.dataset.theme = "light";
  if (st.all) return;
  relayout(true);
  $("what").textContent = paperTitle();
  const across = Math.floor((PAPER.width - L.leftW) / L.cw), later = Math.floor((PAPER.width - PAPER.brief) / L.cw);
  const down = Math.ceil(R.n / Math.ceil(R.n * L.rh / PAPER.height));
  $("paper").replaceChildren(...parts(R.n, down, down).flatMap(rows => parts(R.n, across, later).map(columns => blockOf(rows, columns))));
}
function fromPaper() {
  if (!onScreen) return;
  document.documentElement.dataset.theme = onScreen.theme;
  onScreen = null;
  $("paper").replaceChildren();
  relayout();
}
