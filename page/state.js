/* What is chosen, in the address too, so that a finding can be sent as a link. */
function save() {
  const parts = st.all ? ["r=all"] : ["r=" + st.r, "g=" + G.region, "s=" + encodeURIComponent(S.label)];
  if (st.a !== null) parts.push(`c=${st.a},${st.b}`);
  if (st.n !== null) parts.push("n=" + st.n);
  if (st.t !== null && run) parts.push("t=" + st.t);
  if (st.q) parts.push("q=" + encodeURIComponent(st.q));
  if (st.wide) parts.push("w=1");
  parts.push("theme=" + document.documentElement.dataset.theme);
  const hash = "#" + parts.join("&");
  if (location.hash !== hash) history.replaceState(null, "", hash);
}
function unescaped(text) {
  try {
    return decodeURIComponent(text);
  } catch {
    return text;
  }
}
/* The numbers of a part of the address, where each names a node. */
function nodesIn(text, wanted) {
  const list = (text || "").split(",").map(Number);
  return list.length === wanted && text && list.every(x => Number.isInteger(x) && x >= 0 && x < R.n) ? list : null;
}
function load() {
  const asked = Object.fromEntries(location.hash.slice(1).split("&").map(x => [x.split("=")[0], unescaped(x.slice(x.indexOf("=") + 1))]));
  const r = DATA.regions[+asked.r] ? +asked.r : 0, { readings } = DATA.regions[r];
  const g = Math.max(0, readings.findIndex(x => String(x.region) === asked.g)), s = Math.max(0, readings[g].sheets.findIndex(x => x.label === asked.s));
  st.wide = asked.w === "1";
  const dark = matchMedia("(prefers-color-scheme:dark)").matches;
  document.documentElement.dataset.theme = ["light", "dark"].includes(asked.theme) ? asked.theme : dark ? "dark" : "light";
  choose(r, g, s);
  if (asked.r === "all" ? isOverview() : asked.r === undefined && isOverview() && !isLaid()) showAll();
  const pair = nodesIn(asked.c, 2), node = nodesIn(asked.n, 1);
  if (st.all) st.q = "";
  else if (pair) {
    pick(...pair, asked.t === undefined ? null : +asked.t || 0);
    scrollTo(...pair);
  } else if (node) {
    pickNode(node[0]);
    scrollTo(node[0], node[0]);
  } else if (asked.t !== undefined && recorded()) showRecorded(+asked.t || 0);
  if (asked.q) {
    $("find").value = asked.q;
    find();
  }
}
function choose(r, g, s) {
  Object.assign(st, { r, g, s, all: false });
  document.body.classList.remove("all");
  prepare(r, g, s);
  controls();
  layout();
  drawLeft();
  drawSheet();
  showHome();
  if (G.region !== NONE) scrollTo(G.start, G.start);
}
const MOST_BUTTONS = 8;
function controls() {
  const name = (region, reading) => title(region) + (reading.region === NONE ? "" : ": parallel at " + region.constructs[reading.region].begin);
  $("region").innerHTML = (isOverview() ? `<option value="all"${st.all ? " selected" : ""}>all regions</option>` : "") + DATA.regions.flatMap((region, r) => region.readings.map((reading, g) =>
    `<option value="${r},${g}"${!st.all && r === st.r && g === st.g ? " selected" : ""}>${esc(name(region, reading))}</option>`)).join("");
  $("zoom").querySelectorAll("button").forEach(x => x.setAttribute("aria-pressed", (x.dataset.w === "1") === st.wide));
  const had = $("size").contains(document.activeElement), size = (x, i, tag, on) => `<${tag} ${on} value="${i}">${esc(x.label)}</${tag}>`;
  $("size").innerHTML = G.sheets.length > MOST_BUTTONS ? `<select aria-label="Threads in the team">${G.sheets.map((x, i) => size(x, i, "option", i === st.s ? "selected" : "")).join("")}</select>`
    : G.sheets.map((x, i) => size(x, i, "button", `aria-pressed="${i === st.s}" data-s="${i}"`)).join("");
  if (had) $("size").querySelector("select,[aria-pressed=true]").focus();
}
function relayout(paper) {
  const step = st.t;
  layout(paper);
  drawLeft();
  drawSheet();
  render(step);
  controls();
}
function setSize(s) {
  st.s = s;
  prepare(st.r, st.g, s);
  controls();
  drawSheet();
  render();
}
function pick(a, b, step) {
  Object.assign(st, { a, b, n: null });
  showPair(step);
}
function pickNode(n) {
  Object.assign(st, { a: null, b: null, n });
  showNode();
}
/* The pair that needs a lock, in its region and for teams of any size. */
function pickIn(a, b, region) {
  const g = R.readings.findIndex(x => x.region === region);
  if (g !== st.g || st.s) choose(st.r, g, 0);
  pick(a, b);
  scrollTo(a, b);
}
function scrollTo(a, b) {
  const board = $("board"), y = a * L.rh, x = b * L.cw, width = board.clientWidth - L.leftW;
  if (y < board.scrollTop || y > board.scrollTop + board.clientHeight - L.head - L.rh * 2) board.scrollTop = Math.max(0, y - board.clientHeight / 2);
  if (x < board.scrollLeft || x > board.scrollLeft + width - 30) board.scrollLeft = Math.max(0, x - width / 2);
}
function place() {
  const { rh, cw } = L, put = (box, left, top, width, height) => Object.assign(box.style, { display: "block", left: left + "px", top: top + "px", width: width + "px", height: height + "px" });
  $("box").style.display = $("box2").style.display = "none";
  if (st.a !== null) put($("box"), st.b * cw - 2, st.a * rh - 2, cw + 4, rh + 4);
  if (st.a !== null && st.a !== st.b) put($("box2"), st.a * cw - 2, st.b * rh - 2, cw + 4, rh + 4);
  if (st.n !== null) put($("box"), -2, st.n * rh - 1, L.W + 4, rh + 2);
}
/* Nodes by line, file and line, or any text of theirs. */
let hits = [], hitAt = 0;
function hitsIn(region, q) {
  const line = q.match(/^(?:(.+):)?(\d+)$/), inFile = x => !line[1] || x.file.endsWith(line[1]);
  const isHit = (node, i) => line ? sourceIn(node[2]).some(x => inFile(x) && x.first <= +line[2] && +line[2] <= x.last)
    : `${node[2]} ${node[3]} ${nodeName(i, region)}`.toLowerCase().includes(q.toLowerCase());
  return q ? region.nodes.flatMap((node, i) => isHit(node, i) ? [i] : []) : [];
}
function find() {
  const q = st.q = $("find").value.trim();
  if (st.all) {
    drawAll();
    $("found").textContent = "";
    return save();
  }
  L.rows.forEach(x => x.classList.remove("hit"));
  hits = hitsIn(R, q);
  hitAt = 0;
  hits.forEach(i => mark(i, "hit"));
  const others = DATA.regions.filter(x => x !== R && hitsIn(x, q).length).length;
  const here = hits.length ? (hits.length === 1 ? "node " : "nodes ") + hits.slice(0, 8).join(", ") + (hits.length > 8 ? " …" : "") : "no node";
  $("found").innerHTML = !q ? "" : here + (others ? ` <button class="chip" data-others>in ${others} other region${others === 1 ? "" : "s"}</button>` : "");
  if (hits.length) scrollTo(hits[0], 0);
  save();
}
