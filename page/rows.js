/* The rows: nodes with code and lines, constructs as bars, edges as arcs. */
function layout(paper) {
  const n = R.n, rh = paper ? paperRow(n) : n <= 9 ? 46 : n <= 16 ? 36 : n <= 60 ? 23 : 16;
  const fs = rh >= 46 ? 15.5 : rh >= 34 ? 14 : rh >= 20 ? 12.5 : rh >= 16 ? 11 : rh >= 14 ? 10 : 9;
  const far = R.edges.filter(([a, b]) => b !== a + 1).map(x => x.slice());
  const fwd = far.filter(x => x[1] > x[0]), bwd = far.filter(x => x[1] <= x[0]);
  const nf = lanes(fwd), nb = lanes(bwd), lane = Math.min(n <= 16 ? 13 : 9, 64 / Math.max(nf, nb, 1));
  const bx = 18 + nb * lane, numW = 24, spine = bx + numW + 13, nestX = spine + 18 + nf * lane;
  const depth = Math.max(0, ...R.nodes.map((x, i) => around(i).length + (x[0] === "o" ? 1 : 0)));
  const step = n <= 60 ? 13 : 9, textX = nestX + depth * step + 10;
  const files = new Set(R.nodes.flatMap(x => sourceIn(x[2]).map(y => y.file)));
  L = { n, rh, fs, fwd, bwd, lane, bx, numW, spine, nestX, step, textX, head: 46, H: n * rh, file: files.size === 1 ? [...files][0] : null };
  columns(paper ? PAPER.width : $("board").clientWidth, paper ? PAPER.cell : n > 100 ? 2.75 : 6);
}
/* How wide the texts and the cells are. */
function columns(avail, least) {
  const { n, rh } = L, pen = document.createElement("canvas").getContext("2d");
  pen.font = L.fs + "px system-ui,sans-serif";
  const wide = (list, lo, hi) => Math.ceil(Math.max(lo, Math.min(hi, Math.max(...list.map(x => pen.measureText(x).width)))));
  const each = R.nodes.map((_, i) => i), hasCode = R.nodes.some(x => x[3]);
  L.whereW = R.nodes.some(x => x[2]) ? wide(each.map(whereText), L.file ? 30 : 60, L.file || n > 60 ? 90 : 150) + 16 : 0;
  L.btwW = avail < 760 ? 0 : wide(each.map(betweenText), 52, 92) + 8;
  if (hasCode) {
    const room = avail - L.textX - L.whereW - L.btwW - 28 - n * Math.min(rh, 12);
    L.textW = Math.max(avail < 760 ? 140 : 190, Math.min(290, room));
  } else {
    L.textW = wide(each.map(i => "end " + nodeName(i)), n <= 16 ? 150 : 90, 230) + (n <= 60 ? 34 : 14);
  }
  // a path that is too long is named by its end
  L.heading = L.file && pen.measureText(L.file).width > L.textW - 8 ? L.file.replace(/^.*[/]/, "…/") : L.file || "what it is";
  L.leftW = L.textX + L.textW + L.whereW + L.btwW + 12;
  const fit = Math.floor((avail - L.leftW - 16) / n * 4) / 4;
  L.cw = st.wide ? rh : Math.max(least, Math.min(rh, fit));
  L.W = Math.ceil(n * L.cw);
}
/* Gives each edge the nearest lane in which it crosses no other, and tells how many lanes there are. */
function lanes(edges) {
  const taken = [];
  edges.sort((p, q) => Math.abs(p[0] - p[1]) - Math.abs(q[0] - q[1]));
  for (const edge of edges) {
    const lo = Math.min(edge[0], edge[1]), hi = Math.max(edge[0], edge[1]);
    let k = 0;
    while (taken[k] && taken[k].some(([x, y]) => lo < y && x < hi)) k++;
    (taken[k] = taken[k] || []).push([lo, hi]);
    edge[2] = k;
  }
  return taken.length;
}
function drawLeft() {
  $("left").style.width = $("headleft").style.width = L.leftW + "px";
  $("left").style.height = $("body").style.height = L.H + "px";
  $("inner").style.width = L.leftW + L.W + 14 + "px";
  $("headleft").style.height = L.head + "px";
  $("headleft").style.flex = "none";
  const label = (x, text, more = "") => `<span style="left:${x}px${more}">${esc(text)}</span>`;
  const whereX = L.textX + L.textW;
  $("headleft").innerHTML = label(L.bx, "node", `;width:${L.numW}px;text-align:right`) + label(L.textX, L.heading, `;max-width:${L.textW - 8}px" class="file" title="${esc(L.file || "")}`) +
    (L.whereW ? label(whereX, L.file ? "line" : "where") : "") + (L.btwW ? label(whereX + L.whereW, "between") : "");
  $("rows").innerHTML = R.nodes.map((_, i) => rowHtml(i)).join("");
  L.rows = Array.from($("rows").children);
  $("nests").innerHTML = R.constructs.map((_, c) => barHtml(c)).join("") + R.nodes.map((_, i) => barrierHtml(i)).join("");
  drawArcs();
}
function rowHtml(i) {
  const [kind, own, place] = R.nodes[i], { n, rh } = L, code = codeOf(i), whereX = L.textX + L.textW;
  let text = "";
  if (kind === "o") text = `<span class="kw" style="background:${colourOf(own)};color:${inkOf(own)}">${esc(R.constructs[own].label)}</span>`;
  if (kind === "e") text = `<span class="kw end">end ${esc(R.constructs[own].label)}</span>`;
  if (kind === "b") text = `<b>${nodeName(i)}</b> `;
  if (kind === "p") text = code ? `<code>${esc(code)}</code>` : `<span class="hint">plain</span>`;
  if (kind === "o" && code && n <= 60) text += `<code>${esc(code)}</code>`;
  const [found] = sourceIn(place);
  if (kind === "b" && n <= 60) text += `<span class="hint">${esc(place.replace(found ? found.all : "", "").trim())}</span>`;
  const cell = (name, x, width, text, full) => `<span class="${name}" style="left:${x}px;width:${width}px" title="${esc(full)}">${text}</span>`;
  return `<div class="row ${isOutside(i) ? "out" : isBarrier(i) ? "barrier" : ""}" data-i="${i}" style="top:${i * rh}px;height:${rh}px;line-height:${rh}px;font-size:${L.fs}px">` +
    cell("num", L.bx, L.numW, i, "") + cell("txt", L.textX, L.textW - 8, text, "") +
    (L.whereW ? cell("where", whereX, L.whereW - 6, kind === "b" && !found ? "" : esc(whereText(i)), place) : "") +
    (L.btwW ? cell("btw", whereX + L.whereW, L.btwW + 6, betweenText(i), "from barriers → to barriers") : "") + `<span class="tags"></span></div>`;
}
function barHtml(c) {
  const own = R.constructs[c], colour = colourOf(c), counted = counts(c) || own.kind === "parallel";
  const looks = {
    parallel: `border:2px solid ${colour}`,
    critical: `border:1px solid ${colour};background:repeating-linear-gradient(135deg,${colour} 0 3px,transparent 3px 6px)`,
    do: `border:2px solid ${colour};background:color-mix(in srgb,${colour} 30%,transparent)`,
  };
  looks.sections = looks.do;
  const top = own.begin * L.rh + 3, height = (own.end - own.begin + 1) * L.rh - 6;
  return `<div class="nest" title="${esc(own.label)}" style="left:${L.nestX + depthOf(c) * L.step}px;top:${top}px;width:${L.step - 4}px;height:${height}px;` +
    `opacity:${counted && !isOutside(own.begin) ? 1 : .3};${looks[own.kind] || "background:" + colour}"></div>`;
}
function barrierHtml(i) {
  const deep = R.nodes[i][0] === "b" && !isBarrier(i);
  if (!deep && !isBarrier(i)) return "";
  return `<div class="barline${deep ? " deep" : ""}" style="left:${L.spine - 9}px;top:${i * L.rh + L.rh / 2 - 1.5}px;width:${L.textX - L.spine + 4}px;opacity:${isOutside(i) ? .35 : 1}"></div>`;
}
/* The edges; those of a path that matters are thick. */
function drawArcs(hot = new Set()) {
  const { rh, spine } = L, y = i => i * rh + rh / 2, off = rh > 20 ? 4 : 2.5;
  const look = (a, b) => {
    const on = hot.has(a + ">" + b);
    return { colour: on ? "var(--warn)" : "var(--edge)", width: on ? 3 : 1.3, opacity: isOutside(a) || isOutside(b) ? .35 : 1 };
  };
  const line = ([a, b]) => {
    const x = look(a, b);
    return `<line x1="${spine}" y1="${y(a) + 3.5}" x2="${spine}" y2="${y(b) - 3.5}" stroke="${x.colour}" stroke-width="${x.width}" opacity="${x.opacity}"/>`;
  };
  const arc = ([a, b, lane], dir) => {
    const x = look(a, b), far = dir > 0 ? spine + 10 + (lane + 1) * L.lane : L.bx - 4 - lane * L.lane, near = dir > 0 ? spine + 4 : L.bx + 2;
    const r = Math.min(5, rh / 2 - 3), down = b > a ? 1 : -1, from = y(a) + off, to = y(b) - off;
    return `<path d="M${near} ${from} H${far - dir * r} Q${far} ${from} ${far} ${from + down * r} V${to - down * r} Q${far} ${to} ${far - dir * r} ${to} H${near + dir * 5}" fill="none" stroke="${x.colour}" stroke-width="${x.width}" opacity="${x.opacity}"/>` +
      `<path d="M${near + dir} ${to} l${dir * 5.5} -3.2 v6.4 z" fill="${x.colour}" opacity="${x.opacity}"/>`;
  };
  const node = i => isBarrier(i) ? "" : `<circle cx="${spine}" cy="${y(i)}" r="${rh > 20 ? 3 : 2.3}" fill="var(--bg)" stroke="var(--edge)" stroke-width="1.4" opacity="${isOutside(i) ? .35 : 1}"/>`;
  $("arcs").setAttribute("width", L.leftW);
  $("arcs").setAttribute("height", L.H);
  $("arcs").innerHTML = R.edges.filter(([a, b]) => b === a + 1).map(line).join("") + L.fwd.map(x => arc(x, 1)).join("") +
    L.bwd.map(x => arc(x, -1)).join("") + R.nodes.map((_, i) => node(i)).join("");
}
/* Marks on the rows: the nodes that are asked about, and their evidence. */
function clearMarks() {
  for (const row of L.rows) {
    row.classList.remove("may", "isA", "isB", "isAB", "frame", "path", "hit");
    row.style.removeProperty("--fc");
    row.lastChild.textContent = "";
  }
}
function mark(i, name, tag, look) {
  if (name) L.rows[i].classList.add(name);
  if (tag) L.rows[i].lastChild.insertAdjacentHTML("beforeend", `<span class="tag ${look}">${tag}</span>`);
}
function markConstruct(c) {
  for (const i of [R.constructs[c].begin, R.constructs[c].end]) {
    mark(i, "frame");
    L.rows[i].style.setProperty("--fc", colourOf(c));
  }
}
