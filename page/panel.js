/* The panel: a pair, a node, or the whole region. */
const FOOT = `<footer>Answers, starts, ends and distances are the proved library's; each run was certified by a proved call. Words say what Phases and the construct records say; they are tested. This page decides nothing.</footer>`;
const BACK = `<button class="back" data-home>← overview</button>`;
function chip(i, common) {
  return `<button class="chip${common ? " common" : ""}" data-go="${i}">${i}</button>`;
}
function chips(list, other) {
  return list.length ? list.map(i => chip(i, other && other.includes(i))).join("") : `<span class="hint">none</span>`;
}
function common(one, other) {
  return one.filter(x => other.includes(x));
}
/* Barriers as the library's words have them. */
function barriers(list) {
  if (!list.length) return "no barrier";
  const last = list.length - 1, text = list.map((x, i) => (i === 0 ? "" : i === last ? " and " : ", ") + chip(x)).join("");
  return (last ? "barriers " : "barrier ") + text;
}
/* A sentence with its slots filled: a and b the nodes, s and t their starts, e and f their ends, S and E what is common, m and n the
   masters around them, x and y the threads of these, z the size of the team, p the path by which a construct returns. */
function filled(text, a, b) {
  const slots = {
    a: () => chip(a), b: () => chip(b), s: () => barriers(G.starts[a]), t: () => barriers(G.starts[b]), e: () => barriers(G.ends[a]),
    f: () => barriers(G.ends[b]), S: () => barriers(common(G.starts[a], G.starts[b])), E: () => barriers(common(G.ends[a], G.ends[b])),
    m: () => esc(masterOf(a)[1]), n: () => esc(masterOf(b)[1]), x: () => masterOf(a)[2], y: () => masterOf(b)[2], z: () => S.size,
    p: () => G.back[kindOf(a, b).constructs[0]].join(", "),
  };
  return text.split(/\u0001(.)/).map((part, i) => i % 2 ? slots[part]() : esc(part)).join("");
}
function who(i, look, letter) {
  const [, , place, code] = R.nodes[i];
  return `<div class="m ${look}">${letter}</div><div><button class="link" data-go="${i}"><b>Node ${i}</b>, ${esc(nodeName(i))}</button>` +
    `${place ? ` <span class="hint">${esc(place)}</span>` : ""}${code ? `<pre>${esc(dedent(code))}</pre>` : ""}</div>`;
}
function swatch(v) {
  return `<div class="sw" style="background:var(--c${v});color:var(--c${v}t)">${v}</div>`;
}
function showPair(step) {
  const { a, b } = st, v = answer(a, b), kind = kindOf(a, b), nodes = a === b ? who(a, "AB", "AB") : who(a, "A", "A") + who(b, "B", "B");
  clearMarks();
  stop();
  run = v === 0 ? findRun(a, b) : null;
  const verdict = (look, big, text, small) => `<div class="verdict" style="${look}">${big}<b>${text}<small>${small}</small></b></div>`;
  const which = a === b ? "Two threads may be here together" : "Two threads may meet";
  let html = BACK;
  if (v === NONE) html += verdict("background:var(--hatchbg)", "", isBarrier(a) || isBarrier(b) ? "A barrier" : "Outside this region", "the sheet has no answer here") + `<div class="who">${nodes}</div>`;
  else html += verdict(`background:var(--c${v});color:var(--c${v === 1 ? "1d" : v + "t"})`, `<span class="big">${v}</span>`, v === 0 ? which : "Never together", `${v ? SHORT[v] + ", " : ""}${sizeWords()}`) +
    `<div class="who">${nodes}</div>${layersOf(a, b)}<h3>Why</h3>` + kind.words.map(x => `<p>${filled(x, a, b)}</p>`).join("") + phasesHtml(a, b) + (run ? runHtml(a, b) : "");
  $("panel").innerHTML = html;
  $("panel").scrollTop = 0;
  markPair(a, b, kind);
  if (run) setStep(step === undefined || step === null ? run.meet : step, true);
  else {
    st.t = null;
    drawTokens();
  }
  place();
  save();
}
function phasesHtml(a, b) {
  const starts = common(G.starts[a], G.starts[b]), ends = common(G.ends[a], G.ends[b]);
  const row = (i, name) => `<tr><td>${name}${i}</td><td>${chips(G.starts[i], a === b ? null : starts)}</td><td>${chips(G.ends[i], a === b ? null : ends)}</td></tr>`;
  const rows = a === b ? row(a, "") : row(a, `<b style="color:var(--A)">A</b> `) + row(b, `<b style="color:var(--B)">B</b> `);
  return `<h3>Between barriers</h3><table class="ev"><tr><th></th><th>starts</th><th>ends</th></tr>${rows}</table>`;
}
/* The evidence on the rows: the two nodes, their barriers, constructs, and a path that returns. */
function markPair(a, b, kind) {
  if (a === b) mark(a, "isAB");
  else {
    mark(a, "isA", "A", "A");
    mark(b, "isB", "B", "B");
  }
  if (kind.answer === NONE) return drawArcs();
  for (const [lists, word] of [[G.starts, "start"], [G.ends, "end"]]) for (const i of new Set([...lists[a], ...lists[b]])) {
    const inA = lists[a].includes(i), inB = lists[b].includes(i);
    if (inA && inB) mark(i, null, a === b ? word : "both " + word, "AB");
    else mark(i, null, (inA ? "A " : "B ") + word, inA ? "A" : "B");
  }
  kind.constructs.forEach(x => markConstruct(x === "m" ? masterOf(a)[0] : x === "n" ? masterOf(b)[0] : x));
  const path = kind.answer === 0 && kind.constructs.length ? G.back[kind.constructs[0]] || [] : [], hot = new Set();
  path.forEach((x, i) => {
    mark(x, "path");
    if (i) hot.add(path[i - 1] + ">" + x);
  });
  drawArcs(hot);
}
function ranges(list) {
  const out = [];
  for (const x of list) {
    const last = out[out.length - 1];
    if (last && last[1] === x - 1) last[1] = x;
    else out.push([x, x]);
  }
  return out.map(([x, y]) => `<button class="chip" data-go="${x}">${x === y ? x : x + "–" + y}</button>`).join("");
}
function showNode() {
  const i = st.n, [, , place_, code] = R.nodes[i], inside = around(i);
  clearMarks();
  stop();
  run = null;
  drawTokens();
  drawArcs();
  const kw = c => `<span class="kw" style="background:${colourOf(c)};color:${inkOf(c)}">${esc(R.constructs[c].label)}</span>${counts(c) || R.constructs[c].kind === "parallel" ? "" : "(not of this region)"}`;
  $("panel").innerHTML = BACK + `<h2>Node ${i}, ${esc(nodeName(i))}</h2>${place_ ? `<p class="hint">${esc(place_)}</p>` : ""}` +
    (code ? `<div class="who" style="grid-template-columns:1fr"><pre>${esc(dedent(code))}</pre></div>` : "") +
    `<h3>Inside</h3><p>${inside.length ? inside.map(kw).join(" in ") : "no construct"}</p>` +
    (isOutside(i) ? "<p>This node is outside the region that is shown.</p>" : isBarrier(i) ? barrierPanel(i) : openPanel(i));
  $("panel").scrollTop = 0;
  mark(i, "isAB");
  place();
  save();
}
function barrierPanel(i) {
  const nodes = R.nodes.map((_, k) => k), before = nodes.filter(k => G.ends[k].includes(i)), after = nodes.filter(k => G.starts[k].includes(i));
  after.forEach(k => mark(k, "hit"));
  return `<p>A barrier: all threads of the team stand here before any goes on.</p><h3>Nodes that come from it</h3><p>${ranges(after) || "none"}</p>` +
    `<h3>Nodes that go on to it</h3><p>${ranges(before) || "none"}</p>`;
}
function openPanel(i) {
  const by = SHORT.map(() => []), edges = G.distances[i];
  R.nodes.forEach((_, k) => { if (answer(i, k) !== NONE) by[answer(i, k)].push(k); });
  by[0].forEach(k => { if (k !== i) mark(k, "may"); });
  G.starts[i].forEach(k => mark(k, null, "start", "AB"));
  G.ends[i].forEach(k => mark(k, null, "end", "AB"));
  const nevers = by.map((list, v) => v && list.length ? `<tr><td style="width:32px">${swatch(v)}</td><td>${ranges(list)}</td></tr>` : "").join("");
  return `<h3>Between barriers</h3><table class="ev"><tr><th>starts</th><th>ends</th><th>distance</th></tr><tr><td>${chips(G.starts[i])}</td><td>${chips(G.ends[i])}</td><td>${edges} edge${edges === 1 ? "" : "s"}</td></tr></table>` +
    `<h3>Another thread may be at</h3><p>${ranges(by[0]) || `<span class="hint">no node at all</span>`}</p><h3>And never at</h3><table class="legend">${nevers}</table>`;
}
/* How many pairs have each answer. */
function countPairs() {
  const count = SHORT.map(() => 0);
  for (let a = 0; a < R.n; a++) for (let b = a; b < R.n; b++) if (answer(a, b) !== NONE) count[answer(a, b)]++;
  return count;
}
function showHome() {
  st.a = st.b = st.n = st.t = run = null;
  stop();
  clearMarks();
  drawTokens();
  drawArcs();
  const count = countPairs(), all = count.reduce((x, y) => x + y, 0);
  const legend = count.map((x, v) => `<tr data-spot="${v}"><td style="width:34px">${swatch(v)}</td><td><b>${SHORT[v]}</b> <span class="hint">${esc(DATA.answers[v])}</span></td><td class="ct">${number(x)}</td></tr>`);
  const none = `<tr><td><div class="sw" style="background:repeating-linear-gradient(135deg,var(--hatch) 0 1px,var(--hatchbg) 1px 5px)"></div></td><td><span class="hint">a barrier, or outside the region</span></td><td></td></tr>`;
  $("panel").innerHTML = `<h2 title="${esc(R.file)}">${esc(title(R))}, ${regionName(G.region)}</h2><p>${number(count[0])} of ${number(all)} pairs of nodes may meet in ${sizeWords()}; for all others no run that finishes has two threads there together.</p>` +
    stackHtml(count) +
    `<table class="legend">${legend.join("")}${none}</table><p><button class="chip screen" data-csv>sheet as CSV</button></p>${layersHtml()}<h3>Criticals</h3>${locksHtml()}${R.notes.length ? `<h3>Notes</h3>${notesHtml(R.notes)}` : ""}` +
    `<h3>How to read it</h3><p class="hint">The rows are tab one. <b>Between</b> is the barriers a node starts from and ends at. A bar has the colour of the never that its construct gives. The sheet is tab eleven. <span class="screen">Click a <b>cell</b> for its reason, a <b>row</b> for its node. Arrow keys move over the sheet, <kbd>Enter</kbd> explains, <kbd>n</kbd> shows the node, <kbd>/</kbd> searches, <kbd>Esc</kbd> comes back here.</span></p>` +
    FOOT;
  $("panel").scrollTop = 0;
  place();
  save();
}
function locksHtml() {
  if (!R.locks.length) return `<p class="hint">This region has none.</p>`;
  const lock = x => {
    const own = R.constructs[x.construct], pair = x.pair && `<button class="chip" data-pair="${x.pair},${x.region}">nodes ${x.pair[0]} and ${x.pair[1]}</button>`;
    const verdict = { "can go": `<span class="v drop">✓ lock can go</span>`, "needed": `<span class="v need">● needed</span> ${pair || ""}`, "not known": `<span class="v">? not known</span>` }[x.lock];
    return `<div class="lock"><span class="kw" style="background:var(--crit);color:var(--panel)">${esc(own.label)}</span>${chip(own.begin)} to ${chip(own.end)}<br>${verdict}<br><small>${esc(x.words)}</small></div>`;
  };
  const about = DATA.program ? "In every region of the program, for teams of any size." :
    "For teams of any size, one team of each file at a time. Names are program-wide: criticals of the same name in code that the files do not hold count for nothing here. Where an edge is added, ask again.";
  return R.locks.map(lock).join("") + `<p class="hint">${about}</p>`;
}
function render(step) {
  if (st.all) showAll();
  else if (st.n !== null) showNode();
  else if (st.a !== null) showPair(step);
  else if (run) showRecorded(run.at);
  else showHome();
}
