/* All regions of the page: a row each, and what is told of the program as a whole. */
function isOverview() {
  return DATA.regions.length > 1 || DATA.program !== null;
}
/* How many pairs of a region have each answer, in teams of any size. */
function tally(r) {
  const region = DATA.regions[r];
  if (!region.tally) {
    prepare(r, 0, 0);
    region.tally = countPairs();
    prepare(st.r, st.g, st.s);
  }
  return region.tally;
}
function stackHtml(count) {
  return `<div class="stack" aria-hidden="true">${count.map((x, v) => x ? `<div style="flex:${x};background:var(--c${v})"></div>` : "").join("")}</div>`;
}
function locksTold(region) {
  const number = word => region.locks.filter(x => x.lock === word).length, told = (word, look) => number(word) ? `<span class="${look}">${number(word)} ${word}</span>` : "";
  return [told("can go", "good"), told("needed", "need"), told("not known", "")].filter(x => x).join(", ");
}
/* A region in the overview; where something is searched for, with the nodes that have it. */
function regionRow(r, q) {
  const region = DATA.regions[r], found = q ? hitsIn(region, q) : null, isNamed = q && title(region).toLowerCase().includes(q.toLowerCase());
  if (found && !found.length && !isNamed) return "";
  const count = tally(r), all = count.reduce((x, y) => x + y, 0), goes = (g, text, look) => `<button class="${look}" data-region="${r},${g}">${esc(text)}</button>`;
  const inner = region.readings.slice(1).map((x, g) => goes(g + 1, "parallel at " + region.constructs[x.region].begin, "chip")).join("");
  const nodes = (found || []).slice(0, 12).map(i => `<button class="chip" data-node="${r},${i}">${i}</button>`).join("") + (found && found.length > 12 ? " …" : "");
  return `<tr><td>${goes(0, title(region), "link")}${inner ? " " + inner : ""}${nodes ? `<br><span class="hint">nodes</span> ${nodes}` : ""}</td><td class="no">${region.nodes.length}</td>` +
    `<td class="no">${number(count[0])} of ${number(all)}</td><td>${stackHtml(count)}</td><td>${locksTold(region)}</td><td class="no">${region.notes.length || ""}</td></tr>`;
}
function drawAll() {
  const rows = DATA.regions.map((_, r) => regionRow(r, st.q)).filter(x => x), regions = `${DATA.regions.length} region${DATA.regions.length === 1 ? "" : "s"}`;
  const without = DATA.program ? DATA.program.without.map(x => `<li><b>${esc(x.name)}</b>: ${notesHtml(x.notes)}</li>`).join("") : "";
  $("all").innerHTML = `<h2>${st.q ? `${rows.length} of ${regions} with “${esc(st.q)}”` : regions}</h2>` +
    `<table class="regions"><thead><tr><th>region</th><th class="no">nodes</th><th class="no">pairs that may meet</th><th></th><th>criticals</th><th class="no">notes</th></tr></thead><tbody>${rows.join("")}</tbody></table>` +
    (without && !st.q ? `<h3>Regions without a chart</h3><ul class="notes">${without}</ul>` : "");
}
/* Notes by what they are about; routines and the like in one line. */
function notesHtml(notes) {
  const keys = [...new Set(notes.map(x => x[0]))], of = key => notes.filter(x => x[0] === key).map(x => esc(x[1]));
  return keys.length ? `<ul class="notes">${keys.map(key => `<li><b>${esc(key)}</b>: ${of(key).join("; ")}</li>`).join("")}</ul>` : "";
}
function showAll() {
  stop();
  Object.assign(st, { all: true, a: null, b: null, n: null, t: null });
  run = null;
  document.body.classList.add("all");
  controls();
  drawAll();
  const { program } = DATA;
  $("panel").innerHTML = (program ? `<h2>The program</h2><p>${esc(program.when)}</p><h3>Criticals</h3>${program.criticals.map(criticalHtml).join("") || `<p class="hint">There are none.</p>`}` +
    (program.notes.length ? `<h3>Notes</h3>${notesHtml(program.notes)}` : "") : `<h2>All regions</h2><p>Each file has a region, and may have regions inside.</p>`) +
    `<h3>How to read it</h3><p class="hint">The bar shows what part of the pairs of nodes has each answer: orange may meet, all others never. <span class="screen">A region's name opens it. <kbd>/</kbd> searches all of them.</span></p>` + FOOT;
  $("panel").scrollTop = 0;
  save();
}
function criticalHtml(x) {
  const look = { "can go": ["drop", "✓ lock can go"], "needed": ["need", "● needed"], "not known": ["", "? not known"] }[x.lock];
  return `<div class="lock"><span class="kw" style="background:var(--crit);color:var(--panel)">${esc(x.critical)}</span> <span class="hint">${esc(x.where)}</span><br>` +
    `<span class="v ${look[0]}">${look[1]}</span><br><small>${esc(x.words)}</small></div>`;
}
