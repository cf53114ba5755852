/* What is laid over the first file: nevers lost or gained since an older one, a recorded run, accesses that race. */
const MOST_SHOWN = 200, MOST_MOMENTS = 2000;

function isLaid() {
  return !!(DATA.changes || DATA.recorded || DATA.races);
}
function changes() {
  return DATA.changes && st.r === 0 && S.size === null ? DATA.changes.filter(x => x.region === G.region) : [];
}
function changeOf(a, b) {
  return changes().find(x => x.a === a && x.b === b || x.a === b && x.b === a);
}
function isLost(change) {
  return change.after === 0;
}
function recorded() {
  return DATA.recorded && st.r === 0 && DATA.recorded.region === G.region ? DATA.recorded : null;
}
function races() {
  return DATA.races && st.r === 0 && DATA.races.region === G.region ? DATA.races.found : [];
}
/* On the sheet: a ring for a race of data; a frame for a change, of a lost never with its corner filled; a dot for a pair that the run met. */
function drawLayers(g) {
  const { cw, rh } = L, both = (a, b, draw) => { draw(a, b); if (a !== b) draw(b, a); };
  for (const x of changes()) both(x.a, x.b, (a, b) => {
    const left = b * cw + 1, low = a * rh + rh - 1, corner = Math.min(cw, rh) * .45;
    g.strokeStyle = g.fillStyle = css(isLost(x) ? "--mark" : "--good");
    g.lineWidth = 1.5;
    g.strokeRect(left, a * rh + 1, Math.max(cw - 2, 1), rh - 2);
    if (!isLost(x)) return;
    g.beginPath();
    g.moveTo(left, low);
    g.lineTo(left + corner, low);
    g.lineTo(left, low - corner);
    g.fill();
  });
  g.strokeStyle = css("--sel");
  g.lineWidth = 1.5;
  for (const x of races()) if (x.race === "data") both(x.a, x.b, (a, b) => {
    g.beginPath();
    g.arc(b * cw + cw / 2, a * rh + rh / 2, Math.max(1.5, Math.min(cw, rh) * .42), 0, 7);
    g.stroke();
  });
  g.fillStyle = css("--sel");
  const dot = Math.max(1.3, Math.min(4, Math.min(cw, rh) * .12)), low = Math.min(.85, 1 - 1.5 * dot / rh);
  for (const [a, b] of recorded() ? recorded().met : []) if (!isBarrier(a) && !isBarrier(b)) both(a, b, (a, b) => {
    g.beginPath();
    g.arc(b * cw + cw / 2, a * rh + rh * low, dot, 0, 7);
    g.fill();
  });
}
/* Changed pairs, those of one node with nodes in a row as one. */
function changedHtml(found) {
  const rows = [];
  for (const x of found) {
    const last = rows[rows.length - 1];
    if (last && last.a === x.a && last.to === x.b - 1) last.to = x.b;
    else rows.push({ a: x.a, b: x.b, to: x.b });
  }
  const button = x => `<button class="chip" data-pair="${x.a},${x.b},${G.region}">${x.a} and ${x.b === x.to ? x.b : x.b + "–" + x.to}</button>`;
  return rows.slice(0, MOST_SHOWN).map(button).join("") + (rows.length > MOST_SHOWN ? " …" : "");
}
/* For the panel of a pair. */
function layersOf(a, b) {
  const change = changeOf(a, b), told = recorded(), met = told && told.met.some(x => x[0] === a && x[1] === b || x[0] === b && x[1] === a);
  return (change ? `<p class="${isLost(change) ? "lost" : ""}"><b>${isLost(change) ? "A never was lost" : "A never was gained"}</b>: before it was ${change.before}, ${SHORT[change.before]}.</p>` : "") +
    races().filter(x => x.a === a && x.b === b || x.a === b && x.b === a).map(x => `<p><b>A ${x.race} race</b> on ${esc(x.variable)}.</p>`).join("") +
    (met ? "<p><b>The recorded run met this pair.</b></p>" : "");
}
/* For the overview. */
function layersHtml() {
  const list = (title, look, found) => `<h3 class="${look}">${title}: ${found.length}</h3><p>${changedHtml(found)}</p>`;
  const told = recorded();
  let html = "";
  if (DATA.changes && st.r === 0) html = S.size !== null ? `<p class="hint">Changes are shown for teams of any size.</p>` :
    list("Nevers lost", "lost", changes().filter(isLost)) + list("Nevers gained", "", changes().filter(x => !isLost(x)));
  if (DATA.races && st.r === 0) html += `<h3>Races: ${races().length}</h3><p>${races().slice(0, MOST_SHOWN).map(x => `<button class="chip" data-pair="${x.a},${x.b},${G.region}">${esc(x.variable)}: ${x.a} and ${x.b}${x.race === "data" ? "" : ", kept apart by a lock"}</button>`).join("")}</p>`;
  if (told) html += `<h3>The recorded run</h3><p class="told">${esc(told.words)}</p><p><button class="chip" data-recorded>step it</button> <span class="hint">A dot marks a pair that it met.</span></p>`;
  return html;
}
function showRecorded(step) {
  const told = recorded();
  st.a = st.b = st.n = null;
  clearMarks();
  drawArcs();
  const { team, moments } = decoded([told.run[0], codes(told.run[1])]);
  run = { team, moments: moments.slice(0, MOST_MOMENTS), meet: null, at: 0 };
  $("panel").innerHTML = BACK + `<h2>The recorded run</h2><p class="told">${esc(told.words)}</p><p class="hint">${moments.length > MOST_MOMENTS ? `The first ${MOST_MOMENTS} steps are shown. ` : ""}<span class="screen"><kbd>←</kbd> <kbd>→</kbd> step, <kbd>Home</kbd> starts again.</span></p>` + stepsHtml(null, null);
  place();
  setStep(step);
}
