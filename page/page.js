/* What a person does, by mouse and by keys. */
function told(a, b) {
  const v = answer(a, b);
  return v === NONE ? "no answer: " + (isBarrier(a) || isBarrier(b) ? "a barrier" : "outside") : v ? `never, rule ${v}: ${SHORT[v]}` : "may meet";
}
/* The bands over a row and a column; nothing where no node is given. */
function hover(a, b, event) {
  const show = (box, style) => Object.assign(box.style, { display: "block" }, style), hide = (...boxes) => boxes.forEach(x => { x.style.display = "none"; });
  (L.hovered || []).forEach(x => x.classList.remove("hov"));
  hide($("bandr"), $("bandc"), $("colhov"), $("tip"));
  if (a === null) return;
  L.hovered = [L.rows[a], L.rows[b === null ? a : b]];
  L.hovered.forEach(x => x.classList.add("hov"));
  const column = b === null ? a : b;
  show($("bandr"), { left: 0, top: a * L.rh + "px", width: L.W + "px", height: L.rh + "px" });
  show($("bandc"), { top: 0, left: column * L.cw + "px", width: L.cw + "px", height: L.H + "px" });
  if (b === null) return;
  show($("colhov"), { left: b * L.cw + L.cw / 2 + "px" });
  $("colhov").textContent = b;
  if (!event) return;
  $("tip").textContent = `${a} and ${b}: ${told(a, b)}`;
  show($("tip"), { left: Math.min(event.clientX + 14, innerWidth - 280) + "px", top: event.clientY + 18 + "px" });
}
function cellAt(event) {
  const box = $("mat").getBoundingClientRect(), b = Math.floor((event.clientX - box.left) / L.cw), a = Math.floor((event.clientY - box.top) / L.rh);
  return a >= 0 && b >= 0 && a < R.n && b < R.n ? [a, b] : null;
}
function spotlight(v) {
  if (v === spot) return;
  spot = v;
  drawSheet();
}
function onMouse() {
  const rowOf = event => event.target.closest(".row"), mat = $("mat"), rows = $("rows");
  mat.addEventListener("mousemove", e => { const cell = cellAt(e); cell ? hover(...cell, e) : hover(null); });
  mat.addEventListener("mouseleave", () => hover(null));
  mat.addEventListener("click", e => {
    const cell = cellAt(e);
    if (cell) pick(...cell);
    $("panel").focus({ preventScroll: true });
  });
  rows.addEventListener("mousemove", e => rowOf(e) ? hover(+rowOf(e).dataset.i, null) : hover(null));
  rows.addEventListener("mouseleave", () => hover(null));
  rows.addEventListener("click", e => rowOf(e) && pickNode(+rowOf(e).dataset.i));
  $("panel").addEventListener("click", e => {
    const found = e.target.closest("[data-go],[data-home],[data-step],[data-by],[data-meet],[data-play],[data-pair],[data-csv],[data-recorded]");
    if (found) onPanel(found.dataset);
  });
  $("panel").addEventListener("mouseover", e => {
    const node = e.target.closest("[data-go]"), rule = e.target.closest("[data-spot]");
    hover(node ? +node.dataset.go : null, null);
    spotlight(rule ? +rule.dataset.spot : null);
  });
  $("panel").addEventListener("mouseleave", () => { hover(null); spotlight(null); });
}
function onPanel(data) {
  if ("home" in data) return showHome();
  if ("csv" in data) return download();
  if ("recorded" in data) return showRecorded(0);
  if ("play" in data) return play();
  if ("pair" in data) return pickIn(...data.pair.split(",").map(Number));
  if ("go" in data) {
    pickNode(+data.go);
    return scrollTo(+data.go, +data.go);
  }
  stop();
  setStep("by" in data ? run.at + +data.by : "meet" in data ? run.meet : +data.step);
}
function onHeader() {
  $("region").addEventListener("change", e => e.target.value === "all" ? showAll() : choose(...e.target.value.split(",").map(Number), 0));
  $("found").addEventListener("click", e => { if (e.target.closest("[data-others]")) showAll(); });
  $("all").addEventListener("click", e => {
    const x = e.target.closest("[data-region],[data-node]");
    if (!x) return;
    const [r, to] = (x.dataset.region || x.dataset.node).split(",").map(Number);
    choose(r, x.dataset.region ? to : 0, 0);
    if (st.q) find();
    if (x.dataset.node) pickNode(to), scrollTo(to, to);
    $("board").focus({ preventScroll: true });
  });
  $("size").addEventListener("change", e => setSize(+e.target.value));
  $("size").addEventListener("click", e => { const x = e.target.closest("button"); if (x) setSize(+x.dataset.s); });
  $("zoom").addEventListener("click", e => {
    const x = e.target.closest("button");
    if (!x) return;
    st.wide = x.dataset.w === "1";
    relayout();
    if (st.a !== null) scrollTo(st.a, st.b);
  });
  $("find").addEventListener("input", find);
  $("find").addEventListener("keydown", e => {
    if (e.key !== "Enter" || !hits.length) return;
    const i = hits[hitAt++ % hits.length];
    pickNode(i);
    scrollTo(i, i);
  });
  $("theme").addEventListener("click", () => {
    const root = document.documentElement;
    root.dataset.theme = root.dataset.theme === "dark" ? "light" : "dark";
    drawSheet();
    save();
  });
}
const MOVES = { ArrowUp: [-1, 0], ArrowDown: [1, 0], ArrowLeft: [0, -1], ArrowRight: [0, 1] };
function onBoardKey(e) {
  const at = cursor || [st.a ?? st.n ?? 0, st.b ?? st.n ?? 0], move = MOVES[e.key];
  if (move) {
    const [a, b] = at.map((x, i) => Math.max(0, Math.min(R.n - 1, x + move[i])));
    cursor = [a, b];
    Object.assign(st, { a, b, n: null });
    hover(a, b);
    place();
    scrollTo(a, b);
    $("live").textContent = `${a} and ${b}: ${told(a, b)}`;
  } else if (e.key === "Enter") {
    cursor = null;
    pick(...at);
    $("panel").focus({ preventScroll: true });
  } else if (e.key === "n") pickNode(at[0]);
  else return false;
  return true;
}
function onRunKey(e) {
  const to = { ArrowRight: run.at + 1, ArrowLeft: run.at - 1, Home: 0, End: run.moments.length - 1, m: run.meet }[e.key];
  if (to === undefined || to === null) return false;
  stop();
  setStep(to);
  return true;
}
function onKey(e) {
  if (e.target.matches("input,select") || e.ctrlKey || e.metaKey || e.altKey) return;
  const onBoard = document.activeElement === $("board");
  if (st.all && e.key !== "/") return;
  if (e.key === "Escape" && onBoard && isOverview() && st.a === null && st.n === null) {
    showAll();
    $("all").querySelector("button")?.focus();
  } else if (e.key === "Escape") {
    if (st.a !== null) cursor = [st.a, st.b];
    showHome();
    $("board").focus({ preventScroll: true });
  } else if (e.key === "/") $("find").focus();
  else if (!(onBoard && onBoardKey(e)) && !(run && onRunKey(e))) return;
  e.preventDefault();
}
/* Counts cells without words or constructs that these need, and 0s whose run does not show them. */
function checkPage() {
  const bad = [], tooLarge = kind => kind.words.some(x => x.startsWith("No run is shown"));
  let cells = 0, zeros = 0, runs = 0;
  DATA.regions.forEach((region, r) => region.readings.forEach((reading, g) => reading.sheets.forEach((sheet, s) => {
    prepare(r, g, s);
    for (let a = 0; a < R.n; a++) for (let b = 0; b < R.n; b++) {
      const kind = kindOf(a, b), v = kind.answer;
      if (v === NONE) continue;
      cells++;
      const text = kind.words.map(x => filled(x, a, b)).join("");
      const lacks = !text || /undefined|NaN|null/.test(text) || ((v >= 2 && v <= 5 || v === 7) && !kind.constructs.length);
      const shown = v !== 0 || tooLarge(kind) || soonest().runs[a * R.n + b] >= 0;
      if (v === 0) zeros++;
      if (lacks || !shown) bad.push([r, g, s, a, b, v]);
    }
  })));
  DATA.regions.forEach((x, r) => x.readings.forEach((_, g) => { prepare(r, g, 0); runs += allRuns().length; }));
  prepare(st.r, st.g, st.s);
  return { count: bad.length, cells, zeros, runs, bad: bad.slice(0, 10) };
}
onMouse();
onHeader();
document.addEventListener("keydown", onKey);
let resizing;
addEventListener("resize", () => { clearTimeout(resizing); resizing = setTimeout(() => onScreen || relayout(), 120); });
addEventListener("beforeprint", toPaper);
addEventListener("afterprint", fromPaper);
addEventListener("hashchange", load);
load();
if (/[#&]check=1/.test(FIRST_HASH)) document.documentElement.dataset.check = JSON.stringify(checkPage());
document.documentElement.dataset.ready = Math.round(performance.now() - T0);
