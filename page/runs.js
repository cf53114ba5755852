/* Certified runs: found for a pair, and stepped. */

/* Each run as its threads and its steps. */
function allRuns() {
  if (G.each) return G.each;
  const text = unpacked(G.runs), END = ";".charCodeAt(0);
  G.each = [];
  for (let at = 0, end; at < text.length; at = end + 1) {
    end = text.indexOf(END, at);
    G.each.push([value(text, at, 1), text.subarray(at + 1, end)]);
  }
  return G.each;
}
/* The moments of a run: where each thread stands, and how it came to be. */
function decoded([team, steps]) {
  const entries = [];
  for (let i = 0; i < steps.length; i += 4) for (let k = 0, more = value(steps, i + 3, 1); k <= more; k++) entries.push([value(steps, i, 1), value(steps, i + 1, 2) + k]);
  let at = Array(team).fill(G.start);
  const moments = [{ at, what: "start" }];
  for (let i = 0; i < entries.length;) {
    const from = at[0];
    if (isBarrier(from) && at.every(x => x === from)) {
      if (i + team > entries.length) break;   // a barrier that had not opened for all
      at = entries.slice(i, i + team).map(x => x[1]);
      moments.push({ at, what: "open", from });
      i += team;
    } else {
      const [thread, to] = entries[i++], left = at[thread];
      at = at.slice();
      at[thread] = to;
      moments.push({ at, what: "step", thread, from: left });
    }
  }
  return { team, moments };
}
/* For each two nodes the run that comes to them soonest, of teams of the size that is shown: its number and its moment. */
function soonest() {
  const key = S.size ?? "any", n = R.n, known = G.soonest = G.soonest || {};
  if (known[key]) return known[key];
  const runs = new Int32Array(n * n).fill(-1), meets = new Int32Array(n * n), costs = new Int32Array(n * n);
  const meet = (k, moment, cost, x, y) => [x * n + y, y * n + x].forEach(at => {
    if (runs[at] < 0 || cost < costs[at]) runs[at] = k, meets[at] = moment, costs[at] = cost;
  });
  allRuns().forEach((text, k) => {
    if (S.size !== null && text[0] !== S.size) return;
    decoded(text).moments.forEach(({ at, thread }, i) => {
      for (let t = 0; t < at.length; t++) for (let u = 0; u < t; u++) if (thread === undefined || t === thread || u === thread) meet(k, i, i * text[0], at[t], at[u]);
    });
  });
  return known[key] = { runs, meets };
}
/* The run that comes soonest to two nodes, of a team of the size that is shown. */
function findRun(a, b) {
  const { runs, meets } = soonest(), at = a * R.n + b;
  if (runs[at] < 0) return null;
  const { team, moments } = decoded(allRuns()[runs[at]]);
  return { team, moments, meet: meets[at], at: meets[at] };
}
function describe(i) {
  const now = run.moments[i];
  let text;
  if (now.what === "start") text = `All ${run.team} threads stand at node ${chip(now.at[0])}, where the region starts.`;
  else if (now.what === "open") text = `All threads are at barrier ${chip(now.from)}: it opens, and each goes on.`;
  else {
    const to = now.at[now.thread];
    text = `Thread ${now.thread} goes from ${chip(now.from)} to ${chip(to)}${to === G.finish ? ", and has finished" : isBarrier(to) ? ", and waits" : ""}.`;
  }
  if (i === run.meet) text += ` <b>★ Now two threads are at ${st.a} and ${st.b} together.</b>`;
  return now.at.every(x => x === G.finish) ? text + " The run is finished." : text;
}
function runHtml(a, b) {
  return `<h3>A run that shows it</h3><p class="hint">${run.team} threads, ${run.moments.length - 1} steps, certified by a proved call. <span class="screen"><kbd>←</kbd> <kbd>→</kbd> step, <kbd>Home</kbd> starts again, <kbd>m</kbd> goes to the meeting.</span></p>` + stepsHtml(a, b);
}
function stepsHtml(a, b) {
  const heads = Array.from({ length: run.team }, (_, t) => `<th>thread ${t}</th>`).join("");
  const cell = (now, i, t) => {
    const x = now.at[t], moved = i === 0 || now.what === "open" || now.thread === t;
    const look = x === a && x === b ? "pab" : x === a ? "pa" : x === b ? "pb" : "";
    const text = look ? `<span class="${look}">${x}</span>` : !moved ? "·" : isBarrier(x) ? "▬ " + x : x;
    return `<td class="${moved ? "mv" : "same"}">${text}</td>`;
  };
  const rows = run.moments.map((now, i) => `<tr class="${now.what === "open" ? "open" : ""}" data-step="${i}"><td class="i">${i}</td>` +
    now.at.map((_, t) => cell(now, i, t)).join("") + `<td class="star">${i === run.meet ? "★" : ""}</td></tr>`).join("");
  const button = (data, label, text) => `<button ${data} aria-label="${label}">${text}</button>`;
  return `<div class="ctl">${button('data-step="0"', "to the start", "|◀")}${button('data-by="-1"', "one step back", "◀")}${button('data-by="1"', "one step on", "▶")}` +
    `${run.meet === null ? "" : button("data-meet", "to the meeting", "★")}${button("data-play", "play", "play")}<span class="at"></span></div><div class="say" aria-live="polite"></div>` +
    `<div class="runbox"><table class="run"><thead><tr><th></th>${heads}<th></th></tr></thead><tbody>${rows}</tbody></table></div>`;
}
function setStep(i, still) {
  if (!run) return;
  run.at = st.t = Math.max(0, Math.min(run.moments.length - 1, i));
  const panel = $("panel"), rows = panel.querySelectorAll(".run tbody tr"), box = panel.querySelector(".runbox"), row = rows[run.at];
  rows.forEach((x, k) => x.classList.toggle("now", k === run.at));
  if (row.offsetTop < box.scrollTop + 30 || row.offsetTop > box.scrollTop + box.clientHeight - 30) box.scrollTop = row.offsetTop - box.clientHeight / 2;
  panel.querySelector(".say").innerHTML = describe(run.at);
  panel.querySelector(".at").textContent = `step ${run.at} of ${run.moments.length - 1}`;
  drawTokens();
  if (!still) follow();
  save();
}
/* Threads at one node stand closer where else they would cover its text, the first on top. */
function drawTokens() {
  const seen = {}, at = run ? run.moments[run.at].at : [], room = L.textX - L.spine - 13;
  const gap = node => Math.max(13, Math.min(20, room / (at.filter(x => x === node).length - 1)));
  while ($("toks").children.length > at.length) $("toks").lastChild.remove();
  at.forEach((node, t) => {
    const token = $("toks").children[t] || $("toks").appendChild(document.createElement("div"));
    const place = seen[node] = (seen[node] || 0) + 1;
    token.className = "tok";
    token.textContent = "T" + t;
    token.style.background = TOKENS[t];
    token.style.top = node * L.rh + L.rh / 2 - 9 + "px";
    token.style.left = L.spine - 11 + (place - 1) * gap(node) + "px";
    token.style.zIndex = 29 - place;
  });
}
function follow() {
  const now = run.moments[run.at], board = $("board"), y = now.at[now.thread || 0] * L.rh;
  if (y < board.scrollTop + 20 || y > board.scrollTop + board.clientHeight - L.head - 60) board.scrollTop = y - board.clientHeight / 2 + L.head;
}
function stop() {
  clearInterval(timer);
  timer = null;
  const button = $("panel").querySelector("[data-play]");
  if (button) button.textContent = "play";
}
function play() {
  if (timer) return stop();
  if (run.at >= run.moments.length - 1) setStep(0);
  $("panel").querySelector("[data-play]").textContent = "pause";
  timer = setInterval(() => run && run.at < run.moments.length - 1 ? setStep(run.at + 1) : stop(), 420);
}
