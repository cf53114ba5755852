/* The sheet on its canvas. Where a cell has no room for its digit, a texture tells its answer without colour. */
function css(name) {
  return getComputedStyle(document.documentElement).getPropertyValue(name).trim();
}
/* A canvas of so many pixels of the page, to be drawn on. */
function sized(c, W, H, ratio) {
  c.width = W * ratio;
  c.height = H * ratio;
  c.style.width = W + "px";
  c.style.height = H + "px";
  const g = c.getContext("2d");
  g.scale(ratio, ratio);
  g.fillStyle = css("--bg");
  g.fillRect(0, 0, W, H);
  return g;
}
function canvas(id, W, H) {
  return sized($(id), W, H, Math.min(window.devicePixelRatio || 1, 2, Math.sqrt(16e6 / (W * H))));   // some browsers draw nothing over 16 million pixels
}
/* A tile of six pixels with lines from each of some points to the next. */
function tile(g, lines, ink, ground) {
  const c = document.createElement("canvas");
  c.width = c.height = 6;
  const q = c.getContext("2d");
  if (ground) {
    q.fillStyle = ground;
    q.fillRect(0, 0, 6, 6);
  }
  q.strokeStyle = ink;
  q.lineWidth = 1;
  q.beginPath();
  for (const [x, y, u, v] of lines) {
    q.moveTo(x, y);
    q.lineTo(u, v);
  }
  q.stroke();
  return g.createPattern(c, "repeat");
}
const RISING = [[-1, 1, 1, -1], [-1, 7, 7, -1], [5, 7, 7, 5]], FALLING = [[-1, 5, 1, 7], [-1, -1, 7, 7], [5, -1, 7, 1]];
const TEXTURES = { 2: [[0, .5, 6, .5], [0, 3.5, 6, 3.5]], 3: [[.5, 0, .5, 6], [3.5, 0, 3.5, 6]], 4: RISING, 5: FALLING, 6: [[0, .5, 2, .5]], 7: [...RISING, ...FALLING] };
function drawSheet() {
  const { n, W, H } = L;
  $("mat").style.width = W + "px";
  $("mat").style.height = H + "px";
  paintSheet(canvas("mc", W, H), [0, n], [0, n]);
  paintHead(canvas("hc", W, L.head));
}
/* The cells of some rows and columns, with what is laid over them. */
function paintSheet(g, [top, bottom], [left, right]) {
  const { rh, cw } = L, gap = cw >= 12 ? 1 : cw >= 7 ? .6 : .35, digits = cw >= 10.5 && rh >= 12;
  const looks = SHORT.map((_, v) => ({ colour: css("--c" + v), ink: css(`--c${v}t`) }));
  looks.forEach((x, v) => { x.texture = !digits && TEXTURES[v] && tile(g, TEXTURES[v], x.ink); });
  g.font = `600 ${Math.min(cw * .62, rh * .56, 13)}px system-ui,sans-serif`;
  g.textAlign = "center";
  g.textBaseline = "middle";
  for (let a = top; a < bottom; a++) for (let b = left; b < right; b++) {
    const v = answer(a, b);
    if (v === NONE) continue;
    const look = looks[v], box = [b * cw + gap / 2, a * rh + gap / 2, cw - gap, rh - gap];
    g.globalAlpha = spot !== null && spot !== v ? .13 : 1;
    g.fillStyle = look.colour;
    g.fillRect(...box);
    if (look.texture) {
      g.globalAlpha *= .55;
      g.fillStyle = look.texture;
      g.fillRect(...box);
    } else if (digits) {
      g.fillStyle = look.ink;
      g.fillText(v, b * cw + cw / 2, a * rh + rh / 2 + .5);
    }
  }
  g.globalAlpha = 1;
  drawNoAnswers(g);
  drawLayers(g);
}
/* Rows and columns that have no answers: hatched for barriers, blank outside the region. */
function drawNoAnswers(g) {
  const { n, rh, cw, W, H } = L, hatch = tile(g, RISING, css("--hatch"), css("--hatchbg")), cross = i => {
    g.fillRect(0, i * rh, W, rh);
    g.fillRect(i * cw, 0, cw, H);
  };
  g.fillStyle = css("--out");
  for (let i = 0; i < n; i++) if (isOutside(i)) cross(i);
  g.fillStyle = hatch;
  G.barriers.forEach(cross);
  g.fillStyle = css("--bar");
  for (const i of G.barriers) {
    g.fillRect(0, i * rh + rh / 2 - 1, W, 2);
    g.fillRect(i * cw + cw / 2 - (cw < 7 ? .5 : 1), 0, cw < 7 ? 1 : 2, H);
  }
}
/* Column numbers, and the constructs as strips over them, the outermost on top. */
function paintHead(g) {
  const { n, cw, head } = L;
  const depth = Math.max(1, ...R.constructs.map((_, c) => depthOf(c) + 1)), high = Math.min(5, 20 / depth);
  R.constructs.forEach((own, c) => {
    g.globalAlpha = (counts(c) || own.kind === "parallel") && !isOutside(own.begin) ? 1 : .3;
    g.fillStyle = css(colourOf(c).slice(4, -1));
    g.fillRect(own.begin * cw + .5, 3 + depthOf(c) * (high + 1), (own.end - own.begin + 1) * cw - 1, high);
  });
  g.globalAlpha = 1;
  g.fillStyle = css("--dim");
  g.font = "11px system-ui,sans-serif";
  g.textAlign = "center";
  const every = cw >= 17 ? 1 : cw >= 9 ? (n > 99 ? 4 : 2) : cw >= 5 ? 5 : 10;
  for (let i = 0; i < n; i += every) g.fillText(i, i * cw + cw / 2, head - 5);
}
/* The sheet as a spreadsheet takes it. */
function sheetCsv() {
  const nodes = R.nodes.map((_, i) => i), row = a => [a, ...nodes.map(b => answer(a, b) === NONE ? "" : answer(a, b))].join(",");
  return [["node", ...nodes].join(","), ...nodes.map(row)].join("\n") + "\n";
}
function download() {
  const link = document.createElement("a");
  link.href = URL.createObjectURL(new Blob([sheetCsv()], { type: "text/csv" }));
  link.download = title(R).replace(/\.[^.]*$/, "") + "-sheet.csv";
  link.click();
  setTimeout(() => URL.revokeObjectURL(link.href), 1000);
}
