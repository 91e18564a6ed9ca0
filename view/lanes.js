"use strict";
/* Draws the lanes of the lines and that of the return path: only what is in sight. */
Life.lanes = (() => {
  const { firstWhere, packetOf, rowOf } = Life.basics;
  const { colours, FONT, ratio, bar, faded, plate, state, failure, lostPacket } = Life.paint;
  /* States that are never left out, however short. */
  const TROUBLE = new Set(["dnu", "fail"]);

  /* Lanes of a few pixels are one picture with a row of pixels for each line, which is stretched to the lanes' height. */
  class ThinLanes {
    constructor(width, lines) {
      const c = colours, word = (hex) => 0xff000000 + parseInt(hex.slice(5, 7) + hex.slice(3, 5) + hex.slice(1, 3), 16);
      this.width = width; this.lines = lines;
      this.image = new ImageData(width, lines);
      this.pixels = new Uint32Array(this.image.data.buffer);
      this.canvas = document.createElement("canvas");
      this.canvas.width = width; this.canvas.height = lines;
      this.colours = { idle: word(c.faint), add: word(c.add), norm: word(c.norm), eos: word(c.eos), dnu: word(c.dnuline), fixed: word(c.fixed),
        fail: word(c.fail) };
      this.ground = c.bg;
    }
    fits(width, lines) { return width === this.width && lines === this.lines && this.ground === colours.bg; }
    begin() { this.pixels.fill(0); this.line = this.kept = -1; }
    /* A state below half a pixel is left out, but never one of trouble: its pixel is kept from what follows. */
    put(line, code, from, end) {
      if (line !== this.line) { this.line = line; this.kept = -1; }
      let first = Math.max(Math.round(from), this.kept), last = Math.round(end);
      if (last <= first) {
        if (!TROUBLE.has(code)) return;
        last = first + 1; this.kept = last;
      }
      const colour = this.colours[code], row = line * this.width, stop = row + Math.min(last, this.width);
      for (let i = row + first; i < stop; i++) this.pixels[i] = colour;
    }
    draw(g, x, y, height) {
      this.canvas.getContext("2d").putImageData(this.image, 0, 0);
      g.imageSmoothingEnabled = false;
      g.drawImage(this.canvas, x, y, this.width / ratio(), height);
    }
  }
  let thin = null;

  /* Calls `put` with each run of one line that is in sight, cut to what is, and counts its steps. */
  function forRuns(s, line, put) {
    const runs = s.m.trace.runs[line], ends = s.b;
    for (let i = firstWhere(runs.length, (n) => rowOf(runs[n].end) > s.a); i < runs.length; i++) {
      const run = runs[i], from = Math.max(s.a, rowOf(run.from)), end = Math.min(ends, rowOf(run.end));
      if (from >= ends) break;
      if (end <= from) continue;
      s.drawn.cells[run.code] = (s.drawn.cells[run.code] || 0) + Math.ceil((end - 24) / 16) - Math.floor((from - 24) / 16);
      put(run, from, end);
    }
  }

  function drawThin(s) {
    const { lay, m, X, a, b } = s, left = X(a), dpr = ratio(), count = lay.lines.length;
    if (b <= a) return;
    const width = Math.max(1, Math.round((X(b) - left) * dpr)), at = (t) => (X(t) - left) * dpr;
    if (!thin || !thin.fits(width, count)) thin = new ThinLanes(width, count);
    thin.begin();
    for (const lane of lay.lines) forRuns(s, lane.line, (run, from, end) => thin.put(lane.line, run.code, at(from), at(end)));
    for (const lane of lay.lines) {
      thin.kept = -1;
      forFailures(s, lane, (f) => thin.put(lane.line, "fail", Math.max(0, at(f.first)), Math.max(at(f.end), at(f.first) + dpr)));
    }
    thin.draw(s.g, left, lay.lineTop, count * lay.laneHeight);
  }

  function drawStates(s) {
    const { g, lay, X } = s, labels = [], read = lay.laneHeight >= 13;
    for (const lane of lay.lines) {
      let painted = -Infinity;
      forRuns(s, lane.line, (run, from, end) => {
        const xa = X(from), xe = X(end), wide = lane.h >= 8 && xe - xa > 4 ? 1 : 0;
        /* Below half a pixel a state is left out, but never one of trouble. */
        if (xe < painted + 0.5 && !TROUBLE.has(run.code)) return;
        painted = xe;
        state(g, run.code, xa, lane.y, xe - xa - wide, lane.h);
        if (read && run.code !== "idle" && xe - xa > 14) labels.push({ lane, run, xa, xe });
      });
    }
    drawSteps(s);
    g.font = "12px " + FONT;
    for (const label of labels) drawLabel(s, label);
  }

  /* A hair line at each packet's first row, once there is room for it. */
  function drawSteps(s) {
    const { g, lay, X, k, a, b } = s;
    if (16 * k < 14 || lay.laneHeight < 8) return;
    faded(g, 0.45, () => {
      for (let j = Math.max(0, packetOf(a)); rowOf(j) <= b; j++) {
        bar(g, colours.bg, X(rowOf(j)) - 1, lay.lineTop, 1, lay.lineBottom - lay.lineTop);
      }
    });
  }

  /* A state's word and sequence number, beside what is damaged and not below it. */
  function drawLabel(s, { lane, run, xa, xe }) {
    const { g, m, X } = s, c = colours;
    let at = Math.max(xa, X(s.a)) + 5;
    for (const f of m.failsOf[lane.line]) {
      if (X(f.end) > at && X(f.first) < at + 46) at = Math.max(at, X(f.end) + (f.slip ? 66 : 6));
    }
    const word = [run.code + " " + run.sq, String(run.sq)].find((text) => g.measureText(text).width < xe - at - 4);
    if (!word) return;
    const ground = { norm: c.norm, eos: c.eos, add: c.add, dnu: c.dnu }[run.code] || c.fixed;
    const edge = run.code === "norm" || run.code === "eos" ? 0 : 1;
    bar(g, ground, at - 2, lane.y + edge, g.measureText(word).width + 4, lane.h - 2 * edge);
    g.fillStyle = run.code === "eos" ? c.oneos : run.code === "norm" ? c.onnorm : c.ink;
    g.textAlign = "left";
    g.fillText(word, at, lane.y + lane.h / 2 + 0.5);
  }

  /* Calls `put` with each failure of one line that is in sight. */
  function forFailures(s, lane, put) {
    const fails = s.m.failsOf[lane.line];
    for (let i = firstWhere(fails.length, (n) => fails[n].end > s.a); i < fails.length && fails[i].first < s.b; i++) {
      s.drawn.fails++;
      put(fails[i]);
    }
  }

  function drawFailures(s) {
    const { g, lay, X, k } = s, read = lay.laneHeight >= 13;
    for (const lane of lay.lines) {
      forFailures(s, lane, (f) => {
        failure(g, X(f.first), lane.y, (f.end - f.first) * k, lane.h, f.slip ? X(f.end - f.slip) : null);
        if (read && f.slip) plate(g, "slip " + f.slip, X(f.end) + 8, lane.y + lane.h / 2, colours.fail, colours.bg);
      });
    }
  }

  function drawLines(s) {
    const { g, lay, X, k, a, b } = s, early = Math.min(24, b);
    if (a < early) for (const lane of lay.lines) bar(g, colours.faint, X(a), lane.y, (early - a) * k, lane.h);
    if (lay.laneHeight < 8) { drawThin(s); return; }
    drawStates(s);
    drawFailures(s);
  }

  /* ---- The return path ---- */

  /* RS-Ack as a level, filled below: it turns over where the sink has taken up a change. */
  function drawLevel(s, lane, from, end, level) {
    const { g, X } = s, c = colours, x = Math.max(X(from), X(s.a)), w = X(Math.min(s.b, end)) - x;
    const y = level ? lane.y + 3 : lane.y + lane.h - 5, h = lane.y + lane.h - 1 - y;
    faded(g, 0.3, () => bar(g, c.idle, x, y, w, h));
    bar(g, c.muted, x, y, w, 1.5);
    if (level) { bar(g, c.muted, x, y, 1, h); bar(g, c.muted, x + w - 1, y, 1, h); }
  }

  /* The status octets, but for those whose packet is cut by an edge. */
  function drawStatuses(s, lane, first, end) {
    const { g, m, X, x0, x1 } = s, back = m.trace.back;
    g.textAlign = "center"; g.font = "11px " + FONT; g.fillStyle = colours.ink;
    for (let j = first; j < end; j++) {
      const x = X(rowOf(j) + 8);
      if (back[j][2] === "/" && x > x0 + 7 && x < x1 - 7) g.fillText(back[j].slice(0, 2), x, lane.y + lane.h / 2 + 2);
    }
    g.font = "12px " + FONT;
  }

  function drawBack(s) {
    const { g, lay, m, X, k, a, b } = s, c = colours, lane = lay.lane("back"), back = m.trace.back;
    bar(g, c.rule, X(a), lane.y + lane.h - 1, X(b) - X(a), 1);
    const losts = [], words = 16 * k >= 22, first = Math.max(0, packetOf(a));
    const end = Math.min(back.length, Math.ceil((b - 24) / 16));
    /* Runs of packets that say the same of RS-Ack; lost ones one by one, which may each be pointed at. */
    for (let j = first; j < end;) {
      let next = j + 1;
      if (back[j] === "lost") { losts.push(j); s.drawn.lost++; j = next; continue; }
      if (back[j] === "none") { j = next; continue; }
      while (next < end && back[next].length === 4 && back[next][2] === "/" && back[next][3] === back[j][3]) next++;
      drawLevel(s, lane, rowOf(j), rowOf(next), back[j][3] === "1");
      j = next;
    }
    if (words) drawStatuses(s, lane, first, end);
    for (const j of losts) {
      const x = X(rowOf(j)), w = 16 * k - 1;
      lostPacket(g, x, lane.y, w, lane.h);
      if (w >= 40) plate(g, "lost", x + w / 2, lane.y + lane.h / 2, c.fail, c.bg, "center");
    }
  }

  return { drawLines, drawBack };
})();
