"use strict";
/* Draws the client's frames: each a thread from the tick that it is due, above, to the row of its first octet, below, with the
   mark of its fate. So a thread leans if and only if its frame waited. Frames that fall on the same pixels are drawn once, with
   their number; marks that would lie on each other climb their threads. */
Life.frames = (() => {
  const { number, firstWhere } = Life.basics;
  const { FATES } = Life.texts;
  const { colours, FATE_COLOUR, FONT, bar, faded, fate } = Life.paint;
  const STEP = 11;

  /* The frames in sight as threads between two heights, those of one fate on the same half pixels (in a crowd, on the same
     two pixels) as one. There may be tens of thousands: they are read from plain arrays. */
  function threadsOf(s) {
    const { m, X, k, a, b, drawn } = s, { due: dues, out: outs, end: ends, fate: fates } = m.columns, threads = [], n = dues.length;
    const low = firstWhere(n, (i) => ends[i] >= a), high = Math.max(low, firstWhere(n, (i) => dues[i] > b));
    const fine = high - low > 2 * (X(b) - X(a)) ? 0.5 : 2, scale = k * fine, origin = X(0) * fine + 0.5;
    const last = FATES.map(() => null), counts = FATES.map(() => 0);
    for (let i = low; i < high; i++) {
      const fate = fates[i], prior = last[fate];
      counts[fate]++;
      const due = Math.floor(origin + dues[i] * scale), out = Math.floor(origin + outs[i] * scale);
      if (prior !== null && due === prior.place && out === prior.end) { prior.n++; continue; }
      const thread = { place: due, end: out, due: due / fine, out: out / fine, fate: FATES[fate], frame: m.accepted[i], n: 1, x: 0, y: 0 };
      threads.push(thread);
      last[fate] = thread;
    }
    counts.forEach((count, fate) => { if (count) drawn.frames[FATES[fate]] = count; });
    return { threads, frames: high - low, crowd: fine < 1 };
  }

  /* The rails, and how crowded it is between them. */
  function railsOf(s, { threads, frames, crowd }) {
    const lane = s.lay.lane("frames"), width = s.X(s.b) - s.X(s.a);
    return { lane, top: lane.y + 9, bottom: lane.y + lane.h - 9, waits: lane.y + lane.h - 31, dense: threads.length > width / 8 || frames > 400,
      solid: threads.length > width / 3, crowd };
  }

  function opacity(kind, rails) {
    if (kind === "waits") return 0.5;
    if (kind !== "got") return rails.solid ? 0.55 : 0.9;
    return rails.solid ? 0.3 : rails.dense ? 0.6 : 0.9;
  }

  /* In a crowd threads that stand nearly upright are bars: of their upper halves where they begin, and of their lower ones
     where they end. Bars that touch are one. */
  const upright = (q) => Math.abs(q.out - q.due) <= 2.5;
  function drawBars(g, threads, kind, end, top, bottom, wide) {
    let from = 0, to = -1;
    const flush = () => { if (to > from) g.fillRect(from, top, to - from, bottom - top); };
    for (const q of threads) {
      if (q.fate !== kind || !upright(q)) continue;
      const x = Math.floor(q[end]);
      if (x > to) { flush(); from = x; }
      to = x + wide;
    }
    flush();
  }

  function drawThreads(s, threads, rails) {
    const { g } = s, { top, solid } = rails, wide = rails.crowd ? 2 : 1;
    for (const kind of FATES) {
      const waits = kind === "waits", end = waits ? rails.waits : rails.bottom, middle = Math.round((top + end) / 2);
      g.strokeStyle = g.fillStyle = colours[FATE_COLOUR[kind]];
      g.lineWidth = kind === "got" && rails.dense ? 0.8 : 1.4;
      g.setLineDash(waits && !solid ? [3, 3] : []);
      faded(g, opacity(kind, rails), () => {
        g.beginPath();
        for (const q of threads) if (q.fate === kind && !(solid && upright(q))) { g.moveTo(q.due, top); g.lineTo(q.out, end); }
        g.stroke();
        if (!solid) return;
        drawBars(g, threads, kind, "due", top, middle, wide);
        drawBars(g, threads, kind, "out", middle, end, wide);
      });
    }
    g.setLineDash([]);
  }

  /* All rows of a frame as a bar, if they are wide enough. */
  function drawRowBars(s, threads, rails) {
    for (const q of threads) {
      const w = (q.frame.last + 1 - q.frame.first) * s.k;
      if (q.frame.first < 0 || w < 7) continue;
      faded(s.g, 0.3, () => bar(s.g, colours[FATE_COLOUR[q.fate]], s.X(q.frame.first) + 1, rails.bottom - 3, w - 2, 7));
    }
  }

  /* How many frames a mark stands for. */
  function drawCount(s, n, x, y) {
    if (n < 2) return;
    const { g } = s, text = "\u00d7" + number(n), w = g.measureText(text).width, right = x + 9 + w < s.X(s.b) + 6;
    faded(g, 0.85, () => bar(g, colours.bg, right ? x + 7 : x - 10 - w, y - 7, w + 3, 14));
    g.fillStyle = colours.ink; g.textAlign = right ? "left" : "right";
    g.fillText(text, right ? x + 9 : x - 8, y + 0.5);
  }

  /* Gives each mark its place on its thread: the lowest at which nothing lies. Got ones have one while they are few. */
  function placeMarks(threads, rails) {
    const levels = [], marked = {}, most = rails.solid ? 1 : Math.floor((rails.lane.h - 20) / STEP);
    const near = (x, other) => x - (other === undefined ? -99 : other) < 10;
    for (const q of threads) {
      if (q.fate === "waits" || q.fate === "untold" || (q.fate === "got" && rails.dense)) continue;
      let n = 0;
      while (n < most && near(q.out, levels[n])) n++;
      /* No room: only where this fate has no mark close by, one level higher. */
      if (n === most && near(q.out, marked[q.fate])) continue;
      levels[n] = marked[q.fate] = q.out;
      q.x = q.out + (q.due - q.out) * n * STEP / (rails.bottom - rails.top);
      q.y = rails.bottom - n * STEP;
    }
  }

  function drawMarks(s, threads, rails) {
    const { g } = s;
    if (rails.dense) {
      let shown = -99;
      for (const q of threads) if (q.fate === "got" && q.out - shown >= 5) { shown = q.out; fate(g, "got", q.out, rails.bottom, 2.6); }
    }
    placeMarks(threads, rails);
    threads.forEach((q, i) => {
      if (!q.y) return;
      fate(g, q.fate, q.x, q.y, 4.2);
      const before = threads[i - 1], after = threads[i + 1];
      const alone = (!before || before.fate === "waits" || q.out - before.out > 56) && (!after || after.fate === "waits" || after.out - q.out > 56);
      if (alone && q.n > 1) drawCount(s, q.n, q.x, q.y);
    });
    const waiting = threads.findLast((q) => q.fate === "waits");
    if (!waiting) return;
    fate(g, "waits", waiting.out, rails.waits, 4.2);
    drawCount(s, s.drawn.frames.waits, waiting.out, rails.waits);
  }

  /* Marks on the rail above: of frames that were refused, or whose fate isn't told. */
  function drawAtDue(s, kind, all, y) {
    const groups = [];
    for (let i = firstWhere(all.length, (n) => all[n].due >= s.a - 1); i < all.length && all[i].due <= s.b; i++) {
      const x = s.X(all[i].at), last = groups[groups.length - 1];
      s.drawn.frames[kind] = (s.drawn.frames[kind] || 0) + 1;
      if (last && x - last.x < (kind === "untold" ? 3 : 11)) last.n++; else groups.push({ x, n: 1 });
    }
    groups.forEach((q, i) => {
      fate(s.g, kind, q.x, y, 4.5);
      const next = groups[i + 1], before = groups[i - 1];
      if ((!next || next.x - q.x > 56) && (!before || q.x - before.x > 56)) drawCount(s, q.n, q.x, y);
    });
  }

  /* Draws them all, and gives where the marks of frames lie that climbed. */
  function drawFrames(s) {
    const { g, m, X, a, b } = s;
    const found = m.told ? threadsOf(s) : { threads: [], frames: 0, crowd: false }, { threads } = found;
    const rails = railsOf(s, found);
    g.font = "12px " + FONT;
    bar(g, colours.rule, X(a), rails.top, X(b) - X(a), 1);
    bar(g, colours.rule, X(a), rails.bottom, X(b) - X(a), 1);
    const note = !m.frames.length ? "no client frame" : m.told ? "" : "not told: the fates are missing";
    if (note) {
      g.fillStyle = colours.muted; g.textAlign = "center";
      g.fillText(note, (X(a) + X(b)) / 2, (rails.top + rails.bottom) / 2);
    }
    drawThreads(s, threads, rails);
    drawRowBars(s, threads, rails);
    s.clipTo(rails.lane, 6, 8);
    drawMarks(s, threads, rails);
    if (!m.told) drawAtDue(s, "untold", m.accepted, rails.top);
    drawAtDue(s, "refused", m.refused, rails.top);
    const places = new Map();
    for (const q of threads) if (q.y) places.set(q.frame.item, q);
    return places;
  }

  return { drawFrames };
})();
