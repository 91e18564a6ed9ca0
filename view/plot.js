"use strict";
/* Puts the picture together: all lanes for what is in sight, the strip with the whole session, and the layer above with the
   pointer's tick and what is held. */
Life.plot = (() => {
  const { rowOf, runAt } = Life.basics;
  const { isMissed, placeOf } = Life.model;
  const { colours, FATE_COLOUR, FONT, bar, faded, causeColour, ratio } = Life.paint;
  const { drawAxis, drawNames } = Life.layout;
  const STRIP = 30;

  /* What one drawing needs: the scale, the part of the session in sight, and counts of what is drawn. */
  function sceneOf(g, m, lay, view, width) {
    const x0 = lay.gutter, x1 = width - lay.right, k = (x1 - x0) / (view.end - view.start);
    const s = { g, m, lay, view, width, x0, x1, k, X: (t) => x0 + (t - view.start) * k, a: Math.max(0, view.start), b: Math.min(m.ticks, view.end),
      places: new Map(), drawn: { cells: {}, spoiled: 0, frames: {}, commands: 0, lost: 0, fails: 0,
        service: { members: 0, outages: 0, stretches: 0, got: 0, lost: 0, queue: 0 } } };
    /* From here on only a lane is drawn on, and a little to its sides. */
    s.clipTo = (lane, left, right) => {
      g.restore(); g.save();
      g.beginPath(); g.rect(x0 - left, lane.y - 4, x1 - x0 + left + right, lane.h + 8); g.clip();
    };
    return s;
  }

  function drawPlot(g, m, lay, view, width) {
    const s = sceneOf(g, m, lay, view, width);
    g.clearRect(0, 0, width, lay.height);
    g.font = "12px " + FONT; g.textBaseline = "middle"; g.lineJoin = "round";
    drawAxis(s);
    drawNames(s);
    g.save();
    g.beginPath(); g.rect(s.x0, 0, s.x1 - s.x0 + 1, lay.height); g.clip();
    Life.lanes.drawLines(s);
    Life.lanes.drawBack(s);
    Life.rows.drawRows(s);
    Life.service.drawService(s);
    s.places = Life.frames.drawFrames(s);
    s.clipTo(lay.lane("command"), 7, 12);
    Life.rows.drawCommands(s);
    g.restore();
    return s;
  }

  /* The strip with the whole session is drawn once for a size and its colours; only the window on it changes. */
  function stripOf(m, lay, width) {
    const e = document.createElement("canvas"), c = colours, x0 = lay.gutter, k = (width - lay.right - x0) / m.ticks, X = (t) => x0 + t * k;
    e.width = Math.round(width * ratio()); e.height = Math.round(STRIP * ratio());
    const g = e.getContext("2d"), middle = STRIP / 2;
    g.scale(ratio(), ratio());
    g.font = "12px " + FONT; g.textAlign = "right"; g.textBaseline = "middle"; g.fillStyle = c.muted;
    g.fillText(lay.narrow ? "all" : "whole session", x0 - 14, middle + 0.5);
    faded(g, 0.5, () => bar(g, m.told ? c.whole : c.idle, x0, middle - 1, (m.totals ? m.totals.taken : 0) * k, 2));
    const least = m.fates.spoiled.length > 60 ? 1 : 2;
    for (const run of m.fates.spoiled) bar(g, causeColour(run.cause), X(run.first), middle - 6, Math.max(least, (run.end - run.first) * k), 12);
    const ticks = (all, place, colour, y) => {
      let last = -9;
      for (const q of all) {
        const x = X(place(q));
        if (x - last < 1) continue;
        last = x;
        bar(g, colour(q), x - 0.75, y, 1.5, 5);
      }
    };
    ticks(m.frames.filter(isMissed), placeOf, (f) => c[FATE_COLOUR[f.fate]], 3);
    ticks(m.commands, (q) => q.due, () => c.ink, STRIP - 8);
    return e;
  }

  function drawStrip(g, m, lay, view, width, strip) {
    const c = colours, x0 = lay.gutter, x1 = width - lay.right, k = (x1 - x0) / m.ticks;
    g.clearRect(0, 0, width, STRIP);
    g.drawImage(strip, 0, 0, width, STRIP);
    if (view.end - view.start >= m.ticks) return;
    const a = x0 + view.start * k, b = x0 + view.end * k;
    faded(g, 0.62, () => { bar(g, c.bg, x0, 0, a - x0, STRIP); bar(g, c.bg, b, 0, x1 - b, STRIP); });
    g.strokeStyle = c.focus; g.lineWidth = 2;
    g.strokeRect(a, 1, Math.max(4, b - a), STRIP - 2);
  }

  /* ---- The layer above ---- */

  /* A tick from top to bottom, and dotted when its container arrives on each line. */
  function drawFront(g, m, lay, X, t) {
    const c = colours, x = Math.round(X(t)) + 0.5;
    g.strokeStyle = c.hold; g.lineWidth = 1;
    faded(g, 0.75, () => { g.beginPath(); g.moveTo(x, lay.lane("axis").h); g.lineTo(x, lay.height); g.stroke(); });
    if (!m.script.delays.some((d) => d)) return;
    g.beginPath();
    lay.lines.forEach((lane, i) => {
      const at = X(t + (m.script.delays[lane.line] || 0));
      if (i) g.lineTo(at, lane.y); else g.moveTo(at, lane.y);
      g.lineTo(at, lane.y + lane.h);
    });
    g.strokeStyle = c.bg; g.lineWidth = 3;
    faded(g, 0.7, () => g.stroke());
    g.setLineDash([2, 2]); g.strokeStyle = c.hold; g.lineWidth = 1.2;
    g.stroke(); g.setLineDash([]);
  }

  const around = (g, lane, from, end, least) => g.strokeRect(from, lane.y - 2, Math.max(least, end - from), lane.h + 4);
  function ring(g, x, y, r) { g.beginPath(); g.arc(x, y, r, 0, 7); g.stroke(); }

  /* A frame that is held: its thread, and a ring about its mark, which may have climbed. */
  function drawHeldFrame(g, m, lay, X, item, places) {
    const f = m.byItem.get(item), lane = lay.lane("frames"), top = lane.y + 9, bottom = lane.y + lane.h - 9;
    const above = f.fate === "refused" || f.fate === "untold", end = above ? top : f.fate === "waits" ? bottom - 22 : bottom;
    const place = places.get(item) || { x: X(f.out), y: end };
    g.beginPath(); g.moveTo(X(f.at), top); g.lineTo(X(f.out), end); g.stroke();
    ring(g, place.x, place.y, 8.5);
  }

  /* An outage that is held: the bar and its rows; and a stretch: the two lanes that tell of it. */
  function drawHeldOutage(g, m, lay, X, first) {
    const { end } = m.service.outages.find((q) => q.first === first), { y } = lay.lane("outages"), rows = lay.lane("rows");
    around(g, { y, h: rows.y + rows.h - y }, X(first) - 2, X(end) + 2, 6);
  }
  function drawHeldStretch(g, m, lay, X, tick) {
    const { first, end } = runAt(m.service.stretches, tick), { y } = lay.lane("capacity"), queue = lay.lane("queue");
    around(g, { y, h: queue.y + queue.h - y }, X(first) - 1, X(end) + 1, 6);
  }

  function drawHeld(g, m, lay, X, hold, places) {
    const [kind, ...words] = hold.split("."), [a, b] = words.map(Number);
    g.strokeStyle = colours.hold; g.lineWidth = 2;
    if (kind === "frame") drawHeldFrame(g, m, lay, X, a, places);
    else if (kind === "command") { const lane = lay.lane("command"); ring(g, X(m.commands.find((q) => q.item === a).at), lane.y + lane.h / 2, 9); }
    else if (kind === "outage") drawHeldOutage(g, m, lay, X, a);
    else if (kind === "stretch") drawHeldStretch(g, m, lay, X, a);
    else if (kind === "row") around(g, lay.lane("rows"), X(a) - 2, X(a + 1) + 1, 6);
    else if (kind === "back") around(g, lay.lane("back"), X(rowOf(a)) - 2, X(rowOf(a + 1)) + 1, 6);
    else if (kind === "line") {
      drawFront(g, m, lay, X, b);
      g.strokeStyle = colours.hold; g.lineWidth = 2;
      around(g, lay.lines[a], X(b) - 4, X(b + 1) - 4, 8);
    }
  }

  /* What lies above the picture, which doesn't change with it. */
  function drawAbove(g, { model: m, lay, X, width, pointer, hold, places }) {
    g.save();
    g.beginPath(); g.rect(lay.gutter - 1, 0, width - lay.gutter, lay.height); g.clip();
    if (pointer !== null) drawFront(g, m, lay, X, pointer);
    if (hold) drawHeld(g, m, lay, X, hold, places);
    g.restore();
  }

  return { STRIP, drawPlot, stripOf, drawStrip, drawAbove };
})();
