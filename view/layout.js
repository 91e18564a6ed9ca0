"use strict";
/* Which lane lies where, the axis of time above them and their names beside them. */
Life.layout = (() => {
  const { MOST_WAITING, number, milliseconds, clamp } = Life.basics;
  const { colours, FONT, bar } = Life.paint;

  /* The lanes above the lines, each with its height and the space below it: lower ones where there are many lines. */
  function lanesAbove(m, narrow) {
    const breaks = m.fates.segments.length > 0, outages = m.service.outages.length > 0, told = m.service.stretches.length > 0;
    const many = m.script.lines > 40, all = [["axis", 44, 8], ["command", 22, 8], ["frames", many ? 66 : narrow ? 84 : 104, outages ? 4 : 8]];
    if (outages) all.push(["outages", 15, 1]);
    all.push(["rows", 20, breaks ? 2 : 12]);
    if (breaks) all.push(["segments", 12, told && many ? 4 : 10]);
    if (told) all.push(["capacity", many ? 30 : 46, 6], ["queue", many ? 20 : 28, 10]);
    return all;
  }
  const BACK = [10, 26, 12];

  /* The lanes for a width and a room in height. The lines share what the others leave of it: from 2 to 30 pixels each, and
     so much that each can be read where `tall` asks for it. */
  function layoutOf(m, width, room, tall) {
    const narrow = width < 620, lines = m.script.lines, above = lanesAbove(m, narrow);
    const others = above.reduce((sum, [, h, space]) => sum + h + space, BACK.reduce((sum, h) => sum + h));
    const share = clamp(Math.floor(clamp(room - others, 200, 560) / Math.max(1, lines)), 2, 30);
    const laneHeight = tall ? Math.max(18, share) : share;
    const gap = laneHeight >= 12 ? Math.min(5, Math.floor(laneHeight / 6)) : laneHeight >= 7 ? 1 : 0;
    const height = Math.max(2, laneHeight - gap);
    const lanes = [];
    let y = 0;
    const put = (kind, h, space, line) => { lanes.push({ kind, y, h, line }); y += h + space; };
    for (const [kind, h, space] of above) put(kind, h, space);
    const lineTop = y;
    for (let line = 0; line < lines; line++) put("line", height, gap, line);
    const lineBottom = y - gap;
    y += BACK[0] - gap;
    put("back", BACK[1], BACK[2]);
    return { lanes, narrow, tall, height: y, gutter: narrow ? 62 : 128, right: 10, laneHeight: height, lineTop, lineBottom,
      lines: lanes.filter((lane) => lane.kind === "line"), lane: (kind) => lanes.find((lane) => lane.kind === kind) };
  }

  /* A round step so that at most so many fall into a span. */
  function roundStep(span, most) {
    const raw = span / Math.max(1, most), power = Math.pow(10, Math.floor(Math.log10(raw)));
    return [1, 2, 5, 10].map((k) => k * power).find((step) => step >= raw * 0.999999);
  }

  /* Ticks above the line of time and milliseconds below it. */
  function drawAxis(s) {
    const { g, lay, view, X, x0, x1 } = s, c = colours, h = lay.lane("axis").h, middle = 22, span = view.end - view.start;
    bar(g, c.panel, 0, 0, x1 + lay.right, h);
    const most = (x1 - x0) / (lay.narrow ? 64 : 84), ticks = Math.max(1, roundStep(span, most)), eighths = 8 * roundStep(span / 8, most);
    const steps = (step) => {
      const all = [];
      for (let i = Math.ceil(view.start / step); i * step <= view.end + 1e-6; i++) all.push(i * step);
      return all;
    };
    g.strokeStyle = c.faint; g.lineWidth = 1;
    g.beginPath();
    for (const t of steps(ticks)) { const x = Math.round(X(t)) + 0.5; g.moveTo(x, h); g.lineTo(x, lay.height); }
    g.stroke();
    g.strokeStyle = c.muted;
    g.beginPath();
    g.moveTo(x0, middle + 0.5); g.lineTo(x1, middle + 0.5);
    g.textAlign = "center";
    const label = (t, text, up) => {
      const x = Math.round(X(t)) + 0.5, half = g.measureText(text).width / 2;
      g.moveTo(x, middle); g.lineTo(x, up ? middle - 5 : middle + 5);
      g.fillText(text, clamp(x, x0 + half - 4, x1 - half + lay.right - 2), up ? middle - 12 : middle + 13);
    };
    g.fillStyle = c.ink;
    for (const t of steps(ticks)) label(t, number(Math.round(t)), true);
    g.fillStyle = c.muted;
    for (const t of steps(eighths)) label(t, milliseconds(t), false);
    g.stroke();
    g.textAlign = "right";
    g.fillStyle = c.ink; g.fillText("tick", x0 - 14, middle - 11);
    g.fillStyle = c.muted; g.fillText(lay.narrow ? "ms" : "milliseconds", x0 - 14, middle + 13);
    bar(g, c.rule, 0, h - 1, x1 + lay.right, 1);
  }

  /* The names of the lanes. */
  function drawNames(s) {
    const { g, lay, m, x0 } = s, c = colours, right = x0 - 14, frames = lay.lane("frames");
    const say = (kind, text, colour = c.ink, down = null) => {
      const lane = lay.lane(kind);
      g.fillStyle = colour;
      g.fillText(text, right, lane.y + (down === null ? lane.h / 2 : down) + 0.5);
    };
    g.textAlign = "right"; g.font = "12px " + FONT;
    say("command", lay.narrow ? "comm." : "commands");
    say("frames", "due", c.muted, 9);
    say("frames", "frames");
    say("frames", lay.narrow ? "row" : "first row", c.muted, frames.h - 9);
    say("rows", "rows");
    if (lay.lane("outages")) say("outages", "outages", c.muted);
    if (!lay.narrow && m.fates.segments.length) say("segments", "after a break", c.muted);
    if (lay.lane("capacity")) drawServiceNames(s, say);
    say("back", lay.narrow ? "return" : "return path");
    drawLineNames(s, right);
  }

  /* Of the lane of capacity what its height is, and of that of the queue its limit. */
  function drawServiceNames({ lay, m }, say) {
    const { h } = lay.lane("capacity"), { h: low } = lay.lane("queue");
    say("capacity", number(Math.round(m.most)) + (lay.narrow ? "" : " octets"), colours.muted, 5);
    say("capacity", "capacity", colours.ink, h - 8);
    if (low > 24) say("queue", String(MOST_WAITING), colours.muted, 4);
    say("queue", low > 24 || lay.narrow ? "queue" : "queue, " + MOST_WAITING, colours.ink, low > 24 ? low - 6 : low / 2);
  }

  /* The numbers of the lines and their delays: in digits where there is room, else as bars. */
  function drawLineNames(s, right) {
    const { g, lay, m } = s, c = colours, height = lay.laneHeight;
    const most = Math.max(1, ...m.script.delays), read = height >= 13, every = read ? 1 : height >= 7 ? 4 : 16;
    for (const lane of lay.lines) {
      const delay = m.script.delays[lane.line] || 0, middle = lane.y + lane.h / 2;
      if (lane.line % every === 0) {
        g.fillStyle = c.ink; g.textAlign = "left";
        g.fillText((read && !lay.narrow ? "line " : "") + lane.line, 12, read ? middle + 0.5 : lane.y + 5);
      }
      const length = Math.round((lay.narrow ? 14 : 40) * delay / most);
      if (!read) { if (delay) bar(g, c.idle, right - length, lane.y + (lane.h > 5 ? 1 : 0), length, Math.max(2, lane.h - 1)); continue; }
      g.textAlign = "right"; g.fillStyle = c.muted;
      g.fillText("+" + number(delay), right, middle + 0.5);
      if (!lay.narrow && delay) bar(g, c.muted, right - 32 - length * 0.5, middle - 1, length * 0.5, 3);
    }
    if (read || lay.narrow) return;
    g.save();
    g.translate(52, (lay.lineTop + lay.lineBottom) / 2); g.rotate(-Math.PI / 2);
    g.textAlign = "center"; g.fillStyle = c.muted;
    g.fillText(m.script.lines + " lines; bars: delay up to " + number(most) + " ticks", 0, 0);
    g.restore();
  }

  return { layoutOf, drawAxis, drawNames };
})();
