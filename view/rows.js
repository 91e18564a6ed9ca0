"use strict";
/* Draws the lane of the rows, whole or spoiled with the cause; below it the stretches after breaks; and the lane of commands. */
Life.rows = (() => {
  const { firstWhere } = Life.basics;
  const { colours, FONT, bar, plate, spoiled, whole, causeColour, start, command } = Life.paint;

  function drawRows(s) {
    const { g, lay, m, X, k, a, b } = s, lane = lay.lane("rows"), runs = m.fates.spoiled;
    const taken = Math.min(b, m.totals ? m.totals.taken : 0);
    g.font = "12px " + FONT;
    if (!m.told) {
      bar(g, colours.faint, X(a), lane.y, Math.max(0, taken - a) * k, lane.h);
      plate(g, "not told: the fates are missing", (X(a) + X(b)) / 2, lane.y + lane.h / 2, colours.muted, colours.faint, "center");
      return;
    }
    if (taken > a) whole(g, X(a), lane.y, (taken - a) * k, lane.h);
    for (let i = firstWhere(runs.length, (n) => runs[n].end > a); i < runs.length && runs[i].first < b; i++) drawSpoiled(s, lane, runs[i]);
    drawStretches(s);
  }

  function drawSpoiled(s, lane, run) {
    const { g, X, k, a, b } = s, from = Math.max(a, run.first), end = Math.min(b, run.end), w = (end - from) * k, ink = causeColour(run.cause);
    s.drawn.spoiled += end - from;
    if (w < 2) { bar(g, ink, X(from), lane.y, Math.max(1, w), lane.h); return; }
    spoiled(g, run.cause, X(from), lane.y, w, lane.h);
    const line = run.line >= 0 ? String(run.line) : "", words = [run.cause + (line ? " " + line : ""), line];
    const word = words.find((text) => text && g.measureText(text).width + 14 < w);
    if (word) plate(g, word, X(from) + w / 2, lane.y + lane.h / 2, ink, colours.bg, "center");
  }

  function drawStretches(s) {
    const { g, lay, m, X, a, b } = s, lane = lay.lane("segments"), all = m.fates.segments;
    let flag = -99;
    for (let i = firstWhere(all.length, (n) => all[n].end > a); i < all.length && all[i].first < b; i++) {
      const stretch = all[i], y = lane.y + lane.h / 2, x = X(Math.max(a, stretch.first)), end = X(Math.min(b, stretch.end));
      bar(g, colours.muted, x, y - 4, 1, 8);
      bar(g, colours.muted, x, y, end - x - 1, 1);
      if (stretch.row >= 0 && (stretch.mark === "false" || X(stretch.row) - flag >= 9)) {
        flag = X(stretch.row);
        start(g, stretch.mark, flag + 1, y);
      }
    }
  }

  /* What a group of commands that lie together is called, in full and briefly. */
  function commandWords(all) {
    const bad = all.filter((q) => q.why).length, lines = all.map((q) => q.line), kinds = new Set(all.map((q) => q.kind));
    const run = lines.every((n, i) => !i || n === lines[i - 1] + 1);
    if (all.length === 1) return [all[0].kind + " " + lines[0] + (bad ? " refused" : ""), String(lines[0])];
    if (kinds.size === 1 && !bad) {
      return [all[0].kind + " " + (run ? lines[0] + "\u2013" + lines[lines.length - 1] : "\u00d7\u2009" + lines.length), "\u00d7" + all.length];
    }
    return [all.length + " commands" + (bad ? ", " + bad + " refused" : ""), "\u00d7" + all.length];
  }

  function drawCommands(s) {
    const { g, lay, m, X, a, b, x1 } = s, lane = lay.lane("command"), y = lane.y + lane.h / 2, list = m.commands, groups = [];
    bar(g, colours.rule, X(a), y, X(b) - X(a), 1);
    for (let i = firstWhere(list.length, (n) => list[n].at >= a); i < list.length && list[i].at <= b; i++) {
      const x = X(list[i].at), last = groups[groups.length - 1];
      s.drawn.commands++;
      if (last && x - last.x < 12) last.all.push(list[i]); else groups.push({ x, all: [list[i]] });
    }
    g.font = "12px " + FONT;
    groups.forEach(({ x, all }, i) => {
      const bad = all.find((q) => q.why), good = all.find((q) => !q.why), both = bad && good;
      command(g, (good || bad).kind, !good, x, y, 5);
      if (both) command(g, bad.kind, true, x + 13, y, 5);
      const from = x + (both ? 24 : 10), to = i + 1 < groups.length ? groups[i + 1].x - 8 : x1 + 6;
      const word = commandWords(all).find((text) => from + g.measureText(text).width <= to);
      if (word) plate(g, word, from, y, colours.ink, colours.bg);
    });
  }

  return { drawRows, drawCommands };
})();
