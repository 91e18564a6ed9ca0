"use strict";
/* Draws what service tells: over the rows a bar for each outage; below them the capacity as a stair, with what was got and lost of
   it by stretch; and the queue as an area up to its limit. */
Life.service = (() => {
  const { MOST_WAITING, firstWhere, number, count } = Life.basics;
  const { colours, FONT, bar, faded, plate, outage, gotOctets, lostOctets, queue } = Life.paint;

  /* Calls `put` with each of some runs that is in sight, and the pixels from and to which it is. */
  function forSeen(s, runs, put) {
    const { X, a, b } = s;
    for (let i = firstWhere(runs.length, (n) => runs[n].end > a); i < runs.length && runs[i].first < b; i++) {
      put(runs[i], X(Math.max(a, runs[i].first)), X(Math.min(b, runs[i].end)), runs[i + 1]);
    }
  }

  /* What an outage cost, at length and briefly. */
  const costWords = ({ first, end, lost }) => [count(end - first, "row") + ", " + count(lost.frames, "frame") + " lost",
    number(lost.frames) + " lost"];

  function drawOutages(s) {
    const { g, lay, m, X, x1 } = s, lane = lay.lane("outages");
    let painted = -Infinity;
    if (!lane) return;
    g.font = "11px " + FONT;
    forSeen(s, m.service.outages, (q, from, end, next) => {
      s.drawn.service.outages++;
      if (end < painted + 0.5) return;
      painted = Math.max(end, from + 2);
      outage(g, from, lane.y, end - from, lane.h);
      const left = painted + 5, right = next ? X(next.first) - 4 : x1;
      const word = right - left > 30 && costWords(q).find((text) => g.measureText(text).width < right - left);
      if (word) plate(g, word, left, lane.y + lane.h / 2 - 1, colours.ink, colours.bg);
    });
    g.font = "12px " + FONT;
  }

  /* ---- The capacity ---- */

  /* How high something is drawn that is there: in whole pixels, and never too low to be seen. */
  const tall = (value, scale) => (value ? Math.max(2, Math.round(value * scale)) : 0);

  /* How wide a stretch is from a whole pixel on, so that neighbours neither gape nor overlap. */
  const wide = (x, end, gap) => Math.max(1, Math.round(end) - x - gap);

  /* By stretch the octets that were got, and on them those that were lost, a row on average. */
  function drawOctets(s, lane, scale) {
    const { g, m, k } = s, bottom = lane.y + lane.h, { service } = s.drawn;
    forSeen(s, m.service.stretches, (q, from, end) => {
      const ticks = q.end - q.first, x = Math.round(from), w = wide(x, end, ticks * k > 12 ? 1 : 0);
      const got = tall(q.got.octets / ticks, scale), lost = tall(q.lost.octets / ticks, scale);
      service.stretches++; service.got += q.got.octets; service.lost += q.lost.octets;
      if (got) gotOctets(g, x, bottom, w, got);
      if (lost) lostOctets(g, x, bottom - got, w, lost);
    });
  }

  /* The steps of what the members carry a row: from which pixel to which, and where the line lies. Runs within one pixel are one step, from the
     highest to the lowest. */
  function stepsOf(s, lane, scale) {
    const steps = [], bottom = lane.y + lane.h;
    let last = null;
    forSeen(s, s.m.service.members, (run, from, end) => {
      const y = Math.floor(bottom - Math.max(run.octets * scale, 1));
      s.drawn.service.members++;
      if (last && end - last.from < 1) {
        last.end = end; last.top = Math.min(last.top, y); last.low = Math.max(last.low, y);
      } else steps.push(last = { from, end, top: y, low: y });
    });
    return steps;
  }

  /* The stair: a line at each step, and one from a step to the next. */
  function drawStair(g, steps) {
    let before = null;
    for (const step of steps) {
      const top = before === null ? step.top : Math.min(step.top, before), low = before === null ? step.low : Math.max(step.low, before);
      if (low > top) bar(g, colours.ink, step.from - 0.75, top, 1.5, low - top + 1.5);
      bar(g, colours.ink, step.from, step.low, step.end - step.from, 1.5);
      before = step.low;
    }
  }

  function drawCapacity(s) {
    const { g, lay, m } = s, lane = lay.lane("capacity");
    if (!lane) return;
    const scale = (lane.h - 2) / m.most, steps = stepsOf(s, lane, scale);
    for (const { from, end, low } of steps) bar(g, colours.faint, from, low, end - from, lane.y + lane.h - low);
    drawOctets(s, lane, scale);
    drawStair(g, steps);
  }

  /* ---- The queue ---- */

  function drawQueue(s) {
    const { g, lay, m, X, a, b } = s, lane = lay.lane("queue");
    if (!lane) return;
    const bottom = lane.y + lane.h, scale = (lane.h - 2) / MOST_WAITING;
    bar(g, colours.rule, X(a), bottom - 1, X(b) - X(a), 1);
    forSeen(s, m.service.stretches, (q, from, end) => {
      s.drawn.service.queue = Math.max(s.drawn.service.queue, q.queue);
      if (q.queue) queue(g, Math.round(from), bottom, wide(Math.round(from), end, 0), tall(q.queue, scale), q.queue >= MOST_WAITING);
    });
    g.strokeStyle = colours.muted; g.lineWidth = 1; g.setLineDash([4, 3]);
    faded(g, 0.8, () => { g.beginPath(); g.moveTo(X(a), lane.y + 1.5); g.lineTo(X(b), lane.y + 1.5); g.stroke(); });
    g.setLineDash([]);
  }

  function drawService(s) {
    drawOutages(s);
    drawCapacity(s);
    drawQueue(s);
  }

  return { drawService };
})();
