"use strict";
/* The colours of the style sheet, hatches of them, and the pieces that the picture and its legend are drawn with. What a
   colour says a shape or a hatch says too. */
Life.paint = (() => {
  const FONT = '-apple-system, "Segoe UI", Roboto, "Helvetica Neue", "Liberation Sans", Arial, sans-serif';
  const NAMES = ["bg", "panel", "ink", "muted", "rule", "faint", "idle", "add", "addline", "norm", "eos", "dnu", "dnuline", "fixed",
    "onnorm", "oneos", "fail", "packet", "whole", "got", "cut", "lost", "waits", "refused", "focus", "hold", "bad"];
  const FATE_COLOUR = { got: "got", cut: "cut", hunting: "lost", unsettled: "lost", unconfirmed: "lost", waits: "waits",
    refused: "refused", untold: "waits" };
  const colours = {};
  let pixels = 1;
  const hatches = new Map(), marks = new Map();

  /* The colours as they are now: light, dark or for print. */
  function readColours() {
    const style = getComputedStyle(document.documentElement);
    for (const name of NAMES) colours[name] = style.getPropertyValue("--" + name).trim();
    forget();
  }
  function forget() {
    pixels = window.devicePixelRatio || 1;
    hatches.clear();
    marks.clear();
  }
  /* Pixels of the screen to one of the style sheet, as it was when the colours were read or a canvas was fitted. */
  const ratio = () => pixels;

  /* A pattern of strokes: "/", "\" or "x" for both. */
  function hatch(g, colour, kind) {
    const key = colour + kind;
    if (hatches.has(key)) return hatches.get(key);
    const n = 6, tile = document.createElement("canvas");
    tile.width = tile.height = Math.round(n * ratio());
    const t = tile.getContext("2d");
    t.scale(tile.width / n, tile.height / n);
    t.strokeStyle = colour; t.lineWidth = kind === "x" ? 1.2 : 1.8;
    t.beginPath();
    for (const o of [-n, 0, n]) {
      if (kind !== "\\") { t.moveTo(o - 1, n + 1); t.lineTo(o + n + 1, -1); }
      if (kind !== "/") { t.moveTo(o - 1, -1); t.lineTo(o + n + 1, n + 1); }
    }
    t.stroke();
    const pattern = g.createPattern(tile, "repeat");
    pattern.setTransform(new DOMMatrix().scale(n / tile.width));
    hatches.set(key, pattern);
    return pattern;
  }

  const bar = (g, colour, x, y, w, h) => { g.fillStyle = colour; g.fillRect(x, y, w, h); };
  function faded(g, alpha, draw) { g.globalAlpha = alpha; draw(); g.globalAlpha = 1; }
  /* Two edges of a bar, above and below. */
  const edges = (g, colour, x, y, w, h, thick) => { bar(g, colour, x, y, w, thick); bar(g, colour, x, y + h - thick, w, thick); };

  /* A text on a ground of its own, so that it can be read over whatever lies below. */
  function plate(g, text, x, y, ink, ground, align = "left") {
    const w = g.measureText(text).width, left = align === "left" ? x : align === "right" ? x - w : x - w / 2;
    bar(g, ground, left - 2, y - 8, w + 4, 15);
    g.fillStyle = ink; g.textAlign = "left";
    g.fillText(text, left, y + 0.5);
  }

  /* The state of a line. Lanes of less than eight pixels have plain colours. */
  function state(g, code, x, y, w, h) {
    const c = colours, high = h >= 8;
    switch (code) {
      case "idle": if (high) bar(g, c.idle, x, y + h / 2 - 0.5, w, 1); else bar(g, c.faint, x, y, w, h); break;
      case "add": bar(g, c.add, x, y, w, h); if (high) edges(g, c.addline, x, y, w, h, 1); break;
      case "norm": bar(g, c.norm, x, y, w, h); break;
      case "eos": bar(g, c.eos, x, y, w, h); break;
      case "dnu":
        bar(g, c.dnu, x, y, w, h);
        if (!high) { bar(g, c.dnuline, x, y, w, h); break; }
        faded(g, 0.55, () => bar(g, hatch(g, c.dnuline, "\\"), x, y, w, h));
        edges(g, c.dnuline, x, y, w, h, 1);
        break;
      default: bar(g, c.fixed, x, y, w, h);
    }
  }

  /* Damaged containers; from slipX on they vanish. */
  function failure(g, x, y, width, h, slipX = null) {
    const c = colours, w = Math.max(width, 2);
    if (h < 8) { bar(g, c.fail, x, y, w, h); return; }
    faded(g, 0.82, () => bar(g, c.bg, x, y, w, h));
    bar(g, hatch(g, c.fail, "/"), x, y, w, h);
    g.strokeStyle = c.fail; g.lineWidth = 1.5;
    g.strokeRect(x + 0.75, y + 0.75, Math.max(0.5, w - 1.5), h - 1.5);
    if (slipX === null) return;
    bar(g, hatch(g, c.fail, "x"), slipX, y, x + w - slipX, h);
    polygon(g, [[x + w - 5, y - 1], [x + w + 5, y - 1], [x + w, y + 8]]);
    g.fillStyle = c.fail; g.fill();
    g.strokeStyle = c.bg; g.lineWidth = 1; g.stroke();
  }

  function lostPacket(g, x, y, width, h) {
    const c = colours, w = Math.max(2, width);
    bar(g, c.bg, x, y, w, h);
    bar(g, hatch(g, c.fail, "x"), x, y, w, h);
    g.strokeStyle = c.fail; g.lineWidth = 1.5;
    g.strokeRect(x + 0.75, y + 0.75, Math.max(0.5, w - 1.5), h - 1.5);
  }

  const causeColour = (cause) => (cause === "container" ? colours.fail : colours.packet);
  function spoiled(g, cause, x, y, width, h) {
    const w = Math.max(width, 2), colour = causeColour(cause);
    bar(g, colours.bg, x, y, w, h);
    faded(g, 0.16, () => bar(g, colour, x, y, w, h));
    bar(g, hatch(g, colour, cause === "container" ? "/" : "\\"), x, y, w, h);
    edges(g, colour, x, y, w, h, 1.5);
  }
  function whole(g, x, y, w, h) {
    faded(g, 0.22, () => bar(g, colours.whole, x, y, w, h));
    bar(g, colours.whole, x, y + h / 2 - 1, w, 2);
  }

  /* An outage: a beam over its rows, with an end at either side. */
  function outage(g, x, y, width, h) {
    const w = Math.max(width, 2);
    bar(g, colours.ink, x, y + h - 4, w, 3);
    bar(g, colours.ink, x, y + h - 9, 1.5, 9);
    bar(g, colours.ink, x + w - 1.5, y + h - 9, 1.5, 9);
  }

  /* Octets that were got, and above them those that were lost, of a bottom and of heights. */
  function gotOctets(g, x, bottom, w, h) {
    faded(g, 0.4, () => bar(g, colours.got, x, bottom - h, w, h));
    bar(g, colours.got, x, bottom - h, w, Math.min(h, 1.5));
  }
  function lostOctets(g, x, bottom, w, h) {
    if (w < 5 || h < 5) { bar(g, colours.cut, x, bottom - h, w, h); return; }
    bar(g, colours.bg, x, bottom - h, w, h);
    bar(g, hatch(g, colours.cut, "x"), x, bottom - h, w, h);
    edges(g, colours.cut, x, bottom - h, w, h, 1.5);
  }

  /* How many frames wait at most, as a height; black at its edge where no more may. */
  function queue(g, x, bottom, w, h, full) {
    faded(g, 0.4, () => bar(g, colours.waits, x, bottom - h, w, h));
    bar(g, full ? colours.refused : colours.waits, x, bottom - h, w, full ? 2.5 : 1.5);
  }

  function polygon(g, points) {
    g.beginPath();
    points.forEach(([x, y], i) => (i ? g.lineTo(x, y) : g.moveTo(x, y)));
    g.closePath();
  }
  function strokes(g, ...lines) {
    g.beginPath();
    for (const [x, y, x2, y2] of lines) { g.moveTo(x, y); g.lineTo(x2, y2); }
    g.stroke();
  }
  function disc(g, x, y, r) { g.beginPath(); g.arc(x, y, r, 0, 7); }
  /* The outline on the page's ground. */
  function hollow(g) { g.fillStyle = colours.bg; g.fill(); g.stroke(); }

  /* A shape for each fate. */
  function drawFate(g, kind, x, y, r) {
    g.fillStyle = g.strokeStyle = colours[FATE_COLOUR[kind]];
    g.lineWidth = 2;
    switch (kind) {
      case "got": disc(g, x, y, r * 0.8); g.fill(); break;
      case "cut": g.lineWidth = 2.4; strokes(g, [x - r, y - r, x + r, y + r], [x + r, y - r, x - r, y + r]); break;
      case "hunting": polygon(g, [[x, y - r * 1.25], [x + r * 1.25, y], [x, y + r * 1.25], [x - r * 1.25, y]]); hollow(g); break;
      case "unsettled": g.fillRect(x - r * 0.9, y - r * 0.9, r * 1.8, r * 1.8); break;
      case "unconfirmed": polygon(g, [[x, y - r * 1.1], [x + r * 1.1, y + r], [x - r * 1.1, y + r]]); hollow(g); break;
      case "waits": disc(g, x, y, r * 0.85); hollow(g); break;
      case "refused": disc(g, x, y, r); hollow(g); strokes(g, [x - r * 0.7, y + r * 0.7, x + r * 0.7, y - r * 0.7]); break;
      default: disc(g, x, y, r * 0.55); g.fill();
    }
  }

  /* The mark of a fate about a point: drawn once for each size, and then copied. */
  function fate(g, kind, x, y, r) {
    const key = kind + r, half = Math.ceil(r * 1.25 + 2), at = (v) => Math.round((v - half) * ratio()) / ratio();
    if (!marks.has(key)) {
      const e = document.createElement("canvas");
      drawFate(fit(e, 2 * half, 2 * half), kind, half, half, r);
      marks.set(key, e);
    }
    g.drawImage(marks.get(key), at(x), at(y), 2 * half, 2 * half);
  }

  /* A command: a triangle that points up for an addition and down for a removal, hollow and crossed where it was refused. */
  function command(g, kind, refused, x, y, r) {
    const up = kind === "add" ? 1 : -1;
    polygon(g, [[x, y - up * r], [x + r, y + up * r * 0.8], [x - r, y + up * r * 0.8]]);
    g.strokeStyle = g.fillStyle = colours.ink; g.lineWidth = 1.5;
    if (!refused) { g.fill(); return; }
    hollow(g);
    g.strokeStyle = colours.bad; g.lineWidth = 2;
    strokes(g, [x - r - 1, y - r, x + r + 1, y + r], [x + r + 1, y - r, x - r - 1, y + r]);
  }

  /* A flag where a GFP frame's start was found after a break, hollow where it is none. */
  function start(g, kind, x, y) {
    g.strokeStyle = g.fillStyle = kind === "true" ? colours.whole : colours.bad;
    g.lineWidth = 1.5;
    strokes(g, [x, y - 4, x, y + 5]);
    polygon(g, [[x, y - 4], [x + 8, y - 1], [x, y + 2]]);
    if (kind === "true") g.fill(); else hollow(g);
  }

  /* A canvas of w by h pixels of the style sheet, sharp on any screen. */
  function fit(canvas, w, h) {
    if (pixels !== (window.devicePixelRatio || 1)) forget();
    canvas.width = Math.round(w * ratio()); canvas.height = Math.round(h * ratio());
    canvas.style.width = w + "px"; canvas.style.height = h + "px";
    const g = canvas.getContext("2d");
    g.setTransform(ratio(), 0, 0, ratio(), 0, 0);
    return g;
  }

  return { FONT, FATE_COLOUR, colours, readColours, ratio, bar, faded, plate, state, failure, lostPacket, causeColour, spoiled,
    whole, outage, gotOctets, lostOctets, queue, fate, command, start, fit };
})();
