"use strict";
/* What is shown: the walk, or one way of a pair, the part of it in sight, what is held; and moving, zooming and holding. */
Life.page = (() => {
  const { byId, number, count, range, milliseconds, escapeHtml, firstWhere, runAt, packetOf, clamp } = Life.basics;
  const { fit } = Life.paint;
  const { STRIP, drawPlot, stripOf, drawStrip, drawAbove } = Life.plot;
  const LEAST_SPAN = 8;
  const KEYS = "<kbd>\u2190</kbd> <kbd>\u2192</kbd> to move, wheel or <kbd>+</kbd> <kbd>\u2212</kbd> to zoom, <kbd>0</kbd> for all, " +
    "<kbd>N</kbd> <kbd>P</kbd> from mark to mark, <kbd>Esc</kbd> to let go";
  const hint = () => (page.lay.narrow ? "Touch anything to see what it is. Drag to move, part two fingers to zoom." :
    "Point at anything to see what it is; a click holds it. Drag or " + KEYS + (byId("tall").hidden ? "." : ", <kbd>L</kbd> for tall lanes."));
  const page = { ways: {}, model: null, lay: null, view: { start: 0, end: 1 }, hold: null, tall: false, width: 0, pointer: null, places: new Map(),
    times: [], written: "" };
  let pending = false, timer = 0, canvases = {}, strip = null;

  const scale = () => (page.width - page.lay.right - page.lay.gutter) / (page.view.end - page.view.start);
  page.X = (t) => page.lay.gutter + (t - page.view.start) * scale();
  page.T = (x) => page.view.start + (x - page.lay.gutter) / scale();
  page.span = () => page.view.end - page.view.start;

  /* ---- Showing texts ---- */

  /* The way of a pair that the fragment names: the first, but where it is the other one. */
  page.wayNamed = () => (new URLSearchParams(location.hash.slice(1)).get("way") === "back" && page.ways.back ? "back" : "there");
  page.showWay = () => page.show(page.ways[page.wayNamed()]);

  page.show = (texts) => {
    const m = page.model = Life.model.modelOf(texts);
    document.title = m.name + " \u2013 life of a group";
    byId("name").textContent = m.name;
    byId("lede").textContent = m.script.comment.slice(0, 2000);
    showFaults(m);
    for (const id of ["bar", "over", "stack", "detail", "legend", "losses", "spoken"]) byId(id).hidden = !m.drawable;
    byId("chart").hidden = m.note !== null;
    byId("empty").hidden = m.drawable;
    byId("ways").hidden = !page.ways.back;
    for (const a of byId("ways").children) if (a.dataset.way === m.way) a.setAttribute("aria-current", "true"); else a.removeAttribute("aria-current");
    Life.tables.showHead(m);
    page.lay = null;
    if (!m.drawable) return;
    page.view = { start: 0, end: m.ticks };
    page.hold = null;
    Life.tables.showTable(m);
    Life.tables.showSpoken(m);
    page.fromFragment();
    page.resize();
  };

  function showFaults(m) {
    const faults = byId("faults"), note = m.note;
    const list = m.faults.map((f) => "<li>" + escapeHtml(f) + "</li>").join("");
    faults.hidden = !note && !list;
    if (note) {
      faults.innerHTML = "<p><b>There is no walk of this script.</b> The program says:</p><pre>" + escapeHtml(note.text) + "</pre>" +
        (note.line ? "<p>Line " + note.line + " is \u201c" + escapeHtml(note.says.slice(0, 200)) + "\u201d.</p>" : "");
    } else faults.innerHTML = "<p><b>This picture isn't whole.</b></p><ul>" + list + "</ul>";
  }

  /* ---- Drawing ---- */

  page.resize = () => {
    if (!page.model || !page.model.drawable) return;
    const chart = byId("chart");
    page.width = chart.clientWidth;
    const room = window.innerHeight - (chart.getBoundingClientRect().top + window.scrollY) - STRIP - 14;
    page.lay = Life.layout.layoutOf(page.model, page.width, room, page.tall);
    strip = stripOf(page.model, page.lay, page.width);
    canvases = { plot: fit(byId("plot"), page.width, page.lay.height), marks: fit(byId("marks"), page.width, page.lay.height),
      over: fit(byId("over"), page.width, STRIP) };
    const flat = Life.layout.layoutOf(page.model, page.width, room, false);
    byId("tall").hidden = flat.laneHeight >= 13;
    byId("tall").setAttribute("aria-pressed", String(page.tall));
    page.showDetail(null);
    page.draw();
  };

  /* The colours have changed. */
  page.repaint = () => {
    Life.paint.readColours();
    Life.legend.show(page.model);
    Life.tables.drawIcons();
    page.resize();
  };

  page.later = () => {
    if (pending) return;
    pending = true;
    requestAnimationFrame(() => { pending = false; page.draw(); });
  };

  page.draw = () => {
    const started = performance.now(), { model, lay, view, width } = page;
    const { drawn, places } = drawPlot(canvases.plot, model, lay, view, width);
    page.places = places;
    drawStrip(canvases.over, model, lay, view, width, strip);
    page.drawAbove();
    page.times.push(performance.now() - started);
    if (page.times.length > 1000) page.times.splice(0, 500);
    byId("plot").dataset.drawn = JSON.stringify(drawn);
    const a = Math.round(view.start), b = Math.round(view.end);
    byId("range").innerHTML = "<b>Ticks " + range(a, b - 1) + "</b> <span>" + milliseconds(a) + "\u2013" + milliseconds(b) + " ms</span>";
    clearTimeout(timer);
    timer = setTimeout(() => rest(drawn), 250);
  };
  page.drawAbove = () => {
    const printed = matchMedia("print").matches;
    if (!printed) canvases.marks.clearRect(0, 0, page.width, page.lay.height);
    drawAbove(printed ? canvases.plot : canvases.marks, page);
  };

  /* After a rest: the fragment keeps the place, and what is in sight is said. */
  function rest(drawn) {
    const { view, model, hold, tall } = page, a = Math.round(view.start), b = Math.round(view.end), parts = [];
    if (a > 0 || b < model.ticks) parts.push("at=" + a + "-" + b);
    if (tall) parts.push("lanes=tall");
    for (const link of byId("ways").children) link.hash = ["way=" + link.dataset.way, ...parts].join("&");
    if (model.way === "back") parts.unshift("way=back");
    if (hold) parts.push("hold=" + hold);
    page.written = parts.length ? "#" + parts.join("&") : "";
    if (location.hash !== page.written) history.replaceState(null, "", location.pathname + location.search + page.written);
    const frames = Object.entries(drawn.frames).map(([fate, n]) => number(n) + " " + Life.words.FATE_WORDS[fate]).join(", ");
    const text = (model.way ? model.way.replace(/^./, (c) => c.toUpperCase()) + ". " : "") + "Ticks " + number(a) + " to " + number(b - 1) + ". Frames: " + (frames || "none") + ". " +
      (model.told ? count(drawn.spoiled, "row") + " spoiled. " : "") +
      (drawn.service.outages ? count(drawn.service.outages, "outage") + ". " : "") + (drawn.fails ? count(drawn.fails, "failure") + ". " : "") +
      (drawn.lost ? count(drawn.lost, "lost return packet") + ". " : "") + count(drawn.commands, "command") + ".";
    byId("plot").setAttribute("aria-label", text);
    if (byId("said").textContent !== text) byId("said").textContent = text;
  }

  page.fromFragment = () => {
    const parts = new URLSearchParams(location.hash.slice(1)), at = /^(\d+)-(\d+)$/.exec(parts.get("at") || ""), n = page.model.ticks;
    if (at && +at[2] > +at[1]) {
      const span = clamp(at[2] - at[1], Math.min(n, LEAST_SPAN), n), start = clamp(+at[1], 0, n - span);
      page.view = { start, end: start + span };
    } else if (!parts.get("hold")) page.view = { start: 0, end: n };
    page.tall = parts.get("lanes") === "tall";
    page.hold = heldOr(parts.get("hold"));
    markRow();
  };

  /* ---- Moving and zooming ---- */

  page.look = (start, end) => {
    const n = page.model.ticks, span = clamp(end - start, Math.min(n, LEAST_SPAN), n), from = clamp(start, 0, n - span);
    page.view = { start: from, end: from + span };
    page.later();
  };
  page.all = () => page.look(0, page.model.ticks);
  page.move = (by) => { const d = page.span() * by; page.look(page.view.start + d, page.view.end + d); };
  /* Zooms about a tick, which stays where it is. */
  page.zoom = (by, about = (page.view.start + page.view.end) / 2) => {
    const n = page.model.ticks, span = clamp(page.span() * by, Math.min(n, LEAST_SPAN), n), part = (about - page.view.start) / page.span();
    page.look(about - part * span, about - part * span + span);
  };
  page.toggleTall = () => { page.tall = !page.tall; page.resize(); };

  /* To the next mark, or the one before: from what is held, or else from the edge of what is in sight. */
  page.step = (way) => {
    const marks = page.model.marks, n = marks.length, { start: low, end: high } = page.view;
    if (!n) return;
    const held = page.hold ? marks.findIndex((q) => q.hold === page.hold) : -1;
    const edge = way > 0 ? firstWhere(n, (j) => marks[j].t >= low) : firstWhere(n, (j) => marks[j].t >= high) - 1;
    const i = clamp(held < 0 ? edge : held + way, 0, n - 1);
    const { t, hold } = marks[i], span = Math.min(page.span(), Math.max(200, page.model.ticks / 8));
    if (t < low || t > high || span < page.span()) page.look(t - span / 2, t + span / 2);
    page.setHold(hold);
  };

  /* ---- Pointing and holding ---- */

  const nearest = (list, distance, most) => {
    let best = null, least = most;
    for (const q of list) { const d = distance(q); if (d < least) { least = d; best = q; } }
    return best;
  };

  function frameAt(lane, x, y) {
    const part = clamp((y - lane.y - 9) / (lane.h - 18), 0, 1), top = lane.y + 9;
    return nearest(page.model.frames, (f) => (f.fate === "refused" || f.fate === "untold" ? Math.hypot(page.X(f.at) - x, top - y) :
      Math.abs(page.X(f.at + (f.out - f.at) * part) - x)), 10);
  }

  /* The outage whose bar is near. */
  const outageAt = (x) => nearest(page.model.service.outages, (o) => Math.max(page.X(o.first) - x, x - page.X(o.end), 0), 8);

  /* What is at a point of the chart, as Life.words.held names it; null where nothing is. */
  page.at = (x, y) => {
    const { lay, model } = page;
    if (x < lay.gutter) return null;
    const t = clamp(Math.floor(page.T(x)), 0, model.ticks - 1);
    const lane = lay.lanes.find((l) => y >= l.y && y < l.y + l.h) || lay.lanes.find((l) => y >= l.y - 3 && y < l.y + l.h + 3);
    if (!lane) return null;
    switch (lane.kind) {
      case "line": return "line." + lane.line + "." + t;
      case "rows": case "segments": return "row." + t;
      case "outages": { const o = outageAt(x); return o ? "outage." + o.first : null; }
      case "capacity": case "queue": return runAt(model.service.stretches, t) ? "stretch." + t : null;
      case "back": return packetOf(t) >= 0 ? "back." + packetOf(t) : null;
      case "command": { const c = nearest(model.commands, (q) => Math.abs(page.X(q.at) - x), 14); return c ? "command." + c.item : null; }
      case "frames": { const f = frameAt(lane, x, y); return f ? "frame." + f.item : null; }
      default: return null;
    }
  };

  const heldOr = (hold) => (hold && Life.words.held(page.model, hold) ? hold : null);
  /* Marks the row of the table that tells of what is held, alone or with its neighbours. */
  function markRow() {
    const [kind, item] = (page.hold || ".").split(".");
    for (const row of document.querySelectorAll("tr[data-hold]")) {
      const [its, first] = row.dataset.hold.split(".");
      row.classList.toggle("held", kind === its && +first <= +item && +item <= +row.dataset.end);
    }
  }
  page.setHold = (hold) => {
    page.hold = heldOr(hold);
    page.pointer = null;
    page.showDetail(null);
    markRow();
    page.later();
  };

  page.showDetail = (passing) => {
    const e = byId("detail"), what = page.hold || passing, sentence = what ? Life.words.held(page.model, what) : "";
    e.classList.toggle("held", page.hold !== null);
    /* What is only pointed at isn't read aloud. */
    e.setAttribute("aria-live", page.hold ? "polite" : "off");
    e.innerHTML = sentence ? "<p>" + sentence + "</p>" : '<p class="hint">' + hint() + "</p>";
  };

  return page;
})();
