"use strict";
/* Pointers, wheel, keys, the fragment, dropped files; and the start of the page. */
Life.control = (() => {
  const { byId, clamp, escapeHtml } = Life.basics;
  const { KINDS, embedded, kindOf } = Life.texts;
  const { page } = Life;

  const ACTIONS = { left: () => page.move(-0.25), right: () => page.move(0.25), in: () => page.zoom(0.5), out: () => page.zoom(2),
    all: () => page.all(), next: () => page.step(1), previous: () => page.step(-1), tall: () => page.toggleTall(),
    first: () => page.look(0, page.span()), last: () => page.look(page.model.ticks - page.span(), page.model.ticks), free: () => page.setHold(null) };
  const KEYS = { ArrowLeft: "left", ArrowRight: "right", "+": "in", "=": "in", "-": "out", 0: "all", n: "next", p: "previous", l: "tall",
    Home: "first", End: "last", Escape: "free" };

  const placeIn = (element, e) => { const r = element.getBoundingClientRect(); return { x: e.clientX - r.left, y: e.clientY - r.top }; };

  /* ---- The chart: one pointer moves it, two zoom it, a click holds what is there ---- */

  const fingers = new Map();
  let drag = null;

  /* Two fingers: how far apart they are, and the tick in their middle stays there. */
  const apart = () => { const [one, other] = [...fingers.values()]; return Math.max(20, Math.abs(one - other)); };
  const between = (stack) => { const [one, other] = [...fingers.values()]; return (one + other) / 2 - stack.getBoundingClientRect().left; };
  function pinch(stack) {
    const span = clamp(drag.span * drag.wide / apart(), 8, page.model.ticks);
    const part = (between(stack) - page.lay.gutter) / (page.width - page.lay.gutter - page.lay.right);
    page.look(drag.about - span * part, drag.about - span * part + span);
  }

  function dragTo(stack, e) {
    const d = e.clientX - drag.x;
    if (Math.abs(d) > 4) drag.moved = true;
    if (!drag.moved) return;
    stack.classList.add("drag");
    const ticks = d * (drag.view.end - drag.view.start) / (page.width - page.lay.gutter - page.lay.right);
    page.look(drag.view.start - ticks, drag.view.end - ticks);
  }

  function point(stack, e) {
    const { x, y } = placeIn(stack, e);
    page.pointer = x >= page.lay.gutter ? clamp(Math.floor(page.T(x)), 0, page.model.ticks - 1) : null;
    page.drawAbove();
    if (!page.hold) page.showDetail(page.at(x, y));
  }

  function watchChart(stack) {
    stack.addEventListener("pointerdown", (e) => {
      if (e.button) return;
      fingers.set(e.pointerId, e.clientX);
      stack.setPointerCapture(e.pointerId);
      drag = { x: e.clientX, view: page.view, moved: fingers.size > 1 };
      if (fingers.size === 2) Object.assign(drag, { wide: apart(), span: page.span(), about: page.T(between(stack)) });
      byId("plot").focus({ preventScroll: true });
    });
    stack.addEventListener("pointermove", (e) => {
      if (!drag || !fingers.has(e.pointerId)) { point(stack, e); return; }
      fingers.set(e.pointerId, e.clientX);
      if (drag.wide && fingers.size === 2) pinch(stack); else if (!drag.wide) dragTo(stack, e);
    });
    const up = (e) => {
      fingers.delete(e.pointerId);
      const clicked = drag && !drag.moved && e.type === "pointerup";
      if (!fingers.size) { drag = null; stack.classList.remove("drag"); }
      if (!clicked) return;
      const { x, y } = placeIn(stack, e), what = page.at(x, y);
      page.setHold(what === page.hold ? null : what);
    };
    stack.addEventListener("pointerup", up);
    stack.addEventListener("pointercancel", up);
    stack.addEventListener("pointerleave", () => { page.pointer = null; page.drawAbove(); if (!page.hold) page.showDetail(null); });
    stack.addEventListener("wheel", (e) => wheel(stack, e), { passive: false });
  }

  /* The wheel zooms about the pointer; with shift or sideways it moves. Where all is in sight it is the window's again. */
  function wheel(stack, e) {
    if (e.deltaY > 0 && !e.shiftKey && page.span() >= page.model.ticks) return;
    e.preventDefault();
    const unit = e.deltaMode === 1 ? 16 : 1;
    if (e.shiftKey || Math.abs(e.deltaX) > Math.abs(e.deltaY)) page.move((e.deltaX || e.deltaY) * unit / 1000);
    else page.zoom(Math.exp(clamp(e.deltaY * unit / 400, -1, 1)), page.T(Math.max(page.lay.gutter, placeIn(stack, e).x)));
  }

  function watchStrip(over) {
    const jump = (e) => {
      const { gutter, right } = page.lay, part = (placeIn(over, e).x - gutter) / (page.width - gutter - right), half = page.span() / 2;
      page.look(part * page.model.ticks - half, part * page.model.ticks + half);
    };
    over.addEventListener("pointerdown", (e) => { over.setPointerCapture(e.pointerId); jump(e); });
    over.addEventListener("pointermove", (e) => { if (over.hasPointerCapture(e.pointerId)) jump(e); });
  }

  /* ---- Keys, buttons, the fragment, the window ---- */

  function watchKeys() {
    byId("bar").addEventListener("click", (e) => { const b = e.target.closest("button"); if (b) ACTIONS[b.dataset.do](); });
    byId("more").addEventListener("click", () => Life.tables.showMore(page.model));
    document.addEventListener("keydown", (e) => {
      if (!page.lay || e.ctrlKey || e.metaKey || e.altKey || /^(INPUT|TEXTAREA|SELECT)$/.test(e.target.tagName)) return;
      const action = KEYS[e.key] || KEYS[e.key.toLowerCase()];
      if (!action) return;
      e.preventDefault();
      ACTIONS[action]();
    });
    window.addEventListener("hashchange", () => {
      if (!page.lay || location.hash === page.written) return;
      if (page.model.way && page.model.way !== page.wayNamed()) {
        page.showWay();
        page.repaint();
      } else {
        page.fromFragment();
        page.resize();
      }
      byId("bar").scrollIntoView({ block: "nearest" });
    });
  }

  function watchWindow() {
    let height = window.innerHeight;
    const widen = () => { if (page.lay && byId("chart").clientWidth !== page.width) page.resize(); };
    new ResizeObserver(() => requestAnimationFrame(widen)).observe(byId("chart"));
    /* The bar of a telephone's browser comes and goes: a small change of height changes nothing. */
    window.addEventListener("resize", () => {
      if (!page.lay || Math.abs(window.innerHeight - height) < 120) return;
      height = window.innerHeight;
      page.resize();
    });
    for (const query of ["(prefers-color-scheme: dark)", "print"]) matchMedia(query).addEventListener("change", page.repaint);
    window.addEventListener("beforeprint", page.repaint);
    window.addEventListener("afterprint", page.repaint);
  }

  /* ---- Dropped and chosen files ---- */

  let texts = {};

  async function take(files) {
    const found = {}, unknown = [];
    for (const file of files) {
      const text = await file.text(), kind = kindOf(text);
      if (kind) found[kind] = text; else unknown.push(file.name);
      if (kind === "script") found.name = file.name.replace(/\.vcat$/, "");
    }
    /* A new script drops the texts of the one before. */
    texts = found.script ? found : { ...texts, ...found };
    page.ways = {};
    page.show(texts);
    page.repaint();
    if (!unknown.length) return;
    const faults = byId("faults"), told = "<p>Not one of the texts: " + escapeHtml(unknown.join(", ")) + ".</p>";
    if (faults.hidden) faults.innerHTML = told; else faults.insertAdjacentHTML("beforeend", told);
    faults.hidden = false;
  }

  function watchFiles() {
    const over = (e) => { e.preventDefault(); document.body.classList.toggle("dropping", e.type === "dragover"); };
    document.addEventListener("dragover", over);
    document.addEventListener("dragleave", over);
    document.addEventListener("drop", (e) => { over(e); if (e.dataTransfer.files.length) take([...e.dataTransfer.files]); });
    byId("files").addEventListener("change", (e) => take([...e.target.files]));
  }

  /* A picture that came to no end says so. */
  function watchErrors() {
    window.addEventListener("error", (e) => {
      if (!e.error) return;
      const faults = byId("faults");
      faults.innerHTML = "<p><b>This picture isn't whole.</b> The page's script failed: " + escapeHtml(String(e.message)) + ".</p>";
      faults.hidden = false;
    });
  }

  /* The texts that the page has, by what their names begin with. */
  function textsOf(way) {
    const found = {};
    for (const name of ["name", ...KINDS]) {
      const text = embedded(way + name);
      if (text !== null) found[name] = name === "name" ? text.trim() : text;
    }
    return found;
  }

  function start() {
    watchErrors();
    texts = textsOf("");
    const back = textsOf("back-");
    page.ways = Object.keys(back).length ? { there: { ...texts, way: "there" }, back: { ...back, way: "back" } } : { there: texts };
    Life.paint.readColours();
    if (Object.keys(texts).length) page.showWay();
    Life.legend.show(page.model);
    watchChart(byId("stack"));
    watchStrip(byId("over"));
    watchKeys();
    watchWindow();
    watchFiles();
    document.documentElement.dataset.ready = String(Math.round(performance.now()));
  }

  return { start };
})();

Life.control.start();
