"use strict";
/* Totals, delays and the premise at the head; below the picture the table of what was lost and refused, and the picture in words. */
Life.tables = (() => {
  const { byId, number, count, range, milliseconds, escapeHtml, rowOf } = Life.basics;
  const { FATES } = Life.texts;
  const { isMissed, placeOf } = Life.model;
  const { fit, fate, command } = Life.paint;
  const { FATE_WORDS, CODES, cause, spoiledRows, shared, reason, refusal, segment, members, premise, held, upper } = Life.words;
  const MOST = 200;
  let rows = [], shown = 0;

  /* ---- Totals and the premise ---- */

  const lostOf = (m) => FATES.filter((kind) => !["got", "waits", "refused"].includes(kind))
    .map((kind) => [m.accepted.filter((f) => f.fate === kind).length, kind]).filter(([n]) => n)
    .map(([n, kind]) => number(n) + " " + kind).join(", ");

  function totalsOf(m) {
    const t = m.totals, s = m.script, bad = m.commands.filter((c) => c.why).length, cells = [];
    const put = (name, value, more) => cells.push([name, number(value), more || ""]);
    if (s.lines) put("Lines", s.lines, s.container === "vc3" ? "VC-3" : "VC-4");
    if (t) {
      const spoiled = m.fates.spoiled.reduce((n, run) => n + run.end - run.first, 0);
      put("Ticks", t.ticks, milliseconds(t.ticks) + " ms");
      put("Rows", t.taken, !m.told ? "" : spoiled ? number(spoiled) + " spoiled" : "all whole");
    }
    if (s.lines) put("Commands", m.commands.length, bad ? number(bad) + " refused" : "");
    if (t) {
      put("Frames", t.frames, "accepted");
      put("Got", t.got);
    }
    if (m.fates.totals) {
      put("Lost", t.lost, lostOf(m));
      put("Waits", t.waits);
      put("Refused", t.refused, t.refused === 1 ? "frame" : "frames");
    } else if (m.report.totals) put("Refused", m.refused.length, m.refused.length === 1 ? "frame" : "frames");
    return cells;
  }

  /* How full the queue got and when, and the delays of the frames that were got. */
  function serviceOf(m) {
    const { totals, delays } = m.service, cells = [];
    if (totals) cells.push(["Queue", number(totals.queue), totals.queue ? "at most, tick " + number(totals.fullest) : "at most"]);
    if (delays) {
      cells.push(["Delay", number(delays.greatest), "at most, 99\u2009% " + number(delays.most) + ", half " + number(delays.half) + ", least " +
        number(delays.least) + (delays.path > 0 ? "; path " + number(delays.path) : "")]);
    }
    return cells;
  }

  function showHead(m) {
    byId("totals").innerHTML = (m.note ? [] : [...totalsOf(m), ...serviceOf(m)]).map(([name, value, more]) =>
      '<div data-k="' + name + '"><dt>' + name + "</dt><dd>" + value + (more ? " <small>" + more + "</small>" : "") + "</dd></div>").join("");
    const [verdict, why] = premise(m), e = byId("premise"), bad = m.fates.totals !== null && !m.fates.totals.starts;
    e.hidden = !verdict || m.note !== null;
    e.innerHTML = "<b>" + verdict + "</b> " + why;
    e.classList.toggle("bad", bad);
  }

  /* ---- The table of what was lost and refused ---- */

  /* The frames that were lost or refused, neighbours with one fate and one reason together. */
  function groupsOf(m) {
    const groups = [];
    let group = null;
    for (const f of m.frames) {
      const key = isMissed(f) ? shared(m, f) : null;
      if (key === null) group = null;
      else if (group && group.key === key) {
        group.last = f; group.n++; group.least = Math.min(group.least, f.octets); group.most = Math.max(group.most, f.octets);
      } else groups.push(group = { key, first: f, last: f, n: 1, least: f.octets, most: f.octets });
    }
    return groups;
  }

  function rowsOf(m) {
    const all = groupsOf(m).map(({ first, last, n, least, most }) => ({ item: first.item, end: last.item, due: first.due, last: last.due,
      octets: least >= 0 ? range(least, most) : "", rows: first.first >= 0 ? range(first.first, last.last) : "", icon: first.fate,
      word: FATE_WORDS[first.fate] + (n > 1 ? ", " + number(n) + " frames" : ""), why: reason(m, first, last), from: placeOf(first),
      to: placeOf(last), hold: "frame." + first.item }));
    for (const c of m.commands) {
      if (c.why) {
        all.push({ item: c.item, end: c.item, due: c.due, last: c.due, octets: "", rows: "", icon: c.kind, word: c.kind + " " + c.line + " refused",
          why: refusal(c), from: c.due, to: c.due, hold: "command." + c.item });
      }
    }
    return all.sort((one, other) => one.item - other.item);
  }

  function footOf(m) {
    const waits = m.frames.filter((f) => f.fate === "waits"), s = m.script;
    return (waits.length ? count(waits.length, "frame waits", "frames wait") + ": from item " + number(waits[0].item) +
      " on they weren't wholly carried when the session ended. " : "") +
      (s.events ? "The script has " + count(s.events, "event line") +
        ": items land when their event comes, which may be after the tick that they are due, and frames that haven't landed aren't told of. " : "");
  }

  function showTable(m) {
    rows = rowsOf(m);
    shown = 0;
    byId("table").tBodies[0].textContent = "";
    byId("table").tHead.hidden = !rows.length;
    byId("caption").textContent = rows.length ? "An item's number leads to its place above. Neighbouring frames that share a reason are one row." :
      m.told ? "Nothing was lost or refused." : "Nothing was refused; what was lost isn't told.";
    byId("foot").textContent = footOf(m);
    showMore(m);
  }

  function rowHtml(m, r) {
    const span = Math.min(m.ticks, Math.max(200, 2 * (r.to - r.from))), middle = Math.round((r.from + r.to - span) / 2);
    const start = Math.max(0, Math.min(m.ticks - span, middle)), cell = (name, text) => '<td class="n" data-k="' + name + '">' + text + "</td>";
    const link = '<a href="#' + (m.way === "back" ? "way=back&amp;" : "") + "at=" + start + "-" + (start + span) + "&amp;hold=" + r.hold + '">' + range(r.item, r.end) + "</a>";
    const ms = milliseconds(r.due) + (r.last === r.due ? "" : "\u2013" + milliseconds(r.last));
    return '<tr data-hold="' + r.hold + '" data-end="' + r.end + '">' + cell("Item", link) + cell("due", range(r.due, r.last)) + cell("ms", ms) +
      cell("octets", r.octets) + cell("rows", r.rows) + '<td class="f"><canvas data-icon="' + r.icon + '" aria-hidden="true"></canvas>' + r.word +
      '</td><td class="w">' + upper(r.why) + "</td></tr>";
  }

  function showMore(m) {
    const to = Math.min(rows.length, shown + MOST), left = rows.length - to, more = byId("more");
    byId("table").tBodies[0].insertAdjacentHTML("beforeend", rows.slice(shown, to).map((r) => rowHtml(m, r)).join(""));
    shown = to;
    more.hidden = !left;
    more.textContent = "Show " + number(Math.min(left, MOST)) + " more of " + number(left);
    drawIcons();
  }

  function drawIcons() {
    for (const e of document.querySelectorAll("td.f canvas")) {
      const g = fit(e, 14, 14), kind = e.dataset.icon;
      if (kind === "add" || kind === "remove") command(g, kind, true, 7, 7, 4.5); else fate(g, kind, 7, 7, 4.2);
    }
  }

  /* ---- The picture in words, made when it is opened ---- */

  const item = (html) => "<li>" + html + "</li>";
  const list = (title, items) => {
    const more = items.length - MOST;
    return "<h3>" + title + "</h3><ul>" + items.slice(0, MOST).map((make) => item(make())).join("") +
      (more > 0 ? item("and " + number(more) + " more, which aren't listed") : "") + "</ul>";
  };

  function lineWords(m, line) {
    const runs = m.trace.runs[line], told = runs.slice(0, 40).map((r) => r.code + (r.code === "idle" ? "" : " " + r.sq) + " in ticks " +
      range(rowOf(r.from), Math.max(rowOf(r.from), Math.min(m.ticks, rowOf(r.end)) - 1)));
    if (runs.length > 40) told.push("and " + number(runs.length - 40) + " more states");
    const fails = m.failsOf[line].slice(0, 40).map((f) => range(f.first, f.end - 1) + (f.slip ? " with a slip of " + f.slip : ""));
    return "<b>Line " + line + "</b>, delay " + number(m.script.delays[line] || 0) + ": " + (told.join("; ") || "no state is told") + "." +
      (fails.length ? " Damaged containers: " + fails.join("; ") + "." : "");
  }

  function spokenHtml(m) {
    const spoiled = m.fates.spoiled.map((r) => () => spoiledRows(r) + cause(r) + ".");
    const breaks = m.fates.segments.map((s) => () => upper(segment(s)));
    const outages = m.service.outages.map((o) => () => held(m, "outage." + o.first));
    const capacity = m.service.members.map((run) => () => members(run));
    const losts = [];
    m.trace.back.forEach((told, packet) => { if (told === "lost") losts.push(() => held(m, "back." + packet)); });
    const lines = Array.from({ length: m.script.lines }, (_, line) => () => lineWords(m, line));
    const used = [...new Set(m.trace.runs.flatMap((runs) => runs.map((r) => r.code)))];
    return (used.length ? "<p>" + used.map((code) => "<b>" + escapeHtml(code) + "</b>: " + (CODES[code] || escapeHtml(code))).join("; ") +
      ". The number behind a state is the sequence number.</p>" : "") + list("Lines", lines) +
      (m.told ? list("Rows", spoiled.length ? spoiled : [() => "All rows are whole."]) : "") +
      (breaks.length ? list("After a break", breaks) : "") +
      (m.service.totals ? list("Outages", outages.length ? outages : [() => "There is no outage."]) : "") +
      (capacity.length ? list("Capacity", capacity) : "") + (losts.length ? list("Lost return packets", losts) : "") +
      (m.commands.length ? list("Commands", m.commands.map((c) => () => held(m, "command." + c.item))) : "");
  }

  function showSpoken(m) {
    const e = byId("spoken");
    byId("words").textContent = "";
    e.ontoggle = () => { if (e.open && !byId("words").textContent) byId("words").innerHTML = spokenHtml(m); };
    if (e.open) e.ontoggle();
  }

  return { showHead, showTable, showMore, drawIcons, showSpoken };
})();
