"use strict";
/* What the page says in sentences: of a frame, a command, a line, a row, an outage, a stretch, a return packet, and of the premise on chance.
   Each gives HTML of which only numbers and words of the program are parts. */
Life.words = (() => {
  const { number, count, range, milliseconds, megabits, escapeHtml, firstWhere, runAt, packetOf, rowOf } = Life.basics;

  const CODES = { idle: "no member, or being removed", add: "added, and carries no payload yet", norm: "an active member",
    eos: "the active member of the highest sequence number", dnu: "a member out of use, since the sink said that it fails",
    fixed: "an active member without LCAS" };
  const REFUSALS = { unknown: "the group has no such line", "already in": "the line was added before and not removed",
    "not in": "the line wasn't added", pending: "64 commands waited already" };
  const FATE_WORDS = { got: "got", cut: "cut", hunting: "hunting", unsettled: "unsettled", unconfirmed: "unconfirmed",
    waits: "waits", refused: "refused", untold: "not told" };

  /* How many causes are told of one break. */
  const MOST_RUNS = 4;

  const when = (t) => number(t) + " (" + milliseconds(t) + " ms)";
  const upper = (s) => s[0].toUpperCase() + s.slice(1);

  /* Why a run of rows is spoiled. */
  function cause(spoiled) {
    const line = spoiled.line;
    if (spoiled.cause === "container") return "a container of line " + line + ", an active member, is damaged or not yet locked";
    return line < 0 ? "no line has a readable control packet for these rows" :
      "the control packet of line " + line + ", an active member, can't be read";
  }

  /* That the rows of a run are spoiled; the cause follows. */
  const spoiledRows = (run) => (run.end - run.first === 1 ? "Row " + number(run.first) + " is" : "Rows " + range(run.first, run.end - 1) + " are") +
    " spoiled: ";

  /* The spoiled rows that cut the frames from one to another of a break, with their causes. */
  function cutReason(m, f, last) {
    const runs = m.fates.spoiled, at = (row) => firstWhere(runs.length, (i) => runs[i].end > row);
    if (!runAt(runs, f.row)) return "Row " + number(f.row) + " is spoiled; the cause isn't told.";
    const all = runs.slice(at(f.row), at(last.row) + 1), more = all.length - MOST_RUNS;
    return all.slice(0, MOST_RUNS).map((run) => spoiledRows(run) + cause(run) + ".").join(" ") +
      (more > 0 ? " So are the rows up to " + number(all[all.length - 1].end - 1) + ", for " + count(more, "more cause") + "." : "");
  }

  /* What frames share that have one fate for one reason: the break that cut them, the stretch in which they lie, or why they were refused. */
  function shared(m, f) {
    const run = f.fate === "cut" ? runAt(m.fates.spoiled, f.row) : f.first >= 0 ? runAt(m.fates.segments, f.first) : null;
    return f.fate + " " + (f.why || (run ? run.start : f.row));
  }

  /* Why a frame has its fate, or neighbours from it to another that share the reason. */
  function reason(m, f, last = f) {
    const stretch = f.first >= 0 ? runAt(m.fates.segments, f.first) : null;
    const found = stretch && stretch.row >= 0 ? "in row " + number(stretch.row) : "";
    switch (f.fate) {
      case "got": return "Delivered whole.";
      case "cut": return cutReason(m, f, last);
      case "hunting":
        return "After the break the receiver was still looking for a GFP frame's start" + (found && ", which it found later, " + found) + ".";
      case "unsettled":
        return "It came whole, but as the first after the break" + (found && ", from the GFP frame's start " + found + " on") +
          ": the descrambler has to see six octets before it is right again.";
      case "unconfirmed":
        return "The receiver found no GFP frame's start in the whole stretch" +
          (stretch ? " of rows " + range(stretch.first, stretch.end - 1) : "") + ".";
      case "waits": return "It wasn't wholly carried when the session ended.";
      case "refused":
        return f.why === "queue" ? "256 frames waited already." :
          "Its length of " + number(f.why.replace(/^length /, "")) + " octets isn't one of 64 to 9,600.";
      default: return "What became of it isn't told here.";
    }
  }

  const refusal = (c) => upper(REFUSALS[c.why] || escapeHtml(c.why)) + ".";

  function frame(m, f) {
    const waited = f.first - f.due;
    const carried = f.first < 0 ? "" : ", carried in " + (f.first === f.last ? "row " : "rows ") + range(f.first, f.last) +
      (waited > 0 ? " after waiting " + count(waited, "tick") : "");
    return "<b>Frame " + number(f.item) + ": " + FATE_WORDS[f.fate] + ".</b> " +
      (f.octets ? count(f.octets, "octet") + ", due at " : "Due at ") + when(f.due) + carried + ". " + reason(m, f);
  }

  function command(m, c) {
    return "<b>Item " + number(c.item) + ": " + c.kind + " line " + c.line + (c.why ? ", refused" : "") + ".</b> Due at " +
      when(c.due) + "." + (c.why ? " " + refusal(c) : "");
  }

  /* A line at a tick: its state, its delay, and the failure that it is in. */
  function line(m, n, t) {
    const packet = packetOf(t), runs = m.trace.runs[n];
    const run = packet < 0 ? null : runs[firstWhere(runs.length, (i) => runs[i].end > packet)];
    const title = "<b>Line " + n + " at tick " + number(t) +
      (run ? ": " + run.code + (run.code === "idle" ? "" : ", sequence number " + run.sq) : "") + ".</b> ";
    const delay = m.script.delays[n] || 0, failure = m.failsOf[n].find((f) => f.first <= t && t < f.end);
    return title + (packet < 0 ? "Before row 24 no packet governs. " : run ? inRun(m, run) : "No packet of the trace governs this row. ") +
      (delay ? "Its delay is " + count(delay, "tick") + ": this container arrives at " + number(t + delay) + " (dotted). " : "It has no delay. ") +
      (failure ? "<b>Damaged</b> are its containers " + range(failure.first, failure.end - 1) +
        (failure.slip ? ", and the last " + failure.slip + " of them vanish" : "") + ". " : "");
  }
  function inRun(m, run) {
    return "In ticks " + range(rowOf(run.from), Math.max(rowOf(run.from), Math.min(m.ticks, rowOf(run.end)) - 1)) +
      (run.end - run.from === 1 ? " (packet " : " (packets ") + range(run.from, run.end - 1) + ") it is " + (CODES[run.code] || run.code) + ". ";
  }

  function row(m, t) {
    if (m.totals && t >= m.totals.taken) return "<b>Row " + number(t) + "</b> was never taken.";
    if (!m.told) return "<b>Row " + number(t) + "</b>: whether it is whole isn't told here.";
    const spoiled = runAt(m.fates.spoiled, t), stretch = runAt(m.fates.segments, t);
    return (spoiled ? "<b>" + spoiledRows(spoiled) + "</b>" + cause(spoiled) + "." :
      "<b>Row " + number(t) + " is whole.</b>") + (stretch ? " It is of the stretch of " + segment(stretch) : "");
  }
  function segment(s) {
    return "rows " + range(s.first, s.end - 1) + " after a break; " +
      (s.mark === "none" ? "no GFP frame's start was found in it." :
        s.mark === "true" ? "a GFP frame's start was found in row " + number(s.row) + "." :
          "in row " + number(s.row) + " a place was taken for a GFP frame's start that is none.");
  }

  /* ---- What service tells ---- */

  const sum = ({ frames, octets }) => (frames ? count(frames, "frame") + ", " + count(octets, "octet") : "none");

  /* An outage: what it cost, where it was and why, and when traffic was whole again. */
  function outage(m, o) {
    const rows = o.end - o.first, totals = m.service.totals;
    return "<b>Outage of " + count(rows, "row") + ", " + milliseconds(rows) + " ms: " + (o.lost.frames ? sum(o.lost) : "no frame") + " lost.</b> " +
      (rows === 1 ? "Row " + number(o.first) + " is spoiled" :
        o.spoiled === rows ? "Rows " + range(o.first, o.end - 1) + " are all spoiled" :
          "Of rows " + range(o.first, o.end - 1) + " " + number(o.spoiled) + " are spoiled; in the others the receiver looked for a GFP frame's start") +
      ". It begins as " + cause(o) + ". " +
      (totals && o.end === totals.taken ? "In the rows that were taken traffic isn't whole again." :
        "Traffic is whole again from row " + when(o.end) + " on.");
  }

  function members(run) {
    return (run.end - run.first === 1 ? "In row " : "In rows ") + range(run.first, run.end - 1) + " " +
      (run.count ? count(run.count, "member carries", "members carry") + " " + count(run.octets, "octet") + " a row" :
        "no member carries payload") + ".";
  }

  /* All rows wait for the slowest line. If containers vanish, its delay isn't all that there is. */
  function slowest(m) {
    const most = m.script.delays.reduce((one, other) => Math.max(one, other), 0);
    return most && !m.script.fails.some((f) => f.slip) ? ", beside " + number(most) + " of the slowest line" : "";
  }

  /* The stretch of a tick, and the members in its row. */
  function stretch(m, t) {
    const q = runAt(m.service.stretches, t), run = runAt(m.service.members, t), ticks = q.end - q.first;
    return "<b>" + (ticks === 1 ? "Tick " : "Ticks ") + range(q.first, q.end - 1) + ": got " + sum(q.got) +
      (q.got.frames ? ", " + megabits(q.got.octets, ticks) : "") + ".</b> Lost: " + sum(q.lost) + ". Offered: " + sum(q.offered) + ". Refused: " +
      sum(q.refused) + ". There was room for " + count(q.capacity, "octet") + ", " + megabits(q.capacity, ticks) + ". " +
      (q.queue ? "At most " + count(q.queue, "frame") + " waited, first in tick " + number(q.fullest) + ". " : "No frame waited. ") +
      (q.got.frames ? "The greatest delay was " + count(q.delay, "tick") + slowest(m) + ". " : "") +
      (q.dark ? count(q.dark, "of its rows is", "of its rows are") + " in an outage. " : "") + (run ? members(run) : "");
  }

  /* A decision step: what it was told, and what it sends. A return packet has the statuses of eight sequence numbers. */
  function back(m, packet) {
    const told = packet < 0 ? undefined : m.trace.back[packet];
    if (told === undefined) return "No decision step is told of here.";
    const eight = 8 * ((packet - m.script.lag) % m.script.statuses);
    return "<b>Step of packet " + packet + "</b> (for rows " + range(rowOf(packet), rowOf(packet) + 15) + ") " +
      (told === "none" ? "took no return packet." :
        told === "lost" ? "took a lost return packet: it learns nothing." :
          "was told status <b>" + told.slice(0, 2) + "</b> of sequence numbers " + eight + " to " + (eight + 7) + ", with RS-Ack " +
          told.slice(3) + ".") +
      " It sends CHG " + m.trace.chg[packet] + ", and " + count(m.trace.act[packet], "line carries", "lines carry") + " payload.";
  }

  /* The premise on chance, as a verdict and what it means. */
  function premise(m) {
    const totals = m.fates.totals, breaks = m.fates.segments;
    const exact = "so exactly the frames shown as got were delivered, in order, each once.";
    if (!totals) return ["", ""];
    if (!breaks.length) {
      return ["The premise on chance holds:", "no break made the receiver look for a GFP frame's start again, " + exact];
    }
    if (totals.starts) {
      const none = breaks.filter((s) => s.mark === "none").length;
      return ["The premise on chance holds:", "after " +
        (breaks.length === 1 ? "the one break" : "each of " + number(breaks.length) + " breaks") +
        " the receiver took only true GFP frame starts" + (none ? " (in " + number(none) + " it found none)" : "") + ", " + exact];
    }
    const rows = breaks.filter((s) => s.mark === "false").map((s) => number(s.row));
    return ["The premise on chance doesn't hold in this walk:", "in row " + rows.join(", ") +
      " the receiver took a place for a GFP frame's start that is none. What is shown as got needn't be what was delivered."];
  }

  /* The sentence on what is held, which is a word with its numbers: frame.ITEM, command.ITEM, line.LINE.TICK, row.ROW,
     outage.FIRST, stretch.TICK, back.PACKET. */
  function held(m, hold) {
    if (!/^[a-z]+(\.\d+)+$/.test(hold)) return "";
    const [kind, ...words] = hold.split("."), [a, b] = words.map(Number);
    switch (kind) {
      case "frame": return m.byItem.has(a) ? frame(m, m.byItem.get(a)) : "";
      case "command": { const c = m.commands.find((q) => q.item === a); return c ? command(m, c) : ""; }
      case "line": return a < m.script.lines && b < m.ticks ? line(m, a, b) : "";
      case "row": return a < m.ticks ? row(m, a) : "";
      case "outage": { const o = m.service.outages.find((q) => q.first === a); return o ? outage(m, o) : ""; }
      case "stretch": return runAt(m.service.stretches, a) ? stretch(m, a) : "";
      case "back": return a < m.trace.packets ? back(m, a) : "";
      default: return "";
    }
  }

  return { CODES, FATE_WORDS, cause, spoiledRows, shared, reason, refusal, segment, members, premise, held, upper };
})();
