"use strict";
/* The texts of one walk beside each other. Each text may be missing, cut off or of another script: what is missing is told
   in the model's `faults`, and a note of the program in its `note`. */
Life.model = (() => {
  const { count, stepsOf, rowOf } = Life.basics;
  const { FATES, readScript, readTrace, noFates, readFates, noService, readService, noReport, readReport } = Life.texts;
  const nothing = (text) => text == null || text.trim() === "";

  /* What the program says of a script that it refuses, and the line that it names. */
  function noteOf(texts, script) {
    const text = [texts.trace, texts.fates, texts.service].find((t) => t && /^(fault|usage): /.test(t));
    if (!text) return null;
    const at = /^fault: line (\d+): /.exec(text);
    return { text: text.trim(), line: at ? +at[1] : 0, says: at ? (script.text[at[1] - 1] || "").trim().replace(/ \.\.([\d.]+)$/, " HEX") : "" };
  }

  /* What the program said is missing of the four other texts, where they are there at all. */
  function tellMissing(model, texts) {
    const { script, trace, fates, service, report, faults } = model;
    if (nothing(texts.script)) faults.push("The text of the script is missing.");
    else if (!script.lines || !script.ticks) faults.push("The script doesn't say how many lines and ticks there are.");
    if (nothing(texts.report)) faults.push("The report is missing: which commands were refused isn't told.");
    if (nothing(texts.fates)) {
      faults.push("The fates are missing: which rows were spoiled and what became of each frame isn't told. " +
        "Frames stand at the tick that they are due.");
    }
    if (nothing(texts.service)) faults.push("The text of service is missing: outages, capacity, the queue and delays aren't told.");
    const totals = model.totals, steps = totals ? stepsOf(totals.ticks) : 0;
    if (trace.packets < steps && !faults.some((f) => f.includes("of trace isn't"))) {
      faults.push(nothing(texts.trace) ? "The text of trace is missing: the states of the lines and the return path aren't told." :
        "The trace ends " + (trace.packets ? "with packet " + (trace.packets - 1) : "before packet 0") + ", and " +
        count(totals.ticks, "tick") + " make " + count(steps, "packet") + ": the text was cut off.");
    } else if (!totals && nothing(texts.trace)) faults.push("The text of trace is missing.");
    if (fates.totals && report.totals && ["ticks", "taken", "frames", "got"].some((k) => fates.totals[k] !== report.totals[k])) {
      faults.push("The totals of the fates and of the report differ: these texts aren't of one script.");
    }
    const told = service.totals;
    if (told && (totals && ["ticks", "taken"].some((k) => told[k] !== totals[k]) || fates.totals && told.got.frames !== fates.totals.got)) {
      faults.push("The totals of service and of the other texts differ: these texts aren't of one script.");
    }
  }

  /* The frames: as fates tells them, or, where it isn't there, those of the script, of which the refused ones are known. */
  function framesOf(model) {
    const { script, fates, report } = model;
    const ends = fates.totals ? fates.totals.taken : model.ticks;
    if (!model.told) {
      return script.items.filter((q) => q.kind === "frame").map((q) => {
        const why = report.refused.get(q.item) || "";
        return { item: q.item, due: q.due, fate: why ? "refused" : "untold", why, octets: q.octets, first: -1, last: -1, row: -1,
          at: q.due + 0.5, out: q.due + 0.5 };
      });
    }
    let others = 0;
    for (const f of fates.frames) {
      const item = script.items[f.item];
      if (!item || item.kind !== "frame" || item.due !== f.due) others++;
      f.octets = item && item.octets;
      /* Where its thread begins and ends: in the middle of the tick that it is due, and of the row of its first octet. */
      f.at = f.due + 0.5;
      f.out = f.first >= 0 ? f.first + 0.5 : f.fate === "refused" ? f.at : Math.max(f.at, ends);
    }
    if (others) {
      model.faults.push(count(others, "frame") + " of fates " + (others === 1 ? "is" : "are") +
        " not where the script says: these texts aren't of one script.");
    }
    return fates.frames;
  }

  /* The places that one steps to: failures, outages, losses, refusals, commands and lost return packets. */
  function marksOf(model) {
    const marks = [];
    for (const f of model.script.fails) marks.push({ t: f.first, hold: "line." + f.line + "." + f.first });
    for (const o of model.service.outages) marks.push({ t: o.first, hold: "outage." + o.first });
    for (const f of model.frames) {
      if (isMissed(f)) marks.push({ t: placeOf(f), hold: "frame." + f.item });
    }
    for (const c of model.commands) marks.push({ t: c.due, hold: "command." + c.item });
    model.trace.back.forEach((back, packet) => {
      if (back === "lost") marks.push({ t: rowOf(packet), hold: "back." + packet });
    });
    return marks.sort((one, other) => one.t - other.t);
  }
  /* Whether a frame was lost or refused. */
  const isMissed = (f) => f.fate !== "got" && f.fate !== "waits" && f.fate !== "untold";
  const placeOf = (f) => (f.first >= 0 ? f.first : f.due);

  /* The most octets a row that the lane of capacity has to show. */
  function mostOf({ members, stretches }) {
    const carried = stretches.map((q) => (q.got.octets + q.lost.octets) / (q.end - q.first));
    return members.map((run) => run.octets).concat(carried).reduce((most, n) => Math.max(most, n), 1);
  }

  function modelOf(texts) {
    const faults = [], script = readScript(texts.script || "", faults);
    const note = noteOf(texts, script);
    const read = (text, reader, none) => (nothing(text) || /^(fault|usage): /.test(text) ? none : reader(text));
    const model = { name: texts.name || "script", way: texts.way || "", script, faults, note, ticks: Math.max(1, script.ticks || 0) };
    model.trace = read(texts.trace, (t) => readTrace(t, script.lines, faults), readTrace("", script.lines, faults));
    model.fates = read(texts.fates, (t) => readFates(t, faults), noFates());
    model.service = read(texts.service, (t) => readService(t, faults), noService());
    model.report = read(texts.report, (t) => readReport(t, faults), noReport());
    /* Whether the fates are here, whole or cut off. */
    model.told = model.fates.totals !== null || model.fates.frames.length > 0 || model.fates.spoiled.length > 0;
    model.totals = model.fates.totals || model.report.totals;
    model.most = mostOf(model.service);
    /* Of a script that was refused there is nothing to miss. */
    if (!note) tellMissing(model, texts);
    model.frames = framesOf(model);
    model.accepted = model.frames.filter((f) => f.fate !== "refused");
    /* The accepted frames as plain arrays, for the drawing of many. */
    const column = (of) => Float64Array.from(model.accepted, of);
    model.columns = { due: column((f) => f.at), out: column((f) => f.out), end: column((f) => f.out + f.last - f.first),
      fate: Uint8Array.from(model.accepted, (f) => Math.max(0, FATES.indexOf(f.fate))) };
    model.refused = model.frames.filter((f) => f.fate === "refused");
    model.byItem = new Map(model.frames.map((f) => [f.item, f]));
    model.commands = script.items.filter((c) => c.kind !== "frame");
    for (const c of model.commands) { c.at = c.due + 0.5; c.why = model.report.refused.get(c.item) || ""; }
    model.failsOf = Array.from({ length: script.lines }, (_, line) => script.fails.filter((f) => f.line === line));
    model.marks = marksOf(model);
    model.drawable = !note && script.lines > 0 && script.ticks > 0;
    return model;
  }

  return { modelOf, isMissed, placeOf };
})();
