"use strict";
/* The legend, drawn with the pieces of the picture. */
Life.legend = (() => {
  const { byId } = Life.basics;
  const { FATES } = Life.texts;
  const { FATE_WORDS } = Life.words;
  const { colours, bar, state, failure, lostPacket, spoiled, whole, outage, gotOctets, lostOctets, queue, fate, command, start, fit } = Life.paint;

  function group(out, name, entries) {
    const title = document.createElement("dt"), all = document.createElement("dd");
    title.textContent = name;
    for (const [text, width, paint] of entries) {
      const entry = document.createElement("span");
      if (paint) {
        const e = document.createElement("canvas");
        e.setAttribute("aria-hidden", "true");
        paint(fit(e, width, 16));
        entry.append(e);
      }
      entry.append(text);
      all.append(entry);
    }
    out.append(title, all);
  }

  const STATES = { idle: "idle", add: "add", norm: "norm", eos: "eos, end of sequence", dnu: "dnu, do not use", fixed: "fixed" };

  function lines(m) {
    const used = new Set(m ? m.trace.runs.flatMap((runs) => runs.map((r) => r.code)) : []);
    const codes = Object.keys(STATES).filter((code) => code !== "fixed" || used.has(code));
    return [["before packet 0", 28, (g) => bar(g, colours.faint, 0, 1, 28, 14)],
      ...codes.map((code) => [STATES[code], 28, (g) => state(g, code, 0, 1, 28, 14)]),
      ["damaged", 28, (g) => failure(g, 0, 1, 28, 14)], ["slip (vanished)", 34, (g) => failure(g, 0, 1, 26, 14, 13)],
      ["number: SQ", 0], ["+n: delay in ticks", 0]];
  }

  const LEVEL = (g) => {
    g.strokeStyle = colours.muted; g.lineWidth = 1.2;
    g.beginPath(); g.moveTo(0, 13); g.lineTo(14, 13); g.lineTo(14, 3); g.lineTo(28, 3); g.stroke();
  };

  const STAIR = (g) => {
    bar(g, colours.faint, 0, 9, 12, 6); bar(g, colours.faint, 12, 3, 16, 12);
    g.strokeStyle = colours.ink; g.lineWidth = 1.5;
    g.beginPath(); g.moveTo(0, 9); g.lineTo(12, 9); g.lineTo(12, 3); g.lineTo(28, 3); g.stroke();
  };

  function show(m) {
    const out = byId("legend");
    out.textContent = "";
    group(out, "Lines", lines(m));
    group(out, "Rows", [["whole", 28, (g) => whole(g, 0, 1, 28, 14)],
      ["spoiled by a container", 28, (g) => spoiled(g, "container", 0, 1, 28, 14)],
      ["spoiled by a packet", 28, (g) => spoiled(g, "packet", 0, 1, 28, 14)],
      ["start found", 12, (g) => start(g, "true", 2, 8)], ["false start", 12, (g) => start(g, "false", 2, 8)],
      ["outage", 28, (g) => outage(g, 0, 0, 28, 14)]]);
    group(out, "Service", [["capacity", 28, STAIR], ["octets got", 28, (g) => gotOctets(g, 0, 15, 28, 13)],
      ["octets lost", 28, (g) => lostOctets(g, 0, 15, 28, 13)], ["frames that wait", 28, (g) => queue(g, 0, 15, 28, 8, false)],
      ["256 wait", 28, (g) => queue(g, 0, 15, 28, 13, true)]]);
    const fates = m && !m.told ? ["untold", "refused"] : FATES;
    group(out, "Frames", fates.map((kind) => [FATE_WORDS[kind], 16, (g) => fate(g, kind, 8, 8, 4.4)]));
    group(out, "Commands", [["add", 16, (g) => command(g, "add", false, 8, 8, 5)], ["remove", 16, (g) => command(g, "remove", false, 8, 8, 5)],
      ["refused", 16, (g) => command(g, "add", true, 8, 8, 5)]]);
    group(out, "Return path", [["RS-Ack 0 and 1; status octet in hexadecimal", 28, LEVEL],
      ["lost packet", 28, (g) => lostPacket(g, 0, 1, 27, 14)]]);
  }

  return { show };
})();
