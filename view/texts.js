"use strict";
/* Reads the texts that the program writes into plain lists: a script, the notes of trace, the texts of fates and of service, and
   the report. What can't be read is told in `faults`, a list of sentences, and what follows it is left out. */
Life.texts = (() => {
  const { byId, count } = Life.basics;
  const KINDS = ["script", "trace", "fates", "service", "report"];
  const MOST_FRAMES = 500000;
  const FATES = ["got", "cut", "hunting", "unsettled", "unconfirmed", "waits", "refused"];

  /* In the page a backslash is doubled, and a less-than sign and a CR are \x3c and \x0d, so that no text ends its element
     and none is changed on the way. */
  function embedded(name) {
    const e = byId("text-" + name);
    if (!e) return null;
    const marks = { x3c: "<", x0d: "\r", "\\": "\\" };
    return e.textContent.replace(/^\n/, "").replace(/\\(x3c|x0d|\\)/g, (_, mark) => marks[mark]);
  }

  /* Which of the texts a dropped file is. */
  function kindOf(text) {
    if (/^(fault|usage): /.test(text)) return "trace";
    if (/^packet \d+ chg /m.test(text)) return "trace";
    if (/^service \d/m.test(text) || /^(members|stretch) \d/m.test(text)) return "service";
    if (/^fates ticks /m.test(text) || /^(spoiled|segment) \d/m.test(text)) return "fates";
    if (/^total ticks /m.test(text)) return "report";
    if (/^ *lines +\d/m.test(text)) return "script";
    return null;
  }

  function linesOf(text) {
    const all = text.split("\n");
    if (all[all.length - 1] === "") all.pop();
    return all;
  }

  /* The lines of an answer, without what ./vcat says of a trial build. */
  const answerOf = (text) => linesOf(text).filter((line) => !/^(vcat: |      VCAT_)/.test(line));

  /* ---- The script ---- */

  /* `frame DUE HEX`, or `frame DUE ..N` where the octets were left out and N is their number. */
  function frameItem(line, item) {
    const [, due, hex = ""] = line.split(/ +/, 3);
    const short = /^\.\.(\d+)$/.exec(hex);
    return { item, kind: "frame", due: +due, octets: short ? +short[1] : hex.length / 2 };
  }

  /* The frames of `stream OCTETS MBITS FIRST END NUMBER`: their sizes come in turn. Whether there are more than a page shows. */
  function streamItems(items, [sizes = "", mbits, first, end]) {
    const octets = sizes.split(",").map(Number);
    let due = +first;
    for (let k = 0, before = 0; due < end && items.length < MOST_FRAMES; k++) {
      items.push({ item: items.length, kind: "frame", due, octets: octets[k % octets.length] });
      before += octets[k % octets.length];
      due = +first + Math.floor(8 * before / (125 * mbits));
    }
    return due < end;
  }

  const EVENTS = new Set(["client", "operator", "tick", "back", "take", "round", "carry", "drain"]);

  function scriptLine(script, line, at, faults) {
    const space = line.indexOf(" "), word = space < 0 ? line : line.slice(0, space);
    /* A frame is by far the longest line, and isn't cut into words. */
    if (word === "frame") { script.items.push(frameItem(line, script.items.length)); return; }
    const words = line.split(/ +/), numbers = words.slice(1).map(Number);
    switch (word) {
      case "container": case "sink": script[word] = words[1]; break;
      case "delays": script.delays = numbers; break;
      case "lines": case "ring": case "lag": case "ticks": case "holdoff": case "restore": case "statuses":
        script[word] = numbers[0]; break;
      case "fail": script.fails.push({ line: numbers[0], first: numbers[1], end: numbers[2], slip: numbers[3] }); break;
      case "lost": script.losts.push({ first: numbers[0], end: numbers[1] }); break;
      case "stream":
        if (streamItems(script.items, words.slice(1))) faults.push("Line " + at + " of the script brings it to more frames than a page shows.");
        break;
      case "add": case "remove":
        script.items.push({ item: script.items.length, kind: word, due: numbers[0], line: numbers[1] }); break;
      default:
        if (EVENTS.has(word)) script.events++;
        else faults.push("Line " + at + " of the script begins with \u201c" + word.slice(0, 20) + "\u201d, which is no word of a script.");
    }
  }

  function readScript(text, faults) {
    const script = { container: "vc4", lines: 0, delays: [], ring: 0, lag: 0, ticks: 0, sink: "stops", holdoff: 0, restore: 0, statuses: 16,
      fails: [], losts: [], items: [], events: 0 };
    const about = [];
    script.text = linesOf(text);
    let begun = false;
    script.text.forEach((raw, i) => {
      const line = raw.trim();
      if (line === "") { if (about.length) begun = true; return; }
      if (line[0] === "#") { if (!begun) about.push(line.replace(/^#+\s?/, "")); return; }
      begun = true;
      scriptLine(script, line, i + 1, faults);
    });
    /* Of other numbers than the program takes there is nothing to draw. */
    if (!(Number.isInteger(script.lines) && script.lines >= 0 && script.lines <= 128)) script.lines = 0;
    /* The comment at the head, up to the first line that says something: what the script is about. */
    script.comment = about.join(" ");
    return script;
  }

  /* ---- The notes of trace: of each line its runs of equal CODE:SQ, over packets from `from` to below `end` ---- */

  function readTrace(text, lines, faults) {
    const trace = { packets: 0, chg: [], act: [], back: [], runs: Array.from({ length: lines }, () => []) };
    const last = new Array(lines).fill(""), all = answerOf(text);
    for (let i = 0; i < all.length; i++) {
      const words = all[i].split(" "), cells = words.slice(8);
      const isCell = (cell, line) => cell === last[line] || /^[a-z]+:\d+$/.test(cell);
      if (words[0] !== "packet" || +words[1] !== trace.packets || !/^(none|lost|[0-9a-f]{2}\/[01])$/.test(words[7]) ||
          cells.length !== lines || !cells.every(isCell)) {
        faults.push("Line " + (i + 1) + " of trace isn't that of packet " + trace.packets + " with " + count(lines, "line") +
          ": the packets from " + trace.packets + " on are missing here.");
        break;
      }
      const packet = trace.packets++;
      trace.chg.push(+words[3]); trace.act.push(+words[5]); trace.back.push(words[7]);
      cells.forEach((cell, line) => {
        const runs = trace.runs[line];
        if (cell === last[line]) { runs[runs.length - 1].end = packet + 1; return; }
        last[line] = cell;
        const colon = cell.indexOf(":");
        runs.push({ from: packet, end: packet + 1, code: cell.slice(0, colon), sq: +cell.slice(colon + 1) });
      });
    }
    return trace;
  }

  /* ---- The text of fates ---- */

  const FATES_LINES = {
    spoiled: /^spoiled (\d+) (\d+) (container|packet)(?: (\d+))?$/,
    segment: /^segment (\d+) (\d+) (none|true|false)(?: (\d+))?$/,
    frame: new RegExp("^frame (\\d+) due (\\d+) (?:(waits)|(refused) (queue|length \\d+)" +
      "|(got|hunting|unsettled|unconfirmed) (\\d+) (\\d+)|(cut) (\\d+) (\\d+) (\\d+))$"),
    fates: /^fates ticks (\d+) taken (\d+) frames (\d+) got (\d+) lost (\d+) waits (\d+) refused (\d+) starts (true|false)$/,
  };
  const optional = (word) => (word === undefined ? -1 : +word);

  /* Where the break begins of which a run of spoiled rows is a part: runs that adjoin are of one break. */
  function startOf(runs, first) {
    const before = runs[runs.length - 1];
    return before && before.end === first ? before.start : first;
  }

  function fatesLine(fates, kind, w) {
    switch (kind) {
      case "spoiled":
        fates.spoiled.push({ first: +w[1], end: +w[2], start: startOf(fates.spoiled, +w[1]), cause: w[3], line: optional(w[4]) });
        break;
      case "segment": fates.segments.push({ first: +w[1], end: +w[2], start: +w[1], mark: w[3], row: optional(w[4]) }); break;
      case "frame":
        fates.frames.push({ item: +w[1], due: +w[2], fate: w[3] || w[4] || w[6] || w[9], why: w[5] || "",
          first: optional(w[7] || w[10]), last: optional(w[8] || w[11]), row: optional(w[12]) });
        break;
      default:
        fates.totals = { ticks: +w[1], taken: +w[2], frames: +w[3], got: +w[4], lost: +w[5], waits: +w[6], refused: +w[7],
          starts: w[8] === "true" };
    }
  }

  /* Reads a text line by line, up to the one with its totals, by the form that its first word has. */
  function readLines(name, text, read, forms, take, faults) {
    const all = answerOf(text);
    for (let i = 0; i < all.length; i++) {
      const line = all[i], kind = line.slice(0, Math.max(0, line.indexOf(" ")));
      const words = !read.totals && Object.hasOwn(forms, kind) ? forms[kind].exec(line) : null;
      if (!words) {
        faults.push("Line " + (i + 1) + " of " + name + " isn't understood: \u201c" + line.slice(0, 60) + "\u201d. What follows isn't shown.");
        break;
      }
      take(read, kind, words);
    }
    if (!read.totals) {
      faults.push("The last line of " + name + ", with the totals, is missing: the text was cut off, and other lines may be missing too.");
    }
    return read;
  }

  const noFates = () => ({ spoiled: [], segments: [], frames: [], totals: null });
  const readFates = (text, faults) => readLines("fates", text, noFates(), FATES_LINES, fatesLine, faults);

  /* ---- The text of service ---- */

  const COUNTS = "(\\d+) (\\d+) offered (\\d+) (\\d+) refused (\\d+) (\\d+) got (\\d+) (\\d+) lost (\\d+) (\\d+) capacity (\\d+) " +
    "queue (\\d+) (\\d+) delay (\\d+) dark (\\d+)";
  const SERVICE_LINES = {
    members: /^members (\d+) (\d+) (\d+) (\d+)$/,
    outage: /^outage (\d+) (\d+) spoiled (\d+) lost (\d+) (\d+) (container|packet)(?: (\d+))?$/,
    stretch: new RegExp("^stretch " + COUNTS + "$"),
    delays: /^delays least (\d+) half (\d+) most (\d+) greatest (\d+)(?: path (\d+))?$/,
    service: new RegExp("^service " + COUNTS + " outages (\\d+) waits (\\d+) (\\d+) ticks (\\d+) taken (\\d+) starts (true|false)$"),
  };

  /* The counts of a stretch, or of all ticks. */
  function countsOf(w) {
    const frames = (i) => ({ frames: +w[i], octets: +w[i + 1] });
    return { first: +w[1], end: +w[2], offered: frames(3), refused: frames(5), got: frames(7), lost: frames(9), capacity: +w[11],
      queue: +w[12], fullest: +w[13], delay: +w[14], dark: +w[15] };
  }

  function serviceLine(service, kind, w) {
    switch (kind) {
      case "members": service.members.push({ first: +w[1], end: +w[2], count: +w[3], octets: +w[4] }); break;
      case "outage":
        service.outages.push({ first: +w[1], end: +w[2], spoiled: +w[3], lost: { frames: +w[4], octets: +w[5] }, cause: w[6], line: optional(w[7]) });
        break;
      case "stretch": service.stretches.push(countsOf(w)); break;
      case "delays": service.delays = { least: +w[1], half: +w[2], most: +w[3], greatest: +w[4], path: optional(w[5]) }; break;
      default: service.totals = { ...countsOf(w), outages: +w[16], waits: +w[17], ticks: +w[19], taken: +w[20] };
    }
  }

  const noService = () => ({ members: [], outages: [], stretches: [], delays: null, totals: null });
  const readService = (text, faults) => readLines("service", text, noService(), SERVICE_LINES, serviceLine, faults);

  /* ---- The report: its refused lines and its totals; got lines are passed over ---- */

  const REPORT_LINES = {
    got: /^got /,
    refused: /^refused (\d+) (queue|length \d+|unknown|already in|not in|pending)$/,
    total: /^total ticks (\d+) taken (\d+) frames (\d+) commands (\d+) refused (\d+) got (\d+)$/,
  };

  function reportLine(report, kind, w) {
    if (kind === "refused") report.refused.set(+w[1], w[2]);
    if (kind === "total") report.totals = { ticks: +w[1], taken: +w[2], frames: +w[3], commands: +w[4], refused: +w[5], got: +w[6] };
  }

  const noReport = () => ({ refused: new Map(), totals: null });
  const readReport = (text, faults) => readLines("the report", text, noReport(), REPORT_LINES, reportLine, faults);

  return { KINDS, FATES, embedded, kindOf, readScript, readTrace, noFates, readFates, noService, readService, noReport, readReport };
})();
