#!/usr/bin/env python3
"""Opens pages of ./vcat view in a headless Chromium, and compares what they show with the texts.

    page_tests.py PROGRAM [PICTURES]

PROGRAM is the program that answers trace, fates and service. PICTURES is a folder for pictures of all pages, wide and narrow, light and dark."""
import base64
import json
import os
import re
import subprocess
import sys
import tempfile
import time

sys.dont_write_bytecode = True
from browser import Browser, NoBrowser
from texts import Pages, at_a_rate, bursts, expected, head, heights, interval, made, points, reasons, totals, walked

EXAMPLES = ("failed_member", "slip", "lost_return", "eight_lines", "queue", "refused", "statuses", "one_container_infers")
TOP = os.path.dirname(os.path.dirname(os.path.dirname(os.path.abspath(__file__))))
RANGE = "document.querySelector('#range b').textContent"
HELD = "document.getElementById('detail').classList.contains('held')"
LOADS = "fetch('data:,').then(() => true, () => false)"
FAULTS = "document.getElementById('faults').hidden ? '' : document.getElementById('faults').textContent"


def near(one, other):
    """Whether two colours, as #rrggbb, are one but for rounding."""
    return all(abs(int(one[i:i + 2], 16) - int(other[i:i + 2], 16)) < 4 for i in (1, 3, 5))


class Tests:
    """A browser, a maker of pages, and how many comparisons there were and failed."""

    def __init__(self, browser, pages, pictures):
        self.browser, self.pages, self.pictures = browser, pages, pictures
        self.made = self.failed = 0

    def same(self, what, found, wanted):
        self.made += 1
        if found != wanted:
            self.failed += 1
            print("page: %s: found %r, and %r is wanted" % (what, found, wanted), file=sys.stderr)

    def open(self, name, texts, fragment="", **statuses):
        path, notes, status = self.pages.make(name, texts, **statuses)
        self.browser.open(path, fragment)
        return notes, status

    def picture(self, name):
        if self.pictures:
            self.browser.picture(os.path.join(self.pictures, name + ".png"))

    # ---- Counts ----

    def counts(self, name, texts):
        """What a page drew, its totals, its premise and its table are those of the texts; at no width does it scroll sideways."""
        b = self.browser
        b.size(1280)
        b.media()
        self.same(name + ": view", self.open(name, texts), ("", 0))
        drawn, wanted = json.loads(b.js("document.getElementById('plot').dataset.drawn")), expected(texts)
        for key in wanted:
            self.same(name + ": " + key, drawn[key], wanted[key])
        cells = dict(b.js("""[...document.querySelectorAll('#totals > div')].map(e => [e.querySelector('dt').textContent,
            e.querySelector('dd').textContent.replace(/,/g, '').match(/\\d+/g).map(Number)])"""))
        numbers, starts = totals(texts)
        self.same(name + ": totals", {key: cells.get(key, [None])[0] for key in numbers}, numbers)
        queue, delays = head(texts)
        self.same(name + ": the greatest queue", cells.get("Queue"), queue if queue[0] else [0])
        self.same(name + ": delays", cells.get("Delay"), [delays[3], 99, *delays[2::-1], *filter(None, delays[4:])])
        self.same(name + ": the interval of its stretches", self.pages.read("interval"), interval(texts) + "\n")
        self.same(name + ": premise", b.js("document.getElementById('premise').className"), "" if starts else "bad")
        told = b.js("[...document.querySelectorAll('td.f')].map(e => +(/([\\d,]+) frames/.exec(e.textContent) || [0, '1'])[1].replace(/,/g, ''))")
        self.same(name + ": table", told, reasons(texts)[:200])
        self.same(name + ": faults", b.js(FAULTS), "")
        for width in (1280, 400):
            b.size(width, 900 if width == 1280 else 800)
            b.settle()
            self.same("%s: width at %d" % (name, width), b.js("document.documentElement.scrollWidth"), width)
            if width == 400:
                self.same(name + ": the chart begins in the upper third at 400",
                          b.js("document.getElementById('chart').getBoundingClientRect().top < 267"), True)
            for dark in (False, True) if self.pictures else ():
                b.media(dark=dark)
                b.settle(100)
                self.picture("%s-%d%s" % (name, width, "-dark" if dark else ""))
            b.media()
        b.size(1280)

    def painted(self, name, texts):
        """The picture itself: the colour of each line in the middle of each packet, of each spoiled row, and what is found at each frame's end."""
        b = self.browser
        self.open(name, texts)
        names = ("norm", "eos", "add", "fail", "packet")
        hexes = b.js("(s => %s.map(n => s.getPropertyValue('--' + n).trim()))(getComputedStyle(document.documentElement))" % json.dumps(names))
        colours = dict(zip(names, hexes))
        wanted = [[lane, tick, down, colours[colour]] for lane, tick, down, colour in points(texts)]
        found = b.js("""%s.map(([lane, tick, down, wanted]) => {
            const { lay, X } = Life.page, l = typeof lane === 'number' ? lay.lines[lane] : lay.lane(lane);
            const [r, g, b] = document.getElementById('plot').getContext('2d').getImageData(Math.floor(X(tick)), Math.floor(l.y + down), 1, 1).data;
            return [lane, tick, down, '#' + [r, g, b].map(n => n.toString(16).padStart(2, '0')).join('')]; })""" % json.dumps(wanted))
        self.same(name + ": points of the picture", len(wanted) > 100, True)
        self.same(name + ": colours", [pair for pair in zip(found, wanted) if not near(pair[0][3], pair[1][3])], [])
        ends = [words for words in (line.split(" ") for line in texts["fates"].decode().splitlines()) if words[0] == "frame" and len(words) > 6]
        told = b.js("""%s.map(([item, row]) => { const l = Life.page.lay.lane('frames');
            return Life.words.held(Life.page.model, Life.page.at(Life.page.X(row + 0.5), l.y + l.h - 9)).slice(3).split('.')[0]; })"""
                    % json.dumps([[int(words[1]), int(words[5])] for words in ends]))
        self.same(name + ": what is at each frame's end", told, ["Frame %s: %s" % (words[1], words[4]) for words in ends])

    def service(self, name, texts):
        """The picture of service: bars of outages, the stair, what was got and lost, and the queue, where the texts have them; and words of what is
        pointed at."""
        b = self.browser
        self.open(name, texts)
        low, high = b.js("['capacity', 'queue'].map(kind => Life.page.lay.lane(kind).h)")
        hexes = b.js("""(s => Object.fromEntries(['ink', 'got', 'cut', 'waits', 'refused'].map(n => [n, s.getPropertyValue('--' + n).trim()])))
            (getComputedStyle(document.documentElement))""")
        wanted = [[lane, tick, down, hexes[colour]] for lane, tick, down, colour in heights(texts, low, high)]
        found = b.js("""%s.map(([kind, tick, down]) => { const { lay, X } = Life.page;
            const [r, g, b] = document.getElementById('plot').getContext('2d').getImageData(Math.floor(X(tick)), lay.lane(kind).y + down, 1, 1).data;
            return [kind, tick, down, '#' + [r, g, b].map(n => n.toString(16).padStart(2, '0')).join('')]; })""" % json.dumps(wanted))
        self.same(name + ": points of service", len(wanted) > 10, True)
        self.same(name + ": colours of service", [pair for pair in zip(found, wanted) if not near(pair[0][3], pair[1][3])], [])

    def costs(self, texts):
        """What is said of an outage and of a stretch that are pointed at, held or gone to."""
        b = self.browser
        self.open("costs", texts)
        detail = "document.getElementById('detail').textContent"
        b.mouse("Moved", *self.place(1040, "outages", "l.h - 3"))
        self.same("an outage", b.js(detail),
                  "Outage of 40 rows, 5 ms: 4 frames, 256 octets lost. Rows 1,024\u20131,063 are all spoiled. It begins as a container of line 1, an "
                  "active member, is damaged or not yet locked. Traffic is whole again from row 1,064 (133 ms) on.")
        b.mouse("Moved", *self.place(1025, "capacity", "l.h / 2"))
        self.same("a stretch", b.js(detail),
                  "Ticks 1,024\u20131,031: got none. Lost: 2 frames, 128 octets. Offered: 2 frames, 128 octets. Refused: none. There was room for "
                  "37,440 octets, 299.52 Mbit/s. At most 1 frame waited, first in tick 1,024. 8 of its rows are in an outage. In rows "
                  "296\u20131,063 2 members carry 4,680 octets a row.")
        b.click(*self.place(906, "queue", "l.h / 2"))
        b.settle()
        self.same("a stretch is held", b.js("location.hash")[:16], "#hold=stretch.90")
        self.same("and has what was got", b.js("document.querySelector('#detail b').textContent"), "Ticks 904\u2013911: got none.")
        self.picture("stretch-1280")
        self.open("costs", texts, "#hold=line.1.1024")
        b.key("n")
        b.settle()
        self.same("an outage is a mark", b.js("Life.page.hold"), "outage.1024")
        self.picture("outage-1280")

    def threads(self, texts):
        """Threads lean if and only if their frames waited: frame 8 lies in six rows and didn't wait, frame 9 waited ten ticks, frame 10 didn't."""
        b = self.browser
        fates = texts["fates"].replace(b"got 1300 1300", b"got 1300 1305").replace(b"got 1500 1500", b"got 1510 1512")
        self.open("threads", {**texts, "fates": fates}, "#at=1280-1620")
        found = b.js("""[[8, 1300, 1300], [9, 1500, 1510], [10, 1600, 1600]].map(([item, due, row]) => {
            const { lay, X, places } = Life.page, l = lay.lane('frames'), q = places.get(item), g = document.getElementById('plot').getContext('2d');
            const painted = [0.2, 0.5, 0.8].every(part => { const x = X(due + 0.5 + (row - due) * part), y = l.y + 9 + (l.h - 18) * part;
                return g.getImageData(Math.floor(x) - 1, Math.floor(y), 3, 1).data.some((n, i) => i % 4 === 0 && n < 128); });
            return [item, q.out - q.due > 10, q.out === q.due, painted]; })""")
        self.same("leaning threads", found, [[8, False, True, True], [9, True, False, True], [10, False, True, True]])
        told = b.js("Life.words.held(Life.page.model, 'frame.9')")
        self.same("a wait is of ticks", "carried in rows 1,510\u20131,512 after waiting 10 ticks." in told, True)
        self.picture("threads-1280")

    def terms(self, texts):
        """A tick is called a tick, and a frame is one of Ethernet or GFP: beside the lanes, and in what is said of a line and of a step."""
        b = self.browser
        self.open("terms", texts)
        said = b.js("""(text => { const all = [], fill = text.fillText;
            text.fillText = function (word, ...place) { all.push(word); fill.call(this, word, ...place); };
            Life.page.draw(); text.fillText = fill; return all; })(CanvasRenderingContext2D.prototype)""")
        self.same("names of the lanes", [word for word in said if re.search("tick|frame|due|first", word)],
                  ["tick", "due", "frames", "first row", "40 rows, 4 frames lost"])
        line, step = b.js("['line.1.1100', 'back.65'].map(what => Life.words.held(Life.page.model, what).replace(/<[^>]*>/g, ''))")
        self.same("a line", line, "Line 1 at tick 1,100: dnu, sequence number 1. In ticks 1,064\u20131,319 (packets 65\u201380) it is a "
                  "member out of use, since the sink said that it fails. It has no delay. ")
        self.same("a step", step.split(") ")[0], "Step of packet 65 (for rows 1,064\u20131,079")

    def options(self, texts):
        """Options are lines of a script, and with 32 return packets for all statuses packet 16 tells those from sequence number 128 on."""
        self.open("options", texts)
        self.same("options have no fault", self.browser.js(FAULTS), "")
        step = self.browser.js("Life.words.held(Life.page.model, 'back.17').replace(/<[^>]*>/g, '')")
        self.same("a step with options", "was told status ff of sequence numbers 128 to 135," in step, True)

    # ---- Keys, pointer, fingers, fragment: over failed_member ----

    def keys(self, texts):
        b = self.browser
        self.open("keys", texts)
        whole = b.js(RANGE)
        b.key("+")
        b.settle()
        self.same("zoom by key", b.js(RANGE), "Ticks 425\u20131,274")
        b.key("ArrowRight")
        b.settle()
        fragment, place = b.js("location.hash"), b.js(RANGE)
        self.same("fragment", bool(re.fullmatch(r"#at=\d+-\d+", fragment)), True)
        self.open("keys", texts, fragment)
        self.same("the fragment keeps the place", b.js(RANGE), place)
        b.key("0")
        b.settle()
        self.same("all by key", (b.js(RANGE), b.js("location.hash")), (whole, ""))
        b.key("n")
        b.settle()
        self.same("the next mark is held", (b.js(HELD), b.js("Life.page.hold")), (True, "command.0"))
        fragment = b.js("location.hash")
        self.open("keys", texts, fragment)
        self.same("the fragment keeps what is held", b.js("Life.page.hold"), "command.0")
        b.key("Escape")
        b.settle()
        self.same("let go", b.js(HELD), False)
        for hold in ("line.-1.5", "line.1.-5", "row.-1", "line.1", "frame.x"):
            self.open("keys", texts, "#hold=" + hold)
            self.same("a fragment of nothing, " + hold, (b.js("Life.page.hold"), b.js(FAULTS)), (None, ""))
        rows = b.js("[...document.querySelectorAll('tbody tr')].map(e => [0, 1, 4, 5].map(n => e.cells[n].textContent))")
        self.same("neighbours of one reason are one row", rows,
                  [["4\u20136", "1,024\u20131,060", "1,024\u20131,060", "cut, 3 frames"], ["7", "1,100", "1,100", "unsettled"]])
        for part in ("Rows 1,024\u20131,031 are spoiled: a container of line 1,", "Rows 1,032\u20131,063 are spoiled: the control packet of line 1,"):
            self.same("with all causes", part in b.js("document.querySelector('td.w').textContent"), True)
        b.js("document.querySelector('tbody a').click()")
        b.settle()
        self.same("a link of the table holds", b.js("document.querySelector('#detail b').textContent"), "Frame 4: cut.")
        marked = "[...document.querySelectorAll('tr.held')].map(e => e.rowIndex).join()"
        self.same("and marks its row", b.js(marked), "1")
        b.js("Life.page.setHold('frame.6')")
        self.same("as do its neighbours", b.js(marked), "1")
        self.same("and leads there", b.js("Life.page.view.start < 1024 && Life.page.view.end > 1024"), True)
        self.picture("held-1280")

    def place(self, tick, lane, down):
        """The point of the window at a tick and so far down a lane."""
        return self.browser.js("""(r => [r.left + Life.page.X(%d), r.top + (l => l.y + %s)(Life.page.lay.lane('%s'))])
            (document.getElementById('stack').getBoundingClientRect())""" % (tick, down, lane))

    def pointer(self, texts):
        b = self.browser
        self.open("pointer", texts)
        x, y = self.place(1100, "frames", "l.h - 9")
        b.mouse("Moved", x, y)
        self.same("pointing tells", b.js("document.querySelector('#detail b').textContent"), "Frame 7: unsettled.")
        self.same("and holds nothing", b.js(HELD), False)
        b.click(x, y)
        b.settle()
        self.same("a click holds", b.js("Life.page.hold"), "frame.7")
        b.wheel(x, y, -400)
        b.settle()
        zoomed = b.js("Life.page.span() < 1700"), abs(self.place(1100, "frames", "0")[0] - x) < 1
        self.same("the wheel zooms about the pointer", zoomed, (True, True))
        before = b.js("Life.page.view.start")
        b.mouse("Pressed", x, y, 1)
        for step in range(1, 11):
            b.mouse("Moved", x - 10 * step, y, 1)
        b.mouse("Released", x - 100, y)
        b.settle()
        self.same("a drag moves", b.js("Life.page.view.start") > before, True)
        self.same("and keeps what is held", b.js("Life.page.hold"), "frame.7")

    def fingers(self, texts):
        """Two fingers that part zoom, and the ticks under them stay under them."""
        b = self.browser
        b.size(400, 800, touch=True)
        self.open("fingers", texts)
        (x, y), (x2, _) = self.place(600, "frames", "40"), self.place(1000, "frames", "40")
        b.touch("Start", (x, y), (x2, y))
        for step in range(1, 11):
            b.touch("Move", (x - 6 * step, y), (x2 + 6 * step, y))
        b.touch("End")
        b.settle()
        span = b.js("Life.page.span()")
        self.same("a pinch zooms", round(span / 1700 * (x2 - x + 120) / (x2 - x), 2), 1)
        self.same("about its middle", round(self.place(800, "frames", "0")[0] - (x + x2) / 2), 0)
        self.same("and holds nothing", b.js(HELD), False)
        start = b.js("Life.page.view.start")
        b.touch("Start", (200, y))
        for step in range(1, 11):
            b.touch("Move", (200 - 8 * step, y))
        b.touch("End")
        b.settle()
        self.same("one finger moves", b.js("Life.page.view.start") > start, True)
        b.js("Life.page.all()")
        b.settle()
        x, y = self.place(1100, "frames", "40")
        b.touch("Start", (x, y))
        b.touch("End")
        b.settle()
        self.same("a tap holds", b.js("Life.page.hold"), "frame.7")
        self.picture("held-400")
        b.size(1280)

    # ---- Dark, print, readers of screens ----

    def media(self, texts):
        b = self.browser
        self.open("media", texts)
        ground = """[...document.getElementById('plot').getContext('2d').getImageData(4, 4, 1, 1).data,
            getComputedStyle(document.body).color].join()"""
        light = b.js(ground)
        b.media(dark=True)
        b.settle()
        dark = b.js(ground)
        b.media("print", dark=True)
        b.settle()
        printed = b.js(ground)
        self.same("the layer above isn't printed", b.js("getComputedStyle(document.getElementById('marks')).display"), "none")
        b.media()
        b.settle()
        self.same("dark is another ground", light != dark, True)
        self.same("print is light", printed, light)
        data = base64.b64decode(b.call("Page.printToPDF", printBackground=True)["data"])
        self.same("it prints", data[:5], b"%PDF-")
        if self.pictures:
            with open(os.path.join(self.pictures, "print.pdf"), "wb") as out:
                out.write(data)

    def spoken(self, texts):
        """What a reader of screens is told: names of all that can be used, the picture's content, and all of it in words."""
        b = self.browser
        self.open("spoken", texts)
        b.settle()
        tree = b.call("Accessibility.getFullAXTree")["nodes"]
        names = {}
        for node in tree:
            if not node.get("ignored"):
                names.setdefault(node["role"]["value"], []).append(node.get("name", {}).get("value", ""))
        self.same("each button has a name", [name for name in names["button"] if len(name) < 3], [])
        seen = [name[:39] for name in names["image"]]
        self.same("the picture has its content as its name", "Ticks 0 to 1,699. Frames: 5 got, 3 cut," in seen, True)
        self.same("the table is one", len(names["table"]), 1)
        b.key("+")
        b.settle(500)
        self.same("a new place is said", b.js("document.getElementById('said').textContent").startswith("Ticks 425 to 1,274. Frames:"), True)
        b.js("document.getElementById('spoken').open = true")
        b.settle()
        words = b.js("document.getElementById('words').textContent")
        for part in ("dnu: a member out of use, since the sink said that it fails", "Line 1, delay 0: idle in ticks 24\u201339",
                     "dnu 1 in ticks 1,064\u20131,319", "Damaged containers: 1,024\u20131,047",
                     "Rows 1,024\u20131,031 are spoiled: a container of line 1", "a GFP frame's start was found in row 1,064", "Item 1: add line 1",
                     "Outage of 40 rows, 5 ms: 4 frames, 256 octets lost.", "In rows 1,064\u20131,319 1 member carries 2,340 octets a row."):
            self.same("in words: " + part, part in words, True)

    # ---- Texts that end an element, that aren't whole, that are of another script, that are dropped ----

    def escaped(self, texts):
        b = self.browser
        comment = b"# </script><b id=bold>a</b> & &lt; <!-- \\x3c \\\\ \\n a\rframe\n"
        notes, status = self.open("a <b> & \\x3c \\n", {**texts, "script": comment + texts["script"]})
        self.same("view of a text like a page", (notes, status), ("", 0))
        wanted = "</script><b id=bold>a</b> & &lt; <!-- \\x3c \\\\ \\n a\rframe"
        self.same("a comment", b.js("document.getElementById('lede').textContent")[:len(wanted)], wanted)
        self.same("no element comes of it", b.js("document.getElementById('bold')"), None)
        self.same("a name", b.js("document.getElementById('name').textContent"), "a <b> & \\x3c \\n")
        self.same("the page loads nothing", b.js(LOADS), False)
        self.same("nothing is missing", b.js(FAULTS), "")
        self.open("long", {**texts, "script": b"# " + b"word " * 1000 + b"\n" + texts["script"]})
        self.same("of a long comment what can be read", b.js("document.getElementById('lede').textContent.length"), 2000)

    def told(self, what, texts, wanted, drawn=True, **statuses):
        """A page says what is missing, and draws a picture or none."""
        b = self.browser
        given = self.open("told", texts, **statuses)
        self.same(what + ": is told", wanted in b.js(FAULTS), True)
        self.same(what + ": a picture", b.js("!document.getElementById('stack').hidden"), drawn)
        return given

    def cut(self, texts, other):
        fates, trace, report = texts["fates"], texts["trace"], texts["report"]
        lines = trace.splitlines(True)
        self.told("fates in a line", {**texts, "fates": fates[:200]}, "isn't understood")
        self.told("fates before the last", {**texts, "fates": b"".join(fates.splitlines(True)[:-1])}, "with the totals, is missing")
        self.told("trace in a line", {**texts, "trace": trace[:1000]}, "are missing here")
        self.told("trace between lines", {**texts, "trace": b"".join(lines[:50])}, "ends with packet 49")
        self.told("no trace", {**texts, "trace": b""}, "text of trace is missing")
        self.open("trial", {**texts, "trace": b"vcat: this answer is by a trial build\n      VCAT_PROVED=1 ./vcat trace\n" + trace})
        self.same("what ./vcat says of a trial is no fault", self.browser.js(FAULTS), "")
        self.told("no report", {**texts, "report": b""}, "report is missing")
        self.told("report before the last", {**texts, "report": b"refused 0 unknown\n"}, "The last line of the report")
        service = texts["service"]
        self.told("service in a line", {**texts, "service": service[:200]}, "of service isn't understood")
        self.told("service before the last", {**texts, "service": b"".join(service.splitlines(True)[:-1])}, "The last line of service")
        self.told("service of another script", {**texts, "service": other["service"]}, "aren't of one script")
        self.told("no script", {**texts, "script": b"\n"}, "text of the script is missing", False)
        self.told("fates of another script", {**texts, "fates": other["fates"]}, "aren't of one script")
        self.told("report of another script", {**texts, "report": other["report"]}, "aren't of one script")
        self.told("lines of another script", {**texts, "script": texts["script"].replace(b"lines 2", b"lines 3")}, "isn't that of packet 0")
        bad = fates.replace(b"true 1064", b"false 1064").replace(b"starts true", b"starts false")
        self.open("false_start", {**texts, "fates": bad})
        premise = "document.getElementById('premise')"
        self.same("a false start is red", self.browser.js(premise + ".className"), "bad")
        self.same("a false start is told", "in row 1,064 the receiver took" in self.browser.js(premise + ".textContent"), True)
        for width, kind in ((1280, "false_start-1280"), (400, "false_start-400")):
            self.browser.size(width, 800)
            self.browser.settle()
            self.picture(kind)
        self.browser.size(1280)
        self.same("what trace said is left in its place", report.startswith(b"got ") and lines[0].startswith(b"packet 0 "), True)

    def without_fates(self, texts):
        b = self.browser
        notes, status = self.told("no command fates", {**texts, "fates": None}, "The fates are missing")
        self.same("no command fates", ("has no command fates" in notes, status), (True, 0))
        drawn, wanted = json.loads(b.js("document.getElementById('plot').dataset.drawn")), expected(texts)
        for key in ("cells", "fails", "commands"):
            self.same("without fates: " + key, drawn[key], wanted[key])
        self.same("frames without a fate", drawn["frames"], {"untold": 9})
        self.picture("no_fates-1280")
        _, status = self.told("fates that fail", {**texts, "fates": b""}, "The fates are missing", fates_status=7)
        self.same("fates that fail: status", status, 7)

    def without_service(self, texts):
        b = self.browser
        notes, status = self.told("no command service", {**texts, "service": None}, "The text of service is missing")
        self.same("no command service", ("has no command service" in notes, status), (True, 0))
        drawn, wanted = json.loads(b.js("document.getElementById('plot').dataset.drawn")), expected(texts)
        for key in ("cells", "fails", "commands", "frames", "spoiled"):
            self.same("without service: " + key, drawn[key], wanted[key])
        self.same("without service: lanes", b.js("['outages', 'capacity', 'queue'].map(kind => Life.page.lay.lane(kind))"), [None] * 3)
        _, status = self.told("service that fails", {**texts, "service": b""}, "The text of service is missing", service_status=7)
        self.same("service that fails: status", status, 7)

    def refused(self, texts):
        """A script that is refused has a page with the note; where there is no trace for another reason there is no page."""
        b, line = self.browser, texts["script"].count(b"\n") + 1
        script, note = texts["script"] + b"Add 0 0\n", b"fault: line %d: word\n" % line
        notes, status = self.told("a fault", {**texts, "script": script, "trace": note}, note.decode().strip(), False, trace_status=5)
        self.same("a fault: view", (notes, status), ("%svcat: line %d is: Add 0 0\n" % (note.decode(), line), 5))
        self.same("a fault: the line is shown", "is \u201cAdd 0 0\u201d" in b.js(FAULTS), True)
        self.picture("fault-1280")
        for number in ("x", "-1", "1.5", "30000000", "99999999999"):
            self.told("lines " + number, {**texts, "script": b"lines %s\n" % number.encode(), "trace": b"fault: line 1: number\n"},
                      "Line 1 is \u201clines %s\u201d." % number, False, trace_status=5)
        path, _, status = self.pages.make("long", {**texts, "trace": b"fault: too long\n"}, trace_status=8)
        self.same("no page", (os.path.getsize(path), status), (0, 8))
        for lines, told in ((b"ticks 28800000\n", "28800000 ticks and 9 frames"), (b"stream 64,9600 1 0 9 1\nstream 64 400000 0 6 1\n", "1700 ticks and 585949 frames")):
            path, notes, status = self.pages.make("long", {**texts, "script": texts["script"] + lines})
            self.same("too long", (os.path.getsize(path), status, told in notes), (0, 126, True))

    def drop(self, texts):
        """Drops files on the page: their names with their texts."""
        self.browser.js("""(() => { const data = new DataTransfer(); for (const [name, text] of %s) data.items.add(new File([text], name));
            document.dispatchEvent(new DragEvent('drop', { dataTransfer: data, cancelable: true, bubbles: true })); })()"""
                        % json.dumps([[name, text.decode()] for name, text in texts.items()]))
        self.browser.settle()

    def dropped(self, texts):
        """view/life.html itself takes dropped texts, in any order."""
        b = self.browser
        b.open(os.path.join(TOP, "view/life.html"))
        self.same("a page without texts says so", b.js("!document.getElementById('empty').hidden && document.getElementById('stack').hidden"), True)
        names = {"fates": "a.txt", "script": "failed_member.vcat", "report": "b.txt", "trace": "c.txt", "service": "d.txt"}
        self.drop({names[kind]: texts[kind] for kind in names})
        drawn, wanted = json.loads(b.js("document.getElementById('plot').dataset.drawn")), expected(texts)
        self.same("dropped", [drawn["cells"], drawn["frames"], drawn["service"], b.js("document.getElementById('name').textContent"), b.js(FAULTS)],
                  [wanted["cells"], wanted["frames"], wanted["service"], "failed_member", ""])
        self.same("nor does it load anything", b.js(LOADS), False)
        self.drop({"note.txt": b"nothing of a walk"})
        self.same("an unknown text is told", "Not one of the texts: note.txt" in b.js(FAULTS), True)
        self.drop({"many.vcat": b"lines 30000000\nticks 30000000\n"})
        self.same("a number of lines that there can't be", b.js("!document.getElementById('empty').hidden"), True)

    def markup(self, texts):
        """No text that is dropped becomes elements: what the program doesn't write isn't read, and is told."""
        b, image = self.browser, b"<img\tsrc=x\tonerror=document.title='run'>"
        b.open(os.path.join(TOP, "view/life.html"))
        total = texts["report"].splitlines()[-1]
        for what, changed in (("a cell", {"trace": texts["trace"].replace(b" norm:0 ", b" %s:0 " % image)}),
                              ("a return packet", {"trace": texts["trace"].replace(b" ff/0 ", b" 00/%s " % image)}),
                              ("a refusal", {"fates": b"", "report": b"refused 2 %s\n%s\n" % (image, total)})):
            self.drop({**texts, **changed})
            b.js("document.getElementById('spoken').open = true")
            b.js("['back.60', 'line.0.1000', 'frame.2'].forEach(Life.page.setHold)")
            b.settle()
            self.same(what + " with HTML", (b.js("document.images.length"), b.js("document.title")), (0, "script \u2013 life of a group"))
            self.same(what + " with HTML is told", "Line " in b.js(FAULTS), True)

    def pair(self, program):
        """A page of a pair has both ways, each as its own script has it, and a link to the other, which a keyboard reaches; the place stays."""
        b, texts = self.browser, {}
        with open(os.path.join(TOP, "examples/pair_failure.vcat"), "rb") as script:
            pair = script.read()
        for way in ("there", "back"):
            done = subprocess.run([program, "pair", way], input=pair, capture_output=True)
            texts[way] = walked(program, done.stdout)
        path, notes, status = self.pages.of_program("pair", program, pair)
        self.same("a pair: view", (notes, status), ("", 0))
        b.open(path, "#at=100-200")

        def shown():
            b.settle()
            drawn = json.loads(b.js("document.getElementById('plot').dataset.drawn"))
            current = b.js("document.querySelector('#ways [aria-current]').textContent")
            return b.js("document.getElementById('name').textContent"), current, b.js(RANGE), b.js(FAULTS), drawn["fails"] + drawn["lost"]
        place = "Ticks 100\u2013199"
        self.same("a pair: the way there", shown(), ("pair: there", "There", place, "", 0))
        links = [node for node in b.call("Accessibility.getFullAXTree")["nodes"] if node.get("role", {}).get("value") == "navigation"]
        self.same("a pair: the links have a name", [node["name"]["value"] for node in links], ["Ways of the pair"])
        b.js("document.querySelector('#ways a:not([aria-current])').focus()")
        b.key("Enter")
        self.same("a pair: the way back", shown(), ("pair: back", "Back", place, "", 0))
        self.same("a pair: the fragment has the way", b.js("location.hash"), "#way=back&at=100-200")
        b.settle(500)
        self.same("a pair: what is said", b.js("document.getElementById('said').textContent")[:17], "Back. Ticks 100 t")
        b.key("0")
        self.same("a pair: its failure", shown()[2:], ("Ticks 0\u2013312", "", 1))
        self.picture("pair-1280")
        for way in ("there", "back"):
            b.open(path, "#way=" + way)
            b.settle()
            drawn, wanted = json.loads(b.js("document.getElementById('plot').dataset.drawn")), expected(texts[way])
            for key in wanted:
                self.same("a pair: %s: %s" % (way, key), drawn[key], wanted[key])
        b.size(400, 800)
        b.settle()
        self.same("a pair: the chart begins in the upper third at 400", b.js("document.getElementById('chart').getBoundingClientRect().top < 267"), True)
        b.size(1280)
        path, _, status = self.pages.of_program("pair", program, pair.replace(b"lag 1", b"lag 2", 1))
        b.open(path)
        told = "fault: pair lag 2 1" in b.js(FAULTS), b.js("document.getElementById('ways').hidden")
        self.same("a pair that is refused", (status, told), (6, (True, True)))

    # ---- How long it takes ----

    def speed(self, name, texts):
        b = self.browser
        path = self.pages.make(name, texts)[0]
        began = time.time()
        b.open(path)
        opened = time.time() - began
        times = b.js("""new Promise(done => { const page = Life.page, N = page.model.ticks, spans = [N, N / 4, 400, 64]; let i = 0;
            page.times.length = 0;
            const go = () => {
                if (i === 240) {
                    const t = page.times.slice().sort((a, b) => a - b);
                    done([t[t.length >> 1], t[Math.floor(t.length * .95)], t[t.length - 1]]);
                    return;
                }
                const wide = spans[Math.floor(i / 60)], start = (N - wide) * (i % 60) / 60;
                i++; page.look(start, start + wide); requestAnimationFrame(go); };
            requestAnimationFrame(go); })""")
        print("page: %s opened in %.2f s; a drawing took %.1f ms at the median, %.1f in 95 of 100, %.1f at worst" % (name, opened, *times))
        b.js("Life.page.all()")
        b.settle()
        self.same(name + ": all of it stands in one window", b.js("document.getElementById('chart').getBoundingClientRect().bottom") <= 900, True)
        b.key("l")
        b.settle()
        self.same(name + ": tall lanes can be read", b.js("Life.page.lay.laneHeight >= 13"), True)
        b.key("l")
        b.settle()


def run(tests, program):
    texts = {}
    for name in EXAMPLES:
        with open(os.path.join(TOP, "examples", name + ".vcat"), "rb") as script:
            texts[name] = walked(program, script.read())
    if texts["failed_member"]["fates"] is None:
        print("page: the program has no command fates, so that what pages say of frames can't be seen", file=sys.stderr)
        return False
    for name in EXAMPLES:
        tests.counts(name, texts[name])
    example = texts["failed_member"]
    tests.painted("failed_member", example)
    texts["client"] = walked(program, at_a_rate(example["script"]))
    tests.counts("client", texts["client"])
    for name in ("failed_member", "slip", "queue", "client"):
        tests.service(name, texts[name])
    for test in (tests.costs, tests.threads, tests.terms, tests.keys, tests.pointer, tests.fingers, tests.media, tests.spoken, tests.escaped,
                 tests.without_fates, tests.without_service, tests.refused, tests.dropped, tests.markup):
        test(example)
    tests.options(texts["statuses"])
    tests.pair(program)
    tests.cut(example, texts["slip"])
    for name, large in (("made", made()), ("bursts", walked(program, bursts()))):
        tests.counts(name, large)
        tests.speed(name, large)
    tests.same("what the pages threw", tests.browser.errors(), [])
    return not tests.failed


def main():
    program, pictures = sys.argv[1], sys.argv[2] if len(sys.argv) > 2 else None
    if pictures:
        os.makedirs(pictures, exist_ok=True)
    try:
        browser = Browser()
    except NoBrowser as reason:
        print("page: no page was seen: %s" % reason, file=sys.stderr)
        return 1
    with tempfile.TemporaryDirectory() as folder:
        tests = Tests(browser, Pages(TOP, os.path.join(folder, "pages")), pictures)
        well = run(tests, os.path.abspath(program))
        browser.close()
    if well and tests.made < 100:
        print("page: only %d comparisons were made" % tests.made, file=sys.stderr)
        well = False
    return 0 if well else 1


if __name__ == "__main__":
    sys.exit(main())
