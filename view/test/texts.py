"""Texts of walks, what a page has to show of them, and pages of them: by ./vcat view over a program that hands out given texts."""
import bisect
import os
import random
import re
import shutil
import subprocess

KINDS = ("trace", "fates", "service", "report")
FATES = ("got", "cut", "hunting", "unsettled", "unconfirmed")


def walked(program, script):
    """The texts that a program writes of a script, with the script; a text that it has no command for is None."""
    def run(*words):
        done = subprocess.run([program, *words], input=script, capture_output=True)
        return done.returncode, done.stdout, done.stderr
    _, report, trace = run("trace")
    texts = {"script": script, "trace": trace, "report": report}
    for word, *more in (("fates",), ("service", interval(texts))):
        status, text, _ = run(word, *more)
        texts[word] = None if status == 2 else text
    return texts


def interval(texts):
    """How many ticks a stretch of the page has."""
    return str(max(1, int(texts["report"].split()[-11]) // 200))


def expected(texts):
    """The counts of what a page draws of a whole session, from the texts."""
    counts = {"cells": {}, "spoiled": 0, "frames": {}, "commands": 0, "lost": 0, "fails": 0}
    ticks = 0
    for line in texts["script"].decode("latin-1").splitlines():
        words = line[:80].split()
        if words[:1] == ["ticks"]:
            ticks = int(words[1])
        counts["fails"] += words[:1] == ["fail"]
        counts["commands"] += words[:1] in (["add"], ["remove"])
    for line in texts["trace"].decode().splitlines():
        words = line.split(" ")
        if 16 * int(words[1]) + 24 >= ticks:
            continue
        counts["lost"] += words[7] == "lost"
        for cell in words[8:]:
            code = cell.split(":")[0]
            counts["cells"][code] = counts["cells"].get(code, 0) + 1
    for line in (texts["fates"] or b"").decode().splitlines():
        words = line.split(" ")
        if words[0] == "spoiled":
            counts["spoiled"] += int(words[2]) - int(words[1])
        if words[0] == "frame":
            counts["frames"][words[4]] = counts["frames"].get(words[4], 0) + 1
    served = [line.split(" ") for line in texts["service"].decode().splitlines()]
    counts["service"] = {kind: sum(words[0] == word for words in served)
                         for kind, word in (("members", "members"), ("outages", "outage"), ("stretches", "stretch"))}
    counts["service"].update({name: int(served[-1][place]) for name, place in (("got", 11), ("lost", 14), ("queue", 18))})
    return counts


def head(texts):
    """What stands at the head of a page of the queue and of delays."""
    served = [line.split(" ") for line in texts["service"].decode().splitlines()]
    return [[int(word) for word in served[-1][18:20]], [int(word) for word in served[-2][2::2]]]


def totals(texts):
    """The numbers at the head of a page by the last line of the fates, and whether the premise held."""
    words = texts["fates"].decode().splitlines()[-1].split(" ")
    return dict(zip(("Ticks", "Rows", "Frames", "Got", "Lost", "Waits", "Refused"), map(int, words[2:15:2]))), words[-1] == "true"


def reasons(texts):
    """Of each row of a page's table how many frames or commands it tells of, in order: neighbouring frames of one fate that one break cut, that lie
    in one segment, or that were refused for one reason, are one row."""
    lines = [line.split(" ") for line in texts["fates"].decode().splitlines()]
    runs = {kind: [(int(words[1]), int(words[2]), words[4:]) for words in lines if words[0] == kind] for kind in ("spoiled", "segment")}
    breaks = []
    for first, end, _ in runs["spoiled"]:
        if breaks and breaks[-1][1] == first:
            first = breaks.pop()[0]
        breaks.append((first, end, None))
    at_break, at_segment = look_up(breaks), look_up(runs["segment"])
    rows, before = [], None
    for words in lines:
        if words[0] != "frame":
            continue
        fate, reason = words[4], None
        if fate == "cut":
            reason = at_break(int(words[7])) or words[7]
        elif fate == "refused":
            reason = words[5:]
        elif fate not in ("got", "waits"):
            reason = at_segment(int(words[5]))
        reason = None if fate in ("got", "waits") else (fate, reason)
        if reason and reason == before:
            rows[-1][1] += 1
        elif reason:
            rows.append([int(words[1]), 1])
        before = reason
    commands = re.findall(r"^refused (\d+) (?:unknown|already in|not in|pending)$", texts["report"].decode(), re.M)
    return [count for _, count in sorted(rows + [[int(item), 1] for item in commands])]


def look_up(runs):
    """Of runs in order, a look-up of the one that holds a row, or None."""
    starts = [first for first, _, _ in runs]

    def at(row):
        i = bisect.bisect_right(starts, row) - 1
        return runs[i] if i >= 0 and row < runs[i][1] else None
    return at


def points(texts):
    """Points of a picture that have one colour, by the texts: (lane, tick, how far down it, the colour's name). In the middle of each packet a line
    that isn't damaged has that of its state, and a spoiled row has its cause's at its upper edge."""
    fails, found = {}, []
    for line in texts["script"].decode("latin-1").splitlines():
        words = line[:80].split()
        if words[:1] == ["fail"]:
            fails.setdefault(int(words[1]), []).append((int(words[2]), int(words[3])))
    ticks = totals(texts)[0]["Ticks"]
    for line in texts["trace"].decode().splitlines():
        words = line.split(" ")
        tick = 16 * int(words[1]) + 32
        for number, cell in enumerate(words[8:]):
            damaged = any(first - 8 < tick < end + 8 for first, end in fails.get(number, ()))
            code = cell.split(":")[0]
            if tick < ticks and not damaged and code in ("norm", "eos", "add"):
                found.append((number, tick, 3, code))
    for line in texts["fates"].decode().splitlines():
        words = line.split(" ")
        if words[0] == "spoiled":
            found.append(("rows", (int(words[1]) + int(words[2])) / 2, 0, "fail" if words[3] == "container" else "packet"))
    return found


def heights(texts, capacity, queue):
    """Points of the lanes of service that have one colour, by the texts and by where the two lanes begin and how high they are: (the lane, a tick,
    how far down it, the colour's name). In the middle of each run of members is the stair, and in that of each stretch the upper edge of what was
    got, of what was lost above it, and of the queue."""
    served = [line.split(" ") for line in texts["service"].decode().splitlines()]
    runs = [(int(words[1]), int(words[2]), int(words[4])) for words in served if words[0] == "members"]
    stretches = [[int(word) for word in words if word.isdigit()] for words in served if words[0] == "stretch"]
    most = max([octets for _, _, octets in runs] + [(words[7] + words[9]) / (words[1] - words[0]) for words in stretches] + [1])
    found, stairs = [], look_up(runs)

    def up(value, scale):
        return max(2, int(value * scale + 0.5)) if value else 0

    def stair(octets):
        return int(capacity - max(octets * ((capacity - 2) / most), 1))
    for first, end, octets in runs:
        if end - first > 8:
            found.append(("capacity", (first + end) / 2, stair(octets), "ink"))
    for words in stretches:
        first, end, ticks = words[0], words[1], words[1] - words[0]
        got, lost = (up(words[place] / ticks, (capacity - 2) / most) for place in (7, 9))
        over = [stair(run[2]) for run in map(stairs, range(first, end)) if run]
        for high, is_there, colour in ((got, got, "got"), (got + lost, lost, "cut")):
            if is_there and all(abs(capacity - high - at) > 2 for at in over):
                found.append(("capacity", (first + end) / 2, capacity - high, colour))
        waits = up(words[11], (queue - 2) / 256)
        if waits and waits < queue - 3:
            found.append(("queue", (first + end) / 2, queue - waits, "waits"))
        elif words[11] == 256:
            found.append(("queue", (first + end) / 2, queue - waits + 1, "refused"))
    for words in served:
        if words[0] == "outage":
            found.append(("outages", (int(words[1]) + int(words[2])) / 2, 12, "ink"))
    return found


class Pages:
    """Makes pages by a copy of ./vcat and view/ whose program hands out texts that are given it."""

    def __init__(self, top, folder):
        self.top, self.folder = top, folder
        self.program = os.path.join(folder, "crates/vcat_walk/out/vcat_walk")
        os.makedirs(os.path.dirname(self.program))
        for name in ("vcat", "crates.txt"):
            shutil.copy(os.path.join(top, name), folder)
        shutil.copytree(os.path.join(top, "view"), os.path.join(folder, "view"))

    def write(self, name, data):
        with open(os.path.join(self.folder, name), "wb") as out:
            out.write(data)

    def read(self, name):
        with open(os.path.join(self.folder, name)) as text:
            return text.read()

    def make(self, name, texts, trace_status=0, fates_status=0, service_status=0):
        """The path of a page of texts, and what ./vcat view said and its status. The interval that was asked for is kept in a file."""
        for kind in KINDS:
            self.write(kind, texts[kind] or b"")
        self.write("crates/vcat_walk/out/vcat_walk", b"""#!/bin/sh
cat > /dev/null
cd "%s" || exit 1
case $1 in
trace) cat report; cat trace >&2; exit %d ;;
fates) cat fates; exit %d ;;
service) echo "$2" > interval; cat service; exit %d ;;
esac
""" % (self.folder.encode(), trace_status, 2 if texts["fates"] is None else fates_status, 2 if texts["service"] is None else service_status))
        os.chmod(self.program, 0o755)
        return self.view(name, texts["script"])

    def of_program(self, name, program, script):
        """The same of what a program answers."""
        self.write("crates/vcat_walk/out/vcat_walk", b'#!/bin/sh\nexec "%s" "$@"\n' % program.encode())
        os.chmod(self.program, 0o755)
        return self.view(name, script)

    def view(self, name, script):
        self.write(name + ".vcat", script)
        path = os.path.join(self.folder, name + ".html")
        with open(path, "wb") as out:
            done = subprocess.run([os.path.join(self.folder, "vcat"), "view", os.path.join(self.folder, name + ".vcat")], stdout=out,
                                  stderr=subprocess.PIPE)
        return path, done.stderr.decode(), done.returncode


def at_a_rate(script):
    """A script with a client that sends at a rate in the place of its frames."""
    return b"".join(line for line in script.splitlines(True) if not line.startswith(b"frame ")) + b"stream 1518,64 100 900 1300 7\n"


def bursts():
    """A script of 128 lines and 8,500 ticks, with bursts of as many frames as may wait."""
    draw = random.Random(1)
    lines = ["lines 128", "delays " + " ".join(str(draw.randrange(41)) for _ in range(128)), "ring 64", "lag 4", "ticks 8500", "fail 3 5600 5672 0"]
    items = [(0, "add 0 %d" % line) for line in range(64)] + [(66 * (line - 63), "add %d %d" % (66 * (line - 63), line)) for line in range(64, 128)]
    for due in range(1000, 8500, 1000):
        for n in range(257):
            items.append((due, "frame %d %s" % (due, "%0128x" % draw.getrandbits(512))))
    items.sort(key=lambda item: item[0])
    return ("\n".join(lines + [text for _, text in items]) + "\n").encode()


def made(lines=128, ticks=100000, frames=50000):
    """Texts of the form of a walk's, drawn from a number: they are as large as a page has to bear, and no program wrote them."""
    draw = random.Random(2)
    packets = -(-(ticks - 8) // 16)
    script = ["lines %d" % lines, "delays " + " ".join(str(draw.randrange(200)) for _ in range(lines)), "ring 256", "lag 16", "ticks %d" % ticks]
    for line in range(lines):
        at = 0
        for _ in range(20):
            at += draw.randrange(1000, 6000)
            if at + 300 < ticks:
                script.append("fail %d %d %d %d" % (line, at, at + draw.randrange(20, 300), draw.choice((0, 0, 5))))
    columns = []
    for line in range(lines):
        cells = []
        while len(cells) < packets:
            code = draw.choice(("norm", "norm", "norm", "dnu", "add", "idle", "eos"))
            cells += [code + ":" + ("255" if code == "idle" else str(draw.randrange(lines)))] * draw.randrange(4, 60)
        columns.append(cells)
    trace = ["packet %d chg %d act %d back %s " % (j, j >> 4 & 1, lines, "lost" if j % 97 == 50 else "ff/%d" % (j >> 4 & 1)) +
             " ".join(column[j] for column in columns) for j in range(packets)]
    commands = [(due, "%s %d %d" % (("add", "remove")[n & 1], due, n % lines)) for n, due in enumerate(range(0, ticks, ticks // 500))]
    clients = [(n * ticks // frames, None) for n in range(frames)]
    return assembled(draw, script, trace, sorted(commands + clients, key=lambda item: item[0]), ticks, frames)


def assembled(draw, script, trace, items, ticks, frames):
    """The made script, trace, fates, service and report of items in order."""
    spoiled = [(row, row + draw.randrange(1, 60)) for row in range(100, ticks - 100, 250)]
    fates = ["spoiled %d %d %s" % (first, end, ("container 3", "packet 7", "packet")[n % 3]) for n, (first, end) in enumerate(spoiled)]
    fates += ["segment %d %d true %d" % (end, start, end) for (_, end), (start, _) in zip(spoiled, spoiled[1:])]
    report, told, got, lost, refused, seen = [], [], 0, 0, 0, 0
    waiting = frames - 100
    for n, (due, text) in enumerate(items):
        if text is not None:
            script.append(text)
            if n % 7 == 0:
                report.append("refused %d not in" % n)
            continue
        script.append("frame %d %s" % (due, "0" * 128))
        fate = "waits" if seen >= waiting else "refused" if seen % 89 == 3 else draw.choice(("got",) * 12 + FATES[1:])
        seen += 1
        if fate == "refused":
            refused += 1
            report.append("refused %d queue" % n)
            fates.append("frame %d due %d refused queue" % (n, due))
            told.append((fate, due, due))
            continue
        row = min(due + 60, ticks - 1)
        told.append((fate, due, row))
        got += fate == "got"
        lost += fate not in ("got", "waits")
        rows = 0 if fate == "waits" else 3 if fate == "cut" else 2
        fates.append("frame %d due %d %s" % (n, due, fate) + " %d" % row * rows)
    waits = frames - got - lost - refused
    numbers = {"t": ticks, "frames": got + lost + waits, "got": got, "lost": lost, "waits": waits, "bad": refused, "all": len(report),
               "commands": len(items) - frames}
    fates.append("fates ticks %(t)d taken %(t)d frames %(frames)d got %(got)d lost %(lost)d waits %(waits)d refused %(bad)d starts true" % numbers)
    report.append("total ticks %(t)d taken %(t)d frames %(frames)d commands %(commands)d refused %(all)d got %(got)d" % numbers)
    named = (("script", script), ("trace", trace), ("fates", fates), ("service", served(draw, ticks, spoiled, told)), ("report", report))
    return {name: ("\n".join(lines) + "\n").encode() for name, lines in named}


def served(draw, ticks, spoiled, frames):
    """A text of service that goes with frames, which are their fates, due ticks and last rows; each is of 64 octets. The members change often."""
    wide, runs, at = ticks // 200, [], 0
    while at < ticks:
        end = min(ticks, at + 16 * draw.randrange(1, 4))
        runs.append((at, end, draw.randrange(96, 129)))
        at = end
    carried = [2340 * count for first, end, count in runs for _ in range(first, end)]
    dark = [0] * ticks
    for first, end in spoiled:
        dark[first:end] = [1] * (end - first)
    counts = {kind: [0] * 200 for kind in ("offered", "refused", "got", "lost")}
    for fate, due, row in frames:
        counts["offered"][due // wide] += 1
        if fate != "waits":
            counts[fate if fate in ("got", "refused") else "lost"][(due if fate == "refused" else row) // wide] += 1
    queue = [(draw.randrange(257), wide * n + draw.randrange(wide)) for n in range(200)]

    def line(word, stretches, first, end, most):
        sums = {kind: sum(counts[kind][n] for n in stretches) for kind in counts}
        told = " ".join("%s %d %d" % (kind, n, 64 * n) for kind, n in sums.items())
        rest = (sum(carried[first:end]), *most, sum(dark[first:end]))
        return "%s %d %d %s" % (word, first, end, told) + " capacity %d queue %d %d delay 60 dark %d" % rest
    text = ["members %d %d %d %d" % (first, end, count, 2340 * count) for first, end, count in runs]
    text += ["outage %d %d spoiled %d lost %d %d container 3" % (first, end, end - first, n % 90, 64 * (n % 90))
             for n, (first, end) in enumerate(spoiled)]
    text += [line("stretch", [n], wide * n, wide * n + wide, queue[n]) for n in range(200)]
    text.append("delays least 0 half 60 most 60 greatest 60")  # without a path, as older programs write it
    waits = sum(fate == "waits" for fate, _, _ in frames)
    fullest = max(queue, key=lambda most: (most[0], -most[1]))
    text.append(line("service", range(200), 0, ticks, fullest) +
                " outages %d waits %d %d ticks %d taken %d starts true" % (len(spoiled), waits, 64 * waits, ticks, ticks))
    return text
