#!/usr/bin/env python3
"""Tries examples/linux/link.py: what ping and iperf3 say of a link between two namespaces, against what the group and `fates` say of its frames.

live_linux.py [--seconds N] [--short]

- All pings come back over a line of 40 ticks, and none is sooner than twice 41 ticks.
- Of the pings over a line that is cut both ways for 50 ms as many are lost as `fates` says of the frames of both ways.
- While UDP goes over two lines and then three, `fates` loses none, and iperf3 none but those that the queue refused.
- A signal ends it by its own status.
Behind each, both namespaces have to be gone, and no FCS may have been wrong. With --short the first three are tried by datagrams of this script's own,
which the other end sends back, in a quarter of a minute; the gate does. The status is 0 where all was right, and 77 where it can't be tried, with a
sentence that says why: that needs root, /dev/net/tun, and Debian's iproute2, and without --short iputils-ping and iperf3. Times go by the clock, so on a
busy machine round trips are longer. The program has to stand: ./vcat builds one if none does."""
import argparse
import pathlib
import re
import select
import shlex
import signal
import socket
import subprocess
import sys
import tempfile
import time

TOP = pathlib.Path(__file__).resolve().parent.parent
LINK = str(TOP / "examples/linux/link.py")
MISSING = 77
ECHO = "10.77.0.2", 7
LEAST_TRIP = 2 * 41 * 0.125  # milliseconds over 40 ticks both ways
COUNTS = re.compile(r"^(there|back): (\d+) frames in, (\d+) out, (.*), (\d+) with a wrong FCS$", re.M)
FATES = re.compile(r"^(there|back): \d+ got, (\d+) wait, (\d+) lost", re.M)


class Wrong(Exception):
    """Something isn't as it has to be."""


def want(holds, what):
    if not holds:
        raise Wrong(what)


def namespaces():
    return {path.name for path in pathlib.Path("/run/netns").glob("vcat-*")}


def run_link(given, *words):
    """What the link printed, once it has ended by itself."""
    done = subprocess.run([sys.executable, LINK, *words], stdout=subprocess.PIPE, stderr=subprocess.PIPE, text=True, timeout=given.seconds)
    if done.returncode == MISSING:
        print(f"live_linux: left out: {done.stderr.strip()}", file=sys.stderr)
        sys.exit(MISSING)
    want(done.returncode == 0, f"the status is {done.returncode}:\n{done.stdout}{done.stderr}")
    return done.stdout


def counts_of(text):
    """Of each way the frames in and out, and how many were refused; none had a wrong FCS."""
    found = {}
    for way, entered, left, refused, wrong in COUNTS.findall(text):
        want(wrong == "0", f"{wrong} frames {way} had a wrong FCS")
        found[way] = int(entered), int(left), sum(map(int, re.findall(r"(\d+) refused", refused)))
    want(len(found) == 2, f"the counts are missing:\n{text}")
    return found


def fates_of(text):
    """The frames that wait and those that are lost, of both ways together."""
    found = FATES.findall(text)
    want(len(found) == 2, f"the fates are missing:\n{text}")
    return sum(int(waits) for _, waits, _ in found), sum(int(lost) for _, _, lost in found)


def pings_of(text):
    """How many pings were sent and came back, and the least and the middle round trip in milliseconds."""
    sent, back = map(int, re.search(r"(\d+) packets transmitted, (\d+) received", text).groups())
    least, mean = map(float, re.search(r"= ([\d.]+)/([\d.]+)/", text).groups())
    return sent, back, least, mean


def ping(given, _):
    text = run_link(given, "--delays", "40", "--neigh", "--run", "ip netns exec $A ping -q -i 0.01 -c 200 -W 5 10.77.0.2")
    sent, back, least, mean = pings_of(text)
    want(sent == back == 200, f"{back} of {sent} pings came back")
    want(least >= LEAST_TRIP, f"a ping came back within {least} ms")
    want(set(counts_of(text).values()) == {(200, 200, 0)}, f"the counts are others:\n{text}")
    return f"{back} of {sent} came back, the least within {least} ms, {mean} in the mean"


def cut(given, folder):
    text = run_link(given, "--delays", "40", "--neigh", "--keep", f"{folder}/cut", "--event", "1:both:cut 0", "--event", "1.05:both:mend 0",
                    "--run", "ip netns exec $A ping -q -i 0.005 -c 500 -W 5 10.77.0.2")
    sent, back, _, _ = pings_of(text)
    waits, lost = fates_of(text)
    counts_of(text)
    want(sent - back == lost > 0 and waits == 0, f"{sent - back} pings are lost, and by fates {lost} frames:\n{text}")
    return f"{sent - back} of {sent} are lost, and by fates {lost} frames"


def addition(given, folder):
    server = "ip netns exec $B iperf3 -s -1 -D > /dev/null; sleep 0.5; "
    client = "ip netns exec $A iperf3 -u -b 2M -l 1000 -t 4 -c 10.77.0.2"
    text = run_link(given, "--lines", "3", "--members", "2", "--delays", "8,20,12", "--neigh", "--hold", "64", "--keep", f"{folder}/add",
                    "--event", "2:both:add 2", "--run", server + client)
    lost, sent = map(int, re.search(r"(\d+)/(\d+) \([\d.e+-]+%\) +receiver", text).groups())
    refused = counts_of(text)["there"][2]
    want(len(re.findall(r"member \d+ 2 norm", text)) == 2, f"line 2 doesn't come into use:\n{text}")
    want(fates_of(text)[1] == 0, f"frames are lost by fates:\n{text}")
    want(lost == refused, f"iperf3 lost {lost} of {sent}, and {refused} were refused:\n{text}")
    return f"{lost} of {sent} datagrams are lost, and {refused} were refused"


def ended(given, _):
    running = subprocess.Popen([sys.executable, LINK, "--run", "ip netns exec $A sleep 60"], stdout=subprocess.PIPE, text=True)
    for line in running.stdout:
        if line.endswith("norm\n"):
            break
    time.sleep(0.5)
    running.send_signal(signal.SIGTERM)
    rest, _ = running.communicate(timeout=given.seconds)
    want(running.returncode == 128 + signal.SIGTERM, f"the status is {running.returncode}")
    counts_of(rest)
    return f"its status is {running.returncode}"


def echo():
    """Sends each datagram back that comes."""
    with socket.socket(socket.AF_INET, socket.SOCK_DGRAM) as end:
        end.bind(ECHO)
        while True:
            end.sendto(*end.recvfrom(65536))


def send(count, gap, octets):
    """Sends datagrams of so many octets, one each `gap` milliseconds, and says how many came back, and the least time in which one did."""
    trips, start = {}, time.monotonic() + 0.01
    with socket.socket(socket.AF_INET, socket.SOCK_DGRAM) as end:
        end.connect(ECHO)
        sent_at = []
        while len(trips) < count and time.monotonic() < start + count * gap / 1000 + 1:
            due = start + len(sent_at) * gap / 1000 if len(sent_at) < count else time.monotonic() + 0.1
            if select.select([end], [], [], max(0, due - time.monotonic()))[0]:
                number = int.from_bytes(end.recv(65536)[:4], "big")
                trips[number] = time.monotonic() - sent_at[number]
            elif len(sent_at) < count:
                sent_at.append(time.monotonic())
                end.send((len(sent_at) - 1).to_bytes(4, "big").ljust(octets, b"\0"))
    print(f"{count} sent, {len(trips)} back, the least within {1000 * min(trips.values(), default=0):.3f} ms")


def run_echo(given, count, gap, octets, *words):
    """What the link printed while datagrams went there and back; and how many were sent and came back, and the least round trip in milliseconds."""
    script = " ".join(map(shlex.quote, (sys.executable, __file__)))
    job = f"ip netns exec $B {script} --echo & sleep 0.5; ip netns exec $A {script} --send {count} {gap} {octets}"
    text = run_link(given, "--neigh", "--hold", "64", "--run", job, *words)
    sent, back, least = re.search(r"(\d+) sent, (\d+) back, the least within ([\d.]+) ms", text).groups()
    return text, int(sent), int(back), float(least)


def short_ping(given, _):
    text, sent, back, least = run_echo(given, 200, 10, 64, "--delays", "40")
    want(sent == back == 200, f"{back} of {sent} datagrams came back:\n{text}")
    want(least >= LEAST_TRIP, f"a datagram came back within {least} ms")
    want(set(counts_of(text).values()) == {(200, 200, 0)}, f"the counts are others:\n{text}")
    return f"{back} of {sent} came back, the least within {least} ms"


def short_cut(given, folder):
    text, sent, back, _ = run_echo(given, 300, 5, 64, "--delays", "40", "--keep", f"{folder}/cut", "--event", "1:both:cut 0", "--event", "1.05:both:mend 0")
    waits, lost = fates_of(text)
    counts_of(text)
    want(sent - back == lost > 0 and waits == 0, f"{sent - back} datagrams are lost, and by fates {lost} frames:\n{text}")
    return f"{sent - back} of {sent} are lost, and by fates {lost} frames"


def short_addition(given, folder):
    text, sent, back, _ = run_echo(given, 400, 5, 1000, "--lines", "3", "--members", "2", "--delays", "8,20,12", "--keep", f"{folder}/add",
                                   "--event", "1:both:add 2")
    refused = sum(count for _, _, count in counts_of(text).values())
    want(len(re.findall(r"member \d+ 2 norm", text)) == 2, f"line 2 doesn't come into use:\n{text}")
    want(fates_of(text)[1] == 0, f"frames are lost by fates:\n{text}")
    want(sent - back == refused, f"{sent - back} of {sent} datagrams are lost, and {refused} were refused:\n{text}")
    return f"{sent - back} of {sent} are lost, and {refused} were refused"


ALL = ("ping", ping), ("ping over a cut", cut), ("UDP over an addition", addition), ("a signal", ended)
SHORT = ("datagrams", short_ping), ("datagrams over a cut", short_cut), ("datagrams over an addition", short_addition)


def main():
    parser = argparse.ArgumentParser(formatter_class=argparse.RawDescriptionHelpFormatter, description=__doc__)
    parser.add_argument("--seconds", type=float, default=120, help="that each may take")
    parser.add_argument("--short", action="store_true", help="tries datagrams alone, without ping and iperf3")
    parser.add_argument("--echo", action="store_true", help=argparse.SUPPRESS)
    parser.add_argument("--send", type=int, nargs=3, help=argparse.SUPPRESS)
    given = parser.parse_args()
    if given.echo:
        echo()
    if given.send:
        send(*given.send)
        return 0
    failed, before = 0, namespaces()
    with tempfile.TemporaryDirectory() as folder:
        for name, attempt in SHORT if given.short else ALL:
            try:
                told = attempt(given, folder)
                want(namespaces() <= before, f"namespaces are left: {' '.join(namespaces() - before)}")
                print(f"{name}: {told}", flush=True)
            except (Wrong, OSError, subprocess.TimeoutExpired) as error:
                print(f"live_linux: {name}: {error}", file=sys.stderr)
                failed += 1
    return 1 if failed else 0


if __name__ == "__main__":
    sys.exit(main())
