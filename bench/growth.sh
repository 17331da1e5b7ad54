#!/usr/bin/env bash
# How the instructions grow where a peer sends twice as much of one thing: DNP3 headers and objects of one request, points and registers of
# one Modbus command, frames whose fragments never end, refused commands; and in captures segments of one octet, segments that overlap,
# segments beyond a gap, and connections. Each thing is there N times and 2N times; what callgrind counts on it, less that on an input
# with one, has to grow by no more than 2.2, else the status is 1. Counts do not depend on the load of the machine.
# Needs valgrind and Python 3. Words: what to try, as `headers` or `judge/headers` (all). CMDWALL in the environment: the program (that of dist/).
set -eu
top=$(cd "$(dirname "$0")/.." && pwd)
for tool in valgrind python3; do
    command -v "$tool" > /dev/null || { echo "$tool is missing here, and nothing was counted"; exit 0; }
done
work=$(mktemp -d)
trap 'rm -rf "$work"' EXIT
PYTHONDONTWRITEBYTECODE=1 python3 - "$top" "$work" "${CMDWALL:-$top/dist/cmdwall}" "$@" <<'PY'
import os, re, struct, subprocess, sys

top, work, program, *only = sys.argv[1:]
sys.path.insert(0, os.path.join(top, "examples"))
from make import ACK, PSH, READ, SELECT, SYN, Capture, Dnp3Side, Session, adu, dnp3_request, frame, info, link_frame, single, STARTDT

MOST = 2.2
CLIENT, PUMP, RTU = ((10, 0, 0, 5), 49152), ((10, 0, 0, 9), 502), ((10, 0, 0, 10), 20000)
POLICY = os.path.join(work, "policy")
# The points of a command stand in more ranges, the more they are.
PARTS = ", ".join(f'"{32 * k}..{32 * k + 31}"' for k in range(64))
with open(POLICY, "w") as file:
    file.write('version = 1\n'
               '[[asset]]\nname = "pump"\naddress = "10.0.0.9"\nport = 502\nprotocol = "modbus"\nstation = 1\n'
               '[[asset.rule]]\nname = "reads"\naction = "allow"\ncodes = [1, 3]\npoints = [' + PARTS + ']\n'
               '[[asset.rule]]\nname = "writes"\naction = "allow"\ncodes = [6, 16]\npoints = [' + PARTS + ']\nvalues = ["0..9999"]\n'
               '[[asset]]\nname = "rtu"\naddress = "10.0.0.10"\nport = 20000\nprotocol = "dnp3"\nstation = 10\nmaster = 1\n'
               '[[asset.rule]]\nname = "all"\naction = "allow"\ncodes = [1, 3]\n'
               '[[asset]]\nname = "sub"\naddress = "10.0.0.11"\nport = 2404\nprotocol = "iec104"\nstation = 1\n'
               '[[asset.rule]]\nname = "all"\naction = "allow"\ncodes = [45]\npoints = ["0..9"]\n')


def requests(fragment):
    """Eight DNP3 requests."""
    side = Dnp3Side(0xC4, 10, 1)
    return b"".join(side.fragment(fragment) for _ in range(8))


def objects(count):
    """A select of so many control relay output blocks under one header."""
    blocks = b"".join(bytes([place, 3, 1]) + struct.pack("<IIB", 100, 100, 0) for place in range(count))
    return dnp3_request(0, SELECT, bytes([12, 1, 0x17, count]) + blocks)


def unfinished(count, first):
    """Frames with a segment that ends no fragment: each begins one, or each but the first goes on."""
    user = bytes(range(249))
    return b"".join(link_frame(0xC4, 10, 1, bytes([(0x40 if first or k % 8 == 0 else 0) | k % 64]) + user) for k in range(count))


def write(k, register=40):
    return adu(k % 65536, 1, struct.pack(">BHH", 6, register, k % 500))


STREAMS = {
    "headers": ("rtu", 340, lambda n: requests(dnp3_request(0, READ, bytes([60, 2, 6]) * n))),
    "objects": ("rtu", 84, lambda n: requests(objects(n))),
    "points": ("pump", 1000, lambda n: adu(1, 1, struct.pack(">BHH", 1, 0, n)) * 8),
    "registers": ("pump", 60, lambda n: adu(1, 1, struct.pack(">BHHB", 16, 0, n, 2 * n) + b"\0\1" * n) * 8),
    "begun": ("rtu", 500, lambda n: unfinished(n, True)),
    "unfinished": ("rtu", 500, lambda n: unfinished(n, False)),
    "refused": ("pump", 1000, lambda n: b"".join(write(k, 20_000) for k in range(n))),
    "refused104": ("sub", 1000, lambda n: STARTDT + b"".join(info(k, 0, single(10, 1)) for k in range(n))),
    "refuseddnp3": ("rtu", 1000, lambda n: b"".join(link_frame(0xC4, 10, 1, bytes([0xC0 | k % 64]) + dnp3_request(k % 16, 13)) for k in range(n))),
}


class Short(Capture):
    """Frames ten microseconds apart, so that no timer comes to its end."""

    def add(self, octets):
        self.octets += struct.pack("<IIII", self.at // 1_000_000, self.at % 1_000_000, len(octets), len(octets)) + octets
        self.at += 10


def session(port=49152, into=None, asset=PUMP):
    opened = Session(into or Short(), (CLIENT[0], port), asset, 1000, 5000)
    opened.open()
    return opened


def carried(asset, octets):
    """A stream in segments of 1,200 octets."""
    one = session(asset=asset)
    for at in range(0, len(octets), 1200):
        one.asks(octets[at:at + 1200])
    return one.capture.octets


def tiny(count):
    """Writes, octet by octet, each acknowledged by the controller."""
    one = session()
    for k in range(count // 12):
        for octet in write(k)[:-1]:
            one.asks(bytes([octet]))
        one.asks(write(k)[-1:], write(k))
        one.acknowledges()
    return one.capture.octets


def tiny_frames(count):
    """Frames of DNP3 with a read each, octet by octet, all acknowledged by the controller."""
    one, frame = session(asset=RTU), Dnp3Side(0xC4, 10, 1).fragment(dnp3_request(0, READ, bytes([60, 2, 6]) * 80))
    for k in range(count):
        ends = k % len(frame) == len(frame) - 1
        one.asks(frame[k % len(frame):][:1], frame if ends else b"")
        if ends:
            one.acknowledges()
    return one.capture.octets


def overlapping(count):
    """Segments of 600 octets, each of which goes on by one write behind the last."""
    one, text = session(), b"".join(write(k) for k in range(count + 50))
    one.asks(text[:588], text[:588])
    for k in range(count):
        one.segment_of_client(12 * k, text[12 * k:12 * k + 600], PSH | ACK)
        one.to_controller += 12
        one.acknowledges()
    return one.capture.octets


def beyond(count):
    """Single octets with gaps between them, behind a gap that stays."""
    one = session()
    for k in range(count):
        one.segment_of_client(10 + 2 * k, b"\0", PSH | ACK)
    return one.capture.octets


def backwards(count):
    """The same without gaps between them, the last octet first; the first one never comes."""
    one = session()
    for k in range(count, 0, -1):
        one.segment_of_client(k, b"\0", PSH | ACK)
    return one.capture.octets


def refused(count):
    """Refused writes, whose replies the client acknowledges."""
    one = session()
    for k in range(count):
        one.asks(write(k, 20_000), b"", bytes(9))
    return one.capture.octets


def unacknowledged(count):
    """Refused writes, whose replies the client never acknowledges, eight in a segment."""
    one = session()
    for k in range(count // 8):
        one.segment_of_client(96 * k, b"".join(write(k, 20_000) for _ in range(8)), PSH | ACK)
    return one.capture.octets


def connections(count):
    """A write on each of so many connections."""
    into = Short()
    for k in range(count):
        session(40_000 + k, into).asks(write(k), write(k))
    return into.octets


def different(count):
    """Writes of different values."""
    one = session()
    for k in range(count):
        text = adu(k, 1, struct.pack(">BHH", 6, 40, 7 * k))
        one.asks(text, text)
        one.acknowledges()
    return one.capture.octets


CAPTURES = {
    "headers": (340, lambda n: carried(RTU, STREAMS["headers"][2](n)), ["judge", "review", "learn"]),
    "objects": (84, lambda n: carried(RTU, STREAMS["objects"][2](n)), ["judge", "review", "learn"]),
    "points": (1000, lambda n: carried(PUMP, STREAMS["points"][2](n)), ["judge", "review", "learn"]),
    "registers": (60, lambda n: carried(PUMP, STREAMS["registers"][2](n)), ["judge", "review", "learn"]),
    "unfinished": (120, lambda n: carried(RTU, unfinished(n, False)), ["run", "judge", "review", "learn"]),
    "tiny": (2400, tiny, ["run", "judge", "review", "learn"]),
    "tinyframes": (1000, tiny_frames, ["run"]),
    "overlapping": (600, overlapping, ["run", "judge", "review", "learn"]),
    "beyond": (2000, beyond, ["run", "judge", "review", "learn"]),
    "backwards": (2000, backwards, ["run", "judge", "review", "learn"]),
    "refused": (1000, refused, ["run", "judge", "review"]),
    "unacknowledged": (320, unacknowledged, ["run"]),
    "connections": (100, connections, ["run", "judge", "review", "learn"]),
    "different": (400, different, ["learn"]),
}


def counted(*words):
    """The instructions of a call."""
    valgrind = ["valgrind", "--tool=callgrind", f"--callgrind-out-file={os.environ.get('CALLGRIND', '/dev/null')}"]
    done = subprocess.run([*valgrind, program, *words], cwd=work, stdout=subprocess.DEVNULL, stderr=subprocess.PIPE, text=True)
    if done.returncode not in (0, 15):
        sys.exit(f"{' '.join(words)}: status {done.returncode}, and nothing was counted\n{done.stderr}")
    return int(re.search(r"Collected : (\d+)", done.stderr)[1])


def tried(name, first, make, words):
    """Whether twice as much takes no more than it may."""
    counts = []
    for number in (1, first, 2 * first):
        with open(os.path.join(work, "input"), "wb") as file:
            file.write(make(number))
        counts.append(counted(*words))
    # What costs nothing for one more grows by nothing.
    once, twice = max(counts[1] - counts[0], first), max(counts[2] - counts[0], 2 * first)
    wrong = "" if twice / once <= MOST else f", more than {MOST}"
    print(f"{words[0]:<7} {name:<15} {twice / once:.2f} times: {once:>12,} instructions of {first}, {twice:>12,} of {2 * first}{wrong}", flush=True)
    return not wrong


def main():
    calls = []
    for name, (asset, first, make) in STREAMS.items():
        calls.append((name, first, make, ["sift", POLICY, asset, "10.0.0.5", "input", "out", "replies", "log"]))
    outs = {"run": ["out", "log"], "judge": [], "review": ["log"], "learn": ["out"]}
    for name, (first, make, commands) in CAPTURES.items():
        calls += [(name, first, make, [command, POLICY, "input", *outs[command]]) for command in commands]
    right = [tried(*call) for call in calls if not only or call[0] in only or f"{call[3][0]}/{call[0]}" in only]
    return 0 if all(right) else 1


sys.exit(main())
PY
