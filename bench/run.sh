#!/usr/bin/env bash
# The processor time of `cmdwall run` on captures of round trips, of Modbus and of DNP3, beside that of `tcpdump -n -r` and of `suricata -r`
# on the same file in the same run (each left out where it is missing), each the median of five in turn; its memory; its time on the same
# number of round trips spread over 200 open sessions; and that where the session never closes, of which a note says so, beside that of
# the lean Suricata on the same files. Two kinds of Suricata are measured: `suricata` is that of its own configuration, with the protocol
# read and all of its outputs; `lean` has one rule, which tells of commands, no EVE log, one thread, and reads a stream to its end (a depth
# of 0 is no limit).
# Ratios, and no promise. Word: the number of round trips (300,000). CMDWALL in the environment: the program (the one that is built).
set -eu
top=$(cd "$(dirname "$0")/.." && pwd)
work=$(mktemp -d)
trap 'rm -rf "$work"' EXIT
[ -n "${CMDWALL:-}" ] || "$top/cmdwall" --version > /dev/null
program=${CMDWALL:-$top/crates/cmdwall/out/cmdwall}
PYTHONDONTWRITEBYTECODE=1 python3 - "$top" "$work" "${1:-300000}" "$program" <<'PY'
import os, shutil, statistics, struct, subprocess, sys

top, work, trips, program = sys.argv[1], sys.argv[2], int(sys.argv[3]), sys.argv[4]
sys.path.insert(0, os.path.join(top, "examples"))
from make import ACK, PSH, Capture, DIRECT, Dnp3Side, Session, adu, dnp3_request, frame, relay_output

policy = os.path.join(work, "policy.toml")
with open(policy, "w") as file:
    file.write('version = 1\n[[asset]]\nname = "pump"\naddress = "10.0.0.9"\nport = 502\nprotocol = "modbus"\nstation = 1\n'
               '[[asset.rule]]\nname = "set"\naction = "allow"\ncodes = [6]\npoints = ["40..49"]\nvalues = ["0..500"]\n'
               '[[asset]]\nname = "reservoir"\naddress = "10.0.0.9"\nport = 20000\nprotocol = "dnp3"\nmaster = 1\nstation = 10\n'
               '[[asset.rule]]\nname = "valves"\naction = "allow"\ncodes = [5]\npoints = ["0..15"]\n')


class Short(Capture):
    """Frames ten microseconds apart, kept as a list, so that no session's timer comes to its end between two of its packets."""

    def __init__(self):
        super().__init__()
        self.records = [self.octets]

    def add(self, octets):
        self.records.append(struct.pack("<IIII", self.at // 1_000_000, self.at % 1_000_000, len(octets), len(octets)) + octets)
        self.at += 10


class Modbus:
    """A write of a register, which the controller echoes."""

    port, tells = 502, "alert modbus any any -> any any (msg:\"a write\"; modbus: access write holding; sid:1;)"

    def trip(self, number):
        write = adu(number % 65536, 1, struct.pack(">BHH", 6, 40 + number % 10, number % 500))
        return write, write


class Dnp3:
    """A direct operate of a relay, which the outstation answers with the same object."""

    port, tells = 20000, "alert dnp3 any any -> any any (msg:\"a direct operate\"; dnp3_func:direct_operate; sid:1;)"

    def __init__(self):
        self.to, self.back = Dnp3Side(0xC4, 10, 1), Dnp3Side(0x44, 1, 10)

    def trip(self, number):
        relay = relay_output(number % 16, 0x41)
        return (self.to.fragment(dnp3_request(number % 16, DIRECT, relay)),
                self.back.fragment(bytes([0xC0 | number % 16, 129, 0, 0]) + relay))


def capture(name, kind, sessions, closes=True):
    into = Short()
    opened = [(Session(into, ((10, 0, 0, 5), 49152 + k), ((10, 0, 0, 9), kind.port), 1000, 5000), kind()) for k in range(sessions)]
    for session, _ in opened:
        session.open()
    for number in range(trips):
        session, ends = opened[number % sessions]
        asked, answered = ends.trip(number)
        session.asks(asked, asked)
        into.add(frame(session.controller, session.client, session.controller_number + 1 + session.of_controller,
                       session.client_number + 1 + session.to_controller, PSH | ACK, answered))
        session.of_controller += len(answered)
        session.to_client += len(answered)
    for session, _ in opened if closes else []:
        session.close()
    path = os.path.join(work, name)
    with open(path, "wb") as file:
        file.writelines(into.records)
    return path


def took(words):
    """Processor time in seconds."""
    with open(os.path.join(work, "printed"), "wb") as printed:
        child = subprocess.Popen(words, stdout=printed, stderr=subprocess.DEVNULL)
        _, status, usage = os.wait4(child.pid, 0)
    if status:
        sys.exit(f"{words[0]} ended with {status}")
    return usage.ru_utime + usage.ru_stime


def words_of(path):
    outs = [os.path.join(work, "out"), os.path.join(work, "log")]
    return [program, "run", policy, path, *outs]


def run(path):
    seconds = took(words_of(path))
    with open(os.path.join(work, "printed")) as printed:
        if f"admitted {trips}\n" not in printed.read():
            sys.exit("not every command was admitted, and nothing was measured")
    return seconds


def said(name, times):
    """The median, after a line with it and the spread."""
    middle = statistics.median(times)
    print(f"{name:<8} {middle:.3f} s (spread {max(times) - min(times):.3f})")
    return middle


def memory(path):
    """The greatest resident memory, in words. A child of this process would be told with this process's own."""
    if not shutil.which("/usr/bin/time"):
        return "memory not measured, as time is missing here"
    told = subprocess.run(["/usr/bin/time", "-f", "%M", *words_of(path)], stdout=subprocess.DEVNULL, stderr=subprocess.PIPE, check=True)
    return f"{int(told.stderr.split()[-1]):,} KiB"


def peers_of(name, kind, path):
    """The words of each peer that is here, on a file; the rule of the lean Suricata is written."""
    rule = os.path.join(work, f"{name}.rule")
    with open(rule, "w") as file:
        file.write(kind.tells + "\n")
    read = ["suricata", "-r", path, "-l", work, "--set", f"app-layer.protocols.{name}.enabled=yes"]
    peers = {"tcpdump": ["tcpdump", "-n", "-r", path],
             "suricata": read,
             "lean": [*read, "-S", rule, "--runmode", "single", "--set", "outputs.1.eve-log.enabled=no", "--set", "stream.reassembly.depth=0"]}
    return {peer: words for peer, words in peers.items() if shutil.which(words[0])}


for peer in ("tcpdump", "suricata"):
    if not shutil.which(peer):
        print(f"{peer} is missing here, and was left out" + (", the lean one too" if peer == "suricata" else ""))
for name, kind in (("modbus", Modbus), ("dnp3", Dnp3)):
    print(name)
    one = capture("one", kind, 1)
    others = {"200 open sessions": capture("many", kind, 200), "a session that never closes": capture("unclosed", kind, 1, closes=False),
              "200 sessions that never close": capture("open", kind, 200, closes=False)}
    peers = peers_of(name, kind, one)
    ours, theirs = [], {peer: [] for peer in peers}
    beside = {what: ([], []) for what in others}
    for _ in range(5):
        ours.append(run(one))
        for peer, words in peers.items():
            theirs[peer].append(took(words))
        for what, path in others.items():
            beside[what][0].append(run(path))
            if "lean" in peers:
                beside[what][1].append(took(peers_of(name, kind, path)["lean"]))
    middle = said("run", ours)
    print(f"         for {trips:,} round trips, {os.path.getsize(one):,} octets, {memory(one)}")
    for peer, times in theirs.items():
        print(f"         run takes {middle / said(peer, times):.2f} times the processor time of {peer}")
    for what, (times, lean) in beside.items():
        print(f"         of {what} {said('run', times) / middle:.2f} times that of one session, {memory(others[what])}")
        if lean:
            print(f"         and {statistics.median(times) / said('lean', lean):.2f} times the processor time of lean")
PY
