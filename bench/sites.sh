#!/usr/bin/env bash
# The instructions of `cmdwall sift` and `run` for one command in a session with one station and with eight behind one address and port, of
# each protocol: admitted commands to all eight in turn, and to the eighth alone; and those of a whole call with 501 commands. Either policy
# has eight assets, so that reading it costs the same: with one station each has an address of its own. Counted by callgrind on 501 commands
# less one. Beside each its ratio to one station; above 1.2 the status is 1. Counts do not depend on the load of the machine. Needs valgrind
# and Python 3. CMDWALL in the environment: the program (that of dist/).
set -eu
top=$(cd "$(dirname "$0")/.." && pwd)
for tool in valgrind python3; do
    command -v "$tool" > /dev/null || { echo "$tool is missing here, and nothing was counted"; exit 0; }
done
work=$(mktemp -d)
trap 'rm -rf "$work"' EXIT
PYTHONDONTWRITEBYTECODE=1 python3 - "$top" "$work" "${CMDWALL:-$top/dist/cmdwall}" <<'PY'
import os, re, struct, subprocess, sys

top, work, program = sys.argv[1:]
sys.path.insert(0, os.path.join(top, "examples"))
from make import DIRECT, STARTDT, Capture, Dnp3Side, Session, adu, dnp3_request, info, relay_output, single

MOST, COMMANDS, STATIONS = 1.2, 501, 8
PORTS = {"modbus": 502, "dnp3": 20000, "iec104": 2404}
RULES = {
    "modbus": 'codes = [6, 16]\npoints = ["40..49"]\nvalues = ["0..500"]\n',
    "dnp3": 'codes = [5]\ngroups = ["3073"]\npoints = ["0..3"]\nvalues = ["65"]\n',
    "iec104": 'codes = [45]\ngroups = ["6"]\npoints = ["1000..1003"]\nvalues = ["0..1"]\n',
}


class Short(Capture):
    """Frames ten microseconds apart, so that no timer comes to its end."""

    def add(self, octets):
        self.octets += struct.pack("<IIII", self.at // 1_000_000, self.at % 1_000_000, len(octets), len(octets)) + octets
        self.at += 10


def policy(protocol, is_one_site):
    """Eight assets with the same two rules each, behind one address and port, or each behind its own."""
    with open(os.path.join(work, "policy"), "w") as file:
        file.write("version = 3\n")
        for k in range(1, STATIONS + 1):
            address = "10.0.0.9" if is_one_site else f"10.0.0.{8 + k}"
            file.write(f'[[asset]]\nname = "unit{k}"\naddress = "{address}"\nport = {PORTS[protocol]}\nprotocol = "{protocol}"\nstation = {k if is_one_site else 1}\n')
            file.write("master = 100\n" if protocol == "dnp3" else "")
            file.write(f'[[asset.rule]]\nname = "no"\naction = "refuse"\npoints = ["48..49"]\ncodes = [{5 if protocol == "modbus" else 7}]\n')
            file.write(f'[[asset.rule]]\nname = "set"\naction = "allow"\n{RULES[protocol]}')


def commands_of(protocol, number, station_of):
    """So many commands, each to the station of its place; of IEC 60870-5-104 behind STARTDT, which is part of the first."""
    sides = {}
    made = []
    for k in range(number):
        station = station_of(k)
        if protocol == "modbus":
            made.append(adu(k, station, struct.pack(">BHH", 6, 40 + k % 8, k % 500)))
        elif protocol == "dnp3":
            side = sides.setdefault(station, Dnp3Side(0xC4, station, 100))
            made.append(side.fragment(dnp3_request(k % 16, DIRECT, relay_output(k % 4, 0x41))))
        else:
            made.append((STARTDT if k == 0 else b"") + info(k, 0, single(1000 + k % 4, k % 2, station)))
    return made


def counted(*words):
    """The instructions of a call."""
    done = subprocess.run(["valgrind", "--tool=callgrind", "--callgrind-out-file=/dev/null", program, *words], cwd=work,
                          stdout=subprocess.PIPE, stderr=subprocess.PIPE, text=True)
    if done.returncode != 0 or "refused 0\n" not in done.stdout:
        sys.exit(f"{' '.join(words)}: status {done.returncode}, and nothing was counted\n{done.stdout}{done.stderr}")
    return int(re.search(r"Collected : (\d+)", done.stderr)[1])


def carried(commands, protocol):
    """Each command in a segment of its own, acknowledged by the controller."""
    one = Session(Short(), ((10, 0, 0, 5), 49152), ((10, 0, 0, 9), PORTS[protocol]), 1000, 5000)
    one.open()
    for command in commands:
        # The octets that go on are as many, though segments of DNP3 are counted anew: that is all that the capture has to know of them.
        one.asks(command, command)
        one.acknowledges()
    return one.capture.octets


def session(name, protocol, station_of):
    """The instructions for one command more, and for all of a call."""
    counts = []
    # (an output that is not there yet costs more, and would be counted once alone)
    for output in ("out", "replies", "log"):
        open(os.path.join(work, output), "w").close()
    for number in (1, COMMANDS):
        commands = commands_of(protocol, number, station_of)
        with open(os.path.join(work, "input"), "wb") as file:
            file.write(b"".join(commands) if name == "sift" else carried(commands, protocol))
        words = ["policy", "unit1", "10.0.0.5", "input", "out", "replies", "log"] if name == "sift" else ["policy", "input", "out", "log"]
        counts.append(counted(name, *words))
    return (counts[1] - counts[0]) / (COMMANDS - 1), counts[1]


right = True
for name in ("sift", "run"):
    for protocol in PORTS:
        policy(protocol, False)
        each, whole = session(name, protocol, lambda k: 1)
        print(f"{name:<4} {protocol:<6} one station      {each:>7,.0f} instructions a command, {whole:>11,} in all", flush=True)
        policy(protocol, True)
        for kind, station_of in (("in turn", lambda k: 1 + k % STATIONS), ("the last", lambda k: STATIONS)):
            own, all_of_it = session(name, protocol, station_of)
            wrong = own > MOST * each or all_of_it > MOST * whole
            right = right and not wrong
            print(f"{name:<4} {protocol:<6} eight, {kind:<8}  {own:>7,.0f} instructions a command, {all_of_it:>11,} in all: "
                  f"{own / each:.2f} and {all_of_it / whole:.2f} of one station" + (f", more than {MOST}" if wrong else ""), flush=True)
sys.exit(0 if right else 1)
PY
