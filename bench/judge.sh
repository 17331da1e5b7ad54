#!/usr/bin/env bash
# The processor time of `cmdwall judge`, `review` and `draft` on captures of Modbus round trips, of reads of 125 registers, ten of them over
# and over, and of DNP3 polls, beside that of `tcpdump -n -r` and of `tshark` with a display filter that finds the same function codes, on
# the same file in the same run (each left out where it is missing), and the memory of `judge` beside the text that the flows carry.
# Ratios, and no promise. Words: the numbers of round trips (300,000), of polls of DNP3 (200,000) and of reads (150,000). CMDWALL in the
# environment: the program (the one that is built).
set -eu
top=$(cd "$(dirname "$0")/.." && pwd)
work=$(mktemp -d)
trap 'rm -rf "$work"' EXIT
[ -n "${CMDWALL:-}" ] || "$top/cmdwall" --version > /dev/null
PYTHONDONTWRITEBYTECODE=1 python3 - "$top" "$work" "${1:-300000}" "${2:-200000}" "${3:-150000}" <<'PY'
import os, shutil, statistics, struct, subprocess, sys

top, work, trips, polls, reads = sys.argv[1], sys.argv[2], *map(int, sys.argv[3:6])
sys.path.insert(0, os.path.join(top, "examples"))
from make import ACK, PSH, SYN, adu, dnp3_request, frame, link_frame

program = os.environ.get("CMDWALL") or os.path.join(top, "crates", "cmdwall", "out", "cmdwall")
client, pump, outstation = ((10, 0, 0, 5), 49152), ((10, 0, 0, 9), 502), ((10, 0, 0, 7), 20000)
policy = os.path.join(work, "policy.toml")
with open(policy, "w") as file:
    file.write('version = 1\n[[asset]]\nname = "pump"\naddress = "10.0.0.9"\nport = 502\nprotocol = "modbus"\nstation = 1\n'
               '[[asset.rule]]\nname = "set"\naction = "allow"\ncodes = [6]\npoints = ["40..49"]\nvalues = ["0..500"]\n'
               '[[asset.rule]]\nname = "get"\naction = "allow"\ncodes = [3]\n'
               '[[asset]]\nname = "rtu"\naddress = "10.0.0.7"\nport = 20000\nprotocol = "dnp3"\nstation = 10\nmaster = 1\n'
               '[[asset.rule]]\nname = "poll"\naction = "allow"\ncodes = [1]\n')


def capture(name, asset, exchanges):
    """A capture of one connection whose exchanges are (request, answer); the number of octets that the client sent."""
    seq, ack, at, sent = 1000, 5000, 1_700_000_000_000_000, 0
    records = [struct.pack("<IHHIIII", 0xA1B2C3D4, 2, 4, 0, 0, 65535, 1)]

    def add(octets):
        nonlocal at
        records.append(struct.pack("<IIII", at // 1_000_000, at % 1_000_000, len(octets), len(octets)) + octets)
        at += 10

    add(frame(client, asset, seq, 0, SYN))
    add(frame(asset, client, ack, seq + 1, SYN | ACK))
    seq, ack = seq + 1, ack + 1
    for request, answer in exchanges:
        add(frame(client, asset, seq % 2**32, ack % 2**32, PSH | ACK, request))
        seq, sent = seq + len(request), sent + len(request)
        add(frame(asset, client, ack % 2**32, seq % 2**32, PSH | ACK, answer))
        ack += len(answer)
    path = os.path.join(work, name)
    with open(path, "wb") as file:
        file.writelines(records)
    return path, sent


def writes():
    for trip in range(trips):
        write = adu(trip % 65536, 1, struct.pack(">BHH", 6, 40 + trip % 10, trip % 500))
        yield write, write


def registers():
    answer = bytes([3, 250]) + bytes(range(250))
    for read in range(reads):
        yield adu(read % 65536, 1, struct.pack(">BHH", 3, 125 * (read % 10), 125)), adu(read % 65536, 1, answer)


def dnp3_polls():
    for poll in range(polls):
        request = bytes([0xC0 + poll % 64]) + dnp3_request(poll % 16, 1, bytes([60, 2, 6, 60, 3, 6, 60, 4, 6]))
        answer = bytes([0xC0 + poll % 64, 0xC0 + poll % 16, 0x81, 0, 0])
        yield link_frame(0xC4, 10, 1, request), link_frame(0x44, 1, 10, answer)


def took(words, turns=5):
    """Processor time in seconds: the median and the spread of the turns."""
    times = []
    for _ in range(turns):
        with open(os.path.join(work, "printed"), "wb") as printed:
            child = subprocess.Popen(words, stdout=printed, stderr=subprocess.DEVNULL)
            _, status, usage = os.wait4(child.pid, 0)
        if status:
            sys.exit(f"{words[0]} ended with {status}")
        times.append(usage.ru_utime + usage.ru_stime)
    return statistics.median(times), max(times) - min(times)


def memory(words):
    if not shutil.which("/usr/bin/time"):
        return None
    told = subprocess.run(["/usr/bin/time", "-f", "%M", *words], stdout=subprocess.DEVNULL, stderr=subprocess.PIPE, check=True)
    return int(told.stderr.split()[-1]) * 1024


for what, count, codes, (path, sent) in [("round trips of Modbus", trips, "modbus.func_code == 6", capture("modbus", pump, writes())),
                                         ("reads of 125 registers", reads, "modbus.func_code == 3", capture("reads", pump, registers())),
                                         ("polls of DNP3", polls, "dnp3.al.func == 1", capture("dnp3", outstation, dnp3_polls()))]:
    words = [program, "judge", policy, path]
    reviewed, spread = took([program, "review", policy, path, os.path.join(work, "log")])
    print(f"review   {reviewed:.3f} s (spread {spread:.3f})")
    drafted, spread = took([program, "draft", policy, os.path.join(work, "draft.toml"), path])
    print(f"draft    {drafted:.3f} s (spread {spread:.3f})")
    ours, spread = took(words)
    with open(os.path.join(work, "printed")) as printed:
        said = printed.read()
        if said != f"yes flows 1 commands {count}\n":
            sys.exit(f"not what was wanted, so nothing was measured: {said}")
    print(f"judge    {ours:.3f} s (spread {spread:.3f}) for {count:,} {what}, {os.path.getsize(path):,} octets")
    held = memory(words)
    if held is not None:
        print(f"memory   {held:,} octets, {held / sent:.1f} times the {sent:,} octets that the client sent")
    if shutil.which("tcpdump"):
        other, spread = took(["tcpdump", "-n", "-r", path])
        print(f"tcpdump  {other:.3f} s (spread {spread:.3f}): judge takes {ours / other:.2f} times as much, review "
              f"{reviewed / other:.2f}, draft {drafted / other:.2f}")
    else:
        print("tcpdump is missing here, and was left out")
    if shutil.which("tshark"):
        other, _ = took(["tshark", "-n", "-r", path, "-Y", codes], turns=1)
        print(f"tshark   {other:.3f} s with {codes}: judge takes {ours / other:.3f} times as much")
    else:
        print("tshark is missing here, and was left out")
PY
