#!/usr/bin/env bash
# The processor time of `cmdwall packets` on a capture of 1,000,000 records, into a pipe, beside that of `tcpdump -n -tt -q -r` on
# the same file in the same run, each the median of five in turn; tcpdump is left out where it is missing. A ratio, and no promise.
# CMDWALL in the environment: the program (the one that is built).
set -eu
top=$(cd "$(dirname "$0")/.." && pwd)
work=$(mktemp -d)
trap 'rm -rf "$work"' EXIT
[ -n "${CMDWALL:-}" ] || "$top/cmdwall" --version > /dev/null
python3 - "$work" "${CMDWALL:-$top/crates/cmdwall/out/cmdwall}" <<'PY'
import os, resource, shutil, statistics, struct, subprocess, sys

work, program = sys.argv[1:]
RECORDS = 1_000_000


def checksum(octets):
    total = sum(struct.unpack(f">{len(octets) // 2}H", octets))
    while total > 0xFFFF:
        total = (total & 0xFFFF) + (total >> 16)
    return 0xFFFF - total


client, controller = bytes([10, 0, 0, 5]), bytes([10, 0, 0, 9])
name = os.path.join(work, "capture")
with open(name, "wb") as capture:
    capture.write(struct.pack("<IHHIIII", 0xA1B2C3D4, 2, 4, 0, 0, 65535, 1))
    for k in range(RECORDS):
        request = struct.pack(">HHHBBHH", k % 65536, 0, 6, 1, 6, 40, k % 500)
        tcp = struct.pack(">HHIIBBHHH", 49152, 502, (1000 + 12 * k) % 2**32, 1, 0x50, 0x18, 64240, 0, 0)
        pseudo = client + controller + struct.pack(">BBH", 0, 6, len(tcp) + len(request))
        tcp = tcp[:16] + struct.pack(">H", checksum(pseudo + tcp + request)) + tcp[18:]
        ip = struct.pack(">BBHHHBBH", 0x45, 0, 20 + len(tcp) + len(request), 0, 0x4000, 64, 6, 0) + client + controller
        ip = ip[:10] + struct.pack(">H", checksum(ip)) + ip[12:]
        frame = bytes([2, 0, 0, 0, 0, 9, 2, 0, 0, 0, 0, 5, 8, 0]) + ip + tcp + request
        frame += bytes(max(0, 60 - len(frame)))
        capture.write(struct.pack("<IIII", 1_700_000_000 + k // 1000, k % 1000 * 1000, len(frame), len(frame)) + frame)


def processor_time():
    used = resource.getrusage(resource.RUSAGE_CHILDREN)
    return used.ru_utime + used.ru_stime


def took(words):
    """The processor time of a program alone: this one drains its pipe."""
    before = processor_time()
    with subprocess.Popen(words, stdout=subprocess.PIPE, stderr=subprocess.DEVNULL) as child:
        while child.stdout.read(1 << 20):
            pass
    assert child.returncode == 0, words
    return processor_time() - before


def said(name, times):
    """The median, after a line with it and the spread."""
    middle = statistics.median(times)
    print(f"{name:<8} {middle:.3f} s (spread {max(times) - min(times):.3f})")
    return middle


packets, others = [], []
has_tcpdump = shutil.which("tcpdump")
for _ in range(5):
    packets.append(took([program, "packets", name]))
    if has_tcpdump:
        others.append(took(["tcpdump", "-n", "-tt", "-q", "-r", name]))
ours = said("packets", packets)
print(f"         for {RECORDS:,} records, {os.path.getsize(name):,} octets")
if has_tcpdump:
    print(f"packets takes {ours / said('tcpdump', others):.2f} times the processor time of tcpdump")
else:
    print("tcpdump is missing here, and was left out")
PY
