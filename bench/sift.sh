#!/usr/bin/env bash
# The rate of `cmdwall sift` on 5,000 requests of which half are refused, beside that of `cp` on the same file in the same
# run. A ratio, and no promise.
set -eu
top=$(cd "$(dirname "$0")/.." && pwd)
work=$(mktemp -d)
trap 'rm -rf "$work"' EXIT
python3 - "$work/stream" <<'PY'
import struct, sys

with open(sys.argv[1], "wb") as stream:
    for k in range(5000):
        register = 40 if k % 2 == 0 else 20
        stream.write(struct.pack(">HHHBBHH", k, 0, 6, 1, 6, register, k % 500))
PY
"$top/cmdwall" --version > /dev/null
python3 - "$top" "$work" <<'PY'
import os, subprocess, sys, time

top, work = sys.argv[1:]
name = os.path.join(work, "stream")
size = os.path.getsize(name)


def rate(words, times):
    best = None
    for _ in range(times):
        begun = time.perf_counter()
        subprocess.run(words, check=True, stdout=subprocess.DEVNULL)
        took = time.perf_counter() - begun
        best = took if best is None else min(best, took)
    return size / best


program = os.path.join(top, "crates", "cmdwall", "out", "cmdwall")
policy = os.path.join(top, "examples", "pump.toml")
outputs = [os.path.join(work, n) for n in ("out", "replies", "log")]
sift = rate([program, "sift", policy, "pump", "10.0.0.5", name, *outputs], 5)
copy = rate(["cp", name, os.path.join(work, "copy")], 5)
print(f"sift {sift:,.0f} octets a second")
print(f"cp   {copy:,.0f} octets a second")
print(f"sift takes {copy / sift:.1f} times as long as cp")
PY
