#!/usr/bin/env bash
# The processor time of `cmdwall check` on about the largest policy that is allowed, beside Python's tomllib on the same file in the
# same run, each the median of five in turn. A ratio, and no promise. CMDWALL in the environment: the program (the one that is built).
set -eu
top=$(cd "$(dirname "$0")/.." && pwd)
work=$(mktemp -d)
trap 'rm -rf "$work"' EXIT
[ -n "${CMDWALL:-}" ] || "$top/cmdwall" --version > /dev/null
python3 - "$work" "${CMDWALL:-$top/crates/cmdwall/out/cmdwall}" <<'PY'
import os, statistics, subprocess, sys

work, program = sys.argv[1:]
LIMIT = 4_194_304
text = ["version = 1\n"]
size = len(text[0])
for asset in range(256):
    head = (f'[[asset]]\nname = "a{asset}"\naddress = "10.0.{asset // 200}.{asset % 200}"\nport = 502\n'
            'protocol = "modbus"\nstation = 1\n')
    if size + len(head) > LIMIT:
        break
    text.append(head)
    size += len(head)
    for rule in range(1024):
        body = f'[[asset.rule]]\nname = "r{rule}"\naction = "allow"\ncodes = [6, 16]\npoints = ["{rule}..{rule + 9}"]\n'
        if size + len(body) > LIMIT:
            break
        text.append(body)
        size += len(body)
name = os.path.join(work, "policy")
with open(name, "w") as policy:
    policy.write("".join(text))


def took(words):
    """Processor time in seconds."""
    child = subprocess.Popen(words, stdout=subprocess.DEVNULL)
    _, status, usage = os.wait4(child.pid, 0)
    if status:
        sys.exit(f"{words[0]} ended with {status}")
    return usage.ru_utime + usage.ru_stime


def said(name, times):
    """The median, after a line with it and the spread."""
    middle = statistics.median(times)
    print(f"{name:<8} {middle:.3f} s (spread {max(times) - min(times):.3f})")
    return middle


print(f"policy of {size:,} bytes")
check, python = [], []
for _ in range(5):
    check.append(took([program, "check", name]))
    python.append(took([sys.executable, "-c", "import sys, tomllib; tomllib.load(open(sys.argv[1], 'rb'))", name]))
print(f"check takes {said('check', check) / said('tomllib', python):.2f} times the processor time of tomllib")
PY
