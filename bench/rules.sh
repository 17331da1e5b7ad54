#!/usr/bin/env bash
# The instructions of `cmdwall run` and `sift` for one Modbus write where an asset has 1, 8, 9 and 1,000 rules of its code, each for a
# register of its own: writes that a rule allows, writes of values that none allows, writes of registers that no rule has, and writes of
# many registers at once (by 100 rules, since one such command has 123 registers at most). Counted by callgrind on 501 commands less one.
# Beside each its ratio to one rule; above 1.5 at writes that are allowed the status is 1. Counts do not depend on the load of the machine.
# Needs valgrind and Python 3. CMDWALL in the environment: the program (that of dist/).
set -eu
top=$(cd "$(dirname "$0")/.." && pwd)
for tool in valgrind python3; do
    command -v "$tool" > /dev/null || { echo "$tool is missing here, and nothing was counted"; exit 0; }
done
work=$(mktemp -d)
trap 'rm -rf "$work"' EXIT
PYTHONDONTWRITEBYTECODE=1 python3 - "$top" "$work" "${CMDWALL:-$top/dist/cmdwall}" <<'PY'
import os, re, struct, subprocess, sys

top, work, program = sys.argv[1:]
sys.path.insert(0, os.path.join(top, "examples"))
from make import Capture, Session, adu

MOST, COMMANDS = 1.5, 501


class Short(Capture):
    """Frames ten microseconds apart, so that no timer comes to its end."""

    def add(self, octets):
        self.octets += struct.pack("<IIII", self.at // 1_000_000, self.at % 1_000_000, len(octets), len(octets)) + octets
        self.at += 10


def policy(rules, wide):
    """So many rules of one code, each for a register of its own; or for all of so many registers."""
    with open(os.path.join(work, "policy"), "w") as file:
        file.write('version = 1\n[[asset]]\nname = "pump"\naddress = "10.0.0.9"\nport = 502\nprotocol = "modbus"\nstation = 1\n')
        for k in range(rules):
            points = f'0..{wide - 1}' if rules == 1 else k
            file.write(f'[[asset.rule]]\nname = "rule{k}"\naction = "allow"\ncodes = [6, 16]\npoints = ["{points}"]\nvalues = ["0..500"]\n')


def single(register, value):
    return lambda k, rules: adu(k % 65536, 1, struct.pack(">BHH", 6, register(k, rules), value(k)))


def many(k, rules):
    return adu(k % 65536, 1, struct.pack(">BHHB", 16, 0, 100, 200) + b"\0\1" * 100)


# Registers far from one another, in no order.
KINDS = {
    "allowed": ((1, 8, 9, 1000), single(lambda k, rules: k * 617 % rules, lambda k: k % 500)),
    "value": ((1, 8, 9, 1000), single(lambda k, rules: k * 617 % rules, lambda k: 501)),
    "register": ((1, 8, 9, 1000), single(lambda k, rules: 2000, lambda k: 1)),
    "many": ((1, 100), many),
}


def counted(*words):
    """The instructions of a call."""
    done = subprocess.run(["valgrind", "--tool=callgrind", "--callgrind-out-file=/dev/null", program, *words], cwd=work,
                          stdout=subprocess.DEVNULL, stderr=subprocess.PIPE, text=True)
    if done.returncode not in (0, 15):
        sys.exit(f"{' '.join(words)}: status {done.returncode}, and nothing was counted\n{done.stderr}")
    return int(re.search(r"Collected : (\d+)", done.stderr)[1])


def carried(commands, refused):
    """Each command in a segment of its own, acknowledged by the controller; a refused one has a reply of nine octets."""
    one = Session(Short(), ((10, 0, 0, 5), 49152), ((10, 0, 0, 9), 502), 1000, 5000)
    one.open()
    for command in commands:
        if refused:
            one.asks(command, b"", bytes(9))
        else:
            one.asks(command, command)
            one.acknowledges()
    return one.capture.octets


def one_command(name, kind, make, rules):
    """The instructions for one command more."""
    counts = []
    for number in (1, COMMANDS):
        commands = [make(k, rules) for k in range(number)]
        with open(os.path.join(work, "input"), "wb") as file:
            file.write(b"".join(commands) if name == "sift" else carried(commands, kind in ("value", "register")))
        words = ["policy", "pump", "10.0.0.5", "input", "out", "replies", "log"] if name == "sift" else ["policy", "input", "out", "log"]
        counts.append(counted(name, *words))
    return (counts[1] - counts[0]) // (COMMANDS - 1)


right = True
for name in ("run", "sift"):
    for kind, (numbers, make) in KINDS.items():
        one = None
        for rules in numbers:
            policy(rules, 100 if kind == "many" else 1)
            each = one_command(name, kind, make, rules)
            one = one or each
            wrong = name == "run" and kind == "allowed" and each > MOST * one
            right = right and not wrong
            print(f"{name:<4} {kind:<8} {rules:>4} rules {each:>7,} instructions a command, {each / one:.2f} of one rule"
                  + (f", more than {MOST}" if wrong else ""), flush=True)
sys.exit(0 if right else 1)
PY
