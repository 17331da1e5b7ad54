#!/usr/bin/env bash
# Edits the octets of the rows' own inputs (flip, cut, repeat, swap, numbers at their limits; half of them mended again) for each command
# of the program, and holds: a status of the table and no other, with what belongs to it on standard output; no signal; memory below 128
# MiB; OUT of `run` is judged `yes` under its policy; `sift` in pieces as in one; what `migrate` wrote is included in what it read, and that
# in it; `relay` and `serve` give on over sockets what `sift` does; and what else bench/fuzz/commands.py says of each. Cases depend on the
# number alone, and how many are tried on the seconds. Says in one line how many of each command were; a case in which something does not
# hold is left in a folder with the commands that repeat it, with status 1. Needs Python 3 alone.
# Words: the seconds (60), the number (1), and a case by its place, or a command, which is tried alone. CMDWALL in the environment: the
# program (that of dist/).
set -eu
top=$(cd "$(dirname "$0")/.." && pwd)
export CMDWALL=${CMDWALL:-$top/dist/cmdwall} PYTHONDONTWRITEBYTECODE=1
exec python3 "$top/bench/fuzz" "${1:-60}" "${2:-1}" "${3:-}" "${TMPDIR:-/tmp}/cmdwall-fuzz"
