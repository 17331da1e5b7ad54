#!/usr/bin/env bash
# Worlds of many sessions for many seeds: each is made and run twice, and both runs must leave the same octets. `tshark` and
# `tcpdump` read what was made and what the box sent (left out where they are missing). The rate and the memory are of the
# whole command, and are no promise. Words: the number of seeds (50) and of sessions (200).
set -eu
top=$(cd "$(dirname "$0")/.." && pwd)
seeds=${1:-50}
sessions=${2:-200}
work=$(mktemp -d)
trap 'rm -rf "$work"' EXIT
"$top/cmdwall" --version > /dev/null
program=$top/crates/cmdwall/out/cmdwall

made() {
    mkdir -p "$work/$1"
    "$program" world "$seed" "$sessions" "$work/$1/policy" "$work/$1/in.pcap" "$work/$1/out.pcap" "$work/$1/log" > "$work/$1/printed"
}

begun=$(date +%s.%N)
records=0
for seed in $(seq 0 $((seeds - 1))); do
    made first
    made second
    diff -r "$work/first" "$work/second" || { echo "seed $seed: a second run left other octets"; exit 1; }
    grep -qx "sessions $sessions" "$work/first/printed" && grep -qx 'dropped 0' "$work/first/printed" && grep -qx 'cuts 0' "$work/first/printed" \
        || { echo "seed $seed:"; cat "$work/first/printed"; exit 1; }
    records=$((records + 2 * $(sed -n 's/^records //p' "$work/first/printed")))
    for file in in out; do
        if command -v tshark > /dev/null; then
            tshark -n -r "$work/first/$file.pcap" > "$work/tshark" 2> "$work/said" || { echo "seed $seed: tshark refused $file"; cat "$work/said"; exit 1; }
        fi
        if command -v tcpdump > /dev/null; then
            tcpdump -n -r "$work/first/$file.pcap" > "$work/tcpdump" 2> "$work/said" || { echo "seed $seed: tcpdump refused $file"; cat "$work/said"; exit 1; }
        fi
    done
done
ended=$(date +%s.%N)
awk -v a="$begun" -v b="$ended" -v n="$records" -v s="$seeds" 'BEGIN {
    printf "%d seeds, %d records made and run, %.1f s with the readers\n", s, n, b - a }'
begun=$(date +%s.%N)
made first
ended=$(date +%s.%N)
awk -v a="$begun" -v b="$ended" -v n="$(sed -n 's/^records //p' "$work/first/printed")" 'BEGIN {
    printf "the last one: %d records in %.2f s, %.0f a second\n", n, b - a, n / (b - a) }'
python3 - "$program" "$seed" "$sessions" "$work/first" <<'PY'
import resource, subprocess, sys

program, seed, sessions, folder = sys.argv[1:]
files = [f"{folder}/{name}" for name in ("policy", "in.pcap", "out.pcap", "log")]
subprocess.run([program, "world", seed, sessions, *files], check=True, stdout=subprocess.DEVNULL)
print(f"at most {resource.getrusage(resource.RUSAGE_CHILDREN).ru_maxrss / 1024:.0f} MiB of memory")
PY
