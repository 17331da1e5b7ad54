#!/usr/bin/env bash
# The instructions of one TCP end that gets segments of 1,200 bytes, whose bytes are copied out and summed, and that answers each
# over a desk in memory; beside those of a plain C loop that copies and sums the same bytes once. Both are counted by valgrind's
# callgrind in the same run, less those on no segment. A ratio, and no promise. Word: the thousands of segments (100).
set -eu
top=$(cd "$(dirname "$0")/.." && pwd)
thousands=${1:-100}
for tool in rt valgrind cc; do
    command -v "$tool" > /dev/null || { echo "$tool is missing here, and nothing was counted"; exit 0; }
done
work=$(mktemp -d)
trap 'rm -rf "$work"' EXIT
crates="cf_view cf_stream cf_outside cf_outq cf_rebuild cf_packet cf_leg"
mkdir -p "$work/crates/bench_leg/src"
cp "$top/HANDLES" "$work"
for name in $crates; do
    cp -a "$top/crates/$name" "$work/crates"
    grep "^$name:" "$top/crates.txt" >> "$work/crates.txt"
done
echo 'bench_leg: cf_leg cf_outq cf_outside cf_packet cf_rebuild cf_view' >> "$work/crates.txt"

cat > "$work/crates/bench_leg/src/main.rt" <<'RT'
//! Segments of 1,200 bytes through one TCP end: a thousand for each word. The status is their sum, modulo 251.
#![tactic(auto)]

use cf_leg::Leg;
use cf_outq::Outq;
use cf_outside::MemoryDesk;
use cf_packet::{ACK, PSH, Packet};
use cf_view::Endpoint;
use std::alloc::Global;
use std::env;
use std::process::ExitCode;

const OWN: Endpoint = Endpoint { address: 0x0A00_0005, port: 49_152 };
const PEER: Endpoint = Endpoint { address: 0x0A00_0009, port: 502 };

fn main(rt: HostRuntime) -> ExitCode {
    let count = match env::args(&rt) {
        Ok(words) => (words.skip(1).count() as u64).wrapping_mul(1000),
        Err(_) => return ExitCode::from(253),
    };
    match run(rt.alloc(), count) {
        Some(sum) => ExitCode::from((sum % 251) as u8),
        None => ExitCode::from(254),
    }
}

fn run(alloc: Global, count: u64) -> Option<u64> {
    let Ok(mut leg) = Leg::passive(alloc, OWN, PEER, 1000, Some(1460)) else {
        return None;
    };
    let Ok(mut queue) = Outq::new(alloc) else {
        return None;
    };
    let mut desk = MemoryDesk::new(alloc);
    if !leg.is_made() || desk.faults != 0 {
        return None;
    }
    if leg.greet(1_000_000, 5000, &mut desk).is_err() {
        return None;
    }
    let mut text = [7u8; 1200];
    let mut sum: u64 = 0;
    for k in 0..count {
        text[0] = (k % 256) as u8;
        let base = leg.window().base();
        if base > 1 << 30 || desk.faults != 0 {
            return None;
        }
        let packet = Packet {
            source: PEER,
            dest: OWN,
            seq: 1001_u32.wrapping_add(base as u32),
            ack: 5001,
            flags: ACK + PSH,
            window: 65_535,
            mss: None,
            text: &text,
        };
        leg.on_segment(2_000_000, &packet, &mut queue);
        let mut copy = [0u8; 1200];
        let pending = leg.window().pending();
        if pending.len() != 1200 {
            return None;
        }
        pending.copy_to(&mut copy);
        for octet in copy.iter() {
            sum = sum.wrapping_add(u64::from(*octet));
        }
        leg.consume(1200);
        if leg.window().base() > 1 << 30 || leg.window().pending().len() >= 16_384 {
            return None;
        }
        if leg.speak(2_000_000, true, &mut queue, &mut desk).is_err() {
            return None;
        }
        desk.packets.clear();
    }
    Some(sum)
}
RT

cat > "$work/loop.c" <<'C'
/* The same bytes, copied and summed once. */
#include <stdint.h>
#include <string.h>

int main(int argc, char **argv) {
    (void)argv;
    static uint8_t text[1200], copy[1200];
    uint64_t sum = 0, count = (uint64_t)(argc - 1) * 1000;
    memset(text, 7, sizeof text);
    for (uint64_t k = 0; k < count; k++) {
        text[0] = (uint8_t)k;
        memcpy(copy, text, sizeof copy);
        __asm__ volatile("" ::: "memory");
        for (int i = 0; i < 1200; i++) sum += copy[i];
    }
    return (int)(sum % 251);
}
C
cc -O2 -o "$work/loop" "$work/loop.c"
(cd "$work/crates/bench_leg" && rt run) > "$work/log" 2>&1 || true
program=$work/crates/bench_leg/out/bench_leg
[ -x "$program" ] || { tail -n 20 "$work/log" >&2; exit 1; }

count() {
    valgrind --tool=callgrind --callgrind-out-file=/dev/null "$@" 2>&1 > /dev/null | sed -n 's/.*Collected : \([0-9]*\).*/\1/p'
}
status() {
    "$@" && echo 0 || echo $?
}
words=$(seq "$thousands")
[ "$(status "$program" $words)" = "$(status "$work/loop" $words)" ] || { echo "the sums differ" >&2; exit 1; }
ours=$(($(count "$program" $words) - $(count "$program")))
plain=$(($(count "$work/loop" $words) - $(count "$work/loop")))
awk -v o="$ours" -v p="$plain" -v n="$thousands" 'BEGIN {
    octets = n * 1000 * 1200
    printf "leg %.2f instructions an octet of %d segments of 1,200\n", o / octets, n * 1000
    printf "C   %.2f instructions an octet\n", p / octets
    printf "leg takes %.1f times the instructions of the C loop, %.0f more for a segment\n", o / p, (o - p) / (n * 1000)
}'
