#!/usr/bin/env bash
# The instructions of `next_frame` on DNP3 frames of 250 user octets, beside those of a plain C loop that reads the same frame
# and tests the CRC of each block by a table of octets. Both are counted by valgrind's callgrind in the same run, less those on
# no frame. A ratio, and no promise. Word: the hundreds of frames (100).
set -eu
top=$(cd "$(dirname "$0")/.." && pwd)
hundreds=${1:-100}
for tool in rt valgrind cc; do
    command -v "$tool" > /dev/null || { echo "$tool is missing here, and nothing was counted"; exit 0; }
done
work=$(mktemp -d)
trap 'rm -rf "$work"' EXIT
mkdir -p "$work/crates/bench_dnplink/src"
cp "$top/HANDLES" "$work"
for name in cf_view cf_dnplink; do
    cp -a "$top/crates/$name" "$work/crates"
    grep "^$name:" "$top/crates.txt" >> "$work/crates.txt"
done
echo 'bench_dnplink: arrayvec cf_dnplink cf_view' >> "$work/crates.txt"

cat > "$work/crates/bench_dnplink/src/main.rt" <<'RT'
//! A frame of 250 user octets, read a hundred times for each word. The status is its control octet.
#![tactic(auto)]

use arrayvec::ArrayVec;
use cf_dnplink::{next_frame, write_frame};
use cf_view::{Framed, View};
use std::env;
use std::process::ExitCode;

fn main(rt: HostRuntime) -> ExitCode {
    let rounds = match env::args(&rt) {
        Ok(words) => (words.skip(1).count() as u64).wrapping_mul(100),
        Err(_) => return ExitCode::from(253),
    };
    let mut user = [0u8; 250];
    for i in 0..250 {
        user[i] = (i * 7 % 256) as u8;
    }
    let mut frame = ArrayVec::new();
    write_frame(0xC4, 10, 1, &View::one(&user), &mut frame);
    ExitCode::from(read_all(frame.as_slice(), rounds))
}

/// Reads the frame again and again.
fn read_all(octets: &[u8], rounds: u64) -> u8 {
    let mut last = 0;
    for _ in 0..rounds {
        last = match next_frame(View::one(octets)) {
            Framed::Unit { unit, .. } => unit.control,
            Framed::More => 1,
            Framed::Broken(_) => 2,
        };
    }
    last
}
RT

cat > "$work/loop.c" <<'C'
/* A plain reader of one frame: start, LENGTH, and the CRC of each block by a table. */
#include <stdint.h>

static uint16_t table[256];

static uint16_t crc(const uint8_t *octets, int count) {
    uint16_t sum = 0;
    for (int i = 0; i < count; i++) sum = (sum >> 8) ^ table[(sum ^ octets[i]) & 0xFF];
    return (uint16_t)~sum;
}

static int is_checked(const uint8_t *octets, int count) {
    uint16_t sum = crc(octets, count);
    return octets[count] == (sum & 0xFF) && octets[count + 1] == sum >> 8;
}

/* Its control octet, or a number of what is wrong. */
static __attribute__((noinline)) int next_frame(const uint8_t *octets, int count) {
    if (count < 10) return 1;
    if (octets[0] != 0x05 || octets[1] != 0x64 || octets[2] < 5 || !is_checked(octets, 8)) return 2;
    int user = octets[2] - 5, at = 10;
    if (count < 10 + user + 2 * ((user + 15) / 16)) return 1;
    for (; user > 0; user -= 16, at += 18)
        if (!is_checked(octets + at, user < 16 ? user : 16)) return 2;
    return octets[3];
}

static int put(uint8_t *out, int at, int count) {
    uint16_t sum = crc(out + at, count);
    out[at + count] = (uint8_t)sum;
    out[at + count + 1] = (uint8_t)(sum >> 8);
    return at + count + 2;
}

int main(int argc, char **argv) {
    (void)argv;
    static uint8_t frame[292] = {0x05, 0x64, 255, 0xC4, 10, 0, 1, 0};
    for (int i = 0; i < 256; i++) {
        uint16_t sum = (uint16_t)i;
        for (int bit = 0; bit < 8; bit++) sum = (uint16_t)(sum & 1 ? (sum >> 1) ^ 0xA6BC : sum >> 1);
        table[i] = sum;
    }
    int at = put(frame, 0, 8);
    for (int user = 0; user < 250; user += 16) {
        int count = 250 - user < 16 ? 250 - user : 16;
        for (int i = 0; i < count; i++) frame[at + i] = (uint8_t)((user + i) * 7);
        at = put(frame, at, count);
    }
    int last = 0;
    for (long round = 0; round < 100L * (argc - 1); round++) {
        last = next_frame(frame, at);
        __asm__ volatile("" ::: "memory");
    }
    return last;
}
C
cc -O2 -o "$work/loop" "$work/loop.c"
(cd "$work/crates/bench_dnplink" && rt run) > "$work/log" 2>&1 || true
program=$work/crates/bench_dnplink/out/bench_dnplink
[ -x "$program" ] || { tail -n 20 "$work/log" >&2; exit 1; }

count() {
    valgrind --tool=callgrind --callgrind-out-file=/dev/null "$@" 2>&1 > /dev/null | sed -n 's/.*Collected : \([0-9]*\).*/\1/p'
}
status() {
    "$@" && echo 0 || echo $?
}
words=$(seq "$hundreds")
[ "$(status "$program" $words)" = 196 ] && [ "$(status "$work/loop" $words)" = 196 ] || { echo "a frame was not read" >&2; exit 1; }
ours=$(($(count "$program" $words) - $(count "$program")))
plain=$(($(count "$work/loop" $words) - $(count "$work/loop")))
awk -v o="$ours" -v p="$plain" -v n="$hundreds" 'BEGIN {
    octets = n * 100 * 292
    printf "next_frame %.1f instructions an octet of %d frames of 292\n", o / octets, n * 100
    printf "C          %.1f instructions an octet\n", p / octets
    printf "next_frame takes %.2f times the instructions of the C loop\n", o / p
}'
