#!/usr/bin/env bash
# The instructions of `cmdwall sift` on a stream of admitted commands of each protocol with 32 rules, beside those of a plain C
# filter that tests the same and writes the same, both counted by valgrind's callgrind in the same run, less those on an empty
# stream. Ratios, and no promise. Word: the octets of each stream (60,000; of IEC 60870-5-104 no more than 60,000 are made, as
# no controller acknowledges them). CMDWALL in the environment: the program (the one that is built).
set -eu
top=$(cd "$(dirname "$0")/.." && pwd)
counted=${1:-60000}
for tool in valgrind cc python3; do
    command -v "$tool" > /dev/null || { echo "$tool is missing here, and nothing was counted"; exit 0; }
done
work=$(mktemp -d)
trap 'rm -rf "$work"' EXIT
[ -n "${CMDWALL:-}" ] || "$top/cmdwall" --version > /dev/null
program=${CMDWALL:-$top/crates/cmdwall/out/cmdwall}

PYTHONDONTWRITEBYTECODE=1 python3 - "$top/examples" "$work" "$counted" <<'PY'
import struct, sys

sys.path.insert(0, sys.argv[1])
from make import DIRECT, STARTDT, Dnp3Side, adu, dnp3_request, info, relay_output, single

work, counted = sys.argv[2], int(sys.argv[3])
ASSETS = {
    "modbus": ("port = 502", "station = 1", 6, '["0..500"]'),
    "dnp3": ("port = 20000", "station = 10\nmaster = 1", 5, None),
    "iec104": ("port = 2404", "station = 1", 45, None),
}
for protocol, (port, station, code, values) in ASSETS.items():
    with open(f"{work}/{protocol}.policy", "w") as policy:
        policy.write(f'version = 1\n[[asset]]\nname = "pump"\naddress = "10.0.0.9"\n{port}\nprotocol = "{protocol}"\n{station}\n')
        for rule in range(31):
            policy.write(f'[[asset.rule]]\nname = "r{rule}"\naction = "refuse"\ncodes = [{code}]\npoints = ["{100 * rule + 1000}..{100 * rule + 1049}"]\n')
        policy.write(f'[[asset.rule]]\nname = "set"\naction = "allow"\ncodes = [{code}]\npoints = ["0..99"]\n')
        if values:
            policy.write(f"values = {values}\n")

outstation = Dnp3Side(0xC4, 10, 1)
ONE = {
    "modbus": lambda k: adu(k % 65536, 1, struct.pack(">BHH", 6, k % 100, k % 500)),
    "dnp3": lambda k: outstation.fragment(dnp3_request(k % 16, DIRECT, relay_output(k % 100, 3))),
    "iec104": lambda k: info(k, 0, single(k % 100, k % 2)),
}
for protocol, one in ONE.items():
    most = min(counted, 60_000) if protocol == "iec104" else counted
    with open(f"{work}/{protocol}.stream", "wb") as stream:
        written = k = 0
        if protocol == "iec104":
            stream.write(STARTDT)
        while written < most:
            octets = one(k)
            stream.write(octets)
            written, k = written + len(octets), k + 1
open(f"{work}/empty", "wb").close()
PY

# Each filter reads in pieces of 4,096 octets, frames, tests station and form, goes through the rules, and writes what is admitted.
cat > "$work/filter.h" <<'C'
#include <stdint.h>
#include <stdio.h>
#include <string.h>

/* Numbers or ranges, as a policy lists them; none means any. */
struct spans { int count; struct { int64_t low, high; } span[64]; };
struct rule { int allows; struct spans clients, codes, groups, points, values; };
static struct rule rules[32];
static uint8_t buffer[8192], passed[16384];
static size_t made;
static unsigned long admitted, refused;

static int takes(const struct spans *spans, int64_t number) {
    if (!spans->count) return 1;
    for (int i = 0; i < spans->count; i++)
        if (spans->span[i].low <= number && number <= spans->span[i].high) return 1;
    return 0;
}

static void state(struct spans *spans, int64_t low, int64_t high) {
    spans->span[spans->count].low = low;
    spans->span[spans->count++].high = high;
}

static int allowed(int64_t code, int64_t group, int64_t point, int64_t value) {
    for (int i = 0; i < 32; i++) {
        const struct rule *r = &rules[i];
        if (takes(&r->clients, 0x0a000005) && takes(&r->codes, code) && takes(&r->groups, group)
            && takes(&r->points, point) && takes(&r->values, value)) return r->allows;
    }
    return 0;
}

/* How many octets a unit at the front has, 0 where more must come, below 0 where none begins so. */
static long unit(const uint8_t *u, size_t len);
/* Judges a unit, and puts it into what is passed. */
static void judge(const uint8_t *u, size_t len);

static int run(int code, int has_values, char **argv) {
    for (int i = 0; i < 32; i++) {
        state(&rules[i].codes, code, code);
        state(&rules[i].points, i < 31 ? 100 * i + 1000 : 0, i < 31 ? 100 * i + 1049 : 99);
    }
    if (has_values) state(&rules[31].values, 0, 500);
    rules[31].allows = 1;
    FILE *in = fopen(argv[1], "rb"), *out = fopen(argv[2], "wb");
    if (!in || !out) return 1;
    setvbuf(in, NULL, _IONBF, 0);
    setvbuf(out, NULL, _IONBF, 0);
    size_t held = 0, got;
    while ((got = fread(buffer + held, 1, 4096, in)) > 0) {
        size_t at = 0, end = held + got;
        long len;
        made = 0;
        while ((len = unit(buffer + at, end - at)) > 0) {
            judge(buffer + at, len);
            at += len;
        }
        if (len < 0) return 2;
        if (made && fwrite(passed, 1, made, out) != made) return 3;
        held = end - at;
        memmove(buffer, buffer + at, held);
    }
    printf("admitted %lu\nrefused %lu\n", admitted, refused);
    return 0;
}
C

cat > "$work/modbus.c" <<'C'
#include "filter.h"

static long unit(const uint8_t *u, size_t len) {
    if (len < 7) return 0;
    size_t rest = (size_t)u[4] << 8 | u[5];
    if (u[2] || u[3] || rest < 2 || rest > 254) return -1;
    return len < rest + 6 ? 0 : (long)(rest + 6);
}

static void judge(const uint8_t *u, size_t len) {
    if (u[6] == 1 && u[7] == 6 && len == 12 && allowed(6, 0, u[8] << 8 | u[9], u[10] << 8 | u[11])) {
        memcpy(passed + made, u, len);
        made += len;
        admitted++;
    } else {
        refused++;
    }
}

int main(int argc, char **argv) { return argc < 3 ? 1 : run(6, 1, argv); }
C

cat > "$work/dnp3.c" <<'C'
#include "filter.h"

static uint16_t table[256];
static uint8_t fragment[2048];
static size_t kept;
static int begun, next, sent;

static uint16_t crc(const uint8_t *octets, size_t len) {
    uint16_t c = 0;
    while (len--) c = c >> 8 ^ table[(c ^ *octets++) & 0xff];
    return c ^ 0xffff;
}

static int is_right(const uint8_t *octets, size_t len) {
    uint16_t c = crc(octets, len);
    return octets[len] == (c & 0xff) && octets[len + 1] == c >> 8;
}

static long unit(const uint8_t *u, size_t len) {
    if (len < 10) return 0;
    if (u[0] != 0x05 || u[1] != 0x64 || u[2] < 5 || !is_right(u, 8)) return -1;
    size_t user = u[2] - 5, all = 10 + user + 2 * ((user + 15) / 16);
    if (len < all) return 0;
    for (const uint8_t *block = u + 10; user; ) {
        size_t part = user < 16 ? user : 16;
        if (!is_right(block, part)) return -1;
        block += part + 2;
        user -= part;
    }
    return (long)all;
}

static void put(const uint8_t *octets, size_t len) {
    uint16_t c = crc(octets, len);
    memcpy(passed + made, octets, len);
    passed[made + len] = c & 0xff;
    passed[made + len + 1] = c >> 8;
    made += len + 2;
}

static void put_fragment(void) {
    for (size_t at = 0; at < kept; ) {
        size_t part = kept - at < 249 ? kept - at : 249;
        uint8_t head[8] = {0x05, 0x64, 6 + part, 0xc4, 10, 0, 1, 0}, user[250];
        user[0] = (at == 0) << 6 | (at + part == kept) << 7 | sent;
        memcpy(user + 1, fragment + at, part);
        put(head, 8);
        for (size_t from = 0; from < part + 1; from += 16) put(user + from, part + 1 - from < 16 ? part + 1 - from : 16);
        sent = (sent + 1) % 64;
        at += part;
    }
}

static int is_allowed(void) {
    size_t at = 2;
    if (kept < 2 || (fragment[0] & 0xe0) != 0xc0 || fragment[1] != 5 || kept == 2) return 0;
    while (at < kept) {
        if (kept - at < 4 || fragment[at] != 12 || fragment[at + 1] != 1 || fragment[at + 2] != 0x17) return 0;
        size_t count = fragment[at + 3];
        at += 4;
        if (kept - at < 12 * count) return 0;
        for (; count; count--, at += 12)
            if (!allowed(5, 12 * 256 + 1, fragment[at], fragment[at + 1])) return 0;
    }
    return 1;
}

static void judge(const uint8_t *u, size_t len) {
    size_t user = u[2] - 5;
    (void)len;
    if (u[3] != 0xc4 || u[4] != 10 || u[5] || u[6] != 1 || u[7] || !user) return;
    int segment = u[10], number = segment & 0x3f;
    if (segment & 0x40) kept = 0;
    else if (!begun || number != next) { begun = 0; return; }
    begun = 1;
    next = (number + 1) % 64;
    for (size_t at = 0; at < user; at += 16) {
        size_t skip = at == 0, part = (user - at < 16 ? user - at : 16) - skip;
        if (kept + part > 2048) { begun = 0; return; }
        memcpy(fragment + kept, u + 10 + at + 2 * (at / 16) + skip, part);
        kept += part;
    }
    if (!(segment & 0x80)) return;
    begun = 0;
    if (is_allowed()) { put_fragment(); admitted++; } else refused++;
}

int main(int argc, char **argv) {
    for (int octet = 0; octet < 256; octet++) {
        uint16_t c = octet;
        for (int bit = 0; bit < 8; bit++) c = c & 1 ? c >> 1 ^ 0xa6bc : c >> 1;
        table[octet] = c;
    }
    return argc < 3 ? 1 : run(5, 0, argv);
}
C

cat > "$work/iec104.c" <<'C'
#include <stdlib.h>
#include "filter.h"

static unsigned came, sent, started;

static long unit(const uint8_t *u, size_t len) {
    if (len < 2) return 0;
    if (u[0] != 0x68 || u[1] < 4 || u[1] > 253) return -1;
    return len < (size_t)u[1] + 2 ? 0 : u[1] + 2;
}

static void judge(const uint8_t *u, size_t len) {
    unsigned number = (u[2] | u[3] << 8) >> 1, received = (u[4] | u[5] << 8) >> 1;
    const uint8_t *a = u + 6;
    if (u[2] & 1) { started |= u[2] == 7; memcpy(passed + made, u, len); made += len; return; }
    if (!started || u[4] & 1 || number != came || received) exit(2);
    came = (came + 1) % 32768;
    uint32_t point = a[6] | a[7] << 8 | (uint32_t)a[8] << 16;
    if (len == 16 && a[0] == 45 && a[1] == 1 && a[4] == 1 && a[5] == 0 && ((a[2] & 0x3f) == 6 || (a[2] & 0x3f) == 8) && allowed(45, a[2] & 0x3f, point, a[9])) {
        memcpy(passed + made, u, len);
        passed[made + 2] = sent << 1;
        passed[made + 3] = sent >> 7;
        made += len;
        sent = (sent + 1) % 32768;
        admitted++;
    } else {
        refused++;
    }
}

int main(int argc, char **argv) { return argc < 3 ? 1 : run(45, 0, argv); }
C

count() {
    valgrind --tool=callgrind --callgrind-out-file=/dev/null "$@" 2>&1 > /dev/null | sed -n 's/.*Collected : \([0-9]*\).*/\1/p'
}

for protocol in modbus dnp3 iec104; do
    stream=$work/$protocol.stream
    words=("$program" sift "$work/$protocol.policy" pump 10.0.0.5)
    outs=("$work/out" "$work/replies" "$work/log")
    cc -O2 -I "$work" -o "$work/filter" "$work/$protocol.c"
    "$work/filter" "$stream" "$work/c_out" > "$work/c_printed"
    "${words[@]}" "$stream" "${outs[@]}" > "$work/printed"
    cmp "$work/c_out" "$work/out"
    cmp "$work/c_printed" "$work/printed"
    ours=$(($(count "${words[@]}" "$stream" "${outs[@]}") - $(count "${words[@]}" "$work/empty" "${outs[@]}")))
    plain=$(($(count "$work/filter" "$stream" "$work/c_out") - $(count "$work/filter" "$work/empty" "$work/c_out")))
    awk -v name="$protocol" -v o="$ours" -v p="$plain" -v n="$(stat -c %s "$stream")" 'BEGIN {
        printf "%-7s sift %.1f and C %.1f instructions an octet of %d: %.2f times\n", name, o / n, p / n, n, o / p
    }'
done
