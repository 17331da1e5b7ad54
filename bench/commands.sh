#!/usr/bin/env bash
# The instructions of `cmdwall sift` for one Modbus command, by the policy of examples/pump.toml, beside those of a plain C filter that
# tests the same and writes the same: writes that are admitted, writes of which half are refused, with their lines and replies, reads of
# 125 registers and writes of one coil; counted by callgrind in one run on a stream of 1,001 commands less one of a single command.
# Counts do not depend on the load of the machine; no promise. Words: programs to count (the one that is built).
set -eu
top=$(cd "$(dirname "$0")/.." && pwd)
for tool in valgrind cc python3 cmp; do
    command -v "$tool" > /dev/null || { echo "$tool is missing here, and nothing was measured"; exit 1; }
done
work=$(mktemp -d)
trap 'rm -rf "$work"' EXIT
if [ $# -eq 0 ]; then
    "$top/cmdwall" --version > /dev/null
    set -- "$top/crates/cmdwall/out/cmdwall"
fi
python3 - "$work" <<'PY'
import os, struct, sys


def write(k, register):
    return struct.pack(">HHHBBHH", k, 0, 6, 1, 6, register, k % 500)


kinds = {
    "admitted": lambda k: write(k, 40),
    "half": lambda k: write(k, 40 if k % 2 == 0 else 20),
    "read": lambda k: struct.pack(">HHHBBHH", k, 0, 6, 1, 3, 100, 125),
    "coil": lambda k: struct.pack(">HHHBBHH", k, 0, 6, 1, 5, k % 4, 0xFF00),
}
for name, command in kinds.items():
    for count in (1, 1001):
        with open(os.path.join(sys.argv[1], f"{name}{count}"), "wb") as stream:
            stream.write(b"".join(command(k) for k in range(count)))
PY

# It reads in pieces of 4,096 octets, takes them apart into ADUs, tests unit and form, goes through the rules for each register or coil,
# and writes what is admitted, and for what is refused an exception response and a line.
cat > "$work/filter.c" <<'C'
#include <stdint.h>
#include <stdio.h>
#include <string.h>

struct span { int64_t low, high; };
struct rule {
    const char *name;
    int allows, codes, points, values;
    struct span code[2], point[1], value[1];
};
static const struct rule rules[] = {
    {"poll", 1, 2, 0, 0, {{3, 3}, {4, 4}}, {{0, 0}}, {{0, 0}}},
    {"maker", 0, 2, 1, 0, {{6, 6}, {16, 16}}, {{48, 49}}, {{0, 0}}},
    {"set", 1, 2, 1, 1, {{6, 6}, {16, 16}}, {{40, 49}}, {{0, 500}}},
    {"switch", 1, 1, 1, 0, {{5, 5}}, {{0, 3}}, {{0, 0}}},
};
static uint8_t buffer[8192], passed[16384], replies[16384];
static char lines[262144];
static size_t made, replied, said;
static unsigned long admitted, refused;

static int has(const struct span *spans, int count, int64_t number) {
    if (!count) return 1;
    for (int i = 0; i < count; i++)
        if (spans[i].low <= number && number <= spans[i].high) return 1;
    return 0;
}

/* The rule that decides an act, or none. */
static const struct rule *decider(int64_t code, int64_t point, int has_value, int64_t value) {
    for (const struct rule *r = rules; r < rules + 4; r++)
        if (has(r->code, r->codes, code) && has(r->point, r->points, point)
            && (has_value ? has(r->value, r->values, value) : !r->values)) return r;
    return NULL;
}

/* What about an act no rule allows. */
static const char *reason_of(int64_t code, int64_t point) {
    int some = 0;
    for (const struct rule *r = rules; r < rules + 4; r++)
        if (r->allows && has(r->code, r->codes, code)) {
            some = 1;
            if (has(r->point, r->points, point)) return "value";
        }
    return some ? "point" : "function";
}

static void refuse(const uint8_t *u, size_t len, const struct rule *r, int code, int point, int has_value, int value) {
    const char *reason = r ? (r->values ? "value" : r->points ? "point" : "function") : reason_of(code, point);
    uint8_t reply[9] = {u[0], u[1], 0, 0, 0, 3, u[6], u[7] | 0x80, *reason == 'f' ? 1 : *reason == 'p' ? 2 : 3};
    memcpy(replies + replied, reply, 9);
    replied += 9;
    said += sprintf(lines + said, "0.000000 10.0.0.5:0 pump refuse %s %s code %d group 0 point %d value ", r ? r->name : "default", reason, code, point);
    said += has_value ? sprintf(lines + said, "%d", value) : sprintf(lines + said, "-");
    memcpy(lines + said, " replied ", 9);
    said += 9;
    for (size_t i = 0; i < len && i < 16; i++) {
        lines[said++] = "0123456789abcdef"[u[i] >> 4];
        lines[said++] = "0123456789abcdef"[u[i] & 15];
    }
    lines[said++] = '\n';
    refused++;
}

static void judge(const uint8_t *u, size_t len) {
    int code = u[7], first = u[8] << 8 | u[9], number = u[10] << 8 | u[11];
    int writes = code == 5 || code == 6, count = writes ? 1 : number;
    if (u[6] != 1 || len != 12 || (code != 3 && !writes) || (code == 3 && (number < 1 || number > 125 || first + number > 65536))) {
        refused++;
        return;
    }
    if (code == 5 && number != 0 && number != 0xFF00) { refused++; return; }
    int value = code == 5 ? number == 0xFF00 : number;
    for (int i = 0; i < count; i++) {
        const struct rule *r = decider(code, first + i, writes, value);
        if (!r || !r->allows) { refuse(u, len, r, code, first + i, writes, value); return; }
    }
    memcpy(passed + made, u, len);
    made += len;
    admitted++;
}

int main(int argc, char **argv) {
    if (argc < 5) return 1;
    FILE *in = fopen(argv[1], "rb"), *out = fopen(argv[2], "wb"), *back = fopen(argv[3], "wb"), *log = fopen(argv[4], "wb");
    if (!in || !out || !back || !log) return 1;
    setvbuf(in, NULL, _IONBF, 0);
    size_t held = 0, got;
    while ((got = fread(buffer + held, 1, 4096, in)) > 0) {
        size_t at = 0, end = held + got;
        made = replied = said = 0;
        while (end - at >= 7) {
            const uint8_t *u = buffer + at;
            size_t rest = (size_t)u[4] << 8 | u[5];
            if (u[2] || u[3] || rest < 2 || rest > 254) return 2;
            if (end - at < rest + 6) break;
            judge(u, rest + 6);
            at += rest + 6;
        }
        if (fwrite(passed, 1, made, out) != made || fwrite(replies, 1, replied, back) != replied || fwrite(lines, 1, said, log) != said) return 3;
        held = end - at;
        memmove(buffer, buffer + at, held);
    }
    printf("admitted %lu\nrefused %lu\n", admitted, refused);
    return 0;
}
C
cc -O2 -o "$work/filter" "$work/filter.c"

counted() {
    (cd "$work" && valgrind --tool=callgrind --callgrind-out-file=/dev/null "$@" 2>&1 > /dev/null) | awk '/Collected/ { print $NF }'
}
# An output that is not there yet costs more, and would be counted once alone.
touch "$work/out" "$work/replies" "$work/log"
for kind in admitted half read coil; do
    (cd "$work" && ./filter "${kind}1001" c_out c_replies c_log > /dev/null)
    plain=$((($(counted ./filter "${kind}1001" c_out c_replies c_log) - $(counted ./filter "${kind}1" c_o c_r c_l)) / 1000))
    for program in "$@"; do
        sift=("$program" sift "$top/examples/pump.toml" pump 10.0.0.5)
        one=$(counted "${sift[@]}" "${kind}1" out replies log)
        many=$(counted "${sift[@]}" "${kind}1001" out replies log)
        for file in out replies log; do
            cmp -s "$work/$file" "$work/c_$file" || { echo "$kind: $file differs from that of the C filter, and nothing was measured" >&2; exit 1; }
        done
        ours=$(((many - one) / 1000))
        awk -v k="$kind" -v o="$ours" -v c="$plain" 'BEGIN { printf "%-8s %5d instructions a command, C %5d: %.2f times\n", k, o, c, o / c }'
    done
done
