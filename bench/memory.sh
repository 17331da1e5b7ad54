#!/usr/bin/env bash
# Refuses one call for memory after the other, by its number from 1, in the program as it is built, until a run has none to
# refuse. Each run must end with 13 or 0, or, where the adapter over files wanted the memory for a call of its own, with the
# status of that call: 3 for a read, 4 for a creation or an append. Without refusals it must end with 0. A library that is loaded before the C library's counts the
# calls. No gate runs this. Word: a command of those below, else all of them.
set -eu
top=$(cd "$(dirname "$0")/.." && pwd)
for tool in cc python3; do
    command -v "$tool" > /dev/null || { echo "$tool is missing here, and nothing was tried"; exit 0; }
done
"$top/cmdwall" --version > /dev/null
work=$(mktemp -d)
trap 'rm -rf "$work"' EXIT
cat > "$work/refuse.c" <<'C'
// Refuses the call for memory whose number REFUSE has, and writes to descriptor 9 where it came to it.
#define _GNU_SOURCE
#include <dlfcn.h>
#include <errno.h>
#include <stdlib.h>
#include <unistd.h>

extern void *__libc_malloc(size_t), *__libc_calloc(size_t, size_t), *__libc_realloc(void *, size_t), *__libc_memalign(size_t, size_t);

static long left = -1;

static int refuses(void) {
    if (left < 0) {
        const char *number = getenv("REFUSE");
        left = number ? atol(number) : 0;
    }
    if (left == 0 || --left != 0) return 0;
    if (write(9, "x", 1) < 0) return 1;
    errno = ENOMEM;
    return 1;
}

void *malloc(size_t n) { return refuses() ? 0 : __libc_malloc(n); }
void *calloc(size_t n, size_t m) { return refuses() ? 0 : __libc_calloc(n, m); }
void *realloc(void *p, size_t n) { return refuses() ? 0 : __libc_realloc(p, n); }
void *aligned_alloc(size_t a, size_t n) { return refuses() ? 0 : __libc_memalign(a, n); }
void *memalign(size_t a, size_t n) { return refuses() ? 0 : __libc_memalign(a, n); }
int posix_memalign(void **p, size_t a, size_t n) {
    if (refuses()) return ENOMEM;
    *p = __libc_memalign(a, n);
    return *p ? 0 : ENOMEM;
}
C
cc -shared -fPIC -O1 -o "$work/refuse.so" "$work/refuse.c"
python3 - "$top" "$work" "$@" <<'PY'
import collections, os, subprocess, sys

top, work, *only = sys.argv[1:]
program = os.path.join(top, "crates", "cmdwall", "out", "cmdwall")
examples = os.path.join(top, "examples")
COMMANDS = {
    "check": ["check", "waterworks.toml"],
    "packets": ["packets", "waterworks.pcap"],
    "sift": ["sift", "pump.toml", "pump", "10.0.0.5", "requests.bin", "OUT", "REPLIES", "LOG"],
    "run": ["run", "waterworks.toml", "waterworks.pcap", "OUT", "LOG"],
    "world": ["world", "7", "3", "POLICY", "CAPTURE", "OUT", "LOG"],
}
OUTPUTS = ("POLICY", "CAPTURE", "OUT", "REPLIES", "LOG")


def words_of(words):
    for word in words:
        if word in OUTPUTS:
            yield os.path.join(work, word)
        else:
            yield os.path.join(examples, word) if "." in word and not word[0].isdigit() else word


wrong = 0
for name, words in COMMANDS.items():
    if only and name not in only:
        continue
    words = [program, *words_of(words)]
    ended = collections.Counter()
    number = 0
    while True:
        number += 1
        reading, writing = os.pipe()
        os.dup2(writing, 9)
        env = {**os.environ, "LD_PRELOAD": os.path.join(work, "refuse.so"), "REFUSE": str(number)}
        done = subprocess.run(words, env=env, pass_fds=[9], stdout=subprocess.DEVNULL, stderr=subprocess.DEVNULL)
        os.close(9)
        os.close(writing)
        refused = os.read(reading, 1) == b"x"
        os.close(reading)
        if not refused:
            break
        ended[done.returncode] += 1
        if done.returncode not in (0, 3, 4, 13):
            wrong += 1
            print(f"{name}: call {number} refused: status {done.returncode}")
    if done.returncode != 0:
        wrong += 1
    told = ", ".join(f"{count} with {status}" for status, count in sorted(ended.items()))
    print(f"{name}: {number - 1} calls refused one by one: {told}; none refused: {done.returncode}")
sys.exit(wrong != 0)
PY
