#!/usr/bin/env bash
# The time of Modbus round trips of one client through `cmdwall relay`, beside that through `socat` in the same run (left out
# where it is missing), over the loopback, with a controller that answers each request with itself, each the median of five in turn; and
# the rate and the processor time of each where ten times as many requests are sent without waiting for an answer.
# Ratios, and no promise. Word: the number of round trips (20,000). CMDWALL in the environment: the program (the one that is built).
set -eu
top=$(cd "$(dirname "$0")/.." && pwd)
work=$(mktemp -d)
trap 'rm -rf "$work"' EXIT
[ -n "${CMDWALL:-}" ] || "$top/cmdwall" --version > /dev/null
python3 - "$work" "${1:-20000}" "${CMDWALL:-$top/crates/cmdwall/out/cmdwall}" <<'PY'
import os, resource, shutil, socket, statistics, struct, subprocess, sys, threading, time

work, trips, program = sys.argv[1], int(sys.argv[2]), sys.argv[3]


def free_port():
    with socket.socket() as probe:
        probe.bind(("127.0.0.1", 0))
        return probe.getsockname()[1]


def echo(listener):
    stream, _ = listener.accept()
    stream.setsockopt(socket.IPPROTO_TCP, socket.TCP_NODELAY, 1)
    while octets := stream.recv(65536):
        stream.sendall(octets)
    stream.close()


def connected(port):
    for _ in range(100):
        try:
            return socket.create_connection(("127.0.0.1", port))
        except OSError:
            time.sleep(0.05)
    sys.exit("nobody listened, and nothing was measured")


def took(words, port, listener):
    """Seconds for all round trips through a program that listens at the port and connects to the listener."""
    controller = threading.Thread(target=echo, args=(listener,), daemon=True)
    controller.start()
    child = subprocess.Popen(words, stdout=subprocess.DEVNULL, stderr=subprocess.DEVNULL)
    client = connected(port)
    client.setsockopt(socket.IPPROTO_TCP, socket.TCP_NODELAY, 1)
    begun = time.perf_counter()
    for trip in range(trips):
        write = struct.pack(">HHHBBHH", trip % 65536, 0, 6, 1, 6, 40, trip % 500)
        client.sendall(write)
        answer = b""
        while len(answer) < len(write):
            octets = client.recv(4096)
            if not octets:
                sys.exit("the stream ended, and nothing was measured")
            answer += octets
        if answer != write:
            sys.exit("an answer differs, and nothing was measured")
    seconds = time.perf_counter() - begun
    client.close()
    child.wait(timeout=60)
    controller.join(timeout=60)
    return seconds


def piped(words, port, listener):
    """Seconds from the first request to the last answer, none of which is waited for, and the processor seconds of the program."""
    requests = b"".join(struct.pack(">HHHBBHH", trip % 65536, 0, 6, 1, 6, 40, trip % 500) for trip in range(10 * trips))
    controller = threading.Thread(target=echo, args=(listener,), daemon=True)
    controller.start()
    before = resource.getrusage(resource.RUSAGE_CHILDREN)
    child = subprocess.Popen(words, stdout=subprocess.DEVNULL, stderr=subprocess.DEVNULL)
    client = connected(port)
    begun = time.perf_counter()
    sender = threading.Thread(target=client.sendall, args=(requests,), daemon=True)
    sender.start()
    answers = bytearray()
    while len(answers) < len(requests):
        octets = client.recv(65536)
        if not octets:
            sys.exit("the stream ended, and nothing was measured")
        answers += octets
    seconds = time.perf_counter() - begun
    if answers != requests:
        sys.exit("an answer differs, and nothing was measured")
    sender.join(timeout=60)
    client.close()
    child.wait(timeout=60)
    controller.join(timeout=60)
    after = resource.getrusage(resource.RUSAGE_CHILDREN)
    return seconds, after.ru_utime + after.ru_stime - before.ru_utime - before.ru_stime


listener = socket.create_server(("127.0.0.1", 0))
peer = listener.getsockname()[1]
policy = os.path.join(work, "policy.toml")
with open(policy, "w") as file:
    file.write(f'version = 1\n[[asset]]\nname = "pump"\naddress = "127.0.0.1"\nport = {peer}\nprotocol = "modbus"\nstation = 1\n'
               '[[asset.rule]]\nname = "set"\naction = "allow"\ncodes = [6]\n')


def relay(measure):
    port = free_port()
    return measure([program, "relay", policy, "pump", str(port), "12000", os.path.join(work, "log")], port, listener)


def socat(measure):
    port = free_port()
    return measure(["socat", f"TCP-LISTEN:{port},bind=127.0.0.1,nodelay", f"TCP:127.0.0.1:{peer},nodelay"], port, listener)


def said(name, times):
    """The median, after a line with it and the spread."""
    middle = statistics.median(times)
    print(f"{name:<6} {middle:.2f} s (spread {max(times) - min(times):.2f}), {1e6 * middle / trips:.0f} microseconds a round trip")
    return middle


def said_piped(name, runs):
    """The medians of the rate and of the processor time, after a line with them and the spread."""
    rate = statistics.median(10 * trips / seconds for seconds, _ in runs)
    used = [processor for _, processor in runs]
    middle = statistics.median(used)
    print(f"{name:<6} {rate / 1e6:.2f} million requests a second, {middle:.3f} s of the processor (spread {max(used) - min(used):.3f})")
    return rate, middle


ours, others, our_piped, other_piped = [], [], [], []
for _ in range(5):
    ours.append(relay(took))
    our_piped.append(relay(piped))
    if shutil.which("socat"):
        others.append(socat(took))
        other_piped.append(socat(piped))
middle = said("relay", ours)
if others:
    print(f"relay takes {middle / said('socat', others):.2f} times as long as socat")
else:
    print("socat is missing here, and was left out")
rate, used = said_piped("relay", our_piped)
if other_piped:
    other_rate, other_used = said_piped("socat", other_piped)
    print(f"without waiting: {rate / other_rate:.2f} of socat's rate, {used / other_used:.2f} times its processor time")
PY
