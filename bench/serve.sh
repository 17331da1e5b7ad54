#!/usr/bin/env bash
# `cmdwall serve` among real peers, over the loopback, and its load beside haproxy's in the same run (left out where it is missing).
#
# Peers: one client in lock step, and beside it in turn masters that come and go (mbpoll), a controller that goes away and comes back
# (pymodbus, where it is there, else a server of this script), a client that sends HTTP, one that never reads, one that resets amid a
# frame, forty that connect and say nothing, and a scan (nmap). The first has to have every answer, and the log is read back line by line.
# Load: so many sessions that poll, the processor time of a trip, and the memory of a session. Ratios, and no promise.
# Words: the round trips of the client in lock step (10,000), the sessions (200), the round trips of each (200).
set -eu
top=$(cd "$(dirname "$0")/.." && pwd)
work=$(mktemp -d)
trap 'rm -rf "$work"' EXIT
[ -n "${CMDWALL:-}" ] || "$top/cmdwall" --version > /dev/null
python3 - "$top" "$work" "${1:-10000}" "${2:-200}" "${3:-200}" <<'PY'
import os, re, resource, select, shutil, signal, socket, struct, subprocess, sys, threading, time

top, work = sys.argv[1], sys.argv[2]
trips, sessions, rounds = (int(word) for word in sys.argv[3:6])
program = os.environ.get("CMDWALL") or os.path.join(top, "dist", "cmdwall")
log = os.path.join(work, "log")
failed = []


def check(what, holds):
    if not holds:
        failed.append(what)
        print(f"FAILED: {what}")


def free_port():
    with socket.socket() as probe:
        probe.bind(("127.0.0.1", 0))
        return probe.getsockname()[1]


class Controller:
    """A Modbus server that answers each request with itself, as writes of one register are answered."""

    def __init__(self, port=0):
        self.listener = socket.create_server(("127.0.0.1", port), backlog=512)
        self.port = self.listener.getsockname()[1]
        self.streams = []
        self.stops = False
        self.thread = threading.Thread(target=self.serve, daemon=True)
        self.thread.start()

    def serve(self):
        poll = select.epoll()
        poll.register(self.listener, select.EPOLLIN)
        streams = {}
        while not self.stops:
            for number, _ in poll.poll(0.1):
                if number == self.listener.fileno():
                    stream, _ = self.listener.accept()
                    stream.setsockopt(socket.IPPROTO_TCP, socket.TCP_NODELAY, 1)
                    streams[stream.fileno()] = stream
                    poll.register(stream, select.EPOLLIN)
                    continue
                stream = streams[number]
                try:
                    octets = stream.recv(65536)
                    if octets:
                        stream.sendall(octets)
                        continue
                except OSError:
                    pass
                poll.unregister(stream)
                del streams[number]
                stream.close()
        for stream in streams.values():
            stream.close()
        self.listener.close()

    def stop(self):
        self.stops = True
        self.thread.join()


def write_of(trip, register=40):
    return struct.pack(">HHHBBHH", trip % 65536, 0, 6, 1, 6, register, trip % 500)


def connected(port):
    for _ in range(200):
        try:
            stream = socket.create_connection(("127.0.0.1", port))
            stream.setsockopt(socket.IPPROTO_TCP, socket.TCP_NODELAY, 1)
            return stream
        except OSError:
            time.sleep(0.05)
    sys.exit("nobody listened, and nothing was measured")


def answer(stream, count):
    octets = b""
    while len(octets) < count:
        more = stream.recv(4096)
        if not more:
            return None
        octets += more
    return octets


def policy_file(name, assets):
    path = os.path.join(work, name)
    with open(path, "w") as file:
        file.write("version = 1\n")
        for asset, port in assets:
            file.write(f'[[asset]]\nname = "{asset}"\naddress = "127.0.0.1"\nport = {port}\nprotocol = "modbus"\nstation = 1\n'
                       '[[asset.rule]]\nname = "set"\naction = "allow"\ncodes = [3, 6]\npoints = ["0..49"]\n')
    return path


def service(words):
    child = subprocess.Popen([program, "serve", *words], stdout=subprocess.DEVNULL, stderr=open(os.path.join(work, "said"), "a"))
    return child


def lines():
    with open(log) as file:
        return [line.rstrip("\n").split(" ", 3) for line in file]


def of_client(port):
    return [text for _, client, _, text in lines() if client == f"127.0.0.1:{port}"]


class Healthy(threading.Thread):
    """Writes in lock step; each second one is refused, and answered by the box."""

    def __init__(self, port, count):
        super().__init__(daemon=True)
        self.stream = connected(port)
        self.port = self.stream.getsockname()[1]
        self.count, self.slowest, self.right = count, 0.0, 0

    def run(self):
        for trip in range(self.count):
            refused = trip % 10 == 9
            begun = time.perf_counter()
            self.stream.sendall(write_of(trip, 50 if refused else 40))
            got = answer(self.stream, 9 if refused else 12)
            self.slowest = max(self.slowest, time.perf_counter() - begun)
            if got is None:
                return
            self.right += got == (write_of(trip)[:4] + b"\0\3\1\x86\2" if refused else write_of(trip))
        self.stream.close()


# ---- among peers

echo, other_port = Controller(), free_port()
other = Controller(other_port)
place, other_place = free_port(), free_port()
policy = policy_file("peers.toml", [("pump", echo.port), ("valve", other_port)])
child = service([policy, "3", log, f"pump=127.0.0.1:{place}", f"valve=127.0.0.1:{other_place}"])
healthy = Healthy(place, trips)
healthy.start()

mbpoll = shutil.which("mbpoll")
if mbpoll:
    for _ in range(5):
        for port in (place, other_place):
            subprocess.run([mbpoll, "-m", "tcp", "-a", "1", "-p", str(port), "-0", "-1", "-r", "40", "127.0.0.1", "7"],
                           stdout=subprocess.DEVNULL, stderr=subprocess.DEVNULL, timeout=20)

http = connected(place)
http_port = http.getsockname()[1]
http.sendall(b"GET / HTTP/1.1\r\nHost: pump\r\n\r\n")
http.settimeout(5)
check("the client that sends HTTP is left", http.recv(4096) == b"")

greedy = connected(place)
greedy_port = greedy.getsockname()[1]
greedy.setblocking(False)
begun, many, sent = time.perf_counter(), write_of(1) * 100, 0
while time.perf_counter() - begun < 1:
    try:
        sent += greedy.send(many[sent % len(many):])
    except BlockingIOError:
        time.sleep(0.01)

broken = connected(place)
broken_port = broken.getsockname()[1]
broken.sendall(write_of(1)[:7])
time.sleep(0.2)
broken.setsockopt(socket.SOL_SOCKET, socket.SO_LINGER, struct.pack("ii", 1, 0))
broken.close()

quiet = [connected(other_place) for _ in range(40)]
quiet_ports = [stream.getsockname()[1] for stream in quiet]
if shutil.which("nmap"):
    subprocess.run(["nmap", "-sT", "-p", f"{place},{other_place}", "127.0.0.1"], stdout=subprocess.DEVNULL, timeout=60)

# The other controller goes away and comes back.

time.sleep(4.5)
other.stop()
gone = connected(other_place)
gone_port = gone.getsockname()[1]
gone.settimeout(15)
try:
    check("a client without its controller is left", gone.recv(10) == b"")
except ConnectionResetError:
    pass
other = Controller(other_port)
back = connected(other_place)
back.settimeout(15)
back.sendall(write_of(5))
check("the controller that came back answers", answer(back, 12) == write_of(5))
back_port = back.getsockname()[1]
back.close()
healthy.join(timeout=120)
# A side that does not read is asked once a second, and has six such answers; on a busy machine that takes longer.
time.sleep(max(0.5, begun + 10 - time.perf_counter()))
deadline = time.perf_counter() + 20
while time.perf_counter() < deadline and not of_client(greedy_port)[-1].startswith("silent"):
    time.sleep(0.2)

check("every answer came and was right", healthy.right == trips)
print(f"{trips:,} round trips beside all others, the slowest {1e3 * healthy.slowest:.1f} ms")
refusals = sum(text.startswith("refuse default point code 6 group 0 point 50 ") for text in of_client(healthy.port))
check("the lines of the healthy client", of_client(healthy.port)[0] == "open" and refusals == trips // 10
      and of_client(healthy.port)[-1] == f"close admitted {trips - trips // 10} refused {trips // 10}"
      and len(of_client(healthy.port)) == refusals + 2)
check("HTTP is cut", of_client(http_port) == ["open", "cut client protocol"])
check("one that never reads is silent", bool(re.fullmatch(r"silent admitted \d+ refused 0", of_client(greedy_port)[-1])))
check("one that resets is lost", of_client(broken_port) == ["open", "lost admitted 0 refused 0"])
for port in quiet_ports:
    text = of_client(port)
    check("those that say nothing", text in (["open", "silent admitted 0 refused 0"], ["open"], []) or text[0].startswith("away came "))
check("at most 32 sessions of one asset", sum(of_client(port) != [] for port in quiet_ports) >= 32)
check("a client without its controller is unreached", of_client(gone_port) == ["unreached"])
check("the session with the one that came back", of_client(back_port) == ["open", "close admitted 1 refused 0"])
check("the service says that it listens", [text for _, _, _, text in lines()][:2] == ["listen", "listen"])
check("the service goes on", child.poll() is None)
child.send_signal(signal.SIGTERM)
child.wait(timeout=10)
other.stop()

# ---- under load


def load(words, port):
    """Seconds of the processor for all trips of all sessions through a program, and its memory in kilobytes."""
    child = subprocess.Popen(words, stdout=subprocess.DEVNULL, stderr=subprocess.DEVNULL)
    streams = [connected(port) for _ in range(sessions)]
    for stream in streams:
        stream.sendall(write_of(0))
        if answer(stream, 12) != write_of(0):
            sys.exit("an answer differs, and nothing was measured")
    before = processor(child.pid)
    for trip in range(1, rounds + 1):
        for stream in streams:
            stream.sendall(write_of(trip))
        for stream in streams:
            if answer(stream, 12) != write_of(trip):
                sys.exit("an answer differs, and nothing was measured")
    spent = processor(child.pid) - before
    memory = resident(child.pid)
    before = processor(child.pid)
    time.sleep(3)
    idle = processor(child.pid) - before
    for stream in streams:
        stream.close()
    child.terminate()
    child.wait(timeout=10)
    return spent, memory, idle


def processor(pid):
    with open(f"/proc/{pid}/stat") as file:
        fields = file.read().rsplit(")", 1)[1].split()
    return (int(fields[11]) + int(fields[12])) / os.sysconf("SC_CLK_TCK")


def resident(pid):
    with open(f"/proc/{pid}/status") as file:
        return int(re.search(r"VmRSS:\s+(\d+)", file.read()).group(1))


count = (sessions + 31) // 32
echoes = [Controller() for _ in range(count)]
policy = policy_file("load.toml", [(f"a{number}", each.port) for number, each in enumerate(echoes)])
ports = [free_port() for _ in range(count)]
turn = iter(range(10**9))
real_connected = connected


def connected(port):
    return real_connected(ports[next(turn) // 32 % count]) if port is None else real_connected(port)


places = [f"a{number}=127.0.0.1:{port}" for number, port in enumerate(ports)]
resource.setrlimit(resource.RLIMIT_NOFILE, (4096, resource.getrlimit(resource.RLIMIT_NOFILE)[1]))
ours, memory, idle = load([program, "serve", policy, "60", os.path.join(work, "load.log"), *places], None)
all_trips = sessions * rounds
print(f"serve    {1e6 * ours / all_trips:.1f} microseconds of the processor a round trip of {sessions} sessions, "
      f"{memory / sessions:.0f} kB a session, {1e3 * idle / 3 / sessions:.3f} ms a second for each idle one")
if shutil.which("haproxy"):
    turn = iter(range(10**9))
    config = os.path.join(work, "haproxy.cfg")
    with open(config, "w") as file:
        file.write("global\n  nbthread 1\n  maxconn 2000\ndefaults\n  mode tcp\n  timeout connect 5s\n  timeout client 60s\n  timeout server 60s\n")
        for number, (port, each) in enumerate(zip(ports, echoes)):
            file.write(f"listen a{number}\n  bind 127.0.0.1:{port}\n  server s 127.0.0.1:{each.port}\n")
    other, _, _ = load(["haproxy", "-db", "-f", config], None)
    print(f"haproxy  {1e6 * other / all_trips:.1f} microseconds")
    print(f"serve takes {ours / max(other, 1e-9):.2f} times the processor time of haproxy")
sys.exit(1 if failed else 0)
PY
