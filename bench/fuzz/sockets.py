"""The cases of `relay` and `serve`: over sockets each client's stream has to come to what `sift` makes of it."""
import contextlib
import os
import re
import select
import signal
import socket
import subprocess
import time

from case import LONGEST, Wrong, limited
from commands import edited_stream


def free_port():
    with socket.socket() as probe:
        probe.bind(("127.0.0.1", 0))
        return probe.getsockname()[1]


def waited(condition, what):
    """What a condition answers once it is so."""
    end = time.monotonic() + LONGEST
    while not (answer := condition()):
        if time.monotonic() > end:
            raise Wrong(f"{what}: not within {LONGEST} s")
        time.sleep(.002)
    return answer


class Program:
    """The program with its words, beside a controller that takes each connection and says nothing."""

    def __init__(self, case, listener, *words):
        self.case, self.listener = case, listener
        case.calls.append(f"{case.program} {' '.join(map(str, words))} # beside the clients of this case")
        with open(case.folder / "printed", "wb") as printed, open(case.folder / "said", "wb") as said:
            files = {"stdin": subprocess.DEVNULL, "stdout": printed, "stderr": said, "cwd": case.folder}
            self.process = subprocess.Popen([case.program, *map(str, words)], preexec_fn=limited, start_new_session=True, **files)

    def connected(self, port):
        """A client and its controller, once the program says that it stands between them."""
        def comes():
            if self.process.poll() is not None:
                raise Wrong(f"it ends with {self.process.returncode} before a client comes")
            with contextlib.suppress(OSError):
                return socket.create_connection(("127.0.0.1", port))
        client = waited(comes, "it listens")
        self.listener.settimeout(LONGEST)
        try:
            controller = self.listener.accept()[0]
        except TimeoutError:
            raise Wrong("the controller is not reached")
        line = f" 127.0.0.1:{client.getsockname()[1]} "
        waited(lambda: re.search(rf"{line}\S+ open\n", (self.case.read("log") or b"").decode()), "the session's first line")
        return client, controller

    def end(self, command, ends):
        """What it ended with and printed."""
        return self.case.ended(command, self.waited(), self.case.read("printed").decode(errors="replace"), ends)

    def waited(self):
        try:
            return self.process.wait(LONGEST)
        except subprocess.TimeoutExpired:
            raise Wrong(f"it does not end within {LONGEST} s")

    def signal(self, number):
        """To the program, and to what it may have begun."""
        with contextlib.suppress(ProcessLookupError):
            os.killpg(self.process.pid, number)

    def kill(self):
        self.signal(signal.SIGKILL)
        self.process.wait()


def given(random, client, controller, octets):
    """Sends a client's octets in pieces and its end; what the controller and the client get up to their ends."""
    got, left, most = {client: b"", controller: b""}, set(), random.choice([3, 50, 2000])
    end = time.monotonic() + LONGEST
    for one in got:
        one.setblocking(False)
    while len(left) < 2 and time.monotonic() < end:
        readable, writable, _ = select.select([one for one in got if one not in left], [client] if octets is not None else [], [], 1)
        for one in readable:
            try:
                more = one.recv(65536)
            except OSError:
                more = b""
            got[one] += more
            if not more:
                left.add(one)
                with contextlib.suppress(OSError):
                    one.shutdown(socket.SHUT_WR)
        try:
            if writable and octets:
                octets = octets[client.send(octets[:random.randint(1, most)]):]
            elif writable:
                octets = None
                client.shutdown(socket.SHUT_WR)
        except OSError:
            octets = None
    if len(left) < 2:
        raise Wrong(f"a connection does not end within {LONGEST} s")
    return got[controller], got[client]


def local(policy, asset, port):
    """The policy with an asset, and those behind its address and port, on this machine; or None where rules name clients or have a rate,
    which sockets do not keep."""
    if re.search(r"clients|most", policy):
        return None
    front, name, part = policy.partition(f'name = "{asset}"')
    own = re.search(r'address = "[^"]*"\nport = \d+\n', part)
    if own:
        return policy.replace(own[0], f'address = "127.0.0.1"\nport = {port}\n')
    return front + name + re.sub(r"port = \d+", f"port = {port}", re.sub(r'address = "[^"]*"', 'address = "127.0.0.1"', part, 1), 1)


def prepared(case, book, listener):
    """A policy with its asset at the listener, and an edited stream; what `sift` makes of it."""
    policy = None
    while policy is None:
        policy, asset, _, octets = edited_stream(case, book)
        policy = local(policy, asset, listener.getsockname()[1])
    case.write("policy", policy)
    return asset, sifted(case, asset, octets)


def sifted(case, asset, octets):
    case.write("stream", octets)
    done = case.call("sift", "policy", asset, "127.0.0.1", "stream", "out", "replies", "wanted", ends={0, 12})
    return octets, done, case.read("out"), case.read("replies"), told(case.log("wanted"))


def told(lines):
    """Lines without their moment, address and port, and without those that `sift` does not write."""
    texts = [line.split(" ", 2)[2] for line in lines]
    return [text for text in texts if not re.fullmatch(r"\S+ (open|listen|close admitted \d+ refused \d+)\n", text)]


def compared(case, wanted, got, lines):
    """What a session gave on and wrote. Where it is cut, what had not gone out yet stays behind."""
    _, done, *texts, log = wanted
    for name, text, other in zip(("controller", "client"), texts, got):
        same = other == text if done.status == 0 else text.startswith(other)
        case.expect(same, f"the {name} gets {other.hex()} in place of {text.hex()}")
    case.expect(told(lines) == log, f"the log has {told(lines)} in place of {log}")


def relay(case, book):
    """One session: what goes on, what comes back and the log are those of `sift`."""
    with socket.create_server(("127.0.0.1", 0)) as listener:
        asset, wanted = prepared(case, book, listener)
        port = free_port()
        program = Program(case, listener, "relay", "policy", asset, port, 100000, "log")
        try:
            client, controller = program.connected(port)
            with client, controller:
                got = given(case.random, client, controller, wanted[0])
            done = program.end("sift", {wanted[1].status})
        finally:
            program.kill()
        case.expect(done.printed == wanted[1].printed, f"it prints {done.printed!r} in place of {wanted[1].printed!r}")
        compared(case, wanted, got, case.log("log"))


def serve(case, book):
    """Several sessions, one behind the other, of a service that is ended."""
    with socket.create_server(("127.0.0.1", 0)) as listener:
        asset, wanted = prepared(case, book, listener)
        port = free_port()
        program = Program(case, listener, "serve", "policy", 1000, "log", f"{asset}=127.0.0.1:{port}")
        try:
            for turn in range(case.random.choice([1, 2, 3])):
                client, controller = program.connected(port)
                with client, controller:
                    at = f" 127.0.0.1:{client.getsockname()[1]} "
                    got = given(case.random, client, controller, wanted[0])
                    waited(lambda: re.search(rf"{at}\S+ (close|cut|lost)", (case.read("log") or b"").decode()), "the session's last line")
                compared(case, wanted, got, [line for line in case.log("log") if at in line])
                case.expect(program.process.poll() is None, "the service ended")
                wanted = wanted if turn == 2 else sifted(case, asset, wanted[0][case.random.randrange(len(wanted[0]) + 1):])
            program.signal(signal.SIGTERM)
            case.expect(program.waited() == -signal.SIGTERM, f"it ends with {program.process.returncode}")
        finally:
            program.kill()
