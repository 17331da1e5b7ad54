"""One case: a folder with its inputs, the calls of the program over them, and what each call may end with and print."""
import os
import pathlib
import re
import resource
import shlex
import subprocess
import sys

# What the program may have of memory, by its address space: the inputs of a case have a few ten thousand octets, and 256 sessions,
# which are the most, take some 90 MiB.
MEMORY = 128 << 20
# How long a call may take, in seconds: no call does more than some milliseconds of work.
LONGEST = 60
# The most octets of a pipe that are one piece, in whatever portions they are read.
PIECE = 4096

COUNTS = r"records (\d+)\ndropped \d+\noutside \d+\nfull \d+\nsessions (\d+)\nadmitted (\d+)\nrefused (\d+)\ncuts (\d+)\n"
REVIEWED = (r"flows \d+\ncommands (\d+)\nadmitted (\d+)\nrefused rule (\d+)\nrefused default (\d+)\nrefused station (\d+)\n"
            r"refused form (\d+)\nstrays (\d+)\nconflicts (\d+)\nbroken (\d+)\n")
CUT = (r"cut client (protocol|length|start|framelength|headercrc|blockcrc|apdustart|apdulength|control|outstanding|notstarted|long"
       r"|send \d+ \d+|receive \d+ \d+ \d+)\n")
AT = r"\d+\.\d+\.\d+\.\d+:\d+"
DROPPED = "dropped (notipv4|short|badheader|badsum|fragment|nottcp|badtcp|badtcpsum)"
PACKETS = rf"(\d+ \d+\.\d{{6}} ({DROPPED}|{AT} > {AT} (-|[FSRPAU]+) seq \d+ ack \d+ win \d+ len \d+)\n)*"
COMPARED = r"no (\S+)( client (\S+) code (\d+) group (\d+) point (\d+) value (\S+))?\n"
OK = r"ok \d+ \d+\n"
# What each status of a command prints.
PRINTED = {
    "check": {0: OK},
    "compare": {0: "included\n", 15: COMPARED, 17: r"too many cells \S+\n"},
    "learn": {0: OK, 16: r"too many rules \S+\n"},
    "migrate": {0: OK},
    "packets": {0: PACKETS, 6: PACKETS + r"capture refused \d+\n", 7: PACKETS + r"capture cut at \d+\n"},
    "judge": {0: r"yes flows \d+ commands (\d+)\n", 15: rf"no \d+ {AT} \S+ (broken|conflict|refused|stray) [\S ]+\n"},
    "review": {0: REVIEWED, 15: REVIEWED},
    "run": {0: COUNTS, 7: r"capture cut at \d+\n" + COUNTS},
    "sift": {0: r"admitted (\d+)\nrefused (\d+)\n", 12: CUT},
    "world": {0: COUNTS},
}
ANY = {2: r"usage\n", 3: r"read fault\n", 4: "", 5: r"policy refused (\d+) \S+ asset \d+ rule \d+\n", 6: r"capture refused \d+\n",
       7: r"capture cut at \d+\n", 10: r"unknown asset\n"}
LINE = re.compile(
    rf"\d+\.\d{{6}} {AT} \S+ (open|listen|close admitted \d+ refused \d+|partial (client|controller) \d+|begins midstream"
    r"|conflict \d+|gap \d+|broken [a-z]+"
    r"|refuse \S+ (function|point|value|station) code \d+ group \d+ point \d+ value (-|-?\d+) (replied|unanswered) [0-9a-f]*"
    r"|admit \S+ code \d+ group \d+ point \d+ value (-|-?\d+) [0-9a-f]+"
    r"|stray (client|controller) (address|direction|code|empty|first|order|long|short)"
    r"|cut (client|controller) ([a-z]+|send \d+ \d+|receive \d+ \d+ \d+))\n")


class Wrong(Exception):
    """Something does not hold."""


class Done:
    """What a call ended with and printed; and what the pattern of its status found in that."""

    def __init__(self, status, printed, found):
        self.status, self.printed, self.found = status, printed, found

    def number(self, group):
        return int(self.found[group])


def limited():
    resource.setrlimit(resource.RLIMIT_AS, (MEMORY, MEMORY))
    resource.setrlimit(resource.RLIMIT_CORE, (0, 0))


def fed(program, octets, sizes, **files):
    """Calls a program whose standard input is a pipe that gives octets in pieces of these sizes. What it ended with."""
    reading, writing = os.pipe2(os.O_DIRECT | os.O_CLOEXEC)
    child = subprocess.Popen(program, stdin=reading, **files)
    os.close(reading)
    try:
        for size in sizes:
            os.write(writing, octets[:size])
            octets = octets[size:]
    except BrokenPipeError:
        pass
    os.close(writing)
    return child.wait(LONGEST)


class Case:
    def __init__(self, program, folder, random):
        self.program, self.folder, self.random, self.calls = program, pathlib.Path(folder), random, []

    def write(self, name, content):
        (self.folder / name).write_bytes(content if isinstance(content, bytes) else content.encode())

    def read(self, name):
        path = self.folder / name
        return path.read_bytes() if path.exists() else None

    def log(self, name):
        """The lines of a log."""
        text = (self.read(name) or b"").decode()
        lines = text.splitlines(keepends=True)
        for line in lines:
            self.expect(LINE.fullmatch(line), f"{name} has the line {line!r}")
        return lines

    def expect(self, holds, what):
        if not holds:
            raise Wrong(what)

    def sizes(self, octets):
        """How octets are cut into pieces."""
        most, sizes = self.random.choice([1, 3, 16, 100, 1000]), []
        most = max(most, len(octets) // 400)
        while sum(sizes) < len(octets):
            sizes.append(self.random.randint(1, min(most, PIECE)))
        return sizes

    def call(self, *words, ends, fed_from=None):
        """Calls the program, which has to end with one of these statuses and to print what belongs to it."""
        words, sizes = [str(word) for word in words], fed_from and self.sizes(self.read(fed_from))
        pieces = [] if sizes is None else [sys.executable, str(pathlib.Path(__file__)), fed_from, ",".join(map(str, sizes))]
        self.calls.append(shlex.join(pieces + [str(self.program)] + words))
        files = {"cwd": self.folder, "preexec_fn": limited}
        with open(self.folder / "printed", "w+b") as printed, open(self.folder / "said", "wb") as said:
            files |= {"stdout": printed, "stderr": said}
            try:
                if sizes is None:
                    status = subprocess.run([self.program, *words], stdin=subprocess.DEVNULL, timeout=LONGEST, **files).returncode
                else:
                    status = fed([self.program, *words], self.read(fed_from), sizes, **files)
            except subprocess.TimeoutExpired:
                raise Wrong(f"it does not end within {LONGEST} s")
            printed.seek(0)
            return self.ended(words[0] if words else "", status, printed.read().decode(errors="replace"), ends)

    def ended(self, command, status, printed, ends):
        self.expect(status >= 0, f"it is ended by the signal {-status}")
        self.expect(status != 13, f"it has too little with {MEMORY} octets of memory")
        self.expect(status in ends, f"status {status} in place of one of {sorted(ends)}")
        pattern = (ANY | PRINTED.get(command, {})).get(status)
        found = re.fullmatch(pattern, printed) if pattern is not None else None
        self.expect(found or pattern is None, f"with status {status} it prints {printed[-300:]!r}")
        return Done(status, printed, found)


def main():
    """Calls a program with the octets of a file in pieces as its standard input: FILE SIZE,.. PROGRAM WORDS.."""
    name, sizes, *program = sys.argv[1:]
    sys.exit(fed(program, pathlib.Path(name).read_bytes(), [int(size) for size in sizes.split(",") if size]))


if __name__ == "__main__":
    main()
