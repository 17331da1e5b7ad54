"""The inputs of the rows of cf_rows: policies, streams, captures, and pairs of policies (docs/DEVELOPING.md, "Rows")."""
import collections
import pathlib
import re
import struct
import sys

TOP = pathlib.Path(__file__).resolve().parent.parent.parent
DATA = TOP / "crates" / "cf_rows" / "data"
sys.path[:0] = [str(TOP / "examples"), str(TOP / ".ci")]
from make import frame, ones_sum

# No input that is edited has more octets than this, so that a case does not take long.
LONGEST = 20_000
FLAGS = {"F": 1, "S": 2, "R": 4, "P": 8, "A": 16, "U": 32, "-": 0}
CLIENTS = {"c": (10, 0, 0, 5), "k": (10, 0, 0, 5), "d": (10, 0, 0, 6), "j": (10, 0, 0, 6)}

# A stream has the policy's text, the asset, and the octets; a capture the policy's text and the octets.
Stream = collections.namedtuple("Stream", "policy asset octets")
Recording = collections.namedtuple("Recording", "policy octets")


def expanded(block):
    """A block in which what stands between `repeat N` and `end` stands N times."""
    def copies(found):
        return "".join("\n" + re.sub(r"\{(\d+)\+(\d+)(:n)?\}", lambda sum: number(sum, i), found[2]) for i in range(min(int(found[1]), 300)))

    def number(sum, i):
        value = int(sum[1]) + int(sum[2]) * i
        return struct.pack("<H", value % 32768 * 2).hex() if sum[3] else str(value)

    return re.sub(r"\nrepeat (\d+)\n(.*?)\nend", copies, block, flags=re.S)


class Book:
    """What all files of rows give."""

    def __init__(self):
        self.units, self.policies, self.exchanges = {}, {}, {}
        self.streams, self.recordings, self.pairs = [], [], []
        # In the order in which the rows are played, since a file may name what one before it has.
        for name in (DATA.parent / "args").read_text().split():
            for block in (DATA / name).read_text().split("\n\n"):
                self.take(expanded(block.strip("\n")))
        self.texts = sorted(text for text in set(self.policies.values()) if "[[asset]]" in text)

    def take(self, block):
        head, _, body = block.partition("\n")
        kind, _, name = head.partition(" ")
        if kind == "unit":
            self.units[name] = self.octets(body.replace("\n", " "))
        elif kind == "policy":
            self.policies[name] = body.strip() + "\n"
        elif kind == "exchange":
            self.exchanges[name] = body
        elif re.search("^row: ", block, re.M):
            self.take_row(block)

    def octets(self, spelled):
        """The octets that digits and names of units spell."""
        octets = b""
        for token in spelled.split():
            token, _, part = token.partition("@")
            unit, _, times = token.partition("*")
            some = (self.units[unit] if unit in self.units else bytes.fromhex(unit)) * int(times or 1)
            first, _, behind = part.partition("..")
            octets += some[int(first):int(behind)] if part else some
        return octets

    def take_row(self, block):
        """What a row has for each of its commands."""
        fields = collections.defaultdict(list)
        after = re.search(r"^after: (.*)$", block, re.M)
        for line in ((self.exchanges[after[1]] + "\n") if after else "").splitlines() + block.splitlines():
            key = re.match(r"[<>]|[\w ]+:|log", line)
            if key:
                fields[key[0]].append(line[key.end():].strip())
        policies = dict(self.policies)
        for edit in fields["edit:"]:
            old, _, new = edit.partition("=>")
            policies["p"] = policies["p"].replace(old, new.replace("/", "\n"), 1)
            self.policies[f"p with {edit}"] = policies["p"]
        for words in fields["words:"] or ["run p c o l"]:
            self.take_words(words.split(" "), fields, policies)

    def take_words(self, words, fields, policies):
        text = policies.get(words[1]) if len(words) > 1 else None
        if words[0] == "sift" and text and len(words) == 8 and fields["stream:"]:
            self.add(self.streams, Stream(text, words[2], self.octets(" ".join(fields["stream:"]))))
        elif words[0] == "relay" and text and fields["client sends:"]:
            self.add(self.streams, Stream(text, words[2], self.octets(" ".join(fields["client sends:"]))))
        elif words[0] == "compare" and text and policies.get(words[-1]):
            self.pairs.append((text, policies[words[-1]]))
        elif words[0] in ("run", "judge", "review", "learn", "packets") and (fields[">"] or fields["capture:"]):
            self.add(self.recordings, Recording(text or policies["p"], self.capture(fields)))

    def add(self, inputs, one):
        if len(one.octets) <= LONGEST and "[[asset]]" in one.policy and one not in inputs:
            inputs.append(one)

    def capture(self, fields):
        """The capture of the packets of a row, or the octets that stand for it."""
        if fields["capture:"]:
            octets = self.octets(" ".join(fields["capture:"]))
        else:
            raw = fields["link:"] == ["raw"]
            octets = struct.pack("<IHHiIII", 0xA1B2C3D4, 2, 4, 0, 0, 65535, 101 if raw else 1)
            octets += b"".join(self.records(line, fields, raw) for line in fields[">"])
        return octets + self.octets(" ".join(fields["tail:"]))

    def records(self, line, fields, raw):
        when, _, spelled = line.partition(" ")
        first, _, times = when.partition("~")
        seconds, micros = first.split(".")
        body = self.body(spelled, fields)
        body = body[14:] if raw else body
        octets = b""
        for i in range(int(times or 1)):
            at = int(seconds) * 1_000_000 + int(micros) + 500_000 * i
            octets += struct.pack("<IIII", at // 1_000_000, at % 1_000_000, len(body), len(body)) + body
        return octets

    def body(self, spelled, fields):
        """A frame: `arp`, `ip` and octets, or a segment, with tags before each."""
        if spelled == "arp":
            return bytes.fromhex("ffffffffffff0200000000050806") + bytes(46)
        tags = b""
        if spelled.startswith("tag "):
            tags, spelled = bytes.fromhex(spelled.split(" ", 2)[1]), spelled.split(" ", 2)[2]
        packet = self.octets(spelled[3:]) if spelled.startswith("ip ") else self.segment(spelled, fields)
        return (bytes.fromhex("020000000009020000000005") + tags + b"\x08\0" + packet).ljust(60, b"\0")

    def segment(self, spelled, fields):
        """The IPv4 packet of WHO FLAGS SEQUENCE ACKNOWLEDGMENT WINDOW and text."""
        who, flags, seq, ack, window, text = (spelled.split(" ", 5) + [""])[:6]
        origins = [int(one) for one in (fields["origins:"] or ["1000 5000"])[0].split()]
        address, _, port = (fields["controller:"] or ["10.0.0.9:502"])[0].partition(":")
        ends = [(CLIENTS[who[0]], 49151 + int(who[1:] or 1)), (tuple(int(part) for part in address.split(".")), int(port))]
        if who[0] in "kj":
            ends.reverse()
            origins.reverse()
        numbers = [origin + 1 + int(place) if place[0] in "+-" else int(place) for place, origin in zip((seq, ack), origins)]
        mss = int(text[3:]) if text.startswith("mss") else None
        octets = self.octets(text) if mss is None else b""
        whole = frame(*ends, *numbers, sum(FLAGS[flag] for flag in flags), octets, int(window), mss)
        return whole[14:14 + 40 + len(octets) + (0 if mss is None else 4)]
