"""Edits of octets: flip, cut, repeat, swap, numbers at their limits, and what another input has. All by a generator of random numbers.

An edited input alone is mostly refused at its first check. So half of them are mended: their sums, checks and lengths are made right
again, and what was edited gets further in.
"""
import re
import struct

from rows import ones_sum
from make import dnp3_crc

OCTETS = [0, 1, 2, 0x3F, 0x40, 0x7F, 0x80, 0xC0, 0xFE, 0xFF]
NUMBERS = [0, 1, 0x7F, 0x80, 0xFF, 0x100, 0x7FFF, 0x8000, 0xFFFE, 0xFFFF, 0x10000, 0x7FFFFFFF, 0x80000000, 0xFFFFFFFE, 0xFFFFFFFF]
DECIMALS = [-2147483649, -2147483648, -1, 0, 1, 2, 3, 63, 64, 65, 255, 256, 1023, 1024, 1025, 65535, 65536, 86400, 86401, 4294967295,
            4294967296, 2**63, 2**64]
MAGIC = b"\xd4\xc3\xb2\xa1"


def span(random, octets, longest=64):
    """A place, and one behind it."""
    first = random.randrange(len(octets) + 1)
    return first, min(len(octets), first + random.randint(1, longest))


def flip(random, octets, other):
    at = random.randrange(len(octets))
    return octets[:at] + bytes([octets[at] ^ 1 << random.randrange(8)]) + octets[at + 1:]


def cut(random, octets, other):
    first, behind = span(random, octets)
    return octets[:first] if random.random() < .25 else octets[:first] + octets[behind:]


def repeat(random, octets, other):
    first, behind = span(random, octets)
    return octets[:behind] + octets[first:behind] * random.choice([1, 1, 1, 2, 3, 20]) + octets[behind:]


def swap(random, octets, other):
    a, b, c, d = sorted(random.randrange(len(octets) + 1) for _ in range(4))
    return octets[:a] + octets[c:d] + octets[b:c] + octets[a:b] + octets[d:]


def limit(random, octets, other):
    width = random.choice([1, 1, 1, 2, 2, 3, 4])
    at = random.randrange(len(octets))
    number = (random.choice(OCTETS) if width == 1 else random.choice(NUMBERS)) % 256**width
    return octets[:at] + number.to_bytes(width, random.choice(["big", "little"])) + octets[at + width:]


def count(random, octets, other):
    """One more or less, where a length or a count may stand."""
    at = random.randrange(len(octets))
    return octets[:at] + bytes([(octets[at] + random.choice([-2, -1, 1, 2])) % 256]) + octets[at + 1:]


def splice(random, octets, other):
    first, behind = span(random, other, 200)
    at = random.randrange(len(octets) + 1)
    return octets[:at] + other[first:behind] + octets[at:]


EDITS = [flip, cut, repeat, swap, limit, limit, count, splice]


def edited(random, octets, other):
    """Octets with one edit or several."""
    for _ in range(random.choice([1, 1, 1, 2, 3, 5])):
        octets = random.choice(EDITS)(random, octets or b"\0", other)
    return octets


def edited_text(random, text, other):
    """A text of lines: one of its numbers, its lines, its octets."""
    for _ in range(random.choice([1, 1, 2, 3])):
        lines, others = text.splitlines(keepends=True) or ["\n"], other.splitlines(keepends=True) or ["\n"]
        at = random.randrange(len(lines))
        way = random.randrange(6)
        if way == 0:
            del lines[at]
        elif way == 1:
            lines.insert(at, random.choice(others))
        elif way == 2:
            to = random.randrange(len(lines))
            lines[at], lines[to] = lines[to], lines[at]
        elif way == 3:
            lines[at:at] = lines[at:at + random.randint(1, 6)]
        elif way == 4:
            lines[at] = with_number(random, lines[at])
        else:
            lines[at] = edited(random, lines[at].encode(), other.encode()).decode(errors="replace")
        text = "".join(lines)
    return text


def with_number(random, line):
    """A line with another number in place of one of its own."""
    places = [at for at, letter in enumerate(line) if letter.isdigit() and not (at and line[at - 1].isdigit())]
    if not places:
        return line
    first = behind = random.choice(places)
    while line[behind:behind + 1].isdigit():
        behind += 1
    near = max(0, int(line[first:behind]) + random.choice([-10, -1, 1, 10]))
    return line[:first] + str(near if random.random() < .7 else random.choice(DECIMALS)) + line[behind:]


def edited_lists(random, text):
    """A policy's text with other numbers in its rules' lists, which mostly is a policy still."""
    lines = text.splitlines(keepends=True)
    places = [at for at, line in enumerate(lines) if re.match("(codes|groups|points|values|clients|most|seconds) = ", line)]
    for _ in range(random.choice([1, 1, 2, 3]) if places else 0):
        at = random.choice(places)
        lines[at] = with_number(random, lines[at])
    return "".join(lines)


# What is made right again.

def mended_stream(protocol, octets):
    """DNP3: the checks of each frame; IEC 60870-5-104: the send numbers."""
    octets, at, sent = bytearray(octets), 0, 0
    while protocol == "dnp3" and at + 10 <= len(octets):
        if octets[at:at + 2] != b"\5\x64" or octets[at + 2] < 5:
            at += 1
            continue
        sizes = [8] + [min(16, octets[at + 2] - 5 - done) for done in range(0, octets[at + 2] - 5, 16)]
        for size in sizes:
            if at + size + 2 <= len(octets):
                octets[at + size:at + size + 2] = dnp3_crc(octets[at:at + size])
            at += size + 2
    while protocol == "iec104" and at + 6 <= len(octets):
        if octets[at] == 0x68 and octets[at + 1] >= 4 and not octets[at + 2] & 1:
            octets[at + 2:at + 4] = struct.pack("<H", sent % 32768 << 1)
            sent += 1
        at += 2 + octets[at + 1] if octets[at] == 0x68 else 1
    return bytes(octets)


def records_of(octets):
    """The head of a capture in the classic form of this machine, and its records as (head, frame); or None."""
    if octets[:4] != MAGIC or len(octets) < 24:
        return None
    records, at = [], 24
    while at + 16 <= len(octets):
        size = struct.unpack_from("<I", octets, at + 8)[0]
        if at + 16 + size > len(octets):
            break
        records.append((octets[at:at + 16], octets[at + 16:at + 16 + size]))
        at += 16 + size
    return octets[:24], records


def mended_frame(frame):
    """A frame whose IPv4 and TCP sums are right, if it is one."""
    at = 14 if frame[12:14] == b"\x08\0" else 0
    packet = bytearray(frame[at:])
    if len(packet) < 40 or packet[0] >> 4 != 4 or packet[9] != 6:
        return frame
    header, whole = 4 * (packet[0] & 15), min(len(packet), struct.unpack_from(">H", packet, 2)[0])
    if header < 20 or whole < header + 20:
        return frame
    packet[10:12] = b"\0\0"
    packet[10:12] = struct.pack(">H", ones_sum(bytes(packet[:header])))
    packet[header + 16:header + 18] = b"\0\0"
    segment = bytes(packet[header:whole])
    packet[header + 16:header + 18] = struct.pack(">H", ones_sum(bytes(packet[12:20]) + struct.pack(">BBH", 0, 6, len(segment)) + segment))
    return frame[:at] + bytes(packet)


def edited_frame(random, frame, other):
    """An edit of the text of a segment, whose lengths go with it; else of the numbers of the headers."""
    at = 14 if frame[12:14] == b"\x08\0" else 0
    whole = struct.unpack_from(">H", frame.ljust(at + 4, b"\0"), at + 2)[0]
    if random.random() < .5 or whole <= 40 or at + whole > len(frame):
        if random.random() < .1:
            return edited(random, frame, other)
        return frame[:at + 20] + limit(random, frame[at + 20:at + 40] or b"\0", other) + frame[at + 40:]
    text = edited(random, frame[at + 40:at + whole], other)[:1460]
    return (frame[:at + 2] + struct.pack(">H", 40 + len(text)) + frame[at + 4:at + 40] + text).ljust(60 if at else 0, b"\0")


def edited_capture(random, octets, other):
    """A capture with edits of its octets, or of its records and their frames."""
    parts = records_of(octets)
    if not parts or not parts[1] or random.random() < .25:
        return edited(random, octets, other)
    head, records = parts
    for _ in range(random.choice([1, 1, 2, 3, 5])):
        at, to = random.randrange(len(records)), random.randrange(len(records))
        moment, frame = records[at]
        way = random.randrange(7)
        if way == 0 and len(records) > 1:
            del records[at]
        elif way == 1:
            records.insert(to, records[at])
        elif way == 2:
            records[at], records[to] = records[to], records[at]
        elif way == 3:
            seconds = random.choice(NUMBERS) if random.random() < .3 else random.randrange(200)
            records[at] = struct.pack("<II", seconds, random.choice([0, 1, 999_999, 1_000_000])) + moment[8:], frame
        else:
            frame = edited_frame(random, frame, other)
            records[at] = moment, mended_frame(frame) if random.random() < .8 else frame
    octets = head
    for moment, frame in records:
        octets += moment[:8] + struct.pack("<II", len(frame), max(len(frame), struct.unpack("<I", moment[12:])[0])) + frame
    return edited(random, octets, other) if random.random() < .1 else octets
