#!/usr/bin/env python3
"""Makes the recorded streams and the capture of this folder, octet by octet: python3 examples/make.py FOLDER."""
import struct
import sys


# ---- DNP3 (IEEE 1815-2012): link frames with their CRCs, one transport segment each

def dnp3_crc(octets):
    crc = 0
    for octet in octets:
        crc ^= octet
        for _ in range(8):
            crc = crc >> 1 ^ 0xA6BC if crc & 1 else crc >> 1
    return struct.pack("<H", crc ^ 0xFFFF)


def link_frame(control, dest, source, user=b""):
    head = bytes([0x05, 0x64, 5 + len(user), control]) + struct.pack("<HH", dest, source)
    out = head + dnp3_crc(head)
    for at in range(0, len(user), 16):
        block = user[at:at + 16]
        out += block + dnp3_crc(block)
    return out


class Dnp3Side:
    """One end: its direction and primary bits, both addresses, and its transport sequence."""

    def __init__(self, control, dest, source):
        self.control, self.dest, self.source, self.sequence = control, dest, source, 0

    def fragment(self, octets):
        out = b""
        pieces = [octets[at:at + 249] for at in range(0, len(octets), 249)]
        for place, piece in enumerate(pieces):
            flags = (0x40 if place == 0 else 0) | (0x80 if place == len(pieces) - 1 else 0)
            out += link_frame(self.control, self.dest, self.source, bytes([flags | self.sequence]) + piece)
            self.sequence = (self.sequence + 1) % 64
        return out


def relay_output(point, code, on=100, off=100):
    """Group 12 variation 1 with an 8 bit count and index."""
    return bytes([12, 1, 0x17, 1, point, code, 1]) + struct.pack("<II", on, off) + b"\0"


def dnp3_request(number, function, objects=b""):
    return bytes([0xC0 | number, function]) + objects


READ, SELECT, OPERATE, DIRECT, COLD_RESTART, CONFIRM = 1, 3, 4, 5, 13, 0


def reservoir():
    """What the master 1 sends to the outstation 10."""
    to = Dnp3Side(0xC4, 10, 1)
    out = link_frame(0xC9, 10, 1)  # request link status
    out += to.fragment(dnp3_request(0, READ, bytes([60, 2, 6, 60, 3, 6, 60, 4, 6])))
    out += to.fragment(dnp3_request(1, SELECT, relay_output(2, 0x41)))
    out += to.fragment(dnp3_request(2, OPERATE, relay_output(2, 0x41)))
    out += to.fragment(dnp3_request(3, OPERATE, relay_output(5, 0x41)))  # a valve that no rule names
    out += to.fragment(dnp3_request(4, DIRECT, relay_output(2, 0x41)))  # without a select
    out += to.fragment(dnp3_request(5, READ, bytes([30, 0, 6])))  # analog inputs
    out += to.fragment(dnp3_request(6, COLD_RESTART))
    out += to.fragment(dnp3_request(7, 25, b""))  # open file: a function that is not served
    out += to.fragment(dnp3_request(0, CONFIRM))
    out += link_frame(0xC4, 11, 1, bytes([0xC0]) + dnp3_request(8, READ, bytes([60, 1, 6])))  # to another outstation
    begun = bytes([0x40 | to.sequence]) + dnp3_request(9, READ, bytes([60, 1, 6]))
    return out + link_frame(0xC4, 10, 1, begun)  # the first segment of a fragment that never ends


# ---- IEC 60870-5-104

STARTDT, TESTFR = bytes([0x68, 4, 7, 0, 0, 0]), bytes([0x68, 4, 0x43, 0, 0, 0])


def info(send, receive, asdu):
    return bytes([0x68, 4 + len(asdu)]) + struct.pack("<HH", send << 1, receive << 1) + asdu


def ack(receive):
    return bytes([0x68, 4, 1, 0]) + struct.pack("<H", receive << 1)


def asdu(kind, cause, station, address, element):
    return bytes([kind, 1, cause, 0]) + struct.pack("<H", station) + struct.pack("<I", address)[:3] + element


def single(address, on, station=1):
    return asdu(45, 6, station, address, bytes([on]))


def substation():
    """What a control centre sends to the station 1; it acknowledges the mirrors that come for what is refused."""
    out = STARTDT
    out += info(0, 0, asdu(100, 6, 1, 0, bytes([20])))  # general interrogation
    out += info(1, 0, single(1000, 1))  # feeder 1000 on
    out += info(2, 0, single(1001, 0))  # the bus coupler
    out += info(3, 1, single(1005, 1))  # a feeder that no rule names
    out += TESTFR
    out += info(4, 2, single(1003, 0))
    out += info(5, 2, asdu(46, 6, 1, 1000, bytes([1])))  # a double command
    out += info(6, 3, single(1000, 0, station=2))  # for another station
    out += info(7, 4, asdu(120, 6, 1, 0, bytes(4)))  # a file type
    out += ack(5)
    out += info(8, 5, single(1002, 1))
    return out


# ---- what reaches the two ports of the box: Ethernet frames with IPv4 and TCP (RFC 791, RFC 9293)

FIN, SYN, RST, PSH, ACK = 1, 2, 4, 8, 16


def ones_sum(octets):
    if len(octets) % 2:
        octets += b"\0"
    total = sum(struct.unpack(f">{len(octets) // 2}H", octets))
    while total > 0xFFFF:
        total = (total & 0xFFFF) + (total >> 16)
    return 0xFFFF - total


def frame(source, dest, seq, acked, flags, text=b"", window=65535, mss=None):
    options = b"" if mss is None else struct.pack(">BBH", 2, 4, mss)
    head = struct.pack(">HHIIBBHHH", source[1], dest[1], seq % 2**32, acked % 2**32, (20 + len(options)) * 4, flags, window, 0, 0)
    addresses = bytes(source[0]) + bytes(dest[0])
    segment = head + options + text
    total = ones_sum(addresses + struct.pack(">BBH", 0, 6, len(segment)) + segment)
    segment = segment[:16] + struct.pack(">H", total) + segment[18:]
    ip = struct.pack(">BBHHHBBH", 0x45, 0, 20 + len(segment), 0, 0x4000, 64, 6, 0) + addresses
    ip = ip[:10] + struct.pack(">H", ones_sum(ip)) + ip[12:]
    return (b"\2\0\0\0\0\1" + b"\2\0\0\0\0\2" + b"\x08\0" + ip + segment).ljust(60, b"\0")


class Capture:
    """Frames ten milliseconds apart, from the first second on."""

    def __init__(self):
        self.at, self.octets = 1_000_000, struct.pack("<IHHiIII", 0xA1B2C3D4, 2, 4, 0, 0, 262144, 1)

    def add(self, octets):
        self.octets += struct.pack("<IIII", self.at // 1_000_000, self.at % 1_000_000, len(octets), len(octets)) + octets
        self.at += 10_000


class Session:
    """A client and a controller, each the peer of the box: how many letters each has sent, and how many the box has sent to each."""

    def __init__(self, capture, client, controller, client_number, controller_number):
        self.capture, self.client, self.controller = capture, client, controller
        self.client_number, self.controller_number = client_number, controller_number
        self.of_client = self.of_controller = self.to_client = self.to_controller = 0

    def open(self):
        self.capture.add(frame(self.client, self.controller, self.client_number, 0, SYN, mss=1460))
        self.capture.add(frame(self.controller, self.client, self.controller_number, self.client_number + 1, SYN | ACK, mss=1460))
        self.capture.add(frame(self.client, self.controller, self.client_number + 1, self.controller_number + 1, ACK))

    def segment_of_client(self, place, text=b"", flags=ACK):
        self.capture.add(frame(self.client, self.controller, self.client_number + 1 + place, self.controller_number + 1 + self.to_client, flags, text))

    def asks(self, text, passed=b"", reply=b"", lost=False):
        """The client sends text; so much of it goes on, and so much comes back in the controller's place."""
        if not lost:
            self.segment_of_client(self.of_client, text, PSH | ACK)
        self.of_client += len(text)
        self.to_controller += len(passed)
        self.to_client += len(reply)

    def answers(self, text, carried=None):
        """The controller sends text; so much reaches the client."""
        self.capture.add(frame(self.controller, self.client, self.controller_number + 1 + self.of_controller, self.client_number + 1 + self.to_controller, PSH | ACK, text))
        self.of_controller += len(text)
        self.to_client += len(text if carried is None else carried)
        self.segment_of_client(self.of_client)

    def acknowledges(self):
        """The controller acknowledges what came to it."""
        self.capture.add(frame(self.controller, self.client, self.controller_number + 1 + self.of_controller, self.client_number + 1 + self.to_controller, ACK))

    def close(self):
        self.segment_of_client(self.of_client, b"", FIN | ACK)
        self.to_controller += 1
        self.capture.add(frame(self.controller, self.client, self.controller_number + 1 + self.of_controller, self.client_number + 1 + self.to_controller, FIN | ACK))
        self.to_client += 1
        self.of_client += 1
        self.segment_of_client(self.of_client)


def adu(transaction, unit, pdu):
    return struct.pack(">HHHB", transaction, 0, 1 + len(pdu), unit) + pdu


def openings():
    """What one client sends to the tank: a valve is moved three times, and coils are read before and behind it."""
    requests = (b"\x01\0\0\0\x08", b"\x05\0\x03\xff\0", b"\x05\0\x03\0\0", b"\x05\0\x03\xff\0", b"\x01\0\0\0\x08", b"\x05\0\x04\xff\0")
    return b"".join(adu(number, 1, pdu) for number, pdu in enumerate(requests, 1))


def gateway():
    """What one client sends to three units of a gateway, each by its unit identifier, and to a fourth that no asset has."""
    requests = ((1, b"\x03\0\x28\0\x02"), (2, b"\x05\0\x02\xff\0"), (3, b"\x04\0\0\0\x02"), (1, b"\x06\0\x28\0\x64"), (2, b"\x06\0\x28\0\x64"),
                (3, b"\x05\0\x02\xff\0"), (2, b"\x05\0\x02\0\0"), (2, b"\x05\0\x02\xff\0"), (4, b"\x03\0\x28\0\x01"))
    return b"".join(adu(number, unit, pdu) for number, (unit, pdu) in enumerate(requests, 1))


def waterworks():
    capture = Capture()
    room = (10, 20, 1, 5)

    # The pump: a read; a write whose segment is lost and then sent again; a copy of it with another value; a refused write.
    pump = Session(capture, (room, 49152), ((10, 20, 0, 9), 502), 1000, 5000)
    pump.open()
    read = adu(1, 1, struct.pack(">BHH", 3, 40, 1))
    pump.asks(read, read)
    pump.answers(adu(1, 1, bytes([3, 2, 4, 176])))
    first, second = adu(2, 1, struct.pack(">BHH", 6, 40, 1300)), adu(3, 1, struct.pack(">BHH", 6, 40, 1350))
    pump.segment_of_client(pump.of_client + len(first), second, PSH | ACK)  # the second comes, the first is lost
    pump.asks(first, first)
    lie = adu(3, 1, struct.pack(">BHH", 6, 40, 9999))
    pump.asks(lie, second)  # the letters of the second again, with another value: its first copy went on
    pump.acknowledges()
    pump.answers(adu(2, 1, struct.pack(">BHH", 6, 40, 1300)))
    pump.answers(adu(3, 1, struct.pack(">BHH", 6, 40, 1350)))
    wrong = adu(4, 1, struct.pack(">BHH", 6, 40, 2000))
    pump.asks(wrong, b"", adu(4, 1, bytes([0x86, 3])))
    pump.segment_of_client(pump.of_client)
    pump.close()

    # The reservoir: a class poll and its answer; an operate of a valve that no rule names.
    reservoir_session = Session(capture, (room, 49153), ((10, 20, 0, 10), 20000), 2_000_000, 7_000_000)
    reservoir_session.open()
    to, back = Dnp3Side(0xC4, 10, 1), Dnp3Side(0x44, 1, 10)
    poll = to.fragment(dnp3_request(0, READ, bytes([60, 2, 6])))
    reservoir_session.asks(poll, poll)
    reservoir_session.answers(back.fragment(bytes([0xC0, 129, 0, 0])))
    operate = to.fragment(dnp3_request(1, OPERATE, relay_output(7, 0x41)))
    reply = back.fragment(bytes([0xC1, 129, 0, 0]) + relay_output(7, 0x41)[:-1] + bytes([9]))
    reservoir_session.asks(operate, b"", reply)
    reservoir_session.segment_of_client(reservoir_session.of_client)
    reservoir_session.close()

    # The substation: STARTDT; a feeder on; the bus coupler, which a rule refuses; then the client resets.
    feeder = Session(capture, (room, 49154), ((10, 20, 0, 11), 2404), 3_000_000, 9_000_000)
    feeder.open()
    feeder.asks(STARTDT, STARTDT)
    feeder.answers(bytes([0x68, 4, 0x0B, 0, 0, 0]))
    on = info(0, 0, single(1000, 1))
    feeder.asks(on, on)
    feeder.answers(info(0, 1, asdu(45, 7, 1, 1000, bytes([1]))))
    coupler = info(1, 1, single(1001, 0))
    mirror = info(1, 1, asdu(45, 0x47, 1, 1001, bytes([0])))
    feeder.asks(coupler, ack(1), mirror)
    feeder.segment_of_client(feeder.of_client, b"", RST | ACK)
    return capture.octets


def main():
    folder = sys.argv[1]
    made = {"reservoir.bin": reservoir, "substation.bin": substation, "openings.bin": openings, "gateway.bin": gateway, "waterworks.pcap": waterworks}
    for name, octets in made.items():
        with open(f"{folder}/{name}", "wb") as file:
            file.write(octets())


if __name__ == "__main__":
    main()
