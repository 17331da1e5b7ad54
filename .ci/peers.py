"""Masters and controllers of the three protocols, for `.ci/serve`.

A master knows of each command that it spells what has to come of it: the octets that have to reach the controller, the answer that has to
come back, and the line of the log. All of that is computed here from the standards, from docs/LOG.md and docs/POLICY.md, and nothing of
it from what the program does. A controller answers by the same standards, and keeps what came on each of its connections.
"""
import collections
import socket
import struct
import threading
import time

STATION = 1
MASTER = 100

# The rules that the masters below count on, by protocol. Each has one act that is allowed and written to the log, and refuses others by
# their function, their point and their value.
RULES = {
    'modbus': [('read', 'codes = [3]'), ('set', 'codes = [6]\npoints = ["0..99"]\nvalues = ["0..60000"]\nlog = true')],
    'dnp3': [('operate', 'codes = [5]\ngroups = ["3073"]\npoints = ["0..199"]\nvalues = ["65"]\nlog = true')],
    'iec104': [('switch', 'codes = [45]\ngroups = ["6"]\npoints = ["1..60000"]\nvalues = ["1"]\nlog = true')],
}


class Wrong(Exception):
    """Something is not as it has to be."""


def policy_of(assets):
    """The text of a policy: (name, port, protocol, clients or None) of each asset."""
    text = 'version = 3\n'
    for name, port, protocol, clients in assets:
        text += f'[[asset]]\nname = "{name}"\naddress = "127.0.0.1"\nport = {port}\nprotocol = "{protocol}"\nstation = {STATION}\n'
        if protocol == 'dnp3':
            text += f'master = {MASTER}\n'
        for rule, lists in RULES[protocol]:
            text += f'[[asset.rule]]\nname = "{rule}"\naction = "allow"\n{lists}\n'
            if clients:
                text += f'clients = ["{clients}"]\n'
    return text


# Spellings. Modbus Application Protocol 1.1b3 and Messaging on TCP/IP 1.0b: an ADU is a header of seven octets and a PDU.

def adu(number, pdu, unit=STATION):
    return struct.pack('>HHHB', number, 0, len(pdu) + 1, unit) + pdu


def registers(point, count, unit):
    """The registers that a unit has: each its own number, and 1,000 more for each unit behind the first."""
    return b''.join(struct.pack('>H', (point + at + 1000 * (unit - STATION)) & 0xffff) for at in range(count))


def modbus_answer(request):
    """What a server answers to a read of holding registers or a write of one."""
    number, unit, pdu = struct.unpack('>H', request[:2])[0], request[6], request[7:]
    if pdu[0] == 3:
        point, count = struct.unpack('>HH', pdu[1:5])
        return adu(number, bytes([3, 2 * count]) + registers(point, count, unit), unit)
    return request


# IEEE 1815-2012, 9.2 (link frames), 8.2 (transport segments), 4.2 (fragments).

def dnp3_crc(octets):
    value = 0
    for octet in octets:
        value ^= octet
        for _ in range(8):
            value = value >> 1 ^ 0xA6BC if value & 1 else value >> 1
    return struct.pack('<H', value ^ 0xffff)


def link_frame(control, to, by, user=b''):
    header = bytes([5, 0x64, 5 + len(user), control]) + struct.pack('<HH', to, by)
    frame = header + dnp3_crc(header)
    for at in range(0, len(user), 16):
        frame += user[at:at + 16] + dnp3_crc(user[at:at + 16])
    return frame


def link_user(frame):
    """The user octets of a frame whose checks are right."""
    if dnp3_crc(frame[:8]) != frame[8:10]:
        raise Wrong('a link header whose check is wrong')
    user, rest = b'', frame[10:]
    while rest:
        block, check, rest = rest[:min(16, len(rest) - 2)], rest[min(16, len(rest) - 2):][:2], rest[18:]
        if dnp3_crc(block) != check:
            raise Wrong('a link block whose check is wrong')
        user += block
    return user


class Segments:
    """Fragments as the frames of one direction, whose transport segments are counted from 0."""

    def __init__(self, control, to, by):
        self.control, self.to, self.by, self.count = control, to, by, 0

    def list(self, fragment):
        pieces = [fragment[at:at + 249] for at in range(0, len(fragment), 249)]
        frames = []
        for at, piece in enumerate(pieces):
            head = 0x40 * (at == 0) | 0x80 * (at == len(pieces) - 1) | self.count % 64
            frames.append(link_frame(self.control, self.to, self.by, bytes([head]) + piece))
            self.count += 1
        return frames

    def frames(self, fragment):
        return b''.join(self.list(fragment))


class Fragments:
    """Puts the segments of one direction together, whose numbers have to follow each other from 0."""

    def __init__(self):
        self.count, self.part = 0, b''

    def take(self, user):
        """The fragment that a segment ends, or None."""
        if user[0] % 64 != self.count % 64:
            raise Wrong(f'a segment {user[0] % 64} in place of {self.count % 64}')
        self.count += 1
        self.part = (b'' if user[0] & 0x40 else self.part) + user[1:]
        return self.part if user[0] & 0x80 else None


def control_blocks(points, operation, on, off, status):
    """An object header and control relay output blocks (g12v1, annex A), one octet for count and index."""
    text = bytes([12, 1, 0x17, len(points)])
    for point in points:
        text += bytes([point, operation, 1]) + struct.pack('<II', on, off) + bytes([status])
    return text


# IEC 60870-5-104, 5: APDUs; IEC 60870-5-101, 7: ASDUs, with the sizes that 104 fixes.
START, START_CON = b'\x68\x04\x07\0\0\0', b'\x68\x04\x0b\0\0\0'


def apdu(send, receive, asdu):
    return bytes([0x68, 4 + len(asdu)]) + struct.pack('<HH', send << 1, receive << 1) + asdu


def supervisory(receive):
    return b'\x68\x04\x01\0' + struct.pack('<H', receive << 1)


def asdu_of(kind, point, value, station=STATION):
    """An activation with one object."""
    return bytes([kind, 1, 6, 0]) + struct.pack('<H', station) + point.to_bytes(3, 'little') + bytes([value])


def with_cause(asdu, cause):
    return asdu[:2] + bytes([cause]) + asdu[3:]


def units_of(protocol, octets):
    """The whole units at the front, and the rest."""
    units = []
    while len(octets) >= (10 if protocol == 'dnp3' else 6):
        if protocol == 'modbus':
            size = 6 + int.from_bytes(octets[4:6], 'big')
        elif protocol == 'dnp3':
            user = octets[2] - 5
            size = 10 + user + 2 * ((user + 15) // 16)
        else:
            size = 2 + octets[1]
        if len(octets) < size:
            break
        units.append(octets[:size])
        octets = octets[size:]
    return units, octets


# Controllers.

class ModbusSide:
    def answer(self, unit):
        return modbus_answer(unit)


class Dnp3Side:
    """An outstation: each request has a response with its objects, a request of the link's status its answer."""

    def __init__(self):
        self.out, self.into = Segments(0x44, MASTER, STATION), Fragments()

    def answer(self, unit):
        user = link_user(unit)
        if not user:
            return link_frame(0x0b, MASTER, STATION)
        fragment = self.into.take(user)
        if fragment is None:
            return b''
        return self.out.frames(bytes([0xc0 | fragment[0] % 16, 0x81, 0, 0]) + fragment[2:])


class Iec104Side:
    """A controlled station: each activation has its confirmation."""

    def __init__(self):
        self.sent = self.received = 0

    def answer(self, unit):
        if unit == START:
            return START_CON
        if unit[2] & 1:
            return b''
        self.received += 1
        self.sent += 1
        return apdu(self.sent - 1, self.received, with_cause(unit[6:], 7))


SIDES = {'modbus': ModbusSide, 'dnp3': Dnp3Side, 'iec104': Iec104Side}


class Taken:
    """A connection that a controller took: all that came, how many octets went back, and whether it has ended."""

    def __init__(self, stream):
        self.stream, self.octets, self.answered, self.has_ended = stream, b'', 0, False


class Controller:
    """Answers on each connection by its protocol, in the order of what came, and reads no more until it could write. What is no unit of
    it is kept, and answered by nothing."""

    def __init__(self, port, protocol, is_deaf=False, options=(), sides=SIDES):
        self.protocol, self.port, self.taken, self.sides = protocol, port, [], sides
        self.listener = socket.socket()
        self.listener.setsockopt(socket.SOL_SOCKET, socket.SO_REUSEADDR, 1)
        for option in options:
            self.listener.setsockopt(*option)
        self.listener.bind(('127.0.0.1', port))
        self.listener.listen(0 if is_deaf else 256)
        if not is_deaf:
            self.begin()

    def begin(self):
        threading.Thread(target=self.take_all, daemon=True).start()

    def take_all(self):
        while True:
            stream, _ = self.listener.accept()
            stream.setsockopt(socket.IPPROTO_TCP, socket.TCP_NODELAY, 1)
            taken = Taken(stream)
            self.taken.append(taken)
            threading.Thread(target=self.serve, args=(taken,), daemon=True).start()

    def serve(self, taken):
        side, rest = self.sides[self.protocol](), b''
        try:
            while octets := taken.stream.recv(65536):
                taken.octets += octets
                units, rest = units_of(self.protocol, rest + octets)
                for unit in units:
                    answer = side.answer(unit)
                    taken.stream.sendall(answer)
                    taken.answered += len(answer)
        except (OSError, Wrong, IndexError, struct.error):
            pass
        taken.stream.close()
        taken.has_ended = True


# Masters.

class Line:
    """A line of the log that has to come: its text, between which moments its own lies, and under which name where that is not the first
    of the place's assets."""

    def __init__(self, text, earliest, name=None):
        self.text, self.earliest, self.latest, self.name = text, earliest, None, name


class Master:
    """One session: what it spells, and what has to come of that. `number` stands in each command, so that no two sessions' octets are
    alike."""

    def __init__(self, number):
        self.number, self.count = number, 0
        self.forwarded = b''
        self.lines = []
        self.admitted = self.refused = 0
        # What has to come, the earliest first, each with its line: from the box and from the controller. Each keeps its own order.
        self.replies, self.answers = collections.deque(), collections.deque()

    def add_line(self, text, name=None):
        line = Line(text, time.time(), name)
        self.lines.append(line)
        return line

    def refuse(self, text, shown, reply, name=None):
        self.refused += 1
        self.replies.append((reply, self.add_line(f'refuse {text} replied {shown[:16].hex()}', name)))

    def admit(self, text, shown, answer, name=None):
        """An admitted command; one without a text has no line."""
        self.admitted += 1
        self.answers.append((answer, self.add_line(f'admit {text} {shown[:16].hex()}', name) if text else None))

    def is_settled(self):
        return not self.replies and not self.answers

    def meet(self, content):
        """Finds who has to answer so now: the box or the controller. What either has to say next is one of two things."""
        for queue in (self.replies, self.answers):
            if queue and queue[0][0] == content:
                line = queue.popleft()[1]
                if line:
                    line.latest = time.time()
                return queue is self.replies
        raise Wrong(f'the answer {content.hex()} in place of {[queue[0][0].hex() for queue in (self.replies, self.answers) if queue]}')


class ModbusMaster(Master):
    protocol, breaks_with = 'modbus', 'protocol'

    def begin(self):
        return b''

    def command(self, is_refused):
        number, self.count = self.count, self.count + 1
        point, value = number % 100, self.number
        if not is_refused:
            return self.allowed(number, point)
        code, unit = 6, STATION
        kind = number % 4
        if kind == 0:
            code, value, exception, why = 5, 0xff00, 1, 'default function'
        elif kind == 1:
            point, exception, why = 200, 2, 'default point'
        elif kind == 2:
            value, exception, why = 60001, 3, 'default value'
        else:
            unit, exception, why = 9, 10, 'station station'
        request = adu(number, struct.pack('>BHH', code, point, value), unit)
        act = f'point {point} value {1 if code == 5 else value}' if unit == STATION else f'point {unit} value -'
        self.refuse(f'{why} code {code} group 0 {act}', request, adu(number, bytes([0x80 | code, exception]), unit))
        return request

    def allowed(self, number, point):
        if number % 2:
            return self.read(number, 1 + number % 125)
        request = adu(number, struct.pack('>BHH', 6, point, self.number))
        self.admit(f'set code 6 group 0 point {point} value {self.number}', request, request)
        self.forwarded += request
        return request

    def read(self, number, count):
        request = adu(number, struct.pack('>BHH', 3, self.number, count))
        self.admit(None, request, modbus_answer(request))
        self.forwarded += request
        return request

    def take(self, unit):
        self.meet(unit)


class Dnp3Master(Master):
    protocol, breaks_with = 'dnp3', 'start'

    def __init__(self, number):
        super().__init__(number)
        self.out, self.onward, self.into = Segments(0xc4, STATION, MASTER), Segments(0xc4, STATION, MASTER), Fragments()

    def begin(self):
        """Asks another station for the status of its link, which is dropped, and then its own."""
        self.add_line('stray client address')
        status = link_frame(0xc9, STATION, MASTER)
        self.forwarded += status
        self.answers.append((link_frame(0x0b, MASTER, STATION), None))
        return link_frame(0xc9, 999, MASTER) + status

    def command(self, is_refused):
        number, self.count = self.count, self.count + 1
        head = bytes([0xc0 | number % 16])
        answer = bytes([0xc0 | number % 16, 0x81, 0])
        points, operation, act = [number % 200], 65, f'code 5 group 3073 point {number % 200} value 65'
        if is_refused and number % 3 == 0:
            fragment = head + b'\x0d'
            self.refuse('default function code 13 group 0 point 0 value -', fragment, answer + b'\x01')
            return self.out.frames(fragment)
        if is_refused and number % 3 == 1:
            points, why, act = [250], 'point', 'code 5 group 3073 point 250 value 65'
        elif is_refused:
            operation, why, act = 129, 'value', f'code 5 group 3073 point {number % 200} value 129'
        elif number % 4 == 3:
            # More than one segment takes.
            points, act = [*range(25)], 'code 5 group 3073 point 0 value 65'
        fragment = head + b'\x05' + control_blocks(points, operation, number, self.number, 0)
        if is_refused:
            self.refuse(f'default {why} {act}', fragment, answer + b'\0' + control_blocks(points, operation, number, self.number, 9))
        else:
            self.admit(f'operate {act}', fragment, answer + b'\0' + fragment[2:])
            self.forwarded += self.onward.frames(fragment)
        return self.out.frames(fragment)

    def take(self, unit):
        user = link_user(unit)
        if not user:
            self.meet(unit)
            return
        if unit != link_frame(0x44, MASTER, STATION, user):
            raise Wrong(f'a frame with the header {unit[:8].hex()}')
        fragment = self.into.take(user)
        if fragment is not None:
            self.meet(fragment)


class Iec104Master(Master):
    protocol, breaks_with = 'iec104', 'apdustart'

    def __init__(self, number):
        super().__init__(number)
        # Of each I frame that was sent whether it is admitted; how many of those that came are confirmations, and how many came.
        self.sent, self.confirmed, self.received = [], 0, 0
        # The last receive number that the controller was told; at which places refused frames stand whose mirrors have to come.
        self.told, self.mirrored = 0, collections.deque()

    def begin(self):
        self.forwarded += START
        self.answers.append((START_CON, None))
        return START

    def command(self, is_refused):
        number, self.count = self.count, self.count + 1
        kind, point, value, station = 45, self.number, 1, STATION
        act = f'code 45 group 6 point {point} value 1'
        why = ('default function', 'default point', 'default value', 'station station')[number % 4]
        if is_refused and number % 4 == 0:
            kind, act = 46, f'code 46 group 6 point {point} value 1'
        elif is_refused and number % 4 == 1:
            point, act = 60001, 'code 45 group 6 point 60001 value 1'
        elif is_refused and number % 4 == 2:
            value, act = 0, f'code 45 group 6 point {point} value 0'
        elif is_refused:
            station, act = 9, 'code 45 group 0 point 9 value -'
        return self.spell(asdu_of(kind, point, value, station), why if is_refused else '', act)

    def spell(self, asdu, why, act, name=None):
        """The next frame, which is refused where it is said why."""
        is_refused, unit = bool(why), apdu(len(self.sent), self.received, asdu)
        if is_refused:
            self.refuse(f'{why} {act}', unit, with_cause(asdu, 0x47), name)
            self.mirrored.append(len(self.sent))
            if self.confirmed > self.told:
                self.forwarded += supervisory(self.confirmed)
        else:
            self.admit(f'switch {act}', unit, with_cause(asdu, 7), name)
            self.forwarded += apdu(sum(self.sent), self.confirmed, asdu)
        self.told = self.confirmed
        self.sent.append(not is_refused)
        return unit

    def covered(self, sent):
        """The most of these frames from the front of which no more are admitted than the controller has confirmed."""
        left = self.confirmed
        for at, is_admitted in enumerate(sent):
            left -= is_admitted
            if left < 0:
                return at
        return len(sent)

    def take(self, unit):
        if unit[2] & 1:
            self.meet(unit)
            return
        send, receive = (number >> 1 for number in struct.unpack('<HH', unit[2:6]))
        if send != self.received:
            raise Wrong(f'the send number {send} in place of {self.received}')
        self.received += 1
        if self.meet(unit[6:]):
            # All that came up to the refused frame is acknowledged, but for what the controller has yet to.
            least = most = self.covered(self.sent[:self.mirrored.popleft() + 1])
        else:
            self.confirmed += 1
            admitted = [at + 1 for at, is_admitted in enumerate(self.sent) if is_admitted]
            least, most = admitted[self.confirmed - 1], self.covered(self.sent)
        if not least <= receive <= most:
            raise Wrong(f'the receive number {receive} in place of one from {least} to {most}')


MASTERS = {'modbus': ModbusMaster, 'dnp3': Dnp3Master, 'iec104': Iec104Master}
