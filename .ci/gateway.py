"""Masters and controllers of gateways, for `.ci/serve`: three stations behind one address and port, each an asset with rules of its own.

Each station has a range of points that only its own rules allow, so a command that is judged by another asset's rules, or goes on to another
station, has another answer and another line. As in `peers.py`, what has to come is computed from the standards and the pages alone.
"""
import struct

from peers import (MASTER, Fragments, Iec104Master, Master, Segments, Wrong, adu, apdu, asdu_of, control_blocks, link_frame, link_user,
                   modbus_answer, with_cause, Iec104Side)

# The stations, and one that no asset has.
STATIONS, NOBODY = (1, 2, 3), 9
# How many points each station has, by protocol: the first has those from 0 on, but of IEC 60870-5-104 from 1 on.
WIDTH = {'modbus': 100, 'dnp3': 60, 'iec104': 20000}


def name_of(gateway, station):
    return f'{gateway}-{station}'


def points_of(protocol, station):
    first = (station - 1) * WIDTH[protocol] + (protocol == 'iec104')
    return range(first, first + WIDTH[protocol])


def rules_of(protocol, station):
    """The rules of an asset: (name, lists)."""
    own = points_of(protocol, station)
    points = f'points = ["{own[0]}..{own[-1]}"]'
    if protocol == 'modbus':
        return [('read', f'codes = [3]\n{points}'), ('set', f'codes = [6]\n{points}\nvalues = ["0..60000"]\nlog = true'),
                ('once', f'codes = [5]\n{points}\nmost = 1\nseconds = 3600')]
    if protocol == 'dnp3':
        return [('operate', f'codes = [5]\ngroups = ["3073"]\n{points}\nvalues = ["65"]\nlog = true')]
    return [('switch', f'codes = [45]\ngroups = ["6"]\n{points}\nvalues = ["1"]\nlog = true')]


def policy_of_gateways(gateways):
    """The text of a policy: (name, port, protocol) of each gateway."""
    text = 'version = 3\n'
    for gateway, port, protocol in gateways:
        for station in STATIONS:
            text += f'[[asset]]\nname = "{name_of(gateway, station)}"\naddress = "127.0.0.1"\nport = {port}\nprotocol = "{protocol}"\n'
            text += f'station = {station}\n' + (f'master = {MASTER + station}\n' if protocol == 'dnp3' else '')
            for rule, lists in rules_of(protocol, station):
                text += f'[[asset.rule]]\nname = "{rule}"\naction = "allow"\n{lists}\n'
    return text


def another(station):
    return STATIONS[station % len(STATIONS)]


# Controllers.

class GatewayModbusSide:
    """Answers for its three units, each of which has registers of its own."""

    def answer(self, unit):
        if unit[6] not in STATIONS:
            raise Wrong(f'a command for unit {unit[6]} behind the gateway')
        return modbus_answer(unit)


# What the `on` time of a control says to an outstation of `.ci/serve`: that its response waits for the next outstation's, and then goes out in
# turns of segments with it.
FIRST_OF_TWO, SECOND_OF_TWO = 70001, 70002


def in_turns(own, other):
    """Frames of two in turns."""
    return b''.join(frame for pair in zip(own, other) for frame in pair)


class GatewayDnp3Side:
    """Three outstations with a master each. Two that are asked for it answer in turns of segments, as a concentrator may."""

    def __init__(self):
        self.out = {station: Segments(0x44, MASTER + station, station) for station in STATIONS}
        self.into = {station: Fragments() for station in STATIONS}
        self.waiting = None

    def answer(self, unit):
        station, master = struct.unpack('<HH', unit[4:8])
        if station not in STATIONS or master != MASTER + station:
            raise Wrong(f'a frame for {station} by {master} behind the gateway')
        user = link_user(unit)
        if not user:
            return link_frame(0x0b, master, station)
        fragment = self.into[station].take(user)
        if fragment is None:
            return b''
        frames = self.out[station].list(bytes([0xc0 | fragment[0] % 16, 0x81, 0, 0]) + fragment[2:])
        on = struct.unpack('<I', fragment[9:13])[0] if len(fragment) > 12 else 0
        if on == FIRST_OF_TWO:
            self.waiting = frames
            return b''
        return in_turns(self.waiting, frames) if on == SECOND_OF_TWO else b''.join(frames)


GATEWAY_SIDES = {'modbus': GatewayModbusSide, 'dnp3': GatewayDnp3Side, 'iec104': Iec104Side}


# Masters.

class GatewayMaster(Master):
    """A session with all three stations in turn, of what is refused and of what is not apart. `gateway` is set by who begins it."""
    gateway = ''

    def __init__(self, number):
        super().__init__(number)
        self.turns = [0, 0]

    def next(self, is_refused):
        """The number of the next command, its station, and how many of its kind came before."""
        number, turn = self.count, self.turns[is_refused]
        self.count, self.turns[is_refused] = number + 1, turn + 1
        return number, STATIONS[turn % 3], turn

    def name_of(self, station):
        """Under whose name a command's line stands: one for no station has the first one's."""
        return name_of(self.gateway, station if station in STATIONS else STATIONS[0])


class GatewayModbusMaster(GatewayMaster):
    protocol, breaks_with = 'modbus', 'protocol'

    def __init__(self, number):
        super().__init__(number)
        self.spent = set()

    def begin(self):
        return b''

    def command(self, is_refused):
        number, station, turn = self.next(is_refused)
        point = points_of('modbus', station)[number % 100]
        if is_refused:
            return self.unwelcome(number, station, point, turn % 5)
        if turn // 3 % 3 == 0:
            return self.write(number, station, point)
        if turn // 3 % 3 == 1:
            return self.read(number, station, point - point % 100, 1 + number % 100)
        return self.once(number, station, point)

    def write(self, number, station, point):
        request = adu(number, struct.pack('>BHH', 6, point, self.number), station)
        self.admit(f'set code 6 group 0 point {point} value {self.number}', request, request, self.name_of(station))
        self.forwarded += request
        return request

    def read(self, number, station, point, count):
        request = adu(number, struct.pack('>BHH', 3, point, count), station)
        self.admit(None, request, modbus_answer(request))
        self.forwarded += request
        return request

    def once(self, number, station, point):
        """A coil of each station may be written once, whatever was written of another station."""
        request = adu(number, struct.pack('>BHH', 5, point, 0xff00), station)
        if station in self.spent:
            answer = adu(number, bytes([0x85, 3]), station)
            self.refuse(f'once value code 5 group 0 point {point} value 1', request, answer, self.name_of(station))
            return request
        self.spent.add(station)
        self.admit(None, request, request)
        self.forwarded += request
        return request

    def unwelcome(self, number, station, point, kind):
        code, value, unit = 6, self.number, station
        if kind == 0:
            code, value, exception, why = 4, 1, 1, 'default function'
        elif kind == 1:
            point, exception, why = points_of('modbus', another(station))[number % 100], 2, 'default point'
        elif kind == 2:
            value, exception, why = 60001, 3, 'default value'
        elif kind == 3:
            unit, exception, why = NOBODY, 10, 'station station'
        else:
            # Its first register is the station's own, and the second another one's, or nobody's.
            code, point, value, exception, why = 3, points_of('modbus', station)[-1], 2, 2, 'default point'
        request = adu(number, struct.pack('>BHH', code, point, value), unit)
        act = f'point {point + (kind == 4)} value {"-" if code != 6 else value}' if unit == station else f'point {unit} value -'
        self.refuse(f'{why} code {code} group 0 {act}', request, adu(number, bytes([0x80 | code, exception]), unit), self.name_of(unit))
        return request

    def take(self, unit):
        self.meet(unit)


class GatewayDnp3Master(GatewayMaster):
    protocol, breaks_with = 'dnp3', 'start'

    def __init__(self, number):
        super().__init__(number)
        self.out, self.onward = ({station: Segments(0xc4, station, MASTER + station) for station in STATIONS} for _ in range(2))
        self.into = {station: Fragments() for station in STATIONS}

    def begin(self):
        """Asks nobody's link for its status, and a station's as another one's master, which are dropped; then that station's as its own."""
        strays = [(NOBODY, MASTER + 1), (2, MASTER + 1)]
        for _ in strays:
            self.add_line('stray client address')
        status = link_frame(0xc9, 2, MASTER + 2)
        self.forwarded += status
        self.answers.append((link_frame(0x0b, MASTER + 2, 2), None))
        return b''.join(link_frame(0xc9, *stray) for stray in strays) + status

    def command(self, is_refused):
        number, station, turn = self.next(is_refused)
        if is_refused:
            return b''.join(self.unwelcome(number, station, turn % 4))
        if turn % 4 == 3:
            # Two fragments whose segments come in turns: an allowed one to each of two stations, or the first of them a refused one.
            if turn % 8 == 7:
                return in_turns(self.unwelcome(number, station, 1, 25), self.allowed(number, another(station), 25, number))
            return in_turns(self.allowed(number, station, 25, FIRST_OF_TWO), self.allowed(number, another(station), 25, SECOND_OF_TWO))
        return b''.join(self.allowed(number, station, 1, number))

    def allowed(self, number, station, count, on):
        points = points_of('dnp3', station)[number % 30:][:count]
        fragment = bytes([0xc0 | number % 16, 5]) + control_blocks(points, 65, on, self.number, 0)
        answer = bytes([station, 0xc0 | number % 16, 0x81, 0, 0]) + fragment[2:]
        self.admit(f'operate code 5 group 3073 point {points[0]} value 65', fragment, answer, self.name_of(station))
        self.forwarded += self.onward[station].frames(fragment)
        return self.out[station].list(fragment)

    def unwelcome(self, number, station, kind, count=1):
        head, answer = bytes([0xc0 | number % 16]), bytes([station, 0xc0 | number % 16, 0x81, 0])
        points, operation, why = points_of('dnp3', station)[number % 30:][:count], 65, 'value'
        if kind == 0:
            fragment = head + b'\x0d'
            self.refuse('default function code 13 group 0 point 0 value -', fragment, answer + b'\x01', self.name_of(station))
            return self.out[station].list(fragment)
        if kind == 1:
            points, why = points_of('dnp3', another(station))[number % 30:][:count], 'point'
        else:
            operation = 129
        fragment = head + b'\x05' + control_blocks(points, operation, number, self.number, 0)
        text = f'default {why} code 5 group 3073 point {points[0]} value {operation}'
        told = answer + b'\0' + control_blocks(points, operation, number, self.number, 9)
        self.refuse(text, fragment, told, self.name_of(station))
        return self.out[station].list(fragment)

    def take(self, unit):
        user = link_user(unit)
        if not user:
            self.meet(unit)
            return
        station = struct.unpack('<H', unit[6:8])[0]
        if station not in STATIONS or unit != link_frame(0x44, MASTER + station, station, user):
            raise Wrong(f'a frame with the header {unit[:8].hex()}')
        fragment = self.into[station].take(user)
        if fragment is not None:
            self.meet(bytes([station]) + fragment)


class GatewayIec104Master(Iec104Master, GatewayMaster):
    """The numbers are those of the connection, whatever common addresses its frames have."""

    def command(self, is_refused):
        _, station, turn = self.next(is_refused)
        kind, own, value, to = 45, points_of('iec104', station), 1, station
        point, why = own[self.number % 20000], ''
        act = f'code 45 group 6 point {point} value 1'
        if is_refused:
            why = ('default function', 'default point', 'default value', 'station station')[turn % 4]
            if why == 'default function':
                kind, act = 46, f'code 46 group 6 point {point} value 1'
            elif why == 'default point':
                point = points_of('iec104', another(station))[self.number % 20000]
                act = f'code 45 group 6 point {point} value 1'
            elif why == 'default value':
                value, act = 0, f'code 45 group 6 point {point} value 0'
            else:
                to, act = NOBODY, f'code 45 group 0 point {NOBODY} value -'
        return self.spell(asdu_of(kind, point, value, to), why, act, self.name_of(to))


GATEWAY_MASTERS = {'modbus': GatewayModbusMaster, 'dnp3': GatewayDnp3Master, 'iec104': GatewayIec104Master}
