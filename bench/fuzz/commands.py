"""The cases of each command: what is edited, what is called, and what has to hold of what the calls leave."""
import re
import struct

from case import Wrong
from edits import edited, edited_capture, edited_lists, edited_text, mended_stream
from peers import link_user, units_of

CAPTURED = {0, 6, 7}


def protocol_of(policy, asset):
    """The protocol of an asset of a policy's text."""
    part = policy.split(f'name = "{asset}"')[1]
    return re.search(r'protocol = "(\w+)"', part)[1]


def edited_stream(case, book):
    """A stream of the rows with edits, mended or not; it is in the file `stream`, and its policy in `policy`."""
    one = case.random.choice(book.streams)
    if f'name = "{one.asset}"' not in one.policy:
        one = book.streams[0]
    protocol, like = protocol_of(one.policy, one.asset), [it.octets for it in book.streams if it.asset == one.asset]
    octets = one.octets if case.random.random() < .6 else (one.octets + case.random.choice(like))[:20_000]
    octets = edited(case.random, octets, case.random.choice(like))
    if case.random.random() < .6:
        octets = mended_stream(protocol, octets)
    case.write("policy", one.policy)
    case.write("stream", octets)
    return one.policy, one.asset, protocol, octets


def commands_in(protocol, octets):
    """The octets of each command at the front: an ADU, what the user data of DNP3 frames are together, an ASDU."""
    try:
        units = units_of(protocol, octets)[0]
        if protocol == "modbus":
            return units
        if protocol == "iec104":
            return [unit[6:] for unit in units if not unit[2] & 1]
        return fragments_in(units)
    except Exception as error:
        raise Wrong(f"what went on has no units of {protocol}: {error!r}")


def fragments_in(units):
    """The user data behind the transport octets, up to each last segment."""
    fragments, part = [], b""
    for unit in units:
        user = link_user(unit)
        if user:
            part = (b"" if user[0] & 0x40 else part) + user[1:]
            if user[0] & 0x80:
                fragments.append(part)
                part = b""
    return fragments


def is_part_of(commands, octets):
    """Whether each of these stands in octets, one behind the other. Of DNP3 a part of its own block is looked for."""
    at = 0
    for command in commands:
        at = octets.find(command, at) + len(command)
        if at < len(command):
            return False
    return True


def sift(case, book):
    """In pieces as in one; what went on are commands of the stream in their order; sifted again it is the same."""
    policy, asset, protocol, octets = edited_stream(case, book)
    words = ["sift", "policy", asset, "10.0.0.5"]
    done = case.call(*words, "stream", "out", "replies", "log", ends={0, 12})
    again = case.call(*words, "/dev/stdin", "out2", "replies2", "log2", ends={0, 12}, fed_from="stream")
    case.expect(again.printed == done.printed, f"in pieces it prints {again.printed!r} in place of {done.printed!r}")
    for name in ("out", "replies", "log"):
        case.expect(case.read(name) == case.read(name + "2"), f"in pieces {name} is another")
    out, refused = case.read("out"), sum(" refuse " in line for line in case.log("log"))
    admitted = commands_in(protocol, out)
    if done.status == 0:
        case.expect(refused == done.number(2), f"refused {done.number(2)}, and the log has {refused}")
        case.expect(protocol == "dnp3" or len(admitted) == done.number(1), f"admitted {done.number(1)}, and {len(admitted)} went on")
    case.expect(protocol == "dnp3" or is_part_of(admitted, octets), "what went on does not stand in the stream")
    more = case.call(*words, "out", "out3", "replies3", "log3", ends={0})
    case.expect(more.number(2) == 0 and case.read("out3") == out, "what went on is not admitted as it is")
    case.expect(done.status != 0 or more.number(1) == done.number(1), f"{more.number(1)} of what was admitted are so again")


def edited_recording(case, book):
    one = case.random.choice(book.recordings)
    other = case.random.choice(book.streams).octets
    case.write("policy", one.policy)
    case.write("capture", edited_capture(case.random, one.octets, other) if case.random.random() < .97 else one.octets)


def in_pieces(case, *words):
    """A call whose capture comes through a pipe, in pieces."""
    return case.call(*words, ends=CAPTURED, fed_from="capture")


def run(case, book):
    """In pieces as in one; OUT is judged `yes`, has whole packets alone, and shows nothing that the policy does not allow."""
    edited_recording(case, book)
    done = case.call("run", "policy", "capture", "out", "log", ends=CAPTURED)
    again = in_pieces(case, "run", "policy", "/dev/stdin", "out2", "log2")
    case.expect(again.printed == done.printed, f"in pieces it prints {again.printed!r} in place of {done.printed!r}")
    for name in ("out", "log"):
        case.expect(case.read(name) == case.read(name + "2"), f"in pieces {name} is another")
    if case.read("out") is None:
        case.expect(done.status == 6, "OUT is not there")
        return
    lines = case.log("log")
    judged = case.call("judge", "policy", "out", ends={0})
    listed = case.call("packets", "out", ends={0}).printed
    case.expect("dropped" not in listed, "OUT has what is no packet")
    if done.status != 6:
        for group, word in ((2, " open\n"), (4, " refuse "), (5, " cut ")):
            got = sum(word in line for line in lines)
            case.expect(got == done.number(group), f"it counts {done.number(group)}, and the log has {got} lines {word.strip()!r}")
        case.expect(judged.number(1) <= done.number(3), f"it admits {done.number(3)}, and {judged.number(1)} went on")
    if case.call("learn", "policy", "out", "learned", ends={0, 16}).status == 0:
        case.call("compare", "learned", "policy", ends={0, 17})


def judge(case, book):
    """What is judged `no` has a line in a review; what is judged `yes` shows no more than the policy allows."""
    edited_recording(case, book)
    judged = case.call("judge", "policy", "capture", ends=CAPTURED | {15})
    reviewed = case.call("review", "policy", "capture", "log", ends=CAPTURED | {15})
    case.expect((judged.status in (6, 7)) == (reviewed.status in (6, 7)), f"it is judged with {judged.status} and reviewed with {reviewed.status}")
    case.expect(judged.status != 15 or reviewed.status == 15, "it is judged 'no', and its review is empty")
    if judged.status == 0 and case.call("learn", "policy", "capture", "learned", ends={0, 16}).status == 0:
        case.call("compare", "learned", "policy", ends={0, 17})
        case.call("judge", "learned", "capture", ends={0})


def review(case, book):
    """The log has as many lines of each kind as it counts."""
    edited_recording(case, book)
    done = case.call("review", "policy", "capture", "log", ends=CAPTURED | {15})
    if done.status in (6, 7):
        case.expect(case.read("log") is None, "a capture is refused, and the log is there")
        return
    lines = case.log("log")
    case.expect(bool(lines) == (done.status == 15), f"status {done.status}, and {len(lines)} lines")
    for groups, word in (((3, 4, 5, 6), " refuse "), ((7,), " stray "), ((8,), " conflict "), ((9,), " broken ")):
        counted, got = sum(done.number(group) for group in groups), sum(word in line for line in lines)
        case.expect(counted == got, f"it counts {counted}, and the log has {got} lines {word.strip()!r}")
    case.expect(done.number(1) == sum(done.number(group) for group in (2, 3, 4, 5, 6)), "commands are neither admitted nor refused")


def learn(case, book):
    """What is learned is a policy, the same from the same capture, and its own included."""
    edited_recording(case, book)
    done = case.call("learn", "policy", "capture", "learned", ends=CAPTURED | {16})
    case.expect((case.read("learned") is not None) == (done.status == 0), f"status {done.status}, and OUT is there or not")
    if done.status != 0:
        return
    case.expect(case.call("check", "learned", ends={0}).printed == done.printed, "it has other numbers of assets and rules")
    includes_itself(case, "learned")
    case.call("learn", "learned", "capture", "learned2", ends={0})
    case.expect(case.read("learned") == case.read("learned2"), "by what was learned another policy is learned")


def includes_itself(case, name):
    case.write("copy", case.read(name))
    case.call("compare", name, "copy", ends={0, 17})


def packets(case, book):
    """As many lines as `run` counts records, in pieces as in one."""
    edited_recording(case, book)
    done = case.call("packets", "capture", ends=CAPTURED)
    again = in_pieces(case, "packets", "/dev/stdin")
    case.expect(again.printed == done.printed and again.status == done.status, "in pieces it prints other lines")
    ran = case.call("run", "policy", "capture", "out", "log", ends=CAPTURED)
    if ran.status == 0:
        case.expect(done.status == 0 and ran.number(1) == done.printed.count("\n"), f"{ran.number(1)} records have other lines")


def edited_policy(case, one, other):
    """A policy's text as it is, with other numbers in its lists, or with any edit, by which it mostly is none."""
    way = case.random.random()
    return one if way < .2 else edited_lists(case.random, one) if way < .7 else edited_text(case.random, one, other)


def check(case, book):
    """What is refused is refused by each command in the same words, and is left alone by `migrate`."""
    case.write("policy", edited_policy(case, case.random.choice(book.texts), case.random.choice(book.texts)))
    case.write("stream", b"")
    done = case.call("check", "policy", ends={0, 5})
    if done.status == 5:
        sifts = ["sift", "policy", "pump", "10.0.0.5", "stream", "out", "replies", "log"]
        for words in (["migrate", "policy", "out"], ["compare", "policy", "stream"], sifts):
            case.expect(case.call(*words, ends={5}).printed == done.printed, "it is refused for another reason")
        case.expect(case.read("out") is None, "a policy is refused, and OUT is there")


def migrate(case, book):
    """What is written is included in what was read, and that in it; written again it is the same."""
    case.write("policy", edited_policy(case, case.random.choice(book.texts), case.random.choice(book.texts)))
    done = case.call("migrate", "policy", "out", ends={0, 5})
    if done.status == 0:
        case.expect(case.call("check", "out", ends={0}).printed == done.printed, "it has other numbers of assets and rules")
        case.call("compare", "policy", "out", ends={0, 17})
        case.call("compare", "out", "policy", ends={0, 17})
        case.call("migrate", "out", "out2", ends={0})
        case.expect(case.read("out") == case.read("out2"), "written again it is another text")


def compare(case, book):
    """A policy is included in itself; of an act that is shown and has a command, the first admits it and the second refuses it."""
    one, two = case.random.choice(book.pairs) if case.random.random() < .5 else [case.random.choice(book.texts)] * 2
    case.write("policy", edited_policy(case, one, two))
    case.write("other", edited_policy(case, two, one))
    case.write("none", b"")
    done = case.call("compare", "policy", "other", ends={0, 5, 15, 17})
    if done.status == 5:
        return
    includes_itself(case, "policy")
    if done.status == 0:
        passed_by_both(case, book)
    if done.status == 15 and done.found[2]:
        name, client, value = done.found[1], done.found[3], done.found[7]
        code, group, point = (done.number(group) for group in (4, 5, 6))
        if code == 6 and group == 0 and point < 65536 and value.isdigit() and int(value) < 65536:
            tried(case, name, client, struct.pack(">BHH", 6, point, int(value)))
        if code == 3 and group == 0 and point < 65536 and value == "-":
            tried(case, name, client, struct.pack(">BHH", 3, point, 1))


def passed_by_both(case, book):
    """What of a stream the policy lets through the other one lets through too."""
    policy, other = case.read("policy").decode(), case.read("other").decode()
    streams = [one for one in book.streams if f'name = "{one.asset}"' in policy]
    if not streams or "most" in other:
        return
    one = case.random.choice(streams)
    case.write("stream", one.octets)
    words = one.asset, "10.0.0.5"
    if case.call("sift", "policy", *words, "stream", "out", "replies", "log", ends={0, 10, 12}).status != 10:
        done = case.call("sift", "other", *words, "out", "out2", "replies2", "log2", ends={0})
        case.expect(done.number(2) == 0, f"the other one refuses {done.number(2)} of what the policy lets through")


def tried(case, name, client, pdu):
    """A command of Modbus that the policy admits, and that the other one refuses."""
    part = case.read("policy").decode().split(f'name = "{name}"')
    station = re.search(r'protocol = "modbus"\s*station = (\d+)', part[1]) if len(part) == 2 else None
    if station and 'most =' not in part[1]:
        case.write("stream", struct.pack(">HHHB", 1, 0, len(pdu) + 1, int(station[1])) + pdu)
        for policy, admitted in (("policy", 1), ("other", 0)):
            done = case.call("sift", policy, name, client, "stream", "out", "replies", "log", ends={0})
            case.expect(done.number(1) == admitted, f"by {policy} {done.number(1)} commands go on in place of {admitted}")


def world(case, book):
    """The same numbers make the same files, which are those of `run`; OUT is judged `yes`."""
    seed, sessions = case.random.choice([0, 1, 2**64 - 1, case.random.randrange(2**64)]), case.random.choice([1, 1, 2, 5])
    done = case.call("world", seed, sessions, "policy", "capture", "out", "log", ends={0})
    again = case.call("run", "policy", "capture", "out2", "log2", ends={0})
    case.expect(done.printed == again.printed, "a run of it counts otherwise")
    for name in ("out", "log"):
        case.expect(case.read(name) == case.read(name + "2"), f"a run of it leaves another {name}")
    case.call("judge", "policy", "out", ends={0})


# Words that have a form, over the files that are there.
WORDS = [
    ["check", "policy"], ["compare", "policy", "capture"], ["migrate", "policy", "out"], ["learn", "policy", "capture", "out"],
    ["judge", "policy", "capture"], ["review", "policy", "capture", "log"], ["packets", "capture"], ["run", "policy", "capture", "out", "log"],
    ["world", "7", "1", "p", "c", "out", "log"], ["sift", "policy", "pump", "10.0.0.5", "stream", "out", "replies", "log"], ["help", "run"],
    ["--version"], ["relay", "policy", "pump", "0", "5", "log"], ["serve", "policy", "0", "log", "pump=127.0.0.1:1"],
]


def words(case, book):
    """Words with an edit end with a status of the table, and leave their inputs as they are."""
    inputs = {"policy": book.policies["p"].encode(), "capture": case.random.choice(book.recordings).octets, "stream": book.streams[0].octets}
    for name, octets in inputs.items():
        case.write(name, octets)
    words = list(case.random.choice(WORDS))
    at, way = case.random.randrange(len(words)), case.random.randrange(4)
    if way == 0:
        del words[at]
    elif way == 1:
        words.insert(at, case.random.choice(["", "-", "--", "10.0.0.5", "x" * 300, "policy", "0", str(2**64)]))
    elif words[0] in ("relay", "serve"):
        words[-1] = ""
    else:
        word = edited(case.random, words[at].encode(), b"0.0.0.0:99999").decode(errors="replace")
        words[at] = word.replace("/", "|").replace("\0", "0")
    case.call(*words, ends={0, 2, 3, 4, 5, 6, 7, 10, 12, 15, 16, 17})
    for name, octets in inputs.items():
        case.expect(case.read(name) == octets, f"{name} is changed")
