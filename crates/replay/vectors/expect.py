#!/usr/bin/env python3
"""Writes ../stdout, ../args and differences.txt: what replay is to print of the captures of ../data, from what tshark says of them.

tshark's answer for a frame is the payload of its UDP datagram, as far as the UDP length says. The papers' readings differ from it by rules of their own,
each with a name here. A frame whose answer changes by a rule is listed under it in differences.txt, with its reading. A frame whose answers differ by no rule
is an error, and so is a rule that no frame shows. The time is tshark's, and the unit is the precision that capinfos tells. No rule changes them.
"""
import itertools
import os
import subprocess
import sys
import tempfile
import xml.etree.ElementTree as xml

HERE = os.path.dirname(os.path.abspath(__file__))
DATA = os.path.join(HERE, "..", "data")

LITTLE = ("d4c3b2a1", "4d3cb2a1")
BIG = ("a1b2c3d4", "a1b23c4d")

# The rules by which an answer may differ from tshark's. In both readings, of a file:
MAGIC = "the magic is one of four"
VERSION = "the version is not looked at"
HEADER = "neither the version nor the link type is looked at"
SNAP_LENGTH = "the snap length is not looked at"
# In both readings, of a frame:
ONE_TAG = "one tag, of type 0x8100"
IPV4 = "IPv4 alone"
UDP_IN_IPV4 = "UDP directly in IPv4"
# In the savefile reading:
FIRST_FRAGMENT = "every fragment is passed over, the first one too"
CUT = "the UDP length is more than the record holds, since the capture cut it: passed over"
BEYOND = "the UDP length is more than the record holds, and than was sent: passed over"
IP_LENGTH = "the IP length is not looked at: the UDP length ends the payload"
# In the Rust's reading:
EVERY_IHL = "every IHL is taken"
FRAGMENTS = "fragments are not looked at"
BELOW_8 = "the UDP length is not looked at: below 8"
PAST_IP = "the payload runs to the record's end: past the IP length"
PAST_UDP = "the payload runs to the record's end: past the UDP length"

RULES = (MAGIC, VERSION, HEADER, SNAP_LENGTH, ONE_TAG, IPV4, UDP_IN_IPV4, FIRST_FRAGMENT, CUT, BEYOND, IP_LENGTH, EVERY_IHL, FRAGMENTS, BELOW_8, PAST_IP, PAST_UDP)

# What capinfos calls a file's precision: the unit's word here, and its nanoseconds.
UNITS = {"microseconds (6)": ("us", 1000), "nanoseconds (9)": ("ns", 1)}


class Frame:
    """A frame as tshark reads it: its layers from the outside in, each with its place in the frame."""

    def __init__(self, packet):
        self.layers = [p for p in packet.findall("proto") if p.get("name") not in ("geninfo", "frame", "fake-field-wrapper")]
        self.names = [p.get("name") for p in self.layers]
        self.number = int(packet.find("proto/field[@name='num']").get("show"))
        self.length = int(packet.find("proto/field[@name='caplen']").get("show"))
        self.sent = int(packet.find("proto/field[@name='len']").get("show"))
        self.epoch = packet.find("proto/field[@name='frame.time_epoch']").get("show")

    def field(self, layer, name):
        return self.layers[layer].find(f".//field[@name='{name}']")

    def number_in(self, layer, name):
        return int(self.field(layer, name).get("show"), 0)

    def own(self):
        """The payload of the outermost UDP datagram, as far as its length says: b"" where there is none."""
        if "udp" not in self.names:
            return b""
        at = self.names.index("udp")
        payload = self.field(at, "udp.payload")
        if payload is None:
            return b""
        return bytes.fromhex(payload.get("value"))[:max(0, self.number_in(at, "udp.length") - 8)]


class Datagram:
    """The UDP datagram after an IPv4 header, the given layer, by tshark's fields. tshark goes no further where the IHL or the IP length leaves no room, and
    after an offset: from there on by the record's bytes."""

    def __init__(self, frame, ip, data):
        def stored(at, width):
            return int.from_bytes(data[at:at + width], "big")

        def number(layer, name, otherwise):
            told = layer < len(frame.layers) and frame.field(layer, name) is not None
            return frame.number_in(layer, name) if told else otherwise

        place = int(frame.layers[ip].get("pos"))
        self.words = frame.number_in(ip, "ip.hdr_len") // 4
        self.start = place + 4 * self.words + 8
        self.ip_end = place + number(ip, "ip.len", stored(place + 2, 2))
        self.more = number(ip, "ip.flags.mf", stored(place + 6, 2) // 0x2000 % 2)
        self.offset = number(ip, "ip.frag_offset", stored(place + 6, 2) % 0x2000)
        self.protocol = number(ip, "ip.proto", stored(place + 9, 1))
        self.length = number(ip + 1, "udp.length", stored(self.start - 4, 2))
        self.end = self.start - 8 + self.length


def frames_of(path):
    """Fragments are not put together. What tshark says before an error counts."""
    out = subprocess.run(["tshark", "-n", "-o", "ip.defragment:FALSE", "-r", path, "-T", "pdml"], capture_output=True, text=True).stdout
    if "</pdml>" not in out:
        out = (out[:out.rfind("</packet>") + len("</packet>")] if "</packet>" in out else "<pdml>") + "</pdml>"
    return [Frame(p) for p in xml.fromstring(out).findall("packet")]


def unit_of(path):
    said = subprocess.run(["capinfos", path], capture_output=True, text=True).stdout
    told = [line.partition(":")[2].strip() for line in said.splitlines() if line.startswith("File timestamp precision:")]
    if len(told) != 1 or told[0] not in UNITS:
        sys.exit(f"{path}: capinfos tells no precision that is known here: {told}")
    return UNITS[told[0]]


def time_in(unit, epoch):
    """Seconds, fraction and unit, from tshark's seconds with nine digits after the point."""
    word, nanoseconds = unit
    seconds, digits = epoch.split(".")
    if len(digits) != 9 or int(digits) % nanoseconds:
        sys.exit(f"{epoch} is no time in {word}")
    return f"{int(seconds)} {int(digits) // nanoseconds} {word}"


def judged(frame, data, reading):
    """The payload's start in the frame and the payload, or none, and the rule by which that is not tshark's answer, if it is not. A rule leaves out what tshark
    tells, or adds to it."""
    own = frame.own()
    start, told, rule = answer(frame, data, reading)
    if told == own:
        rule = None
    elif rule is None or told and not told.startswith(own):
        sys.exit(f"frame {frame.number}, {reading}: no rule explains {told.hex()} for {own.hex()}")
    return (start, told) if told else None, rule


def answer(frame, data, reading):
    """The payload's start in the frame, the payload, b"" where there is none, and the rule by which it may differ from tshark's. Without one, it may not."""
    tags = list(itertools.takewhile(lambda name: name in ("vlan", "ieee8021ad"), frame.names[1:]))
    ip = 1 + len(tags)
    if tags not in ([], ["vlan"]):
        return 0, b"", ONE_TAG
    if frame.names[ip:ip + 1] != ["ip"] or frame.number_in(ip, "ip.version") != 4:
        return 0, b"", IPV4
    datagram = Datagram(frame, ip, data)
    if datagram.protocol != 17:
        return 0, b"", UDP_IN_IPV4
    if frame.length < 42 or frame.length < datagram.start:
        return 0, b"", None
    told, rule = savefile(datagram, frame, data) if reading == "savefile" else rust(datagram, frame, data)
    return datagram.start, told, rule


def savefile(datagram, frame, data):
    if datagram.words < 5 or datagram.offset > 0:
        return b"", None
    if datagram.more:
        return b"", FIRST_FRAGMENT
    if datagram.length < 9:
        return b"", None
    if datagram.end > frame.length:
        return b"", CUT if datagram.end <= frame.sent else BEYOND
    return data[datagram.start:datagram.end], IP_LENGTH if datagram.ip_end < datagram.end else None


def rust(datagram, frame, data):
    told = data[datagram.start:]
    if datagram.words < 5:
        return told, EVERY_IHL
    if datagram.offset > 0:
        return told, FRAGMENTS
    if datagram.length < 8:
        return told, BELOW_8
    if datagram.ip_end < frame.length:
        return told, PAST_IP
    return told, PAST_UDP if datagram.end < frame.length else None


def as_read(data, reading):
    """The capture with a file header that tells tshark what the reading takes it for: version 2.4, Ethernet, and the Rust's byte order by the reversed magic."""
    magic = data[:4] if reading == "savefile" else data[3::-1]
    order = "little" if magic.hex() in LITTLE else "big"
    version = (2).to_bytes(2, order) + (4).to_bytes(2, order)
    return magic + version + data[8:20] + (1).to_bytes(4, order) + data[24:]


def payloads(data, reading):
    """For each record the frame, its payload with its start in the file, its port and its time, or none, and the rule."""
    with tempfile.NamedTemporaryFile(suffix=".pcap") as copy:
        copy.write(as_read(data, reading))
        copy.flush()
        frames = frames_of(copy.name)
        unit = unit_of(copy.name) if frames else None
    at = 24
    for frame in frames:
        record = data[at + 16:at + 16 + frame.length]
        found, rule = judged(frame, record, reading)
        if found:
            start, told = found
            port = int.from_bytes(record[start - 6:start - 4], "big")
            found = (at + 16 + start, told, port, time_in(unit, frame.epoch))
        yield frame, found, rule
        at += 16 + frame.length


def libpcap_refuses(path):
    """What libpcap says of a version that it does not take, which tshark takes."""
    said = subprocess.run(["tcpdump", "-n", "-r", path], capture_output=True, text=True).stderr
    return next((line for line in said.splitlines() if "savefile version" in line), None)


def snap_length(data):
    return int.from_bytes(data[16:20], "little" if data[:4].hex() in LITTLE else "big")


def refusal(data):
    if len(data) < 24:
        return 3
    return 0 if data[:4].hex() in LITTLE + BIG else 4


def tell(payload):
    return payload.hex() if payload else "none"


def main():
    lines, differences = [], {rule: [] for rule in RULES}
    names = sorted(os.listdir(DATA))
    for name in names:
        path = os.path.join(DATA, name)
        with open(path, "rb") as f:
            data = f.read()
        own = [(frame.number, frame.epoch, frame.own()) for frame in frames_of(path)]
        if refusal(data):
            lines.append(f"{name} refused {refusal(data)}")
            differences[MAGIC].append(f"{name}: tshark {sum(1 for _, _, p in own if p)} payloads, here refused {refusal(data)}")
            continue
        as_savefile = list(payloads(data, "savefile"))
        as_rust = list(payloads(data, "rust"))
        found = [f for _, f, _ in as_savefile if f]
        on_port = sum(1 for _, _, port, _ in found if port == 2368)
        lines.append(f"{name} payloads {len(found)} on 2368 {on_port} rust {sum(1 for _, f, _ in as_rust if f)}")
        for rank, (start, told, _, time) in enumerate(found):
            lines.append(f"{name} {rank} {start} {len(told)} {time} {told.hex()}")
        lines.append(f"{name} {len(found)} none")
        if libpcap_refuses(path):
            differences[VERSION].append(f"{name}: {libpcap_refuses(path)}, here {len(found)} payloads")
        for frame, _, _ in as_savefile:
            if frame.length > snap_length(data):
                differences[SNAP_LENGTH].append(f"{name} {frame.number}: libpcap cuts the record to {snap_length(data)} bytes, here {frame.length}")
        if own != [(frame.number, frame.epoch, frame.own()) for frame, _, _ in as_savefile]:
            told = [p for _, _, p in own if p]
            differences[HEADER].append(f"{name}: tshark {[p.hex() for p in told]}, here {[t.hex() for _, t, _, _ in found]}")
            continue
        for reading, judgements in (("savefile", as_savefile), ("Rust", as_rust)):
            for frame, f, rule in judgements:
                if rule:
                    differences[rule].append(f"{name} {frame.number}, {reading}: tshark {tell(frame.own())}, here {tell(f and f[1])}")
    shown = []
    for rule, frames in differences.items():
        if not frames:
            sys.exit(f"no frame shows the rule: {rule}")
        shown += [rule] + ["    " + frame for frame in frames]
    for file, text in ((os.path.join(HERE, "..", "stdout"), lines), (os.path.join(HERE, "..", "args"), names), (os.path.join(HERE, "differences.txt"), shown)):
        with open(file, "w") as f:
            f.write("".join(line + "\n" for line in text))


main()
