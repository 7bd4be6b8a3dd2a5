#!/usr/bin/env python3
"""Writes the captures of ../data with tcpdump, text2pcap, editcap and mergecap. It is run once, and what it wrote is kept.

Live frames come from sockets on the loopback device, caught by tcpdump. Frames that a kernel does not send are spelled here and put into a file by text2pcap.
For the big-endian files TCPDUMP_BIG_ENDIAN names a tcpdump of a big-endian machine, such as Debian's for s390x under qemu-user:

    TCPDUMP_BIG_ENDIAN='qemu-s390x-static -L ROOT ROOT/usr/bin/tcpdump' python3 make.py

It needs the right to catch frames on lo. A second run gives other times, and other IP identifications and checksums in the live files.
`udp_lengths`, `fragment_fields` and `raw_ip_length` can be written alone, and are the same again:

    python3 -c 'import make; make.udp_lengths(); make.fragment_fields(); make.raw_ip_length(); make.turned("udp_lengths")'
"""
import os
import shlex
import socket
import struct
import subprocess
import time

DATA = os.path.join(os.path.dirname(os.path.abspath(__file__)), "..", "data")


def run(*words, text=None):
    return subprocess.run(words, input=text, check=True, capture_output=True, text=True)


def path(name):
    return os.path.join(DATA, name)


# ---- frames

def checksum(header):
    total = sum(struct.unpack(f">{len(header) // 2}H", header))
    while total > 0xFFFF:
        total = (total & 0xFFFF) + (total >> 16)
    return ~total & 0xFFFF


def udp(payload, port=2368, length=None):
    return struct.pack(">HHHH", 2368, port, 8 + len(payload) if length is None else length, 0) + payload


def ip(body, protocol=17, options=b"", words=None, version=4, total=None, fragment=0):
    words = 5 + len(options) // 4 if words is None else words
    total = 20 + len(options) + len(body) if total is None else total
    header = struct.pack(">BBHHHBBH", version << 4 | words, 0, total, 1, fragment, 64, protocol, 0)
    header += bytes([192, 168, 1, 201]) + bytes([255] * 4) + options
    return header[:10] + struct.pack(">H", checksum(header)) + header[12:] + body


def ethernet(body, kind=0x0800, tags=()):
    tags = b"".join(struct.pack(">HH", *tag) for tag in tags)
    return bytes.fromhex("ffffffffffff60768801c901") + tags + struct.pack(">H", kind) + body


def text2pcap(name, frames, *words):
    """One record a frame, a second apart."""
    text = ""
    for second, frame in enumerate(frames):
        text += f"2024-01-01 00:00:{second:02d}\n"
        for at in range(0, len(frame), 16):
            text += f"{at:06x}  " + " ".join(f"{b:02x}" for b in frame[at:at + 16]) + "\n"
    run("text2pcap", "-q", "-F", "pcap", "-t", "%Y-%m-%d %H:%M:%S", *words, "-", path(name), text=text)


# ---- live frames

def send(port, payload, options=b""):
    with socket.socket(socket.AF_INET, socket.SOCK_DGRAM) as s:
        if options:
            s.setsockopt(socket.IPPROTO_IP, socket.IP_OPTIONS, options)
        s.bind(("127.0.0.1", 50000))
        s.sendto(payload, ("127.0.0.1", port))


def live(name):
    """UDP to three ports, of which none is open, so that ICMP answers; IP options; an empty datagram; TCP; IPv6."""
    # Under the root's name: an unprivileged tcpdump could not write here.
    tcpdump = subprocess.Popen(
        ["tcpdump", "-Z", "root", "-i", "lo", "-U", "-w", path(name), "udp port 2368 or udp port 7502 or udp port 9 or tcp port 9 or icmp or icmp6"],
        stderr=subprocess.PIPE, text=True)
    while "listening" not in tcpdump.stderr.readline():
        pass
    time.sleep(0.5)
    send(2368, b"first")
    send(7502, b"on another port")
    send(2368, b"")
    send(2368, b"after one word of options", bytes([1, 1, 1, 0]))
    send(9, b"x")
    send(2368, b"after ten words of options", bytes([1] * 39 + [0]))
    with socket.socket(socket.AF_INET, socket.SOCK_STREAM) as s:
        s.connect_ex(("127.0.0.1", 9))
    with socket.socket(socket.AF_INET6, socket.SOCK_DGRAM) as s:
        s.bind(("::1", 50000))
        s.sendto(b"over IPv6", ("::1", 2368))
    send(2368, b"last")
    time.sleep(0.5)
    tcpdump.terminate()
    tcpdump.wait()


# ---- the files

def write(name, data):
    with open(path(name), "wb") as f:
        f.write(data)


def read(name):
    with open(path(name), "rb") as f:
        return f.read()


def padded(frame):
    """As a switch sends it: at least 60 bytes."""
    return frame + bytes(60 - len(frame))


def turned(name):
    """Each field of the file header reversed, and the records as they were: the Rust's reading takes the lengths as their writer meant them."""
    data = read(f"{name}.pcap")
    fields = [(0, 4), (4, 6), (6, 8), (8, 12), (12, 16), (16, 20), (20, 24)]
    write(f"{name}_turned.pcap", b"".join(data[a:b][::-1] for a, b in fields) + data[24:])


def udp_lengths():
    """UDP lengths below 9, of less than the datagram, true, and of more; the UDP header at the record's end. Padding, tagged and after IP options too. UDP
    lengths that take padding in, up to the record's end and past it. IP lengths that are wrong, before a true UDP length. IHL 4 and 0, which are wrong, with a
    true UDP length where they put the UDP header."""
    word = bytes([1, 1, 1, 0])
    tag = [(0x8100, 5)]
    no_words = ip(udp(b"IHL 0"), words=0)
    text2pcap("udp_lengths.pcap", [
        ethernet(ip(udp(b"UDP length 0", length=0))),
        ethernet(ip(udp(b"UDP length 7", length=7))),
        ethernet(ip(udp(b"UDP length 8", length=8))),
        ethernet(ip(udp(b"UDP length 9", length=9))),
        ethernet(ip(udp(b"one byte less", length=20))),
        ethernet(ip(udp(b"true"))),
        ethernet(ip(udp(b"one byte more", length=22))),
        ethernet(ip(udp(b"UDP length 65,535", length=65535))),
        ethernet(ip(udp(b"", length=9))),
        padded(ethernet(ip(udp(b"abc")))),
        padded(ethernet(ip(udp(b"tagged")), tags=tag)),
        ethernet(ip(udp(b"tagged, one byte more", length=30)), tags=tag),
        padded(ethernet(ip(udp(b"IHL 6"), options=word))),
        ethernet(ip(udp(b"IHL 6, one byte more", length=29), options=word)),
        padded(ethernet(ip(udp(b"a", length=12)))),
        padded(ethernet(ip(udp(b"a", length=26)))),
        padded(ethernet(ip(udp(b"a", length=27)))),
        ethernet(ip(udp(b"IP length 28"), total=28)),
        ethernet(ip(udp(b"IP length 20"), total=20)),
        ethernet(ip(udp(b"IP length 19"), total=19)),
        padded(ethernet(ip(udp(b"IP length 0"), total=0))),
        padded(ethernet(ip(udp(b"IP length 65,535"), total=65535))),
        ethernet(ip(b"", words=4, total=29)[:16] + udp(b"IHL 4")),
        ethernet(no_words[:4] + struct.pack(">H", len(no_words)) + no_words[6:]),
        ethernet(ip(udp(b"last"))),
    ])


def fragment_fields():
    """Whole datagrams with each fragment field: offsets from 1 to 8,191, more-fragments, and the bits that make no fragment, don't-fragment and the reserved
    one. Tagged, after IP options, with an IHL of 4 and with wrong UDP lengths too."""
    word = bytes([1, 1, 1, 0])
    tag = [(0x8100, 5)]
    text2pcap("fragment_fields.pcap", [
        ethernet(ip(udp(b"offset 1"), fragment=0x0001)),
        ethernet(ip(udp(b"offset 256"), fragment=0x0100)),
        ethernet(ip(udp(b"offset 4,096"), fragment=0x1000)),
        ethernet(ip(udp(b"offset 8,191"), fragment=0x1FFF)),
        ethernet(ip(udp(b"more-fragments"), fragment=0x2000)),
        ethernet(ip(udp(b"more-fragments, offset 1"), fragment=0x2001)),
        ethernet(ip(udp(b"don't-fragment"), fragment=0x4000)),
        ethernet(ip(udp(b"don't-fragment and more-fragments"), fragment=0x6000)),
        ethernet(ip(udp(b"reserved"), fragment=0x8000)),
        ethernet(ip(udp(b"reserved and don't-fragment"), fragment=0xC000)),
        ethernet(ip(udp(b"tagged, more-fragments"), fragment=0x2000), tags=tag),
        ethernet(ip(udp(b"tagged, offset 1"), fragment=0x0001), tags=tag),
        ethernet(ip(udp(b"tagged, don't-fragment"), fragment=0x4000), tags=tag),
        ethernet(ip(udp(b"IHL 6, more-fragments"), fragment=0x2000, options=word)),
        ethernet(ip(b"", fragment=0x2000, words=4, total=45)[:16] + udp(b"IHL 4, more-fragments")),
        ethernet(ip(udp(b"more-fragments, UDP length 0", length=0), fragment=0x2000)),
        ethernet(ip(udp(b"more-fragments, UDP length 99", length=99), fragment=0x2000)),
        ethernet(ip(udp(b"no fragment"))),
    ])


def raw_ip_length():
    """IP without Ethernet, in which an Ethernet reader finds IPv4, an IHL of 5, don't-fragment, protocol 17 and a true UDP length."""
    raw = ip(udp(b"no Etherne\x00\x12here", port=0x0911))
    text2pcap("raw_ip_length.pcap", [raw[:12] + bytes([8, 0, 0x45, 0]) + raw[16:20] + bytes([0x40, 0]) + raw[22:] + bytes(8)], "-l", "101")


def main():
    os.makedirs(DATA, exist_ok=True)
    big_endian = shlex.split(os.environ["TCPDUMP_BIG_ENDIAN"])

    # The four magics.
    live("live.pcap")
    run("tcpdump", "-Z", "root", "-r", path("live.pcap"), "--time-stamp-precision=nano", "-w", path("live_ns.pcap"))
    run(*big_endian, "-Z", "root", "-r", path("live.pcap"), "-w", path("live_be.pcap"))
    run(*big_endian, "-Z", "root", "-r", path("live.pcap"), "--time-stamp-precision=nano", "-w", path("live_be_ns.pcap"))

    # Frames that text2pcap itself makes: UDP, padded to 60 bytes where they are shorter, and of a sensor's length.
    dump = "0000  61 62 63\n"
    run("text2pcap", "-q", "-F", "pcap", "-u", "2368,2368", "-", path("padded.pcap"), text=dump)
    packet = bytes(i * 7 % 256 for i in range(1206))
    dump = "".join(f"{at:06x}  " + " ".join(f"{b:02x}" for b in packet[at:at + 16]) + "\n" for at in range(0, 1206, 16))
    run("text2pcap", "-q", "-F", "pcap", "-u", "2368,2368", "-", path("sensor.pcap"), text=dump)

    # No record at all.
    text2pcap("no_record.pcap", [])

    # Tags: one, one without a network (VID 0), two, one of another type, one of each, and one around ARP. Then 46 and 47 bytes.
    arp = bytes.fromhex("0001080006040001 60768801c901 c0a801c9 000000000000 c0a80101")
    text2pcap("tags.pcap", [
        ethernet(ip(udp(b"one tag")), tags=[(0x8100, 5)]),
        ethernet(ip(udp(b"priority alone")), tags=[(0x8100, 0xE000)]),
        ethernet(ip(udp(b"two tags")), tags=[(0x8100, 5), (0x8100, 6)]),
        ethernet(ip(udp(b"a service tag")), tags=[(0x88A8, 5)]),
        ethernet(ip(udp(b"a service tag and another")), tags=[(0x88A8, 5), (0x8100, 6)]),
        ethernet(arp, kind=0x0806, tags=[(0x8100, 5)]),
        ethernet(ip(udp(b"")), tags=[(0x8100, 5)]),
        ethernet(ip(udp(b"\xab")), tags=[(0x8100, 5)]),
    ])

    # IP headers: IHL 6, 10 and 15, tagged too; IHL 4 and 0, which are wrong; an IP version of 6 after IPv4's EtherType.
    text2pcap("headers.pcap", [
        ethernet(ip(udp(b"IHL 6"), options=bytes([1, 1, 1, 0]))),
        ethernet(ip(udp(b"IHL 10"), options=bytes([1] * 19 + [0]))),
        ethernet(ip(udp(b"IHL 15"), options=bytes([1] * 39 + [0]))),
        ethernet(ip(udp(b"IHL 15, tagged"), options=bytes([1] * 39 + [0])), tags=[(0x8100, 5)]),
        ethernet(ip(udp(b"IHL 4"), words=4)),
        ethernet(ip(udp(b"IHL 0"), words=0)),
        ethernet(ip(udp(b"version 6"), version=6)),
        ethernet(ip(udp(b"IHL 5"))),
    ])

    # Other protocols: ARP, IPv6, TCP, ICMP, IP in IP, 802.3 with a length for the EtherType.
    tcp = struct.pack(">HHIIBBHHH", 2368, 2368, 1, 0, 0x50, 2, 1024, 0, 0)
    ipv6 = struct.pack(">IHBB", 6 << 28, 13, 17, 64) + bytes(15) + b"\x01" + bytes(15) + b"\x01" + udp(b"IPv6!")
    text2pcap("protocols.pcap", [
        ethernet(arp, kind=0x0806) + bytes(18),
        ethernet(ipv6, kind=0x86DD),
        ethernet(ip(tcp + b"TCP", protocol=6)),
        ethernet(ip(bytes.fromhex("0800f7ff00000000") + b"ICMP....", protocol=1)),
        ethernet(ip(ip(udp(b"IP in IP")), protocol=4)),
        ethernet(bytes.fromhex("424203") + bytes(35), kind=38),
        ethernet(ip(udp(b"UDP"))),
    ])

    # Lengths: padding to 60 bytes after one byte, after none; no padding after none; a checksum of the frame; a UDP length that is too short, too long,
    # 0 or below 8; an IP length that is too short.
    text2pcap("lengths.pcap", [
        ethernet(ip(udp(b"\xab"))) + bytes(17),
        ethernet(ip(udp(b""))) + bytes(18),
        ethernet(ip(udp(b""))),
        ethernet(ip(udp(b"frame check"))) + bytes.fromhex("deadbeef"),
        ethernet(ip(udp(b"UDP length 12", length=12))),
        ethernet(ip(udp(b"UDP length 99", length=99))),
        ethernet(ip(udp(b"UDP length 0", length=0))),
        ethernet(ip(udp(b"UDP length 4", length=4))),
        ethernet(ip(udp(b"IP length 32"), total=32)),
        ethernet(ip(udp(b"all lengths true"))),
    ])

    # One datagram in three fragments of 16, 16 and 8 bytes; the offsets count words of eight bytes.
    whole = udp(b"the datagram is cut in fragments")
    text2pcap("fragments.pcap", [
        ethernet(ip(whole[:16], fragment=0x2000)),
        ethernet(ip(whole[16:32], fragment=0x2002)),
        ethernet(ip(whole[32:], fragment=0x0004)),
        ethernet(ip(udp(b"whole"))),
    ])

    # The UDP length and the fragment fields at each boundary.
    udp_lengths()
    fragment_fields()

    # Records cut short by a snap length: inside a payload, after the UDP header, inside it. Files that end inside a record, and inside a record's header.
    for snap in (47, 42, 40):
        run("editcap", "-F", "pcap", "-s", str(snap), path("live.pcap"), path(f"snap_{snap}.pcap"))
    text2pcap("cut.pcap", [ethernet(ip(udp(b"this one is whole"))), ethernet(ip(udp(b"and this one is not")))])
    whole = read("cut.pcap")
    write("cut_record.pcap", whole[:-1])
    write("cut_header.pcap", whole[:24 + 16 + 59 + 12])
    os.remove(path("cut.pcap"))

    # Two files as one, in the order of the times.
    run("mergecap", "-F", "pcap", "-w", path("merged.pcap"), path("tags.pcap"), path("fragments.pcap"))

    # IP without Ethernet. The second is such that an Ethernet reader finds an EtherType of 0x0800, an IHL of 5 and protocol 17 in it.
    raw = ip(udp(b"no Ethernet here", port=0x0911))
    text2pcap("raw_ip.pcap", [raw, raw[:12] + bytes([8, 0, 0x45, 0]) + raw[16:] + bytes(8)], "-l", "101")
    raw_ip_length()

    # Other formats of the same family.
    run("editcap", "-F", "modpcap", path("tags.pcap"), path("modified.pcap"))
    run("editcap", "-F", "pcapng", path("tags.pcap"), path("next.pcapng"))

    # What no tool writes, by an edit of a few bytes. Version 2.2 has the two lengths of a record the other way round: the cut records differ in them.
    old = bytearray(read("snap_47.pcap"))
    old[6] = 2
    write("version_2_2.pcap", bytes(old))
    strange = bytearray(read("padded.pcap"))
    strange[4] = 9
    write("version_9_4.pcap", bytes(strange))
    # A record that is longer than the file header's snap length.
    long = bytearray(read("padded.pcap"))
    long[16:20] = (44).to_bytes(4, "little")
    write("snap_header.pcap", bytes(long))
    # What the Rust's reading has of the same records.
    for name in ("live", "live_be_ns", "headers", "padded", "lengths", "udp_lengths", "fragments", "fragment_fields", "snap_47"):
        turned(name)


if __name__ == "__main__":
    main()
