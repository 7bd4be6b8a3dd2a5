#!/usr/bin/env python3
"""Writes the sample files, by default beside this script: make.py [DIRECTORY]. They are the same bytes
each time. Beside each Livox file, FILE.txt is what ./list prints of it; examples/first_points.out has
what the example in C prints of every file."""

import math
import pathlib
import struct
import sys

WHERE = pathlib.Path(sys.argv[1]) if len(sys.argv) > 1 else pathlib.Path(__file__).parent


def frame(place, next_offset, index):
    return struct.pack("<QQQ", place, next_offset, index)


def lvx_package(data_type, body):
    header = bytearray(27)
    header[1] = 5
    header[10] = data_type
    struct.pack_into("<H", header, 21, len(body))
    return bytes(header) + body


def lvx2_package(data_type, count, body):
    return struct.pack("<BBIBI", 0, 9, count, data_type, len(body)) + body


def lvx(devices, frames):
    head = b"livox_tech" + bytes(4) + bytes([1, 1, 0, 0]) + bytes(2) + struct.pack("<I", 0xAC0EA767)
    return head + struct.pack("<IB", 50, devices) + bytes(59 * devices) + frames


def lvx2(devices, frames):
    size = 28 + 41 * devices + len(frames)
    head = struct.pack("<I4BIQIBBBB", 0x20200903, 2, 0, 0, 0, 28, size, 50, devices, 0, 0, 0)
    return head + bytes(41 * devices) + frames


def int32(x, y, z, reflectivity=10):
    return struct.pack("<iii", x, y, z) + bytes([reflectivity, 0])


def int16(x, y, z):
    return struct.pack("<hhh", x, y, z) + bytes([10, 0])


def spherical(depth, zenith, azimuth):
    return struct.pack("<IHH", depth, zenith, azimuth) + bytes([10, 0])


def floats(x, y, z):
    return struct.pack("<III", x, y, z) + bytes([10, 0])


# ---- a case on a belt, seen from above

def scattered(count):
    """Pairs of numbers from 0 up to 1, spread evenly. In whole numbers, so that every machine agrees."""
    for i in range(count):
        yield i * 49471 % 65536 / 65536, i * 37345 % 65536 / 65536


def height_on_belt(x, y):
    """The height in millimetres of what lies on the belt there. A rotation by 9 : 40 : 41 needs no sine."""
    along, across = (40 * (x + 150) + 9 * (y + 40)) / 41, (40 * (y + 40) - 9 * (x + 150)) / 41
    if abs(along) <= 300 and abs(across) <= 200:
        return 400  # a case
    if (x - 480) ** 2 + (y - 140) ** 2 <= 180**2:
        return 250  # a drum
    if abs(y) > 400:
        return 60  # the rails
    return 0


def belt_points(count):
    """The belt's x and y, and z up, in counts of ten millimetres. The lidar hangs 1,000 mm above it, and
    sees more points below itself than far away."""
    for along, across in scattered(count):
        part = 2 * along - 1
        x, y = 1200 * part * (0.4 + 0.6 * abs(part)), 900 * across - 450
        yield int16(round(x / 10), round(y / 10), (height_on_belt(x, y) - 1000) // 10)


def belt_frames(points_a_frame, frames):
    """A frame for each part of the points, one package in each."""
    points = list(belt_points(points_a_frame * frames))
    size = 24 + 11 + 8 * points_a_frame
    for i in range(frames):
        body = b"".join(points[i * points_a_frame : (i + 1) * points_a_frame])
        next_offset = 0 if i + 1 == frames else (i + 1) * size
        yield frame(28 + i * size, next_offset, i) + lvx2_package(0, points_a_frame, body)


# ---- what a ray from a sensor meets, in metres with z up

DRUM = (1.6, 0.0, 0.35)  # x, y and radius


def to_plane(place, direction):
    return place / direction if direction else math.inf


def to_cylinder(x, y, radius, dx, dy):
    a, b, c = dx * dx + dy * dy, x * dx + y * dy, x * x + y * y - radius * radius
    inside = b * b - a * c
    return (b - math.sqrt(inside)) / a if a and inside >= 0 and b > 0 else math.inf


def to_box(low, high, ray):
    enter, leave = 0.0, math.inf
    for least, most, direction in zip(low, high, ray):
        if direction == 0:
            if not least <= 0 <= most:
                return math.inf
            continue
        near, far = sorted((least / direction, most / direction))
        enter, leave = max(enter, near), min(leave, far)
    return enter if enter < leave else math.inf


def in_hall(ray):
    """The distance from a sensor 1.2 m above the floor of a hall with a pillar and two stacks."""
    dx, dy, dz = ray
    return min(
        to_plane(7.0 if dx > 0 else -5.0, dx),
        to_plane(4.0 if dy > 0 else -4.5, dy),
        to_plane(2.8 if dz > 0 else -1.2, dz),
        to_cylinder(-2.5, 1.5, 0.25, dx, dy),
        to_box((2.0, -2.6, -1.2), (3.2, -1.4, 0.9), ray),
        to_box((3.4, 1.0, -1.2), (4.6, 2.6, 0.3), ray),
    )


def beside_belt(ray):
    """The distance from a sensor beside a belt to a drum on it, to the belt, and to the wall behind it."""
    dx, dy, dz = ray
    top = to_plane(-0.3, dz) if dz < 0 else math.inf
    if not 1.1 <= top * dx <= 2.1:
        top = math.inf
    x, y, radius = DRUM
    return min(top, to_cylinder(x, y, radius, dx, dy), to_plane(2.6, dx) if dx > 0 else math.inf)


def direction(elevation, azimuth):
    """The unit vector of two angles in degrees, with azimuth 0 along x and turning to y."""
    up, around = math.radians(elevation), math.radians(azimuth)
    return math.cos(up) * math.cos(around), math.cos(up) * math.sin(around), math.sin(up)


# ---- LVX, spherical

def drum_points():
    for zenith in range(8600, 10601, 250):
        for azimuth in range(-4000, 4001, 200):
            depth = beside_belt(direction(90 - zenith / 100, azimuth / 100))
            yield spherical(round(depth * 1000), zenith, azimuth % 36000)


# ---- KITTI

def kitti(x, y, z):
    return struct.pack("<ffff", x, y, z, 0.5)


def kitti_points():
    for elevation in (-24, -19, -15, -12, -9, -6, -3, 0, 3):
        for azimuth in range(-90, 91, 3):
            ray = direction(elevation, azimuth)
            yield kitti(*(round(in_hall(ray) * part * 1000) / 1000 for part in ray))
    # A record whose x is a NaN with bits of its own, and one that is infinitely far.
    yield struct.pack("<IIII", 0x7FC12345, 0x3F800000, 0, 0)
    yield kitti(math.inf, 0.0, 0.0)


# ---- captures: Ethernet, IPv4 and UDP with true lengths

def datagram(port, payload):
    udp = struct.pack(">HHHH", port, port, 8 + len(payload), 0) + payload
    address = bytes([192, 168, 1, 201])
    ip = struct.pack(">BBHHHBBH", 0x45, 0, 20 + len(udp), 0, 0, 64, 17, 0) + address + b"\xff" * 4
    total = sum(struct.unpack(">10H", ip))
    while total > 0xFFFF:
        total = (total & 0xFFFF) + (total >> 16)
    ip = ip[:10] + struct.pack(">H", 0xFFFF - total) + ip[12:]
    return b"\xff" * 6 + b"\x60\x76\x88" + bytes(3) + b"\x08\x00" + ip + udp


def capture(magic, port, payloads):
    """Lengths are little-endian. The magic's four bytes say which reading takes them so."""
    head = magic + struct.pack("<HHIIII", 2, 4, 0, 0, 262144, 1)
    records = b""
    for i, payload in enumerate(payloads):
        record = datagram(port, payload)
        records += struct.pack("<IIII", 1_700_000_000, 1000 * i, len(record), len(record)) + record
    return head + records


AS_THE_RUST_READS = bytes([0xA1, 0xB2, 0xC3, 0xD4])
AS_CAPTURE_TOOLS_WRITE = bytes([0xD4, 0xC3, 0xB2, 0xA1])


def velodyne_packets():
    """A turn of a VLP-16 in 8 packets: 96 blocks of 3.75 degrees, with two firings each."""
    for packet in range(8):
        blocks = b""
        for block in range(12):
            azimuth = 375 * (12 * packet + block)
            blocks += struct.pack("<HH", 0xFFEE, azimuth)
            for channel in range(32):
                laser, firing = channel % 16, channel // 16
                elevation = laser - 15 if laser % 2 == 0 else laser
                # lidar.rs has azimuth 0 along y, turning to x.
                ray = direction(elevation, 90 - (azimuth / 100 + 1.875 * firing))
                blocks += struct.pack("<HB", round(in_hall(ray) * 500), 40)
        yield blocks + struct.pack("<IBB", 1000 * packet, 0x37, 0x22)


def ouster_packets():
    """120 degrees of an OS1-64 in 2 packets: 32 columns of 64 beams."""
    for packet in range(2):
        columns = b""
        for column in range(16 * packet, 16 * packet + 16):
            ticks = (90112 * 5 // 6 + 939 * column) % 90112
            columns += struct.pack("<QHHI", 1000 * column, column, 0, ticks)
            for beam in range(64):
                ray = direction(16.611 - beam * 33.222 / 63, 360 * ticks / 90112)
                columns += struct.pack("<III", round(in_hall(ray) * 1000), 0, 0)
            columns += struct.pack("<I", 0xFFFFFFFF)
        yield columns


first = lvx_package(1, int32(1500, -250, 16777217)) + lvx_package(2, spherical(12345, 9000, 35999))
second = lvx_package(3, floats(0x3F800000, 0x7FC12345, 0x80000000))
base = 29 + 59
step = 24 + len(first)

FILES = {
    # The file of 77 bytes: one point of 1750, -1000, 0 mm, with reflectivity and tag 0.
    "one_point.lvx2": lvx2(0, frame(28, 0, 0) + lvx2_package(1, 1, int32(1750, -1000, 0, 0))),
    # Each type of LVX2, in one frame.
    "each_type.lvx2": lvx2(
        1,
        frame(69, 0, 0)
        + lvx2_package(0, 2, int16(-1, 0, 32767) + int16(175, -100, 0))
        + lvx2_package(1, 1, int32(2147483647, -2147483648, 1))
        + lvx2_package(2, 1, spherical(4294967295, 18000, 1)),
    ),
    # Each type of LVX, in two frames; the second float is a NaN, whose bits are kept.
    "each_type.lvx": lvx(1, frame(base, step, 0) + first + frame(base + step, 0, 1) + second),
    # A next offset that wraps to the place before the frame: a frame without packages, then the end.
    "wrapped_offset.lvx": lvx(0, frame(29, 2**64 - 1, 0) + first),
    # The device section ends past the data: refusal 7.
    "cut_devices.lvx": lvx(1, b"")[:87],
    # 4,097 points, one more than the lister has room for: refusal 10, with the points needed.
    "no_room.lvx2": lvx2(0, frame(28, 0, 0) + lvx2_package(0, 4097, int16(1, 2, 3) * 4097)),
    # A case and a drum between the rails of a belt, seen from above, in 4 frames.
    "case_on_belt.lvx2": lvx2(0, b"".join(belt_frames(225, 4))),
    # A drum on a belt, seen from beside it: spherical points, with azimuths on both sides of 0.
    "drum_beside.lvx": lvx(0, frame(29, 0, 0) + lvx_package(2, b"".join(drum_points()))),
    # The hall as KITTI has it, ahead of the sensor; one point is a NaN and one infinitely far.
    "hall.bin": b"".join(kitti_points()),
    # The hall in one turn of a VLP-16, in a capture as the Rust reads it.
    "hall_velodyne.pcap": capture(AS_THE_RUST_READS, 2368, velodyne_packets()),
    # A third of the hall by an OS1-64, in a capture as ordinary tools write it.
    "hall_ouster.pcap": capture(AS_CAPTURE_TOOLS_WRITE, 7502, ouster_packets()),
}

for name, data in FILES.items():
    (WHERE / name).write_bytes(data)
