"""Captures of packets, as tcpdump writes them."""
import socket
import struct

TCP, UDP = 6, 17


def checksum(octets):
    """The checksum of an IPv4 header (RFC 791)."""
    total = sum(struct.unpack(f"!{len(octets) // 2}H", octets))
    while total >> 16:
        total = (total & 0xFFFF) + (total >> 16)
    return ~total & 0xFFFF


def frame(source, destination, protocol, source_port, destination_port, size, flags):
    """An Ethernet frame with a packet of TCP or UDP that has so many octets of payload."""
    if protocol == TCP:
        body = struct.pack("!HHIIBBHHH", source_port, destination_port, 1, 1, 5 << 4, flags, 1000, 0, 0)
    else:
        body = struct.pack("!HHHH", source_port, destination_port, 8 + size, 0)
    body += b"x" * size
    addresses = socket.inet_aton(source) + socket.inet_aton(destination)
    head = struct.pack("!BBHHHBBH", 0x45, 0, 20 + len(body), 1, 0, 64, protocol, 0) + addresses
    head = head[:10] + struct.pack("!H", checksum(head)) + head[12:]
    return b"\x02\0\0\0\0\x01\x02\0\0\0\0\x02\x08\0" + head + body


def write(path, packets, begin):
    """Writes packets, each given as to `frame`, a second apart from this time on."""
    with open(path, "wb") as capture:
        capture.write(struct.pack("<IHHiIII", 0xA1B2C3D4, 2, 4, 0, 0, 65535, 1))
        for place, packet in enumerate(packets):
            octets = frame(*packet)
            capture.write(struct.pack("<IIII", begin + place, 0, len(octets), len(octets)) + octets)
