"""Frames spoiled on purpose, their sums made right or wrong: what tshark has to find."""
import struct

UDP, TCP = 17, 6


def flipped(frame, place, bit=1):
    spoiled = bytearray(frame)
    spoiled[place] ^= bit
    return bytes(spoiled)


def folded(data):
    words = data + b"\0" * (len(data) % 2)
    total = sum(struct.unpack(f"!{len(words) // 2}H", words))
    while total > 0xFFFF:
        total = (total & 0xFFFF) + (total >> 16)
    return total


def header_summed(frame):
    """With its IPv4 header's sum made right; the header has no options."""
    checksum = 0xFFFF - folded(frame[14:24] + frame[26:34])
    return frame[:24] + struct.pack("!H", checksum) + frame[26:]


def udp_checksum(frame, protocol=UDP, with_length=True):
    """The checksum of a UDP frame with no IPv4 options; with other words, a wrong one."""
    datagram = frame[34:]
    length = len(datagram) if with_length else 0
    pseudo_header = frame[26:34] + struct.pack("!HH", protocol, length)
    return struct.pack("!H", 0xFFFF - folded(pseudo_header + datagram[:6] + datagram[8:]) or 0xFFFF)


def with_udp_checksum(frame, checksum=None):
    return frame[:40] + (checksum or udp_checksum(frame)) + frame[42:]


def unsummed_ways():
    """Ways to spoil the UDP checksum of a frame."""
    return {
        "a wrong UDP checksum": lambda frame: flipped(frame, 41),
        "no UDP checksum": lambda frame: with_udp_checksum(frame, b"\0\0"),
        "a UDP checksum of all ones": lambda frame: with_udp_checksum(frame, b"\xff\xff"),
        "the UDP checksum's bytes exchanged": lambda frame: with_udp_checksum(frame, frame[41:39:-1]),
        "a UDP checksum of protocol 6": lambda frame: with_udp_checksum(frame, udp_checksum(frame, TCP)),
        "a UDP checksum without its length": lambda frame: with_udp_checksum(
            frame, udp_checksum(frame, with_length=False)
        ),
    }
