"""What a script sends into the TAP device so that the software behind it answers.

Every sum here is this file's own: no frame built here is written down as one from outside.
"""
import socket
import struct

from tap import GATEWAY_IP, GATEWAY_MAC, GUEST_IP, GUEST_MAC, ICMP, TCP, UDP

ETHERTYPE_ARP, ETHERTYPE_IPV4 = 0x0806, 0x0800
COOKIE = b"\x63\x82\x53\x63"


def mac(text):
    return bytes.fromhex(text.replace(":", ""))


def address(text):
    return socket.inet_aton(text)


def checksum(data):
    words = data + b"\0" * (len(data) % 2)
    total = sum(struct.unpack(f"!{len(words) // 2}H", words))
    while total > 0xFFFF:
        total = (total & 0xFFFF) + (total >> 16)
    return 0xFFFF - total


def with_checksum(data, at, before=b""):
    """The data with its checksum written at `at`; `before` is summed too, but not sent."""
    return data[:at] + struct.pack("!H", checksum(before + data)) + data[at + 2 :]


def ethernet(ethertype, body, to=GUEST_MAC):
    return mac(to) + mac(GATEWAY_MAC) + struct.pack("!H", ethertype) + body


def packet(protocol, payload, source=GATEWAY_IP, target=GUEST_IP):
    fields = [0x45, 0, 20 + len(payload), 1, 0x4000, 64, protocol, 0]
    header = struct.pack("!BBHHHBBH", *fields) + address(source) + address(target)
    return ethernet(ETHERTYPE_IPV4, with_checksum(header, 10) + payload)


def pseudo_header(protocol, length):
    return address(GATEWAY_IP) + address(GUEST_IP) + struct.pack("!BBH", 0, protocol, length)


def arp(operation, sender_mac, sender, target_mac, target, to="ff:ff:ff:ff:ff:ff"):
    body = struct.pack("!HHBBH", 1, ETHERTYPE_IPV4, 6, 4, operation)
    body += mac(sender_mac) + address(sender) + mac(target_mac) + address(target)
    return ethernet(ETHERTYPE_ARP, body, to)


def icmp(kind, rest):
    return packet(ICMP, with_checksum(struct.pack("!BBH", kind, 0, 0) + rest, 2))


def udp(from_port, to_port, data, **addresses):
    """A datagram without a checksum."""
    return packet(UDP, struct.pack("!4H", from_port, to_port, 8 + len(data), 0) + data, **addresses)


def tcp(ports, sequence, acknowledged, flags, options=b"", data=b""):
    offset = (20 + len(options)) // 4 << 12
    head = struct.pack("!HHIIHHHH", *ports, sequence, acknowledged, offset | flags, 65535, 0, 0)
    segment = head + options + data
    return packet(TCP, with_checksum(segment, 16, pseudo_header(TCP, len(segment))))


def dhcp_reply(request, message_type):
    """The frame of a server that answers a client's message: an offer or an acknowledgement."""
    guest, gateway = address(GUEST_IP), address(GATEWAY_IP)
    options = bytes([53, 1, message_type]) + b"\x36\x04" + gateway
    options += b"\x33\x04" + struct.pack("!I", 86400)
    options += b"\x01\x04\xff\xff\xff\x00" + b"\x03\x04" + gateway + b"\xff"
    data = b"\x02\x01\x06\x00" + request[4:8] + bytes(8) + guest + gateway + bytes(4)
    data += request[28:44] + bytes(192) + COOKIE + options
    return udp(67, 68, data, target="255.255.255.255")
