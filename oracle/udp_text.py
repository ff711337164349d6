"""Datagrams that others made, as lines of kind 05: calls of the builder (README.md).

No checksum is computed here.
"""
import socket

# From this length on, data that TAIL's rule makes is named by its seed.
SHORTEST_RULED = 17
ONES = 0xFF


def ruled(seed, length):
    """Data by TAIL's rule."""
    if seed == ONES:
        return bytes([ONES]) * length
    return bytes((seed + 17 * i) % 251 for i in range(length))


def seed_of(data):
    """The seed that makes these bytes by TAIL's rule; 0 where they are to be written out."""
    if len(data) < SHORTEST_RULED or data[0] == 0 or ruled(data[0], len(data)) != data:
        return 0
    return data[0]


def builder_line(source, target, datagram):
    """The call that has to build this datagram between these addresses, with a buffer of its size."""
    head, data, size = datagram[:8], datagram[8:], len(datagram)
    ends = [socket.inet_aton(source), head[:2], socket.inet_aton(target), head[2:4]]
    seed = seed_of(data)
    answer = f"{size:08x} 01 {size:08x} {seed:02x} {len(data):08x} 08"
    fields = ["05", *(end.hex() for end in ends), answer, head.hex(), "" if seed else data.hex()]
    return " ".join(fields).rstrip()
