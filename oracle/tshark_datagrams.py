"""Our builder's datagrams as tshark reads them.

The list that `replay` replays holds our builders to each of them, byte for byte. Most are put into an IPv4
packet here; around some of them the list has the frame that our other builder makes, and that is taken too.
tshark has to find the addresses' checksum good, none absent, and the ports and the length that were asked.
"""
import pathlib
import struct

from tshark import GOOD, dissected
from tshark_spoiled import UDP, flipped, header_summed, unsummed_ways
from udp_text import ruled

LIST = pathlib.Path(__file__).resolve().parent.parent / "crates" / "replay" / "stdin"
FIELDS = "ip.src ip.dst ip.checksum.status udp.srcport udp.dstport udp.length udp.checksum.status".split()
IP_FRAME, DATAGRAM = 3, 5
TAIL = {IP_FRAME: 18, DATAGRAM: 13}
BUILT = 1
# The most that an IPv4 packet carries.
LONGEST = 65515
MACS_AND_TYPE = bytes.fromhex("525400123456525400000001" + "0800")


def built(case):
    """The bytes that the case has a builder make; None where it makes none."""
    tail = case[TAIL[case[0]] :]
    head, seed, length = 15 + tail[14], tail[9], int.from_bytes(tail[10:14], "big")
    if tail[4] != BUILT:
        return None
    return tail[15:head] + (ruled(seed, length) if seed else tail[head:])


def framed(source, target, datagram):
    header = struct.pack("!BBHHHBBH", 0x45, 0, 20 + len(datagram), 1, 0x4000, 64, UDP, 0)
    return header_summed(MACS_AND_TYPE + header + source + target + datagram)


def frames():
    """The frames made here, and those of our other builder."""
    cases = (bytes.fromhex(line.split("#")[0].replace(" ", "")) for line in LIST.read_text().splitlines())
    cases = [case for case in cases if case and case[0] in TAIL and built(case)]
    ours = {(case[1:5], case[7:11], built(case)) for case in cases if case[0] == DATAGRAM}
    made = [framed(*parts) for parts in sorted(ours) if len(parts[2]) <= LONGEST]
    packets = [built(case) for case in cases if case[0] == IP_FRAME]
    return made, [frame for frame in packets if (frame[26:30], frame[30:34], frame[34:]) in ours]


def is_read_well(frame, said):
    address = lambda at: ".".join(map(str, frame[at : at + 4]))
    ports = struct.unpack("!HH", frame[34:38])
    expected = [address(26), address(30), GOOD, *map(str, ports), str(len(frame) - 34), GOOD]
    return [said[field] for field in FIELDS] == expected


def are_good():
    """Whether tshark reads all of them well; what it says of others is printed."""
    made, packets = frames()
    bad = 0
    for frame, said in zip(made + packets, dissected(made + packets, FIELDS)):
        if not is_read_well(frame, said):
            bad += 1
            print(f"our datagram: tshark says {said} of {frame[:80].hex()}")
    ones = sum(frame[40:42] == b"\xff\xff" for frame in made + packets)
    total = len(made) + len(packets)
    print(f"our datagrams: {total - bad} read well by tshark ({len(packets)} in our own frames, {ones} with 0xffff), {bad} not")
    return bad == 0 and len(made) > 0 and len(packets) > 0 and ones > 0


def finds_each_spoiled_way():
    """Whether each way of spoiling is found, in every datagram that it changes."""
    made, packets = frames()
    whole = made + packets
    ways = unsummed_ways() | {
        "another byte of data": lambda frame: flipped(frame, 42) if len(frame) > 42 else frame,
        "another source": lambda frame: header_summed(flipped(frame, 29)),
        "another target": lambda frame: header_summed(flipped(frame, 30)),
        "another port": lambda frame: flipped(frame, 35),
    }
    missed = 0
    for words, spoil in ways.items():
        changed = [spoiled for spoiled, frame in zip(map(spoil, whole), whole) if spoiled != frame]
        found = sum(said["udp.checksum.status"] != GOOD for said in dissected(changed, FIELDS))
        print(f"a datagram with {words}: found in {found} of {len(changed)}")
        missed += found != len(changed) or not changed
    print(f"{len(ways) - missed} of {len(ways)} ways of spoiling a datagram are found")
    return missed == 0
