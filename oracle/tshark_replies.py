"""Our gateway's replies to real guests as tshark reads them, in whole exchanges.

Of each frame of the gateway's tshark has to find nothing malformed and nothing to remark on, every checksum
right and none absent, and a reply to a frame of the guest's: to a DHCP discover an offer, to a request an
acknowledgement, each with the xid asked, from 67 to 68; to a ping its echo; to an ARP request a reply. The
guest's frames are read by tshark too, so that who is right about both is not us.
"""
import pathlib
import struct
from collections import Counter

import pcap
from tap import GATEWAY_MAC
from tshark import GOOD, dissected
from tshark_spoiled import flipped, header_summed, unsummed_ways, with_udp_checksum

CAPTURED = pathlib.Path(__file__).resolve().parent / "leases_captured.txt"
GATEWAY = bytes.fromhex(GATEWAY_MAC.replace(":", ""))
FIELDS = """eth.src eth.type eth.padding eth.trailer arp.opcode arp.src.proto_ipv4 arp.dst.proto_ipv4 ip.src
ip.proto ip.checksum.status icmp.type icmp.ident icmp.seq icmp.checksum.status icmp.resp_to udp.srcport
udp.dstport udp.checksum.status dhcp.type dhcp.id dhcp.option.dhcp dhcp.option.end _ws.col.Info
_ws.malformed _ws.expert""".split()
DISCOVER, OFFER, REQUEST, ACK = "1", "2", "3", "5"
ANSWERED_BY = {DISCOVER: OFFER, REQUEST: ACK}
# How tshark names them, and how they are counted here.
NAMED = {OFFER: "DHCP Offer ", ACK: "DHCP ACK "}
DHCP_KINDS = {OFFER: "DHCP offer", ACK: "DHCP acknowledgement"}


def stored():
    """The stored exchanges: of each its words and its frames, in the order of the capture."""
    exchanges, words = [], ""
    for line in CAPTURED.read_text().splitlines():
        first, _, rest = line.partition(" ")
        if first == "#":
            words = rest
        elif first == "record":
            exchanges.append((words, []))
        elif first:
            zeros, _, written = rest.partition(" ")
            frame = bytes.fromhex(written.replace(" ", "")) + bytes(int(zeros, 16))
            exchanges[-1][1].append(frame)
    return exchanges


def of_capture(path):
    return path, pcap.frames(path)


def asked(said):
    """What the guest's frame asks for, as `answered` tells it of the reply; None where it is nothing."""
    if said["arp.opcode"] == "1":
        return "ARP", said["arp.dst.proto_ipv4"]
    if said["icmp.type"] == "8":
        return "ping", said["icmp.ident"], said["icmp.seq"]
    if said["dhcp.option.dhcp"] in ANSWERED_BY and said["udp.dstport"] == "67":
        return "DHCP", said["dhcp.id"], ANSWERED_BY[said["dhcp.option.dhcp"]]
    return None


def answered(said):
    """What the gateway's frame answers, and the fields that are not as they have to be."""
    has_to_be = {"_ws.malformed": {""}, "_ws.expert": {""}, "eth.padding": {""}, "eth.trailer": {""}}
    answer = None
    if said["eth.type"] == "0x0806":
        answer = "ARP", said["arp.src.proto_ipv4"]
        has_to_be |= {"arp.opcode": {"2"}}
    else:
        has_to_be |= {"eth.type": {"0x0800"}, "ip.checksum.status": {GOOD}, "ip.proto": {"1", "17"}}
    if said["ip.proto"] == "1":
        answer = "ping", said["icmp.ident"], said["icmp.seq"]
        has_to_be |= {"icmp.type": {"0"}, "icmp.checksum.status": {GOOD}}
    if said["ip.proto"] == "17":
        message_type = said["dhcp.option.dhcp"]
        answer = "DHCP", said["dhcp.id"], message_type
        has_to_be |= {"udp.srcport": {"67"}, "udp.dstport": {"68"}, "udp.checksum.status": {GOOD}}
        has_to_be |= {"dhcp.type": {"2"}, "dhcp.option.dhcp": {OFFER, ACK}, "dhcp.option.end": {"255"}}
        if not said["_ws.col.Info"].startswith(NAMED.get(message_type, "DHCP ")):
            return answer, {"_ws.col.Info": said["_ws.col.Info"]}
    return answer, {field: said[field] for field, values in has_to_be.items() if said[field] not in values}


def complaints(frames):
    """How many of our replies in an exchange tshark reads well, by kind; and what it says against others."""
    waiting, good, bad = Counter(), Counter(), []
    for frame, said in zip(frames, dissected(frames, FIELDS)):
        if frame[6:12] != GATEWAY:
            waiting[asked(said)] += 1
            continue
        answer, wrong = answered(said)
        if not wrong and answer[0] == "ping" and said["icmp.resp_to"] == "":
            wrong = {"icmp.resp_to": ""}
        if not wrong and waiting[answer] == 0:
            wrong = {"an answer to nothing": answer}
        waiting[answer] -= 1
        if wrong:
            bad.append((frame, wrong))
        else:
            good[DHCP_KINDS[answer[2]] if answer[0] == "DHCP" else answer[0]] += 1
    leases = [left for left in waiting if left and left[0] == "DHCP" and waiting[left] > 0]
    return good, bad + [(b"", {"a DHCP message without its answer": left}) for left in leases]


def are_good(exchanges):
    """Whether tshark reads all of our replies in these exchanges well; what it says is printed."""
    every_good, every_bad = Counter(), 0
    for words, frames in exchanges:
        good, bad = complaints(frames)
        every_good += good
        every_bad += len(bad)
        for frame, wrong in bad:
            print(f"our reply, {words}: tshark says {wrong} of {frame[:80].hex()}")
    kinds = ", ".join(f"{kind} {count}" for kind, count in sorted(every_good.items()))
    total = sum(every_good.values())
    print(f"our replies to real guests: {total} read well by tshark ({kinds}), {every_bad} not")
    return every_bad == 0 and total > 0


def is_udp(frame):
    return frame[12:14] == b"\x08\x00" and frame[23] == 17


def is_ping(frame):
    return frame[12:14] == b"\x08\x00" and frame[23] == 1


def with_ports(source, target):
    ports = struct.pack("!HH", source, target)
    return lambda frame: frame[:34] + ports + frame[38:]


def summed(spoil):
    """The same with the UDP checksum made right behind it, so that what is found is not the checksum."""
    return lambda frame: with_udp_checksum(spoil(frame))


def message_flipped(place, bit):
    return summed(lambda frame: flipped(frame, 42 + place, bit))


# Each way to spoil a reply: of which frames, and how.
WAYS = {
    "ports as they were, 68 to 67": (is_udp, summed(with_ports(68, 67))),
    "67 to 67": (is_udp, summed(with_ports(67, 67))),
    "68 to 68": (is_udp, summed(with_ports(68, 68))),
    "ports that DHCP does not have": (is_udp, summed(with_ports(323, 324))),
    "the type of another message": (is_udp, message_flipped(242, 7)),
    "the type of no reply": (is_udp, message_flipped(242, 8)),
    "another xid": (is_udp, message_flipped(4, 1)),
    "a request's first byte": (is_udp, message_flipped(0, 3)),
    "no cookie": (is_udp, message_flipped(236, 1)),
    "an option past the end": (is_udp, message_flipped(268, 0x80)),
    "no END": (is_udp, message_flipped(273, 0xFF)),
    **{words: (is_udp, spoil) for words, spoil in unsummed_ways().items()},
    "a wrong UDP length": (is_udp, lambda frame: flipped(frame, 39, 0x80)),
    "cut behind 200 bytes": (is_udp, lambda frame: frame[:200]),
    "a wrong IPv4 checksum": (is_udp, lambda frame: flipped(frame, 25)),
    "another protocol": (is_udp, lambda frame: header_summed(flipped(frame, 23, 2))),
    "a byte behind the end": (is_udp, lambda frame: frame + b"\0"),
    "a ping with the ports of DHCP in it": (is_ping, with_ports(67, 68)),
    "a wrong ICMP checksum": (is_ping, lambda frame: flipped(frame, 37)),
    "an ARP reply that asks": (lambda frame: frame[13] == 6, lambda frame: flipped(frame, 21, 3)),
}


def finds_each_spoiled_way():
    """Whether each way of spoiling a reply is found, in every stored exchange that has one to spoil."""
    missed = 0
    for way, (is_meant, spoil) in WAYS.items():
        places = found = 0
        for _, frames in stored():
            for turn, frame in enumerate(frames):
                if frame[6:12] == GATEWAY and is_meant(frame):
                    # The first of an exchange is enough: tshark reads the whole exchange each time.
                    places += 1
                    _, bad = complaints([*frames[:turn], spoil(frame), *frames[turn + 1 :]])
                    found += bad != []
                    break
        print(f"{way}: found in {found} of {places} exchanges")
        missed += places == 0 or found != places
    print(f"{len(WAYS) - missed} of {len(WAYS)} ways of spoiling a reply are found")
    return missed == 0
