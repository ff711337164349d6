"""Capture files of Ethernet frames, as tcpdump writes and tshark reads them."""
import pathlib
import struct
import sys

# The first number of a file, by the unit of its times; the file's number of Ethernet.
MICROSECONDS, NANOSECONDS = 0xA1B2C3D4, 0xA1B23C4D
ETHERNET = 1
FILE_HEAD, FRAME_HEAD = 24, 16


def frames(path):
    """The frames of a file, in its order."""
    data = pathlib.Path(path).read_bytes()
    firsts = {struct.pack(order + "I", unit): order for order in "<>" for unit in (MICROSECONDS, NANOSECONDS)}
    order = firsts.get(data[:4])
    if order is None or data[20:24] != struct.pack(order + "I", ETHERNET):
        sys.exit(f"{path} is no pcap file of Ethernet frames")
    at, found = FILE_HEAD, []
    while at < len(data):
        head = data[at : at + FRAME_HEAD]
        kept, length = struct.unpack(order + "II", head[8:]) if len(head) == FRAME_HEAD else (0, 1)
        at += FRAME_HEAD + kept
        if kept != length or at > len(data):
            sys.exit(f"{path} has a frame that is cut")
        found.append(data[at - kept : at])
    return found


def written(frames):
    """A file with these frames, a second between them."""
    head = struct.pack("<IHHiIII", MICROSECONDS, 2, 4, 0, 0, 262144, ETHERNET)
    return head + b"".join(
        struct.pack("<IIII", turn, 0, len(frame), len(frame)) + frame for turn, frame in enumerate(frames)
    )
