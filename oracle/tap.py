"""A network namespace whose only link is a TAP device that the script holds the far end of.

So nothing that is sent in it can reach any other network.
"""
import ctypes
import fcntl
import os
import select
import struct
import subprocess
import sys
import time

GUEST_IP, GATEWAY_IP = "10.0.2.15", "10.0.2.2"
GUEST_MAC, GATEWAY_MAC = "52:54:00:12:34:56", "52:54:00:00:00:01"
ICMP, TCP, UDP = 1, 6, 17
WAIT = 5.0  # seconds for one frame
ZEROS_LEFT_OUT = 1000  # more zeros than this at a frame's end are only counted

CLONE_NEWNET = 0x40000000
TUNSETIFF, IFF_TAP, IFF_NO_PI = 0x400454CA, 0x0002, 0x1000


def configure(*words):
    subprocess.run(["ip", *words], check=True)


def setting(path, value):
    with open("/proc/sys/net/" + path, "w") as f:
        f.write(value)


def open_tap(other_namespaces=0):
    """Moves into the namespace, and into new ones of the kinds given; the far end's descriptor."""
    libc = ctypes.CDLL(None, use_errno=True)
    if libc.unshare(CLONE_NEWNET | other_namespaces) != 0:
        sys.exit("tap: no network namespace: " + os.strerror(ctypes.get_errno()))
    if os.path.exists("/proc/sys/net/ipv6"):
        setting("ipv6/conf/all/disable_ipv6", "1")
        setting("ipv6/conf/default/disable_ipv6", "1")
    tap = os.open("/dev/net/tun", os.O_RDWR | os.O_NONBLOCK)
    fcntl.ioctl(tap, TUNSETIFF, struct.pack("16sH22x", b"tap0", IFF_TAP | IFF_NO_PI))
    configure("link", "set", "dev", "tap0", "address", GUEST_MAC, "mtu", "1500", "up")
    return tap


def next_whole(tap, is_wanted, what, seconds=WAIT):
    """The next frame of which this holds, as it was sent; any other is passed over."""
    end = time.monotonic() + seconds
    while time.monotonic() < end:
        if select.select([tap], [], [], 0.1)[0]:
            frame = os.read(tap, 65536)
            if is_wanted(frame):
                return frame
    sys.exit("tap: no frame for " + what)


def next_frame(tap, proto, what):
    """The next IPv4 frame with this protocol, to its total length; any other is passed over."""
    frame = next_whole(tap, lambda frame: carries(frame, proto), what)
    return frame[: 14 + int.from_bytes(frame[16:18], "big")]


def carries(frame, proto):
    return frame[12:14] == b"\x08\x00" and frame[23] == proto


def frame_line(frame):
    """A whole frame: n(4), its bytes but for the last n, which are zeros."""
    written = frame.rstrip(b"\0")
    if len(frame) - len(written) <= ZEROS_LEFT_OUT:
        written = frame
    body_at, payload_at = 14, 14
    if written[12:14] == b"\x08\x00":
        payload_at += written[14] % 16 * 4
    parts = [written[:body_at], written[body_at:payload_at], written[payload_at:]]
    zeros = len(frame) - len(written)
    return " ".join([f"{zeros:08x}", *(part.hex() for part in parts if part)])


def release():
    """The kernel's version, its first two numbers."""
    return ".".join(os.uname().release.split(".")[:2])
