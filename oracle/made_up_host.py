"""A host that is made up, in mount and host-name namespaces of its own (tap.py makes them): DHCP
software that runs there finds a host name, a machine id and no settings or leases of the machine's,
and what it writes is gone when it ends."""
import os
import pwd
import socket
import subprocess

CLONE_NEWNS, CLONE_NEWUTS = 0x00020000, 0x04000000
NETWORKD = "/usr/lib/systemd/systemd-networkd"
HOST_NAME = "guest"
MACHINE_ID = "00112233445566778899aabbccddeeff"

# What systemd-networkd is told, in its own words, and what that is called in the output.
NETWORKD_SETTINGS = {
    "no settings": [],
    "the MAC as client identifier, a vendor class, no host name, broadcast": [
        "ClientIdentifier=mac",
        "VendorClassIdentifier=a vendor class",
        "SendHostname=no",
        "RequestBroadcast=yes",
    ],
    "many requested options, a user class, options 224 and 225, the last with 53 1 1 in it": [
        "UserClass=first second",
        "RequestOptions=" + " ".join(str(code) for code in range(3, 80, 3)),
        "SendOption=224:uint32:16843009",
        r"SendOption=225:string:5\x01\x01 is no type here",
    ],
    "anonymized (RFC 7844)": ["Anonymize=yes"],
}


def mount(*words):
    subprocess.run(["mount", *words], check=True)


def make_up_a_host():
    """In the namespaces of its own: a host with no settings, and a /sys that asks for no udev."""
    mount("--make-rprivate", "/")
    mount("-t", "tmpfs", "tmpfs", "/run")
    mount("-t", "sysfs", "-o", "ro", "sysfs", "/sys")
    with open("/run/machine-id", "w") as f:
        f.write(MACHINE_ID + "\n")
    mount("--bind", "/run/machine-id", "/etc/machine-id")
    socket.sethostname(HOST_NAME)
    user = pwd.getpwnam("systemd-network")
    os.makedirs("/run/systemd/network")
    for directory in ("netif", "netif/links", "netif/leases", "netif/lldp"):
        os.makedirs("/run/systemd/" + directory)
        os.chown("/run/systemd/" + directory, user.pw_uid, user.pw_gid)


def forget_leases():
    """No lease, settings or hooks of the machine's: those directories are empty from here on."""
    for directory in ("/var/lib/dhcp", "/var/lib/dhcpcd", "/var/lib/misc", "/etc/dhcp"):
        if os.path.isdir(directory):
            mount("-t", "tmpfs", "tmpfs", directory)


def start_networkd(settings):
    """systemd-networkd with these lines under [DHCPv4]."""
    lines = ["[Match]", "Name=tap0", "[Network]", "DHCP=ipv4", "LinkLocalAddressing=no"]
    lines += ["IPv6AcceptRA=no", "LLDP=no", "[DHCPv4]", *settings, ""]
    with open("/run/systemd/network/tap0.network", "w") as f:
        f.write("\n".join(lines))
    return start(NETWORKD)


def start(*words):
    quiet = {"stdout": subprocess.DEVNULL, "stderr": subprocess.DEVNULL}
    return subprocess.Popen(words, stdin=subprocess.DEVNULL, **quiet)


def package_version(package):
    query = ["dpkg-query", "--show", "--showformat", "${Version}", package]
    return subprocess.run(query, check=True, capture_output=True, text=True).stdout


def first_line(*words):
    """What a program says of itself."""
    said = subprocess.run(words, capture_output=True, text=True)
    return (said.stdout + said.stderr).splitlines()[0]
