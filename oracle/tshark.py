"""tshark, asked for fields of frames."""
import subprocess
import tempfile

import pcap

BAD, GOOD, UNVERIFIED, ABSENT = "0", "1", "2", "3"  # of a checksum, in tshark's numbers

# Every checksum is looked at, and each frame stands for itself.
SETTINGS = ["ip.check_checksum:TRUE", "udp.check_checksum:TRUE", "tcp.check_checksum:TRUE"]
SETTINGS += ["ip.defragment:FALSE", "tcp.desegment_tcp_streams:FALSE"]


def dissected(frames, fields):
    """For each frame the fields that tshark finds in it, the first of each name."""
    with tempfile.NamedTemporaryFile(suffix=".pcap") as file:
        file.write(pcap.written(frames))
        file.flush()
        command = ["tshark", "-n", "-r", file.name, "-T", "fields", "-E", "occurrence=f"]
        command += [word for setting in SETTINGS for word in ("-o", setting)]
        command += [word for field in fields for word in ("-e", field)]
        said = subprocess.run(command, check=True, stdout=subprocess.PIPE, stderr=subprocess.DEVNULL)
    rows = said.stdout.decode().split("\n")[: len(frames)]
    assert len(rows) == len(frames)
    return [dict(zip(fields, row.split("\t"))) for row in rows]
