"""The text of a list of trains: a line is two hexadecimal digits to a byte, spaces count for nothing.

The bytes of a frame or a payload are written as pieces, so that the long and regular bytes of a ping
take little room:

    00 LENGTH(2) BYTES                  these bytes
    01 LENGTH(2) FIRST STEP BEND        LENGTH bytes: FIRST, and each later one is the one before it
                                        and a step, which is STEP at first and grows by BEND; all
                                        modulo 256
"""
SHORTEST_RUN = 12


def run_from(data, at):
    """The longest run that starts at `at`: its length, first byte, step and bend."""
    left = len(data) - at
    if left < 3:
        return left, 0, 0, 0
    first = data[at]
    step = (data[at + 1] - first) % 256
    bend = (data[at + 2] - data[at + 1] - step) % 256
    length, value, grown = 0, first, step
    while length < left and length < 65535 and data[at + length] == value:
        value, grown, length = (value + grown) % 256, (grown + bend) % 256, length + 1
    return length, first, step, bend


def pieces(data):
    written, plain, at = [], b"", 0

    def end_plain():
        if plain:
            written.append(f"00{len(plain):04x} {plain.hex()}")

    while at < len(data):
        length, first, step, bend = run_from(data, at)
        if length < SHORTEST_RUN:
            plain, at = plain + data[at : at + 1], at + 1
        else:
            end_plain()
            plain, at = b"", at + length
            written.append(f"01{length:04x} {first:02x}{step:02x}{bend:02x}")
    end_plain()
    return " ".join(written)


def train(words, payload, frames):
    """A train's lines: what it is, the sender's payload, and the frames in the order they were sent."""
    lines = [f"\n# {words}", "00", f"02 {pieces(payload)}"]
    return "\n".join(lines + [f"01 {pieces(frame)}" for frame in frames]) + "\n"
