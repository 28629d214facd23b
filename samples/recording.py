"""Records of a recording as bytes, for the scripts that write recordings."""


def number(value):
    """A number in groups of seven bits, low group first."""
    out = bytearray()
    while value > 127:
        out.append(value & 0x7F | 0x80)
        value >>= 7
    return bytes(out) + bytes([value])


def record(address, data, gap=0, priority=3, remote=0, sid0=0):
    """A frame, and the gap before it, in the logger's unit."""
    return number(gap) + number(2 * (512 * priority + 2 * address + sid0) + remote) + number(len(data)) + bytes(data)
