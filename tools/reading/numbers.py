"""Numbers and strings in bytes, the lowest byte first.

Each call reads at a place, up to an end, and gives what it read and the place behind it.  It raises Missing where bytes are
missing, a LEB128 number doesn't fit in 64 bits, or a length is reserved."""

GREATEST = 2 ** 64 - 1


class Missing(Exception):
    """Nothing that can be read stands there."""


def fixed(data, at, end, size):
    behind = at + size
    if behind > end:
        raise Missing
    return int.from_bytes(data[at:behind], "little"), behind


def skip(at, end, count):
    if at + count > end:
        raise Missing
    return at + count


def uleb(data, at, end):
    """DWARF 5, 7.6.  A number that is too large stays so, whatever follows."""
    value = shift = 0
    while at < end:
        byte = data[at]
        at += 1
        value |= (byte & 0x7F) << shift
        if value > GREATEST:
            raise Missing
        if byte < 0x80:
            return value, at
        shift += 7
    raise Missing


def _without_padding(groups):
    """The groups of 7 bits that a signed number needs: a last group that only repeats the sign goes."""
    count = len(groups)
    while count > 1 and groups[count - 1] == (0x7F if groups[count - 2] & 0x40 else 0):
        count -= 1
    return groups[:count]


def sleb(data, at, end):
    behind = at
    while behind < end and data[behind] >= 0x80:
        behind += 1
    if behind >= end:
        raise Missing
    behind += 1
    groups = _without_padding([byte & 0x7F for byte in data[at:behind]])
    if len(groups) > 10:
        raise Missing
    value = sum(group << 7 * place for place, group in enumerate(groups))
    if groups[-1] & 0x40:
        value -= 1 << 7 * len(groups)
    if not -2 ** 63 <= value < 2 ** 63:
        raise Missing
    return value, behind


def zstr(data, at, end):
    """The bytes before the next zero, which is passed too."""
    if at > end:
        raise Missing
    zero = data.find(b"\0", at, end)
    if zero < 0:
        raise Missing
    return data[at:zero], zero + 1


def initial_length(data, at, end):
    """(length, whether the format is the 64-bit one), DWARF 5, 7.2.2 and 7.4."""
    length, at = fixed(data, at, end, 4)
    if length < 0xFFFFFFF0:
        return (length, False), at
    if length != 0xFFFFFFFF:
        raise Missing
    length, at = fixed(data, at, end, 8)
    return (length, True), at


def offset_size(wide):
    return 8 if wide else 4


def offset(data, at, end, wide):
    return fixed(data, at, end, offset_size(wide))


def put_uleb(value):
    out = bytearray()
    while value > 0x7F:
        out.append(0x80 | value & 0x7F)
        value >>= 7
    out.append(value)
    return bytes(out)
