"""How a fuzzer changes a file: bits, bytes, numbers, LEB128 numbers, spans, and cuts."""
from . import invented, packed

BYTES = (0x00, 0x01, 0x02, 0x7E, 0x7F, 0x80, 0x81, 0xFE, 0xFF)
LEBS = (b"\x00", b"\x01", b"\x7f", b"\x80\x00", b"\x80\x80\x80\x00", b"\xff\xff\xff\xff\x0f", b"\xff" * 9 + b"\x01",
        b"\xff" * 9 + b"\x7f", b"\xff" * 9 + b"\x02", b"\x80" * 9 + b"\x01", b"\x80" * 12 + b"\x00", b"\x80" * 9 + b"\x7f")


def edges(size, length):
    """Numbers of so many bytes at which something may change, for a file of this length."""
    top = 1 << 8 * size
    values = [0, 1, 2, 3, 7, 8, top - 1, top - 2, top // 2, top // 2 - 1, 0xFFFFFFF0, 0xFFFFFFEF, 0xFFFFFFFF,
              length, length - 1, length + 1, length - 4, length // 2]
    return [value % top for value in values]


def _flip_bit(random, data, at):
    data[at] ^= 1 << random.randrange(8)


def _set_byte(random, data, at):
    data[at] = random.choice(BYTES) if random.random() < 0.5 else random.randrange(256)


def _set_number(random, data, at):
    size = random.choice((2, 4, 8))
    data[at:at + size] = random.choice(edges(size, len(data))).to_bytes(size, "little")[:len(data) - at]


def _move_number(random, data, at):
    """A number a little greater or less than it was."""
    size = random.choice((1, 2, 4, 8))
    number = int.from_bytes(data[at:at + size], "little") + random.choice((-16, -8, -4, -2, -1, 1, 2, 4, 8, 16))
    data[at:at + size] = (number % (1 << 8 * size)).to_bytes(size, "little")[:len(data) - at]


def _set_leb(random, data, at):
    leb = random.choice(LEBS)
    data[at:at + len(leb)] = leb[:len(data) - at]


def _put_leb(random, data, at):
    """The bytes behind it move on."""
    data[at:at + 1] = random.choice(LEBS)


def _span(random, data, at):
    return data[at:at + random.choice((1, 2, 4, 8, 16, random.randrange(1, 64)))]


def _copy_span(random, data, at):
    span = _span(random, data, random.randrange(len(data)))
    data[at:at + len(span)] = span[:len(data) - at]


def _insert_span(random, data, at):
    data[at:at] = _span(random, data, random.randrange(len(data)))


def _delete_span(random, data, at):
    del data[at:at + len(_span(random, data, at))]


def _swap_spans(random, data, at):
    """The bytes from there on change places with as many elsewhere."""
    other = random.randrange(len(data))
    size = min(random.choice((1, 2, 4, 8, 20)), abs(at - other), len(data) - max(at, other))
    data[at:at + size], data[other:other + size] = data[other:other + size], data[at:at + size]


def _cut(random, data, at):
    del data[at:]


STAYING = (_flip_bit, _flip_bit, _set_byte, _set_byte, _set_number, _move_number, _set_leb, _copy_span, _swap_spans)
MOVING = (_put_leb, _insert_span, _delete_span, _cut)


def _times(random):
    """Mostly one change, seldom many."""
    times = 1
    while times < 8 and random.random() < 0.4:
        times += 1
    return times


def _place(random, spans, length):
    """A place in one of the spans, each of which is as likely as the others."""
    spans = [(begin, min(end, length)) for begin, end in spans if begin < min(end, length)]
    return random.randrange(*random.choice(spans)) if spans else random.randrange(length)


def change(random, data, spans, ways):
    data = bytearray(data)
    for _ in range(_times(random)):
        if data:
            random.choice(ways)(random, data, _place(random, spans, len(data)))
    return bytes(data)


def _change_section(random, parts):
    """One section changed, and its units' first length mended half of the time where its length changed."""
    parts = list(parts)
    number = random.randrange(len(parts))
    name, data = parts[number]
    if not data:
        return parts
    changed = bytearray(change(random, data, [(0, len(data))], STAYING + MOVING))
    if name in (b".debug_info", b".debug_types", b".debug_line", b".debug_aranges") and random.random() < 0.5:
        length = int.from_bytes(data[:4], "little") + len(changed) - len(data)
        if 0 <= length < 1 << 32 and len(changed) >= 4:
            changed[:4] = length.to_bytes(4, "little")
    parts[number] = name, bytes(changed)
    return parts


def changed(random, seed):
    """The changed bytes of a seed; where it is to be made up, one program, changed now and then."""
    if seed.is_invented:
        parts = invented.sections(random)
        return packed.pack(_change_section(random, parts) if random.random() < 0.3 else parts)[0]
    if seed.parts and random.random() < 0.6:
        return packed.pack(_change_section(random, seed.parts))[0]
    ways = STAYING + MOVING if random.random() < 0.3 else STAYING
    return change(random, seed.data, seed.spans, ways)
