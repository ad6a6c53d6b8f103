"""The unit at each address, as the maximal pieces of the address space in which it is one unit."""
import bisect
import heapq


def pieces_of(ranges):
    """The pieces (low, end, unit) of ranges (low, end, unit): ascending, and the least unit counts where some overlap."""
    edges = sorted({edge for low, end, _ in ranges for edge in (low, end)})
    begin = sorted(ranges)
    pieces, live, taken = [], [], 0
    for low, end in zip(edges, edges[1:]):
        while taken < len(begin) and begin[taken][0] <= low:
            heapq.heappush(live, (begin[taken][2], begin[taken][1]))
            taken += 1
        while live and live[0][1] <= low:
            heapq.heappop(live)
        if live:
            _join(pieces, low, end, live[0][0])
    return pieces


def _join(pieces, low, end, unit):
    if pieces and pieces[-1][1] == low and pieces[-1][2] == unit:
        pieces[-1] = (pieces[-1][0], end, unit)
    else:
        pieces.append((low, end, unit))


def unit_at(pieces, address):
    """The pieces ascend and don't overlap."""
    place = bisect.bisect_right(pieces, address, key=lambda piece: piece[0]) - 1
    if place < 0 or address >= pieces[place][1]:
        return None
    return pieces[place][2]


def first_difference(one, other):
    """(address, unit by the one, unit by the other) for the least address at which they differ, or None."""
    for address in sorted({edge for low, end, _ in one + other for edge in (low, end)}):
        units = unit_at(one, address), unit_at(other, address)
        if units[0] != units[1]:
            return (address,) + units
    return None
