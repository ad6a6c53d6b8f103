"""Names that have one print: the number by which a reader of indexes tells names, a sum of bytes by powers of an odd factor modulo 2^64."""
from fractions import Fraction
from functools import cache

FACTOR, MODULUS = 0x9E3779B97F4A7C15, 1 << 64
LENGTH, BASE = 24, 128


def print_of(name):
    """The print of a name, whose last byte counts first."""
    value = 0
    for byte in reversed(name):
        value = (value * FACTOR + byte + 1) % MODULUS
    return value


def one_print(count):
    """So many names of 24 bytes that have one print: each is the name before it with a short sum of differences that has no print."""
    short = _short()
    bits = max(1, (count - 1).bit_length())
    for number in range(count):
        name = [BASE] * LENGTH
        for place in range(bits):
            sign = 1 if number >> place & 1 else 0
            name = [byte + sign * difference for byte, difference in zip(name, short[place])]
        yield bytes(name)


@cache
def _short():
    """Short differences of names that have no print, the shortest first."""
    return sorted(_reduced(_differences()), key=lambda row: max(map(abs, row)))


def _differences():
    """A basis of all differences of names that have no print."""
    rows = [[MODULUS] + [0] * (LENGTH - 1)]
    for place in range(1, LENGTH):
        row = [0] * LENGTH
        row[0], row[place] = -pow(FACTOR, place, MODULUS), 1
        rows.append(row)
    return rows


def _dot(left, right):
    return sum(a * b for a, b in zip(left, right))


def _reduced(rows):
    """The basis reduced as Lenstra, Lenstra and Lovász do, with a factor of 3/4."""
    count = len(rows)
    lengths, parts = [Fraction(0)] * count, [[Fraction(0)] * count for _ in rows]

    def project(at):
        # The squares of what stands upright on the rows before, by the products of rows alone.
        products = [Fraction(0)] * count
        for other in range(at + 1):
            products[other] = Fraction(_dot(rows[at], rows[other])) - sum(parts[other][k] * products[k] for k in range(other))
            if other < at:
                parts[at][other] = products[other] / lengths[other]
        lengths[at] = products[at]

    at = 0
    while at < count:
        # The rows before stand as they did when they were projected.
        project(at)
        for other in reversed(range(at)):
            times = round(parts[at][other])
            if times:
                rows[at] = [a - times * b for a, b in zip(rows[at], rows[other])]
                for k in range(other):
                    parts[at][k] -= times * parts[other][k]
                parts[at][other] -= times
        if at == 0 or lengths[at] >= (Fraction(3, 4) - parts[at][at - 1] ** 2) * lengths[at - 1]:
            at += 1
        else:
            rows[at - 1], rows[at] = rows[at], rows[at - 1]
            at -= 1
    return rows
