"""Runs of bytes that stand in several places of the vectors' files become parts, which the modules of gen_vectors.py share."""

# so many rows of bytes that stand twice become a part of their own, and a row has so many bytes
SHARED_ROWS = 4
ROW = 24
# so many lines of parts stand in one module
PART_LINES = 420
PART = '''abbrev pub {name} : List ℕ
{name} =
    {bytes}
'''


def rows_of(data):
    """The bytes in rows."""
    return [tuple(data[k:k + ROW]) for k in range(0, len(data), ROW)]


def joined(items):
    """Rows and names of parts, as one list: what stands between two parts is a list of its own."""
    pieces, rows = [], []

    def close(last):
        if rows:
            body = ' ∷\n    '.join(' ∷ '.join(map(str, row)) for row in rows) + ' ∷\n    []'
            pieces.append(body if last and not pieces else '(' + body + ')')
            rows.clear()

    for item in items:
        if isinstance(item, str):
            close(False)
            pieces.append(item)
        else:
            rows.append(item)
    close(True)
    return ' ++\n    '.join(pieces) or '[]'


def twice(lists):
    """The longest run of rows and parts that stands in two places of these lists, or None where none is long enough."""
    places, best = {}, None
    for at, items in enumerate(lists):
        for k in range(len(items) - SHARED_ROWS + 1):
            places.setdefault(tuple(items[k:k + SHARED_ROWS]), []).append((at, k))
    for found in places.values():
        for (a, i), (b, j) in zip(found, found[1:]):
            most = j - i if a == b else len(lists[a])
            size = 0
            while size < most and i + size < len(lists[a]) and j + size < len(lists[b]) and lists[a][i + size] == lists[b][j + size]:
                size += 1
            if size >= SHARED_ROWS and (best is None or size > len(best)):
                best = lists[a][i:i + size]
    return best


def with_part(items, run, part):
    """The list with the number of a part in place of each such run."""
    made, k = [], 0
    while k < len(items):
        if items[k:k + len(run)] == run:
            made.append(part)
            k += len(run)
        else:
            made.append(items[k])
            k += 1
    return made


def in_order(parts):
    """The numbers of the parts, each behind those that it is made of."""
    order = []

    def follow(k):
        if k not in order:
            for item in parts[k]:
                if isinstance(item, int):
                    follow(item)
            order.append(k)

    for k in range(len(parts)):
        follow(k)
    return order


def share(files):
    """The files by their keys, and the parts that they share by their names: lists of rows and of names of parts."""
    lists, parts = [rows_of(data) for data in files.values()], []
    while True:
        run = twice(lists + parts)
        if run is None:
            break
        lists = [with_part(items, run, len(parts)) for items in lists]
        parts = [with_part(items, run, len(parts)) for items in parts] + [run]
    names = {k: 'part_%d' % place for place, k in enumerate(in_order(parts))}

    def named(items):
        return [names[item] if isinstance(item, int) else item for item in items]

    return dict(zip(files, map(named, lists))), {name: named(parts[k]) for k, name in names.items()}


def homes_of(parts):
    """The module of each part: a module has as many as fit, in order, and so names those before it alone."""
    homes, lines, number = {}, 0, 1
    for name, items in parts.items():
        size = PART.format(name=name, bytes=joined(items)).count('\n') + 1
        if lines and lines + size > PART_LINES:
            lines, number = 0, number + 1
        lines += size
        homes[name] = 'Parts%d' % number
    return homes
