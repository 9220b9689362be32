"""Problems of any size that have a roster, since their demand is what a hidden roster holds."""
NAMES = "ABCDEFGH"


def stints(cells, shifts, bounds, draw):
    """A row of so many cells, in stints of work that are cut into blocks, with days off between them; None is a day off."""
    most_block, most_off, most_work = bounds
    row = []
    while len(row) < cells:
        work, last = draw.randint(1, min(6, most_work)), None
        while work > 0:
            shift = draw.choice([k for k in range(shifts) if k != last] or [None])
            if shift is None:
                break
            length = min(work, draw.randint(1, min(4, most_block)))
            row += [shift] * length
            work, last = work - length, shift
        row += [None] * draw.randint(1, min(3, most_off))
    return row[:cells]


def longest(row, is_held):
    """The longest run of such cells round the cycle; more than there are cells where it has no end."""
    if all(map(is_held, row)):
        return len(row) + 1
    front = next(place for place, cell in enumerate(row) if not is_held(cell))
    best = run = 0
    for cell in row[front:] + row[:front]:
        run = run + 1 if is_held(cell) else 0
        best = max(best, run)
    return best


def roster(cells, shifts, bounds, draw):
    """A row in which no block, round the cycle too, is longer than its greatest length."""
    most_block, most_off, most_work = bounds
    while True:
        row = stints(cells, shifts, bounds, draw)
        blocks = max(longest(row, lambda cell, k=k: cell == k) for k in range(shifts))
        off = longest(row, lambda cell: cell is None)
        if blocks <= most_block and off <= most_off and longest(row, lambda cell: cell is not None) <= most_work:
            return row


def missing(row, length, most, shifts, draw):
    """At most so many sequences of this length that the row, read round the cycle, has nowhere."""
    there = set(zip(*(row[k:] + row[:k] for k in range(length))))
    symbols = [None] + list(range(shifts))
    drawn = {tuple(draw.choice(symbols) for _ in range(length)) for _ in range(most)}
    return sorted(drawn - there, key=str)


def name(symbol):
    return "-" if symbol is None else NAMES[symbol]


def problem(weeks, days, shifts, bounds, draw, pairs=0, triples=0):
    """The text of a problem whose demand is that of a roster that is drawn. `bounds` are the greatest lengths of the blocks of a shift, of
    days off and of work; the least are 1. At most so many pairs and triples are forbidden."""
    row = roster(weeks * days, shifts, bounds, draw)
    lines = [str(days), str(weeks), str(shifts)]
    lines += [" ".join(str(row[day::days].count(k)) for day in range(days)) for k in range(shifts)]
    lines += ["%s 360 480 1 %d" % (NAMES[k], bounds[0]) for k in range(shifts)]
    sequences = [missing(row, 2, pairs, shifts, draw), missing(row, 3, triples, shifts, draw)]
    lines += ["1 %d" % bounds[1], "1 %d" % bounds[2], "%d %d" % tuple(map(len, sequences))]
    lines += [" ".join(map(name, sequence)) for kind in sequences for sequence in kind]
    return "\n".join(lines) + "\n"
