"""Sets whose grains wind, as rows of 0 and 1: only a long way tells that two of their pixels hang together."""


def blank(side):
    return [[0] * side for _ in range(side)]


def transposed(rows):
    return [list(column) for column in zip(*rows)]


def serpent(side):
    """Corridors along rows, joined at their ends by turns. The last one leads to the frame."""
    rows, ends = blank(side), (2, side - 3)
    lanes = range(2, side - 2, 2)
    for turn, y in enumerate(lanes):
        rows[y][2 : side - 2] = [1] * (side - 4)
        rows[y + 1][ends[turn % 2]] = 1
    for y in range(lanes[-1], side):
        rows[y][side // 2] = 1
    return rows


def slanted(side):
    """Corridors along diagonals, where pixels touch by their corners alone."""
    rows, least, most = blank(side), 2, side - 3
    for y in range(least, most + 1):
        for x in range(least, most + 1):
            lane, beside = divmod(y + x, 4)
            is_end = x == least or y == most if lane % 2 else y == least or x == most
            rows[y][x] = int(beside == 0 or is_end)
    rows[0][least] = rows[1][least] = 1
    return rows


def spiral(side):
    """From the corner of the frame inwards, turn by turn."""
    rows, y, x, dy, dx = blank(side), 0, 0, 0, 1
    rows[0][0] = 1
    for length in sum(([length, length] for length in range(side - 1, 1, -2)), []):
        for _ in range(length):
            y, x = y + dy, x + dx
            rows[y][x] = 1
        dy, dx = dx, -dy
    return rows


def comb(side):
    """Teeth that one bar joins, halfway or at the bottom; the bar leads to the frame."""
    rows = blank(side)
    for y in range(2, side - 2):
        rows[y][2 : side - 2 : 2] = [1] * len(range(2, side - 2, 2))
    rows[side // 2][: side - 2] = [1] * (side - 2)
    return rows


def arms(side):
    """Arms of which each other one is long, joined to a trunk one below the other."""
    rows, middle = blank(side), side // 2
    for y in range(2, side):
        rows[y][middle] = 1
    for at, far in enumerate(range(2, middle - 1, 2)):
        below = min(4 + 2 * at, side - 2)
        high = 2 if at % 2 else below
        for x in (middle - far, middle + far):
            for y in range(high, below + 1):
                rows[y][x] = 1
        rows[below][middle - far : middle + far + 1] = [1] * (2 * far + 1)
    return rows


def maze(side, rng):
    """A maze without a round, whose way out is at the top."""
    rows, way = blank(side), [(1, 1)]
    rows[0][1] = rows[1][1] = 1
    while way:
        y, x = way[-1]
        ahead = [(dy, dx) for dy, dx in ((0, 1), (1, 0), (0, -1), (-1, 0))
                 if 0 < y + 2 * dy < side - 1 and 0 < x + 2 * dx < side - 1 and not rows[y + 2 * dy][x + 2 * dx]]
        if not ahead:
            way.pop()
            continue
        dy, dx = rng.choice(ahead)
        rows[y + dy][x + dx] = rows[y + 2 * dy][x + 2 * dx] = 1
        way.append((y + 2 * dy, x + 2 * dx))
    return rows


def noise(side, rng, part=0.41):
    """Where so many pixels are set at random, the grains that hang together by corners just begin to fill the frame."""
    return [[int(rng.random() < part) for _ in range(side)] for _ in range(side)]


def all_of(side, rng):
    """Each of them, and the same turned over."""
    made = [serpent(side), slanted(side), spiral(side), comb(side), arms(side), maze(side, rng), noise(side, rng)]
    return [*made, *map(transposed, made), *([row[::-1] for row in rows[::-1]] for rows in made)]


def cut_by_flooding(rows):
    """The area of what hangs together with the rim, pixel by pixel."""
    height, width = len(rows), len(rows[0])
    rim = [(y, x) for y in range(height) for x in range(width) if (y in (0, height - 1) or x in (0, width - 1)) and rows[y][x]]
    met = set(rim)
    while rim:
        y, x = rim.pop()
        for place in [(y + dy, x + dx) for dy in (-1, 0, 1) for dx in (-1, 0, 1)]:
            if 0 <= place[0] < height and 0 <= place[1] < width and rows[place[0]][place[1]] and place not in met:
                met.add(place)
                rim.append(place)
    return len(met)
