"""Where texts part, and what is shown of a long one: its beginning, its end, and the lines by which it differs from others."""
from places import UNSHOWN, shown

LINES_AT_MOST = 12
CUT = "…"
GAP = ".."


def alike(one, other):
    """How many bytes two texts begin with alike."""
    least, most = 0, min(len(one), len(other))
    while least < most:
        middle = (least + most + 1) // 2
        if one[least:middle] == other[least:middle]:
            least = middle
        else:
            most = middle - 1
    return least


def partings(texts):
    """For each of several different texts the number of the byte by which it is told apart from all others."""
    found, ordered = {}, sorted(texts)
    for before, after in zip(ordered, ordered[1:]):
        at = alike(before, after)
        found[before] = max(found.get(before, 0), at)
        found[after] = at
    return [found.get(text, 0) for text in texts]


def first_parting(texts):
    """The number of the first byte by which two of the texts differ."""
    return alike(min(texts), max(texts))


def numbers_shown(count, marked):
    """The numbers of the lines that are shown of so many, those that are marked among them."""
    if count <= LINES_AT_MOST:
        return list(range(count))
    wanted = {0, 1, count - 1}
    for mark in marked:
        wanted |= {mark - 1, mark, mark + 1}
    return sorted(number for number in wanted if 0 <= number < count)


def excerpt(text, places, columns):
    """The lines that are shown of a text with places, on a screen of so many columns; a line in which a place lies is shown around it."""
    lines = text.removesuffix(b"\n").split(b"\n")
    marked = {}
    for place in places:
        start = text.rfind(b"\n", 0, place) + 1
        marked[min(text.count(b"\n", 0, place), len(lines) - 1)] = place - start
    numbers = numbers_shown(len(lines), marked)
    margin = len(str(len(lines))) + 3 if len(numbers) < len(lines) else 0
    made, last = [], -1
    for number in numbers:
        if number > last + 1:
            made.append(f"{GAP} {number - last - 1} more")
        title = f"{number + 1} | ".rjust(margin) if margin else ""
        made.append(title + cut(lines[number], marked.get(number, 0), max(columns - margin, 8)))
        last = number
    return made


def cut(line, at, room):
    """A line in so many columns, around one of its bytes where it is longer."""
    start = 0 if len(line) <= room or at < room // 2 else at - room // 3
    while start and start < len(line) and line[start] & 0xC0 == 0x80:
        start -= 1
    piece = line[start : start + 4 * room].decode("utf-8", errors="replace")
    piece = "".join(UNSHOWN if letter == "\ufffd" else shown(letter, 0) for letter in piece)
    if start:
        piece = CUT + piece
    return piece if len(piece) <= room else piece[: room - 1] + CUT
