# The picture docs/pictures/fit.svg, which shows by the model's counts why a table must be fit. Run: python3 tests/model/picture.py writes
# it; with --check it compares it instead, after showing that it notices a change of it (status 0 if it is as made, 1 otherwise).
import sys
import tempfile
from pathlib import Path
from xml.sax.saxutils import escape

import model
from stored import changes

PICTURE = Path(__file__).resolve().parents[2] / "docs/pictures/fit.svg"
# The probes, under method 2 at n = 2 and m = 1: kind 14 at a = 0, and the answer.
FIRST, SECOND = 13, 33
SECRETS = (0, 3)
FIT, REFUSED = [0, 1, 1, 0], [0, 0, 0, 1]

WIDTH, HEIGHT, CELL = 720, 800, 84


def sheet(table, secret):
    counts = model.pair_counts(table, 2, 2, 1, secret, FIRST, SECOND)
    return [[counts[u, v] for v in (0, 1)] for u in (0, 1)]


def text(x, y, words, size=16, anchor="middle", more=""):
    return f'<text x="{x}" y="{y}" font-size="{size}" text-anchor="{anchor}"{more}>{escape(words)}</text>'


# A cell is the darker the larger its count is, and never so dark that its number is hard to read.
def cell(x, y, count):
    gray = 255 - count * 5 // 4
    yield f'<rect x="{x}" y="{y}" width="{CELL}" height="{CELL}" fill="rgb({gray},{gray},{gray})" stroke="black" stroke-width="2"/>'
    yield text(x + CELL // 2, y + CELL // 2 + 10, str(count), 28, more=' font-weight="bold"')


# A sheet: a row for each value of the first probe, a column for each of the second.
def drawn_sheet(x, y, table, secret):
    middle_x, middle_y = x + CELL, y + CELL
    yield text(middle_x, y - 52, f"secret {secret}", 18, more=' font-weight="bold"')
    yield text(middle_x, y - 29, "answer", 15)
    yield text(x - 44, middle_y, "value of kind 14", 15, more=f' transform="rotate(-90 {x - 44} {middle_y})"')
    yield text(x - 27, middle_y, "at a = 0", 15, more=f' transform="rotate(-90 {x - 27} {middle_y})"')
    for value in (0, 1):
        yield text(x + CELL * value + CELL // 2, y - 8, str(value))
        yield text(x - 12, y + CELL * value + CELL // 2 + 6, str(value))
    for u, counts in enumerate(sheet(table, secret)):
        for v, count in enumerate(counts):
            yield from cell(x + CELL * v, y + CELL * u, count)


# Both secrets' sheets of a table, with a sign between them.
def drawn_pair(y, heading, table):
    sign = "=" if sheet(table, SECRETS[0]) == sheet(table, SECRETS[1]) else "≠"
    yield text(WIDTH // 2, y, heading, 19, more=' font-weight="bold"')
    for x, secret in zip((144, 456), SECRETS):
        yield from drawn_sheet(x, y + 92, table, secret)
    yield text(366, y + 92 + CELL + 16, sign, 48)


# The sentences below the sheets. The counts that they name are the model's.
def caption():
    one, other = (sheet(REFUSED, secret)[0][0] for secret in SECRETS)
    return (
        f"Each sheet counts all {sum(map(sum, sheet(FIT, 0)))} choices of the masks by the values at two positions.",
        "Above, both secrets have the same sheet: the two values tell nothing of the secret.",
        f"Below, secret {SECRETS[0]} shows 0 and 0 in {one} choices, secret {SECRETS[1]} in {other}: the values tell of the secret.",
        "So every lookup refuses the second table.",
    )


def picture():
    yield f'<svg xmlns="http://www.w3.org/2000/svg" width="{WIDTH}" height="{HEIGHT}" viewBox="0 0 {WIDTH} {HEIGHT}" role="img"'
    yield '  font-family="Helvetica, Arial, sans-serif">'
    yield "<title>Why a table must be fit</title>"
    yield f"<desc>{escape(' '.join(caption()))}</desc>"
    yield f'<rect width="{WIDTH}" height="{HEIGHT}" fill="white"/>'
    yield text(WIDTH // 2, 38, "Why a table must be fit", 26, more=' font-weight="bold"')
    yield text(WIDTH // 2, 64, f"method 2, n = 2, m = 1: positions {FIRST} and {SECOND} of the log")
    yield from drawn_pair(112, f"fit: table {', '.join(map(str, FIT))}", FIT)
    yield from drawn_pair(418, f"not fit, refused with 7: table {', '.join(map(str, REFUSED))}", REFUSED)
    for line, words in enumerate(caption()):
        yield text(WIDTH // 2, 712 + 22 * line, words, 14)
    yield "</svg>"


def made():
    return ("\n".join(picture()) + "\n").encode()


def is_made(path):
    return path.is_file() and path.read_bytes() == made()


# The control: the changes that the comparison does not notice, each made in a copy.
def unnoticed_changes():
    with tempfile.TemporaryDirectory() as folder:
        copy = Path(folder) / PICTURE.name
        if is_made(copy):
            yield "it is missing"
        copy.write_bytes(made())
        if not is_made(copy):
            yield "the copy itself"
        for number, changed in enumerate(changes(made())):
            copy.write_bytes(changed)
            if is_made(copy):
                yield f"change {number}"


# What it is to show: equal sheets above, and below 96 against 32 of 256 choices for the values 0 and 0.
def shows_it():
    above, below = ([sheet(table, secret) for secret in SECRETS] for table in (FIT, REFUSED))
    return above[0] == above[1] and [s[0][0] for s in below] == [96, 32] and all(sum(map(sum, s)) == 256 for s in above + below)


def main():
    if sys.argv[1:] != ["--check"]:
        PICTURE.parent.mkdir(exist_ok=True)
        PICTURE.write_bytes(made())
        return
    complaints = [f"a change goes unnoticed: {change}" for change in unnoticed_changes()]
    complaints += [] if shows_it() else ["other counts are shown than are to be"]
    complaints += [] if is_made(PICTURE) else ["docs/pictures/fit.svg is not as the model makes it"]
    print(*complaints, f"1 picture, {len(complaints)} complaints", sep="\n")
    sys.exit(1 if complaints else 0)


if __name__ == "__main__":
    main()
