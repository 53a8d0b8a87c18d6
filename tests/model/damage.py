# Damage to sheets of either edition, of every kind, and at random. What a damaged sheet must print is the model's to say.
from editions import NEW


# Numbers that are just too large, that would fit if their front were cut off, and those of many digits.
def too_large(edition):
    above = edition.largest + 1
    digits = 10 ** (edition.columns - 1)
    return above, above + 1, 2 * above, 3 * above - 1, digits - 1, digits, 10 * digits - 1


# What may stand in a field's columns instead of a number; each makes the sheet malformed.
def bad_fields(edition):
    ends = [b"", b"00", b"01", b"-1", b"+1", b"\t", b"\r", b"1\r", b"\x00", b"1 1", b"1a", b".", b"/", b":", b"\xb1"]
    yield from (end.rjust(edition.columns) for end in (*ends, *(b"%d" % number for number in too_large(edition))))
    yield from (front.ljust(edition.columns) for front in (b"1", b" 1"))
    one = b"1".rjust(edition.columns)
    yield from (front + one[1:] for front in (b"\t", b"\x00", b"0", b"1"))
    yield from (b"0" * edition.columns, b"1".rjust(edition.columns, b"0"))


def fields_of(edition, text, first_end):
    return [*range(0, first_end, edition.columns), *range(first_end + 1, len(text) - edition.columns, edition.columns + 1)]


# Every kind of damage, at the first field, one in the middle and the last.
def damaged(text, edition=NEW):
    first_end = text.index(b"\n")
    places = fields_of(edition, text, first_end)
    for at in (places[0], places[len(places) // 2], places[-1]):
        yield from (text[:at] + bad + text[at + edition.columns :] for bad in bad_fields(edition))
        yield text[:at] + text[at + 1 :]
        yield text[:at] + b" " + text[at:]
    for end in (first_end, first_end + edition.columns + 1, len(text) - 1):
        yield from (text[:end] + bad + text[end + 1 :] for bad in (b" ", b"\r", b"0", b"\n\n", b"\r\n", b""))
    yield from (text + behind for behind in (b"\n", b" ", b"0".rjust(edition.columns), b"\x00"))
    yield text[1:]
    yield text[: first_end + 1]
    yield text[:first_end]
    yield b"\n" + text


# A sheet with a few bytes changed, put in, taken out or doubled; or bytes that were never a sheet.
def mutated_text(chance, sheet):
    text = bytearray(sheet)
    kind = chance.randrange(10)
    if kind == 0:
        return bytes(chance.choice(b" 0123456789\n\r\t-a") for _ in range(chance.randrange(120)))
    if kind == 1:
        return bytes(chance.randrange(256) for _ in range(chance.randrange(1600)))
    if kind == 2:
        return bytes(text)
    for _ in range(chance.randint(1, 3)):
        at = chance.randrange(len(text))
        change = chance.randrange(4)
        if change == 0:
            text[at] = chance.choice(b" 0123456789\n")
        elif change == 1:
            text[at:at] = bytes([chance.choice(b" 0123456789\n")])
        elif change == 2:
            del text[at]
        else:
            text[at] = chance.randrange(256)
        if not text:
            break
    return bytes(text)
