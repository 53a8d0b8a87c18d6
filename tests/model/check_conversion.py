# Holds the model's converters to what is required of them (docs/REFERENCE.md). Each group yields a name, what the model says and what it
# should say.
import conversion
import model
import sheets
from check_print import malformed, numbers_of
from document import OLD_SAMPLE_INPUT, OLD_SAMPLE_OUTPUT, SAMPLE_INPUT, SAMPLE_OUTPUT, TABLE_A
from editions import NEW, OLD
from sheets import P2, sheet

MALFORMED, TOO_LARGE = b"     1\n", b"    22\n"


def sample():
    yield "to six", conversion.to_six_columns(OLD_SAMPLE_INPUT), SAMPLE_INPUT
    yield "to four", conversion.to_four_columns(SAMPLE_INPUT), OLD_SAMPLE_INPUT
    yield "what is printed", model.bench(conversion.to_six_columns(OLD_SAMPLE_INPUT)), SAMPLE_OUTPUT
    yield "what was printed", numbers_of(model.bench(conversion.to_six_columns(OLD_SAMPLE_INPUT))), numbers_of(OLD_SAMPLE_OUTPUT)
    yield "six to six", conversion.to_six_columns(SAMPLE_INPUT), MALFORMED
    yield "four to four", conversion.to_four_columns(OLD_SAMPLE_INPUT), MALFORMED
    yield "a probe sheet, to six", conversion.to_six_columns(b"   2   1   1   0   0  21\n   1\n   0\n"), MALFORMED
    yield "a probe sheet, to four", conversion.to_four_columns(b"     2     1     1     0     0    21\n     1\n     0\n"), MALFORMED


# A wide number is no matter in a malformed sheet, before its damage or behind it.
def forms():
    for name, text in malformed(4):
        yield f"{name}, to six", conversion.to_six_columns(text), MALFORMED
    for name, text in malformed(6):
        yield f"{name}, to four", conversion.to_four_columns(text), MALFORMED
        if text[:6] == b"     2":
            yield f"{name} behind 300", conversion.to_four_columns(b"   300" + text[6:]), MALFORMED
        if text[-7:] == b"     0\n":
            yield f"{name} before 256", conversion.to_four_columns(text[:-7] + b"   256\n"), MALFORMED


# Both sheets have these numbers.
def alike(name, case, table):
    old, new = sheet(case, table, OLD), sheet(case, table, NEW)
    yield f"{name}, to six", conversion.to_six_columns(old), new
    yield f"{name}, to four", conversion.to_four_columns(new), old


# What a print would refuse is converted all the same.
def refused_elsewhere():
    yield from alike("method 99", P2._replace(method=99), TABLE_A)
    yield from alike("all numbers 255", [255] * 10, [255] * 4)
    yield from alike("all numbers 0", [0] * 10, [0] * 4)
    for length in (0, 1, 3, 5, 255, 256):
        yield from alike(f"{length} table lines", P2, (TABLE_A * 64)[:length])


# Every place of a sheet with each of these numbers; going to four columns, one above 255 is too large.
def largest_numbers():
    numbers = [*P2, *TABLE_A]
    for place in range(14):
        for number in (9, 10, 99, 100, 200, 254, 255, 256, 257, 258, 300, 511, 512, 999, 1000, 9999, 10000, 65280, 65534, 65535):
            changed = [*numbers[:place], number, *numbers[place + 1 :]]
            case, table = changed[:10], changed[10:]
            if number <= 255:
                yield from alike(f"{number} in place {place}", case, table)
            else:
                yield f"{number} in place {place}", conversion.to_four_columns(sheet(case, table)), TOO_LARGE
    for table in ([256], [0] * 255 + [256], [300] * 256):
        yield f"{table[-1]} behind {len(table)} entries", conversion.to_four_columns(sheet(P2, table)), TOO_LARGE
    yield "all numbers 65535", conversion.to_four_columns(sheet([65535] * 10, [65535] * 256)), TOO_LARGE


# There and back; the numbers and lines are kept; the print of a converted sheet is that of its numbers.
def round_trips():
    for text in sheets.legal(OLD):
        yield f"{text} and back", conversion.to_four_columns(conversion.to_six_columns(text)), text
        yield f"the numbers of {text}", numbers_of(conversion.to_six_columns(text)), numbers_of(text)
        case, *table = ([int(number) for number in line] for line in numbers_of(text))
        written = sheet(case, [entry for [entry] in table])
        yield f"what is printed of {text}", model.bench(conversion.to_six_columns(text)), model.bench(written)
    for text in sheets.legal(NEW):
        wide = any(int(number) > 255 for line in numbers_of(text) for number in line)
        yield f"{text} and back", conversion.to_six_columns(conversion.to_four_columns(text)), MALFORMED if wide else text
        yield f"the numbers of {text}", numbers_of(conversion.to_four_columns(text)), [[b"22"]] if wide else numbers_of(text)


GROUPS = (sample, forms, refused_elsewhere, largest_numbers, round_trips)
