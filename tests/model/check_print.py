# Holds the model's bench print to the form that is required (docs/REFERENCE.md). Each group yields a name, what the model says and what it
# should say.
import model
from check_methods import P2, P2_BY_5, P3, said
from document import OLD_SAMPLE_INPUT, OLD_SAMPLE_OUTPUT, SAMPLE_INPUT, SAMPLE_OUTPUT, TABLE_A
from sheets import P1, SAMPLE, sheet


def numbers_of(text):
    return [line.split() for line in text.splitlines()]


def sample():
    yield "the numbers of the old sample input", numbers_of(SAMPLE_INPUT), numbers_of(OLD_SAMPLE_INPUT)
    yield "the numbers of the old sample output", numbers_of(SAMPLE_OUTPUT), numbers_of(OLD_SAMPLE_OUTPUT)
    yield "sample input", SAMPLE, SAMPLE_INPUT
    yield "sample", model.bench(SAMPLE_INPUT), SAMPLE_OUTPUT
    yield "old sample", model.bench(OLD_SAMPLE_INPUT), b"     1\n"
    yield "empty input", model.bench(b""), b"     1\n"
    for name, case, end in (("P3", P3, b"     0     2    46\n"), ("P2 by 5", P2_BY_5, b"     0     2    39\n")):
        log = b"".join(b"%6d%6d%6d\n" % (at, kind, value) for at, (kind, value) in enumerate(said(case, TABLE_A)))
        yield f"{name} printed", model.bench(sheet(case, TABLE_A)), log + end
    for r3, printed in ((1, b"    12\n"), (4, b"    10\n")):
        yield f"P2 by 5, r3 = {r3}", model.bench(sheet(P2_BY_5._replace(r3=r3), TABLE_A)), printed


# What may fill so many columns and is no number of theirs.
BAD_FIELDS = {
    4: [b"    ", b"  00", b"  01", b"0001", b"0000", b"  +1", b"  -1", b" \t 1", b"\t  1", b"\0  1", b"   \0", b"  1\r", b"   \r", b"  1 "]
    + [b" 1  ", b" 1 1", b"1  1", b"  1a", b"   /", b"   :", b" 256", b" 257", b" 300", b" 999", b"1000", b"9999"],
    6: [b"      ", b"    00", b"    01", b"000001", b"000000", b"    +1", b"    -1", b"  \t  1", b"\t    1", b"\0    1", b"     \0"]
    + [b"    1\r", b"     \r", b"    1 ", b" 1    ", b"  1  1", b"1    1", b"    1a", b"     /", b"     :"]
    + [b" 65536", b" 65537", b" 99999", b"100000", b"131072", b"999999"],
}


# Sheets that are not of the form of so many columns, by what is wrong with them.
def malformed(columns):
    fields = [b"%*d" % (columns, number) for number in P1]
    table = b"%*d\n%*d\n" % (columns, 1, columns, 0)
    head, entry = b"".join(fields) + b"\n", table[: columns + 1]
    for bad in BAD_FIELDS[columns]:
        for place in (0, 1, 9):
            yield f"{bad} as field {place}", b"".join([*fields[:place], bad, *fields[place + 1 :]]) + b"\n" + table
        yield f"{bad} as the first entry", head + bad + b"\n" + entry
        yield f"{bad} as the last entry", head + entry + bad + b"\n"
    yield "a character more", head[:-1] + b" \n" + table
    yield "a character less", head[1:] + table
    yield "carriage return", head[:-1] + b"\r\n" + table
    yield "short case line", head[columns:] + table
    yield "eleven numbers", head[:-1] + fields[0] + b"\n" + table
    yield "no last line feed", head + table[:-1]
    yield "no line feed", head[:-1]
    yield "empty last line", head + table + b"\n"
    yield "empty case line", b"\n" + head + table
    yield "empty table line", head + b"\n" + table
    yield "long table line", head + b" " + table
    yield "short table line", head + table[1:]
    yield "two entries a line", head + fields[0] + table
    yield "257 table lines", head + 257 * entry
    yield "something after", head + table + b" "
    yield "form before method", b"%*d" % (columns, 4) + head[columns:] + b"x"
    yield "nothing", b""


# Inputs of another form than the bench print's, and forms that look odd and are fine.
def forms():
    for name, text in malformed(6):
        yield name, model.bench(text), b"     1\n"
    head = SAMPLE_INPUT[:61]
    yield "no table line", model.bench(head), b"     5\n"
    yield "no table line, method 4", model.bench(head.replace(b"     2", b"     4", 1)), b"     2\n"
    yield "256 table lines", model.bench(head + 256 * b"     0\n"), b"     5\n"
    table = b"".join(b"%6d\n" % entry for entry in range(256))
    lines = model.bench(b"     3     8     8   255   128   127     1     2     3     1\n" + table).splitlines()
    yield "method 3 at n = 8", (len(lines), lines[1003], lines[-1]), (2315, b"  1003    12   145", b"     0     3  2314")
    lines = model.bench(b"     5     8     8   255   128   127     1     2     0     0\n" + table).splitlines()
    yield "method 5 at n = 8", (len(lines), lines[2054], lines[2055]), (2056, b"  2054    13     3", b"     0     3  2055")


# What a number above 255 meets in each field of the case line.
FIELD_REFUSALS = {"method": 2, "n": 3, "m": 4, "x0": 10, "r1": 10, "r2": 10, "s1": 11, "s2": 11, "r3": 10, "b": 12}


def wide_numbers():
    for case in (P2, P3, P2_BY_5):
        for name, refusal in FIELD_REFUSALS.items():
            for value in (255, 256, 257, 258, 300, 65535, 256 + getattr(case, name), 65280 + getattr(case, name)):
                printed = model.bench(sheet(case._replace(**{name: value}), TABLE_A))
                yield f"method {case.method}, {name} = {value}", printed, b"%6d\n" % refusal
    whole = P2._replace(n=8, m=8)
    for name in ("x0", "r1", "r2", "s1", "s2", "r3"):
        for value in (256, 257, 511, 65535):
            printed = model.bench(sheet(whole._replace(**{name: value}), range(256)))
            yield f"n = m = 8, {name} = {value}", printed, b"%6d\n" % FIELD_REFUSALS[name]
    yield "all numbers wide", model.bench(sheet([65535] * 10, [65535] * 256)), b"     2\n"
    yield "all but the method", model.bench(sheet([2] + [65535] * 9, [65535] * 256)), b"     3\n"


# An entry above 255 is too large for every m, and meets nothing before the table's length.
def wide_entries():
    for entry in (256, 257, 258, 300, 511, 512, 65280, 65535):
        for m in range(1, 9):
            case = P2._replace(m=m, s1=0)
            for table in ([entry, 0, 0, 0], [0, 0, 0, entry], [entry] * 4, [0, 1, entry, 256]):
                yield f"{table} at m = {m}", model.bench(sheet(case, table)), b"     6\n"
        pair = P1._replace(m=8)
        yield f"0 and {entry} at m = 8", model.bench(sheet(pair, [0, entry])), b"     6\n"
        yield f"255 and {entry} at m = 8", model.bench(sheet(pair, [255, entry])), b"     6\n"
    beside = ("method", 4, 2), ("n", 9, 3), ("n", 3, 5), ("m", 9, 4), ("m", 0, 4), ("x0", 4, 6), ("s1", 4, 6), ("b", 1, 6)
    for name, value, refusal in beside:
        printed = model.bench(sheet(P2._replace(**{name: value}), [2, 300, 3, 1]))
        yield f"an entry of 300 beside {name} = {value}", printed, b"%6d\n" % refusal
    for table in ([300], [2, 300, 3], [2, 0, 3, 1, 300], [300] * 256):
        yield f"300 among {len(table)} entries", model.bench(sheet(P2, table)), b"     5\n"
    yield "300 in an unfit table", model.bench(sheet(P2, [0, 0, 1, 300])), b"     6\n"
    yield "300 behind 4", model.bench(sheet(P2, [4, 0, 1, 300])), b"     6\n"
    yield "256 entries above 255", model.bench(sheet(P2._replace(n=8, m=8), range(256, 512))), b"     6\n"
    yield "255 at m = 8", model.bench(sheet(P1._replace(m=8), [0, 255])).splitlines()[-1], b"     0   254    22"


GROUPS = (sample, forms, wide_numbers, wide_entries)
