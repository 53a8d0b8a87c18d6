# The edits that tests/model/mutants.py tries in the form of sheets (tests/model/editions.py), in the converters (conversion.py) and in the
# bench print (model.py): for each function a piece of its text, and what takes its place.

EDITIONS = {
    "OLD": [("4, 255", "4, 256"), ("4, 255", "4, 254"), ("4, 255", "4, 9999"), ("4, 255", "5, 255"), ("4, 255", "3, 255")],
    "NEW": [
        *(("6, 65535", f"6, {largest}") for largest in (65536, 65534, 32767, 255, 99999, 999999)),
        *(("6, 65535", f"{columns}, 65535") for columns in (4, 5, 8)),
    ],
    "NUMBER": [("(0|[1-9][0-9]*)", "([0-9]+)"), (" *", "[ +]*"), (" *", r"\s*"), ("[1-9][0-9]*", "[1-9][0-9]?"), ("0|", "0+|")],
    "line_numbers": [
        ("!=", "<"),
        ("!=", ">"),
        ("all(fields)", "any(fields)"),
        ("edition.largest", "edition.largest + 1"),
        ("edition.largest", "edition.largest - 1"),
        ("edition.largest", "255"),
        ("edition.largest", "65535"),
        ("max(numbers)", "numbers[0]"),
        ("max(numbers)", "numbers[-1]"),
        ("at + edition.columns", "at + edition.columns - 1"),
        ("at + edition.columns", "at + 4"),
        ("int(field.group(1))", "int(field.group(1)) % 65536"),
        ("int(field.group(1))", "int(field.group(1)) % 256"),
        ("int(field.group(1))", "min(int(field.group(1)), edition.largest)"),
    ],
    "read_sheet": [
        ("not others or ", ""),
        ('others.pop() != b""', "others.pop() is None"),
        ("> 256", "> 257"),
        ("> 256", "> 255"),
        ("> 256", "> edition.largest"),
        ("edition, first", "NEW, first"),
        ("edition, line", "NEW, line"),
        ("numbers is None or ", ""),
        (" or None in entries", ""),
        ("len(form._fields)", "9"),
        ("[entry for [entry] in entries]", "[entry % 256 for [entry] in entries]"),
        ("[entry for [entry] in entries]", "[min(entry, 255) for [entry] in entries]"),
    ],
    "print_line": [
        ("NEW.columns", "OLD.columns"),
        ("NEW.columns", "5"),
        ("NEW.columns", "8"),
        ("%*d", "%-*d"),
        ("%*d", "%0*d"),
        (r'+ b"\n"', ""),
    ],
    "print_sheet": [
        ("edition.columns", "OLD.columns"),
        ("edition.columns", "NEW.columns"),
        (", *((entry,) for entry in table)", ", table"),
        (", *((entry,) for entry in table)", ","),
        ("for entry in table", "for entry in table[1:]"),
        ("(entry,) for", "(entry % 10,) for"),
    ],
}

# Where a program asks whether the form is right, and where it takes the numbers.
ASKED = "    if sheet is None:\n"
READ = "case, table = sheet"
CONVERSION = {
    "converted": [
        ("print_line(1)", "print_line(2)"),
        ("print_line(1)", "print_line(1, columns=4)"),
        ("print_line(1)", "print_line(1, columns=source.columns)"),
        ("print_line(1)", "print_line(1, columns=target.columns)"),
        ("print_line(1)", 'print_line(22 if b" 256" in text else 1)'),
        ("print_line(22)", "print_line(1)"),
        ("print_line(22)", "print_line(22, columns=target.columns)"),
        ("print_line(22)", "print_line(22, 0)"),
        ("> target.largest", ">= target.largest"),
        ("> target.largest", "> target.largest + 1"),
        ("> target.largest", "> source.largest"),
        ("> target.largest", "> 9999"),
        ("max(*case, *table)", "max(case)"),
        ("max(*case, *table)", "max(table, default=0)"),
        ("max(*case, *table)", "max(*case[1:], *table)"),
        ("max(*case, *table)", "max(*case, *table[:-1])"),
        # a leading zero taken for a space, and what is too large looked for before the form
        ("source, text, Case", 'source, text.replace(b" 01", b"  1"), Case'),
        (
            ASKED,
            "    if any(word.isdigit() and int(word) > target.largest for word in text.split()):\n"
            "        return editions.print_line(22)\n" + ASKED,
        ),
        # what only a print refuses
        (READ, READ + "\n    if case.method not in (2, 3, 5):\n        return editions.print_line(2)"),
        (READ, READ + "\n    if len(table) != 2**case.n:\n        return editions.print_line(5)"),
        (READ, READ + "\n    if not table:\n        return editions.print_line(1)"),
        (READ, READ + "\n    case, table = [min(n, 255) for n in case], [min(n, 255) for n in table]"),
        (READ, READ + "\n    case, table = [n % 256 for n in case], [n % 256 for n in table]"),
        ("print_sheet(target, case, table)", "print_sheet(source, case, table)"),
        ("print_sheet(target, case, table)", "print_sheet(target, case, sorted(table))"),
        ("print_sheet(target, case, table)", "print_sheet(target, case, table[:255])"),
        ("print_sheet(target, case, table)", "print_sheet(target, case[:9], table)"),
        ("print_sheet(target, case, table)", "print_sheet(target, (*case[:7], case.r3, case.s2, case.b), table)"),
    ],
    "to_six_columns": [("OLD, editions.NEW", "NEW, editions.OLD"), ("OLD,", "NEW,"), ("NEW)", "OLD)")],
    "to_four_columns": [("NEW, editions.OLD", "OLD, editions.NEW"), ("NEW,", "OLD,"), ("OLD)", "NEW)")],
}


# What a program may do with numbers above 255 before it calls: cut them to bytes, make 255 of them, leave out such entries. Given are the
# call, what the program calls the first line's numbers, and their type.
def narrowed(call, first, form):
    right = f"{call}({first}, table,"
    for entries in ("entry % 256 for entry in table", "min(entry, 255) for entry in table", "entry for entry in table if entry < 256"):
        yield right, f"{call}({first}, [{entries}],"
    for numbers in (f"number % 256 for number in {first}", f"min(number, 255) for number in {first}"):
        yield right, f"{call}({form}(*({numbers})), table,"


# Or it may refuse such an entry before what else it has read is looked at; what it then hands back has the refusal's number in it.
def refused_early(read, handed_back="editions.print_line({})"):
    for refusal in (1, 6):
        yield read, f"{read}\n    if max(table, default=0) > 255:\n        return {handed_back.format(refusal)}"


PRINT = {
    "sheet_call": [
        ("editions.NEW", "editions.OLD"),
        *refused_early(READ, "{}, 0, []"),
        *narrowed("logged_call", "case", "Case"),
        ("return 1,", "return 2,"),
        ("return 1,", "return 0,"),
        ("log_length(3, 8)", "log_length(2, 8)"),
        ("log[:count]", "log"),
        ("log[:count]", "log[:count - 1]"),
        ("log[:count]", "log[:count + 1]"),
        ("return refusal, share, log", "return refusal % 12, share, log"),
        ("[0] * scratch_length(5, 8)", "[0] * 256"),
        ("[0] * scratch_length(5, 8)", "[0] * 511"),
        ("[0] * scratch_length(5, 8)", "[1] * 512"),
        ("[0] * scratch_length(5, 8)", "[0] * 255 + [1] * 257"),
        ("[0] * scratch_length(5, 8)", "[0] * 511 + [1]"),
    ],
    "bench": [
        ("editions.NEW", "editions.OLD"),
        *refused_early(READ),
        *narrowed("logged_call", "case", "Case"),
        ("print_line(1)", "print_line(2)"),
        ("print_line(1)", "print_line(1, columns=4)"),
        ("print_line(refusal)", "print_line(refusal, 0, 0)"),
        ("print_line(refusal)", "print_line(refusal, columns=4)"),
        ("print_line(at,", "print_line(at + 1,"),
        ("kind_of(log[at]), value_of(log[at])", "value_of(log[at]), kind_of(log[at])"),
        ("kind_of(log[at]), value_of(log[at])", "kind_of(log[at]), kind_of(log[at])"),
        ("kind_of(log[at])", "log[at] // 256"),
        ("kind_of(log[at])", "kind_of(log[at - 1])"),
        ("value_of(log[at]))", "value_of(log[at]), columns=4)"),
        ("value_of(log[at])", "log[at]"),
        ("value_of(log[at])", "value_of(log[at]) // 256"),
        ("print_line(0, share, count)", "print_line(0, count, share)"),
        ("print_line(0, share, count)", "print_line(0, share, count, columns=4)"),
        ("log_length(3, 8)", "log_length(2, 8)"),
        ("[0] * scratch_length(5, 8)", "[0] * 256"),
        ("[0] * scratch_length(5, 8)", "[0] * 511"),
        ("[0] * scratch_length(5, 8)", "[1] * 512"),
        ("[0] * scratch_length(5, 8)", "[0] * 255 + [1] * 257"),
        ("[0] * scratch_length(5, 8)", "[0] * 511 + [1]"),
    ],
}
