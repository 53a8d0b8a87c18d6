# Holds the number of each loop over a table, its scratch or its counts to 16 bits. No contract can see that: a wider number would be proved
# too. The code of the libraries is read that the archives stand on, and that of the kit's own library which they call (mir.py), where every
# number has its width, and the source of the archives' own functions, of which rt keeps no such code: they have no loop.
# Run: python3 tests/host/loop_numbers.py MIR SOURCE.., what mir.py prints and the sources of the archives. The status is 0 if every loop is
# as it must be.
import json
import re
import sys
from pathlib import Path

# The functions with such a loop.
OVER_TABLES = {
    "table::tally",
    "table::fitness::joined_counts",
    "table::fitness::find_difference",
    "table::fitness::is_period",
    "call_checks::dirty",
    "method2::fill",
    "method2::logged::fill",
    "method3::prepare",
    "method3::select",
    "method3::logged::select",
    "method5::fill_first",
    "method5::fill_second",
    "method5::logged::fill_first",
    "method5::logged::fill_second",
}
# The functions with a loop over something else, and what that is.
OTHERS = {
    "table::fitness::all_periods": "the bits of a value",
    "log_entries::put": "the kinds and values of a row, slices of any length",
    "buffers::clear": "a buffer of any length",
    "buffers::clear_numbers": "a buffer of any length, in no archive",
    "frame_rounds::ten": "the rounds",
    "screening::fed": "a run of any length",
    # of the kit's own library
    "core::iter::base::Iterator::any": "numbers of any length, in no archive",
    "core::fmt::builders::derived::end_of_word": "the name of a refusal, in no archive",
    "core::fmt::formatter::Formatter::write_indent": "the same",
    "core::fmt::formatter::Formatter::write_indented": "the same",
    "core::fmt::utf8::is_utf8": "the same",
}

# The functions that call a method of a type that is handed to them, and which. What is handed to them is read where it is handed.
THROUGH_A_BOUND = {
    "refusals::fn::any_number_from::any": "a number's value",
    "core::iter::base::Iterator::any": "the next item, the test of it, and what drops both",
    "core::result::ResultFromResidualErrResidual::from_residual": "the refusal as it is",
    "core::fmt::formatter::Formatter::write_raw": "what is written to",
}


# A function's statements as a tree, from the list that has each of them before those that it is made of.
def tree(statements):
    waiting = iter(statements)

    def next_one():
        statement = next(waiting)
        word = statement if isinstance(statement, str) else next(iter(statement))
        return [statement, *(next_one() for _ in range(parts_of(word, statement)))]

    whole = next_one()
    if next(waiting, None) is not None:
        raise ValueError("there are statements behind the last")
    return whole


SIMPLE = {"Assign", "Call", "Exit", "LendStatic", "Return", "Skip", "Unreachable"}


# Of how many statements one is made; it is an error where it is not known what it does.
def parts_of(word, statement):
    if word == "Switch":
        _, branches, has_rest = statement[word]
        return len(branches) + has_rest
    return {"Seq": 2, "If": 2, "Block": 1, "Loop": 1, **dict.fromkeys(SIMPLE, 0)}[word]


# The pieces of a term, itself among them, at any depth.
def pieces(term):
    waiting = [term]
    while waiting:
        piece = waiting.pop()
        yield piece
        if isinstance(piece, dict | list):
            waiting.extend(piece.values() if isinstance(piece, dict) else piece)


# What the pieces of a kind say.
def parts(term, word):
    return [piece[word] for piece in pieces(term) if isinstance(piece, dict) and word in piece]


def loops(statement):
    return [piece for piece in pieces(statement) if isinstance(piece, list) and piece[:1] == ["Loop"]]


# What a loop compares before each turn: the first operand of its first statement, a test whether one number is less than another.
def compared(loop):
    statement = loop[1]
    while statement[0] == "Seq":
        statement = statement[1]
    for _, value in parts(statement[:1], "Assign"):
        if "Op2" in value and value["Op2"][0] == {"Lt": "Unsigned"}:
            return value["Op2"][1]
    return None


# Each local that a loop counts up or down: the operation, the local and the amount.
def steps(loop):
    sums = [(place, value["Op2"]) for place, value in parts(loop, "Assign") if "Op2" in value]
    return [value for place, value in sums if counts(value[0]) and value[1] == {"Copy": place}]


def counts(operation):
    return isinstance(operation, dict) and bool({"Add", "Sub"} & operation.keys())


# The loop adds 1 to what it compares, and counts nothing else. Operands have one width, so the 1 tells the number's.
def has_number_of_16_bits(loop):
    return steps(loop) == [[{"Add": "Unsigned"}, compared(loop), {"Int": {"width": 16, "value": 1}}]]


# What is called, and what is handed on with a type: the methods of each impl.
def called(function):
    return {name for name, _ in parts(function, "Fn")} | {name for methods in parts(function, "methods") for name in methods}


def calls_through_a_bound(function):
    return any("Method" in call[0] for call in parts(function["body"], "Call"))


# Of the libraries' functions, by their names.
def complaints(functions):
    looping = set()
    for name, function in functions.items():
        if name in called(function):
            yield f"{name}: it calls itself"
        yield from (f"{name}: it calls {other}, which is not read" for other in sorted(called(function) - functions.keys()))
        if calls_through_a_bound(function) and name not in THROUGH_A_BOUND:
            yield f"{name}: it calls a method of a type that is handed to it, and is not listed"
        for loop in loops(tree(function["body"])):
            looping.add(name)
            if name in OVER_TABLES and not has_number_of_16_bits(loop):
                yield f"{name}: a loop that does not count by 1 in 16 bits, or counts something else too"
    yield from (f"{name}: a loop that is not listed" for name in sorted(looping - OVER_TABLES - OTHERS.keys()))
    yield from (f"{name}: no loop" for name in sorted((OVER_TABLES | OTHERS.keys()) - looping))


# Of an archive's own functions.
def complaints_of_source(file):
    text = re.sub("//.*", "", file.read_text())
    for word in re.findall(r"\b(while|for|loop|iter\w*)\b", text):
        yield f"{file}: {word}, in an archive's own function"
    for name in re.findall(r"\bfn (\w+)", text):
        if len(re.findall(rf"(?<!::)\b{name}\(", text)) != 1:
            yield f"{file}: {name}, which is called here"


def main():
    libraries = [json.loads(line) for line in Path(sys.argv[1]).read_text().splitlines()]
    found = list(complaints({name: function for library in libraries for name, function in library}))
    for file in sys.argv[2:]:
        found += complaints_of_source(Path(file))
    print("\n".join(found))
    sys.exit(1 if found else 0)


main()
