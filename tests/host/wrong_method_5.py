# Wrong calls for tests/host/wrong_calls.py that do something else under method 5: edits of the reference.
from wrong_call_edits import CLEAN_CHECK, ENTRIES, LAST_LINE, REFUSED, before, check_before, each_byte, looks_at

METHODS = "call.method != 3 && call.method != 5"
HALVES = "*first = scratch, *second = scratch + entries"
HALVES_LINE = f"    uint8_t {HALVES};\n"
FIRST_PASS = "    for (uint32_t a = 0; a < entries; a++) {\n        first[a]"
SECOND_PASS = "    for (uint32_t a = 0; a < entries; a++) {\n        second[a]"
ANSWER = "    return second[call.x0];\n"
OWN_MASKS = "call.r3 > 0 || call.b > 0"
NEEDED = "call.method == 5 ? 2 * entries : entries"
SHARES_CHECK = "    if (call.x0 >="
OUTPUT_MASKS_CHECK = "    if (call.s1 >="


def exchanged(one, other):
    return before(HALVES_LINE, f"uint32_t kept = call.{one};", f"call.{one} = call.{other};", f"call.{other} = kept;")


# What stands in the scratch afterwards is something else, and the share is right.
def left(statement):
    return ANSWER, f"    uint8_t share = second[call.x0];\n    {each_byte('entries', statement)}\n    return share;\n"


BENCH_SHEET = {
    "method 5 refused": (METHODS, "call.method != 3"),
    "method 4 accepted": (METHODS, f"{METHODS} && call.method != 4"),
    "methods from 5 on accepted": (METHODS, "call.method != 3 && call.method < 5"),
    "method 2 for method 5": ("default: return method_5(", "default: return method_2("),
    "another share": (ANSWER, ANSWER.replace("]", "] ^ 1")),
    "the first half's byte x0": (ANSWER, ANSWER.replace("second", "first")),
    "the second half's first byte": (ANSWER, ANSWER.replace("call.x0", "0")),
    "r1 left out": ("call.table[a ^ call.r1]", "call.table[a]"),
    "r2 left out": ("first[a ^ call.r2]", "first[a]"),
    "s1 left out": ("call.table[a ^ call.r1] ^ call.s1", "call.table[a ^ call.r1]"),
    "s2 left out": ("first[a ^ call.r2] ^ call.s2", "first[a ^ call.r2]"),
    "r1 and r2 exchanged": exchanged("r1", "r2"),
    "s1 and s2 exchanged": exchanged("s1", "s2"),
    "halves exchanged": (HALVES, "*first = scratch + entries, *second = scratch"),
    "one half alone": (HALVES, "*first = scratch, *second = scratch"),
    "the second half one byte further": (HALVES, "*first = scratch, *second = scratch + entries + 1"),
    "the first half cleared": left("first[at] = 0;"),
    "the second half cleared": left("second[at] = 0;"),
    "both masks in the first half": left("first[at] ^= (uint8_t)call.s2;"),
    "r3 accepted": (OWN_MASKS, "call.b > 0"),
    "b accepted": (OWN_MASKS, "call.r3 > 0"),
    "12 for an r3 that is too large": check_before(SHARES_CHECK, "call.method == 5 && call.r3 > 0", 12),
    "10 for an r3 that is not 0": check_before(SHARES_CHECK, "call.method == 5 && call.r3 > 0", 10),
    "13 by one half": (NEEDED, "entries"),
    "13 for less than one half alone": ("scratch_length < needed(call)", f"scratch_length < {ENTRIES}"),
    "19 by the first half": looks_at(f"scratch, {ENTRIES}"),
    "19 by the second half": looks_at(f"scratch + needed(call) - {ENTRIES}, {ENTRIES}"),
}
NEIGHBOURS = {
    "methods from 5 on accepted": BENCH_SHEET["methods from 5 on accepted"],
    "r3 up to 1": (OWN_MASKS, "call.r3 > 1 || call.b > 0"),
    "b up to 1": (OWN_MASKS, "call.r3 > 0 || call.b > 1"),
    "r3 and b not both": (OWN_MASKS, "call.r3 > 0 && call.b > 0"),
    "r3 not bounded": ("call.r3 >= entries", "(call.method != 5 && call.r3 >= entries)"),
    "12 for an r3 that is too large": BENCH_SHEET["12 for an r3 that is too large"],
    "11 for an r3 that is not 0": check_before(OUTPUT_MASKS_CHECK, "call.method == 5 && call.r3 > 0", 11),
    "two bytes an entry under method 3": (NEEDED, "call.method != 2 ? 2 * entries : entries"),
    "two bytes an entry under every method": (NEEDED, "2 * entries"),
    "a byte an entry under every method": (NEEDED, "entries"),
    "two bytes an entry and one more": (NEEDED, "call.method == 5 ? 2 * entries + 1 : entries"),
    "256 bytes at most": (NEEDED, "call.method == 5 && call.n < 8 ? 2 * entries : entries"),
    "19 by the first half": BENCH_SHEET["19 by the first half"],
    "the second half written on refusal": before(
        REFUSED, f"if (number != 0 && call.n <= 8 && scratch_length > {ENTRIES}) {{ scratch[{ENTRIES}] ^= 1; }}"
    ),
}
SEVERAL_FAULTS = {
    "12 before 10 under method 5": BENCH_SHEET["12 for an r3 that is too large"],
    "12 for r3 before 11": check_before(OUTPUT_MASKS_CHECK, "call.method == 5 && call.r3 > 0", 12),
    "19 for the first half before 13": check_before(
        "    if (scratch_length < needed(call)) {\n", f"scratch_length >= {ENTRIES} && !clean(scratch, {ENTRIES})", 19
    ),
}
SMALL_WIDTHS = {
    "one choice of masks under method 5": before(
        LAST_LINE, "share ^= call.method == 5 && call.n == 2 && call.x0 == 2 && call.r1 == 3 && call.r2 == 1 && call.s1 == 1;"
    ),
    "the first pass without its last turn": (FIRST_PASS, FIRST_PASS.replace("entries", "entries - 1")),
    "the second pass without its last turn": (SECOND_PASS, SECOND_PASS.replace("entries", "entries - 1")),
    "the second pass without its first turn": (SECOND_PASS, SECOND_PASS.replace("a = 0", "a = 1")),
}
CALLS_IN_A_ROW = {
    "another share than the other methods": before(LAST_LINE, "share ^= call.method == 5;"),
    "the second half not looked at": BENCH_SHEET["19 by the first half"],
    "the second half left clean": left("second[at] = 0;"),
    "the second half looked at under every method": before(CLEAN_CHECK, "if (!clean(scratch, scratch_length)) { return 19; }"),
}
RANDOM_CALLS = {
    "one x0 at one width under method 5": before(LAST_LINE, "share ^= call.method == 5 && call.n == 7 && call.x0 == 77;"),
    "a byte behind both halves": before(LAST_LINE, "if (call.method == 5 && call.n == 8 && scratch_length > 512) { scratch[512] ^= 1; }"),
}
