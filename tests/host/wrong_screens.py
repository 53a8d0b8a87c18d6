# The control of tests/host/screen_test.c: wrong screens, each of which the group named beside it must notice. A wrong screen is a right one
# with an edit, exported in the place of the archive's call. In a common fault it is the reference that has the edit, and stands in both
# places: what is known of a run has to notice it; and it has to notice a reference that alone is wrong.
# Run: python3 tests/host/wrong_screens.py (status 0 if the right screens pass whole and every wrong one is noticed, 1 otherwise, with a line
# for each that is not).
import signal
import subprocess
import sys
from pathlib import Path

from controls import end_control

HOST = Path(__file__).resolve().parent
sys.path.insert(0, str(HOST.parent / "model"))
from edits import edited

# Fewer random runs than the test has are enough here.
COMPILE = ["cc", "-std=c99", "-O2", f"-I{HOST}", f"-I{HOST.parents[1] / 'include'}", "-DRANDOM_RUNS=400"]
TEST = ("screen_test", "screen_buffers", "screen_trial", "runs", "pages", "numbers", "groups")
COMMON = "-Wl,--defsym=cippazhey_screen=reference_screen"

# It keeps a record of the last 512 bytes, where the reference counts each window anew.
RIGHT = """#include "cippazhey.h"
uint64_t cippazhey_screen(const uint8_t *run, size_t length) {
    uint64_t start = CIPPAZHEY_NO_FAULT;
    uint8_t ring[512];
    uint16_t counts[256] = {0};
    for (size_t at = 0; at < length; at++) {
        uint8_t byte = run[at];
        if (at >= 512) {
            counts[ring[at % 512]]--;
        }
        ring[at % 512] = byte;
        counts[byte]++;
        if (counts[byte] > 20) {
            start = at < 512 ? 0 : at - 511;
            break;
        }
    }
    return start;
}
"""
# The pieces of it that the edits replace, or put something before.
RING = "    uint8_t ring[512];\n"
COUNTS = "    uint16_t counts[256] = {0};\n"
LOOP = "size_t at = 0; at < length; at++"
BYTE = "uint8_t byte = run[at];"
LEAVE = "        if (at >= 512) {\n            counts[ring[at % 512]]--;\n        }\n"
COUNT = "        counts[byte]++;\n"
LOOK = "if (counts[byte] > 20)"
START = "start = at < 512 ? 0 : at - 511;"
BREAK = "            break;\n"
NO_FAULT = "start = CIPPAZHEY_NO_FAULT;"
END = "    return start;\n"


def before(piece, added):
    return piece, f"    {added}\n{piece}"


def looks_if(condition):
    return LOOK, f"if ({condition} && counts[byte] > 20)"


def stops_at(length):
    return LOOP, LOOP.replace("length", length)


# The byte that leaves is another one, or leaves under another condition.
def leaves(condition, byte="ring[at % 512]"):
    return LEAVE, f"        if ({condition}) {{ counts[{byte}]--; }}\n"


# A window of another length. The first one starts at 0 as before.
def window(length):
    return leaves(f"at >= {length}", f"run[at - {length}]")


# A byte is read, whatever it is.
def reads(byte):
    return before(RING, f"(void)*(volatile const uint8_t *)&run[{byte}];")


NO_RUN = {
    "a byte at NULL": reads("0"),
    "an empty run faulty": before(RING, "if (length == 0) { return 0; }"),
}
LENGTHS = {
    "20 of a value faulty": (LOOK, "if (counts[byte] >= 20)"),
    "21 of a value not faulty": (LOOK, "if (counts[byte] > 21)"),
    "short runs never faulty": looks_if("length >= 512"),
    "long runs never faulty": looks_if("length <= 632"),
    "nothing screened": stops_at("0"),
    "everything faulty": before(RING, "if (length > 0) { return 0; }"),
    "no fault as 0": (NO_FAULT, "start = 0;"),
    "no fault as the length": (NO_FAULT, "start = length;"),
    "a 32-bit result": (NO_FAULT, "start = UINT32_MAX;"),
    "a result with a sign": (NO_FAULT, "start = INT64_MAX;"),
    "length cut to 8 bits": stops_at("length % 256"),
    "length cut to 9 bits": stops_at("length % 512"),
    "only 0 screened": looks_if("byte == 0"),
    "0 not screened": looks_if("byte != 0"),
    "255 not screened": looks_if("byte != 255"),
    "one value not screened": looks_if("byte != 77"),
    "values from 128 on not screened": looks_if("byte < 128"),
    "the counts of the call before": (COUNTS, "    static uint16_t counts[256];\n"),
}
OCCURRENCES = {
    "20 of a value faulty": LENGTHS["20 of a value faulty"],
    "21 of a value not faulty": LENGTHS["21 of a value not faulty"],
    "only bytes in a row counted": before(COUNT, "if (at > 0 && byte != run[at - 1]) { counts[byte] = 0; }"),
    "bytes in a row counted once": before(COUNT, "if (at > 0 && byte == run[at - 1]) { continue; }"),
    "neighbouring values counted together": (BYTE, "uint8_t byte = run[at] / 2;"),
    "values of 7 bits": (BYTE, "uint8_t byte = run[at] % 128;"),
    "one value at one length": looks_if("(byte != 200 || length != 632)"),
}
OFFSETS = {
    "a window of 511": window(511),
    "a window of 513": window(513),
    "a window of 256": window(256),
    "no byte taken off": leaves("0"),
    "the byte behind it taken off": leaves("at >= 512", "ring[(at + 1) % 512]"),
    "not taken off where the record begins anew": leaves("at >= 512 && at % 512 != 0"),
    "not taken off before it begins anew": leaves("at >= 512 && at % 512 != 511"),
    "not taken off later": leaves("at >= 512 && at < 1024"),
    "windows side by side": (LEAVE, "for (int value = 0; value < 256 && at % 512 == 0; value++) { counts[value] = 0; }\n"),
    "only the first window": looks_if("at < 512"),
    "the first window left out": looks_if("at >= 512"),
    "the second window left out": looks_if("at != 512"),
    "the last window left out": looks_if("at + 1 < length"),
    "the byte before looked at": (LOOK, "if (at > 0 && counts[run[at - 1]] > 20)"),
    "start one late": (START, "start = at < 511 ? 0 : at - 510;"),
    "start one early": (START, "start = at < 513 ? 0 : at - 512;"),
    "start counted from 1": (START, "start = at < 512 ? 1 : at - 510;"),
    "start always 0": (START, "start = 0;"),
    "the place of the 21st": (START, "start = at;"),
    "start in the record": (START, "start = at < 512 ? 0 : (at - 511) % 512;"),
    "start in 8 bits": (START, "start = at < 512 ? 0 : (uint8_t)(at - 511);"),
    "all but the first byte": (LOOP, LOOP.replace("at = 0", "at = 1")),
    "all but the last byte": stops_at("length - (length > 0)"),
    "every second byte": (LOOP, LOOP.replace("at++", "at += 2")),
}
DISTANCES = {
    "windows side by side": OFFSETS["windows side by side"],
    "not taken off for its like": leaves("at >= 512 && ring[at % 512] != byte"),
    "a full count not taken off": leaves("at >= 512 && counts[ring[at % 512]] < 20"),
}
SEVERAL_FAULTS = {
    "the last fault": (BREAK, ""),
    "up to 22 of a value": (BREAK, "            if (counts[byte] > 21) { break; }\n"),
    "10 not screened": looks_if("byte != 10"),
}
ENDS_OF_PAGES = {
    "the byte behind read": reads("length"),
    "the byte before read": reads("-1"),
    "a word at the end read": before(COUNT, "if (at + 1 == length) { (void)*(volatile const uint8_t *)&run[at + 7]; }"),
    "a byte behind a faulty run read": (START, f"{START} (void)*(volatile const uint8_t *)&run[length];"),
    "a byte written back": before(COUNT, "*(volatile uint8_t *)&((uint8_t *)run)[at] = byte;"),
    "the last byte written back": before(END, "if (length > 0) { *(volatile uint8_t *)&((uint8_t *)run)[length - 1] = run[length - 1]; }"),
}
NEIGHBOURS = {
    "a byte too many": stops_at("length + 1"),
    "whole words": stops_at("(length + 7) / 8 * 8"),
    "the byte before": (LOOP, "size_t at = (size_t)-1; at + 1 < length + 1; at++"),
    "one alignment": (LOOK, "if (counts[byte] > 20 || (uintptr_t)run % 16 == 9)"),
    "the run cleared": before(END, "for (size_t at = 0; at < length; at++) { ((uint8_t *)run)[at] = 0; }"),
}
LONG_RUNS = {
    "65536 bytes at most": stops_at("(length < 65536 ? length : 65536)"),
    "131072 bytes at most": stops_at("(length < 131072 ? length : 131072)"),
    "length cut to 16 bits": stops_at("length % 65536"),
    "start cut to 16 bits": (START, "start = at < 512 ? 0 : (uint16_t)(at - 511);"),
    "0 for the start after 65536 bytes": (START, "start = (uint16_t)at < 512 ? 0 : at - 511;"),
    "counts anew after 65536 bytes": before(COUNT, "for (int value = 0; value < 256 && at == 65536; value++) { counts[value] = 0; }"),
    "not taken off after 65536 bytes": leaves("(uint16_t)at >= 512"),
}
BEYOND_32_BITS = {"length cut to 32 bits": stops_at("(uint32_t)length")}
RANDOM_RUNS = {
    "a window of 511": OFFSETS["a window of 511"],
    "one value in eight not taken off": leaves("at >= 512 && ring[at % 512] % 8 != 3"),
    "one start in eight": (START, "start = at < 512 ? 0 : at - 511 + (at % 8 == 3);"),
}
WRONG_SCREENS = {
    "no_run": NO_RUN,
    "lengths": LENGTHS,
    "occurrences": OCCURRENCES,
    "offsets": OFFSETS,
    "distances": DISTANCES,
    "several_faults": SEVERAL_FAULTS,
    "ends_of_pages": ENDS_OF_PAGES,
    "neighbours": NEIGHBOURS,
    "long_runs": LONG_RUNS,
    "beyond_32_bits": BEYOND_32_BITS,
    "random_runs": RANDOM_RUNS,
}
# Edits of the reference.
COMMON_FAULTS = {
    "lengths": {
        "19 of a value at most": ("MOST = 20", "MOST = 19"),
        "21 of a value at most": ("MOST = 20", "MOST = 21"),
        "20 of a value faulty": ("> MOST", ">= MOST"),
        "counts in 8 bits": ("size_t counts", "uint8_t counts"),
        "short runs never faulty": ("faulty(run, length) ? 0 : UINT64_MAX", "UINT64_MAX"),
        "the value 0 left out": ("int value = 0", "int value = 1"),
        "the value 255 left out": ("value < VALUES", "value < VALUES - 1"),
        "no fault as 0": ("    return UINT64_MAX;\n", "    return 0;\n"),
    },
    "offsets": {
        "a window of 511": ("WINDOW = 512", "WINDOW = 511"),
        "a window of 513": ("WINDOW = 512", "WINDOW = 513"),
        "the last window left out": ("start + WINDOW <= length", "start + WINDOW < length"),
        "every second window": ("start++", "start += 2"),
        "start one late": ("return start;", "return start + 1;"),
    },
    "several_faults": {
        "the last fault": ("size_t start = 0; start + WINDOW <= length; start++", "size_t start = length - WINDOW + 1; start-- > 0;"),
    },
}


def build(*words):
    subprocess.run([*COMPILE, *words], check=True, timeout=60)


def build_objects(folder):
    for name in TEST:
        build("-c", HOST / f"{name}.c", "-o", folder / f"{name}.o")


# The test program over a screen, run on a group, or on all. It is compared with a reference, or in a common fault with itself.
def run(folder, screen, reference, *group):
    (folder / "screen.c").write_text(screen)
    compared = COMMON
    if reference:
        compared = folder / "reference.c"
        compared.write_text(reference)
    build(folder / "screen.c", *(folder / f"{name}.o" for name in TEST), compared, "-o", folder / "test")
    return subprocess.run([folder / "test", *group], capture_output=True, text=True, timeout=60)


# A wrong one makes a comparison come out ill, or is stopped by the system.
def noticed(done):
    return done.returncode == -signal.SIGSEGV or (done.returncode == 1 and "DIFFERS: " in done.stdout)


# Screen and reference of each kind of wrong one, by its edit; what is edited, and how many must have been tried.
REFERENCE = (HOST / "screen_reference.c").read_text()
KINDS = {
    "wrong screens": (lambda *edit: (edited(RIGHT, *edit), REFERENCE), WRONG_SCREENS, 79),
    "common faults": (lambda *edit: (edited(REFERENCE, *edit), None), COMMON_FAULTS, 14),
    "wrong references": (lambda *edit: (RIGHT, edited(REFERENCE, *edit)), COMMON_FAULTS, 14),
}


def complaints(folder):
    build_objects(folder)
    for right in ((RIGHT, REFERENCE), (REFERENCE, None)):
        done = run(folder, *right)
        if noticed(done) or done.returncode != 0:
            yield "a right one does not pass"
    for kind, (made, groups, number) in KINDS.items():
        tried = 0
        for group, edits in groups.items():
            for name, edit in edits.items():
                done = run(folder, *made(*edit), group)
                tried += 1
                if not noticed(done):
                    yield f"{kind}, {name}: {group} does not notice it\n{done.stdout}"
        print(tried, kind)
        if tried != number:
            yield f"{tried} {kind} were tried, and not {number}"


end_control(complaints)
