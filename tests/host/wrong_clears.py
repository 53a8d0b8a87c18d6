# The control of tests/host/clear_test.c: wrong clearing calls, each of which the group named beside it must notice. Each is a body in C,
# exported in the place of the archive's call. Run: python3 tests/host/wrong_clears.py (status 0 if the right one passes whole and every
# wrong one is noticed, 1 otherwise, with a line for each that is not).
import subprocess
from pathlib import Path

from controls import end_control

HOST = Path(__file__).resolve().parent
COMPILE = ["cc", "-std=c99", "-O2", f"-I{HOST.parents[1] / 'include'}"]
TEST = ("clear_test", "groups")
FUNCTION = '#include "cippazhey.h"\nvoid cippazhey_clear(uint8_t *buffer, size_t length) {{ (void)buffer; (void)length; {} }}\n'


# What is done at each place from a first one to before an end.
def each_byte(statement="buffer[at] = 0;", first="0", end="length"):
    return f"for (size_t at = {first}; at < {end}; at++) {{ {statement} }}"


RIGHT = each_byte()


def stops_at(most):
    return each_byte(end=f"(length < {most} ? length : {most})")


# Only bytes of which the condition holds are cleared.
def clears_where(condition):
    return each_byte(f"if ({condition}) {{ buffer[at] = 0; }}")


WRONG_CLEARS = {
    "no_buffer": {
        "a byte at NULL": f"{RIGHT} if (length == 0) {{ *(volatile uint8_t *)buffer = 0; }}",
    },
    "lengths": {
        "nothing done": "",
        "all but the first byte": each_byte(first="1"),
        "all but the last byte": each_byte(end="length - (length > 0)"),
        "a byte too many": each_byte(end="length + 1"),
        "the byte before": f"{RIGHT} buffer[-1] = 0;",
        "a byte of an empty buffer": f"{RIGHT} if (length == 0) {{ buffer[0] = 0; }}",
        "255 bytes at most": stops_at(255),
        "256 bytes at most": stops_at(256),
        "length cut to 8 bits": each_byte(end="length % 256"),
        "length cut to 9 bits": each_byte(end="length % 512"),
        "every second byte": clears_where("at % 2 == 0"),
        "whole words alone": each_byte(end="length / 8 * 8"),
        "words, the last one whole": each_byte(end="(length + 7) / 8 * 8"),
        "from the next word on": clears_where("at >= 16 || at >= -(uintptr_t)buffer % 16"),
        "one alignment left": clears_where("(uintptr_t)buffer % 16 != 13"),
        "ones": each_byte("buffer[at] = 1;"),
        "each byte less the first": each_byte("buffer[at] = (uint8_t)(buffer[at] - buffer[0]);"),
    },
    "values": {
        "bytes from 128 on left": clears_where("buffer[at] < 128"),
        "bytes below 128 left": clears_where("buffer[at] >= 128"),
        "even bytes left": clears_where("buffer[at] % 2 == 1"),
        "one value left": clears_where("buffer[at] != 77"),
        "255 left": clears_where("buffer[at] != 255"),
        "the highest bit left": each_byte("buffer[at] &= 128;"),
        "zeros turned into ones": each_byte("buffer[at] = buffer[at] == 0;"),
    },
    "places": {
        "up to the first zero": each_byte("if (buffer[at] == 0) { break; } buffer[at] = 0;"),
        "not where the first byte is zero": f"if (length > 0 && buffer[0] == 0) {{ return; }} {RIGHT}",
        "not where the last byte is zero": f"if (length > 0 && buffer[length - 1] == 0) {{ return; }} {RIGHT}",
        "not where the bytes' sum is small": f"unsigned sum = 0; {each_byte('sum += buffer[at];')} if (sum > 3) {{ {RIGHT} }}",
    },
    "long_lengths": {
        "65535 bytes at most": stops_at(65535),
        "65536 bytes at most": stops_at(65536),
        "1048576 bytes at most": stops_at(1048576),
        "length cut to 16 bits": each_byte(end="length % 65536"),
        "place cut to 16 bits": each_byte("buffer[at % 65536] = 0;"),
        "the byte behind a long buffer": f"{RIGHT} if (length > 65536) {{ buffer[length] = 0; }}",
    },
}


def build(*words):
    subprocess.run([*COMPILE, *words], check=True, timeout=60)


def run(folder, body, *group):
    (folder / "clear.c").write_text(FUNCTION.format(body))
    build(*(folder / f"{name}.o" for name in TEST), folder / "clear.c", "-o", folder / "test")
    return subprocess.run([folder / "test", *group], capture_output=True, text=True, timeout=60)


# A wrong one makes a comparison come out ill, or is stopped by the system.
def noticed(done):
    return done.returncode < 0 or (done.returncode == 1 and "DIFFERS: " in done.stdout)


def complaints(folder):
    for name in TEST:
        build("-c", HOST / f"{name}.c", "-o", folder / f"{name}.o")
    if run(folder, RIGHT).returncode != 0:
        yield "the right one does not pass"
    for group, clears in WRONG_CLEARS.items():
        for name, body in clears.items():
            done = run(folder, body, group)
            if not noticed(done):
                yield f"{name}: {group} does not notice it\n{done.stdout}"
    print(sum(map(len, WRONG_CLEARS.values())), "wrong clears")


end_control(complaints)
