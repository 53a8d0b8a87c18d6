# Runs a linked program that answers sheets, bench, page, counts or a converter, and compares what it prints and its exit status with the
# model: from files, through a pipe in pieces that it must read one by one, on input longer than it can hold, on random and mutated input,
# and at a terminal, where alone it says what it waits for, on standard error, before anything is typed; and to a device that takes no
# output, where it says that.
# Run: python3 tests/host/print_test.py PROGRAM, or with --control behind it for wrong programs, each of which a way must notice.
# The status is 0, or 1 where something differs, is missing or goes unnoticed.
import contextlib
import fcntl
import functools
import itertools
import os
import pty
import random
import select
import signal
import subprocess
import sys
import tempfile
import termios
from collections.abc import Callable, Iterable
from pathlib import Path
from typing import NamedTuple

sys.path.insert(0, str(Path(__file__).resolve().parents[1] / "model"))
import conversion
import conversion_sheets
import count_sheets
import counts
import model
import page
import sheets
from editions import NEW, OLD
from wrong_programs import PAGE_FAULTS, wrong_programs


# What is asked of a program: its answer to a text; its sample, and the example that must be this; its sheets, the first two of which are
# legal, and how many these are; a mutated one, and how many are tried; what it waits for. And what its wrong programs change: a refusal,
# into which other; the last line of its longest print; how long the longest legal sheet is; how many they are, and what it alone can get
# wrong.
class Program(NamedTuple):
    answer: Callable[[bytes], bytes]
    sample: bytes
    example: str
    sheets: Callable[[], Iterable[bytes]]
    sheet_count: int
    mutated: Callable[[random.Random], bytes]
    mutated_count: int
    waits_for: str
    refusal: tuple[int, int]
    last_line: int
    longest: int
    wrong_count: int
    own_faults: tuple[tuple[str, int, str], ...] = ()


# What both converters are asked alike.
def converter(answer, sample, example, edition, refusal, longest):
    every = functools.partial(conversion_sheets.all_sheets, edition)
    waits_for = {OLD: "case sheet of four columns", NEW: "case sheet of six columns"}[edition]
    return Program(answer, sample, example, every, 1222, conversion_sheets.mutated, 20000, waits_for, refusal, 257, longest, 27)


PROGRAMS = {
    "bench": Program(
        *(model.bench, sheets.SAMPLE, "p1.sheet", sheets.all_sheets, 577, sheets.mutated, 20000),
        *("case sheet", (12, 11), 2313, 1853, 27),
    ),
    "page": Program(
        *(page.page, sheets.SAMPLE, "p1.sheet", sheets.page_sheets, 583, sheets.mutated, 20000),
        *("case sheet", (12, 11), 482, 1853, 34, PAGE_FAULTS),
    ),
    # counting takes the model long, and the same sheets come again
    "counts": Program(
        *(functools.cache(counts.counts), count_sheets.SAMPLE, "p12.counts", count_sheets.all_sheets, 524, count_sheets.mutated, 2000),
        *("probe sheet", (16, 15), 8, 1829, 27),
    ),
    "to_six_columns": converter(conversion.to_six_columns, sheets.OLD_SAMPLE, "old/p1.sheet", OLD, (1, 2), 1321),
    "to_four_columns": converter(conversion.to_four_columns, sheets.SAMPLE, "p1.sheet", NEW, (22, 1), 1853),
}
EXAMPLES = Path(__file__).resolve().parents[2] / "examples"
LONGEST_RUN = 20  # seconds
LONGEST_SILENCE = 5  # seconds at a terminal, until typing begins all the same


# Standard input, output and error are files, used again for each run: starting the program is most of the work.
def run_on_files(files, command, text):
    for file, content in zip(files, (text, b"", b""), strict=True):
        file.seek(0)
        file.truncate()
        file.write(content)
        file.seek(0)
    actions = [(os.POSIX_SPAWN_DUP2, file.fileno(), number) for number, file in enumerate(files)]
    signal.alarm(LONGEST_RUN)
    _, status = os.waitpid(os.posix_spawn(command[0], command, os.environ, file_actions=actions), 0)
    signal.alarm(0)
    printed, said = (os.pread(file.fileno(), 1 << 20, 0) for file in files[1:])
    return os.waitstatus_to_exitcode(status), printed, said


def from_files(command, texts):
    with contextlib.ExitStack() as stack:
        files = [stack.enter_context(tempfile.TemporaryFile(buffering=0)) for _ in range(3)]
        for text in texts:
            yield text, *run_on_files(files, command, text)


# Single bytes at first, then larger pieces.
def pieces(text):
    ends = [*range(min(64, len(text))), *range(64, len(text), 97), len(text)]
    return [text[start:end] for start, end in zip(ends, ends[1:])]


def unread(pipe):
    return int.from_bytes(fcntl.ioctl(pipe, termios.FIONREAD, bytes(4)), sys.byteorder)


# The next piece is written when the last one was read, so that no read gets two of them.
def in_pieces(command, texts):
    for text in texts:
        process = subprocess.Popen(command, stdin=subprocess.PIPE, stdout=subprocess.PIPE, stderr=subprocess.PIPE, bufsize=0)
        signal.alarm(LONGEST_RUN)
        with contextlib.suppress(BrokenPipeError):  # a wrong program may end before it has read all
            for piece in pieces(text):
                process.stdin.write(piece)
                while unread(process.stdin) and process.poll() is None:
                    os.sched_yield()
        printed, said = process.communicate()
        signal.alarm(0)
        yield text, process.returncode, printed, said


# A line, or less where the program ends or is silent.
def first_line(stream):
    line, piece = b"", b"any"
    while piece and not line.endswith(b"\n") and select.select([stream], [], [], LONGEST_SILENCE)[0]:
        piece = os.read(stream.fileno(), 4096)
        line += piece
    return line


# What is said before anything is typed, and what afterwards, stand around a mark.
def at_terminal(command, texts):
    for text in texts:
        ours, theirs = pty.openpty()
        process = subprocess.Popen(command, stdin=theirs, stdout=subprocess.PIPE, stderr=subprocess.PIPE)
        os.close(theirs)
        signal.alarm(LONGEST_RUN)
        before = first_line(process.stderr)
        os.write(ours, text + b"\x04")
        printed, said = process.communicate()
        signal.alarm(0)
        os.close(ours)
        yield text, process.returncode, printed, before + TYPING + said


# Nothing can be written; what would have been is not known.
def to_full_device(command, texts):
    for text in texts:
        with open("/dev/full", "wb") as full:
            process = subprocess.run(command, input=text, stdout=full, stderr=subprocess.PIPE, timeout=LONGEST_RUN)
        yield text, process.returncode, b"", process.stderr


def mutated_texts(program):
    chance = random.Random(7)
    for _ in range(program.mutated_count):
        yield program.mutated(chance)


# What a terminal hands on as it was typed, a line at a time, until Ctrl-D.
def typed_texts(program):
    return b"", b"waiting\n", *itertools.islice(program.sheets(), 2)


# The ways to run a program: how, on what, and how many inputs that are.
WAYS = {
    "files": (from_files, lambda program: program.sheets(), lambda program: program.sheet_count),
    "pieces": (in_pieces, lambda program: program.sheets(), lambda program: program.sheet_count),
    "long": (from_files, lambda program: [program.sample * 200], lambda program: 1),
    "mutated": (from_files, mutated_texts, lambda program: program.mutated_count),
    "terminal": (at_terminal, typed_texts, lambda program: 4),
    "full": (to_full_device, typed_texts, lambda program: 4),
}
TYPING = b"TYPING\n"
NOT_WRITTEN = b"the output could not be written whole\n"


def waiting(program):
    return f"waiting for a {program.waits_for} (docs/REFERENCE.md has its form); Ctrl-D ends it\n"


# How many inputs were compared, and those on which the command differs from the model of the program.
def compare(program, way, command, limit=None):
    run, texts, _ = WAYS[way]
    compared, differing = 0, []
    wanted = {"terminal": waiting(program).encode() + TYPING, "full": NOT_WRITTEN}.get(way, b"")
    for text, status, printed, said in run(command, itertools.islice(texts(program), limit)):
        compared += 1
        if (status, printed, said) != (0, b"" if way == "full" else program.answer(text), wanted):
            differing.append(f"{way}: differs on {text[:80]!r}: status {status}, {printed[:60]!r}, {said[:60]!r}")
    return compared, differing


# The example that is the sample, and those beside it, none of which may be refused: one number alone is a refusal.
def wrong_examples(program):
    example = EXAMPLES / program.example
    if example.read_bytes() != program.sample:
        yield f"examples/{program.example} is not the sample"
    for path in example.parent.glob(f"*{example.suffix}"):
        if len(program.answer(path.read_bytes()).split()) == 1:
            yield f"{path.name} is refused"


def test(program, command, limit=None):
    yield from wrong_examples(program)
    for way, (_, _, count) in WAYS.items():
        compared, differing = compare(program, way, command, limit)
        print(f"{way}: {compared} inputs, {len(differing)} differ")
        yield from differing[:5]
        if compared != count(program):
            yield f"{way}: {count(program)} inputs are wanted"


# The test itself must complain, of each way, about a program that writes the same always, and about too few inputs.
def silent_ways(program, file):
    complaints = list(test(program, ["/bin/sh", "-c", "cat >/dev/null; echo wrong", file], 1))
    for way, (_, _, count) in WAYS.items():
        if not any(complaint.startswith(f"{way}: differs") for complaint in complaints):
            yield f"{way}: the test says nothing of a wrong program"
        if count(program) > 1 and f"{way}: {count(program)} inputs are wanted" not in complaints:
            yield f"{way}: the test says nothing of too few inputs"


# What differs must be the wrong programs' doing, so the right one must not.
def control(program, file):
    yield from silent_ways(program, file)
    compared, differing = compare(program, "files", [file], 20)
    if compared != 20 or differing:
        yield "files: the right program differs"
    tried = 0
    for what, way, limit, script in wrong_programs(program, waiting(program), WAYS):
        tried += 1
        compared, differing = compare(program, way, ["/bin/sh", "-c", script, file], limit)
        print(f"{what}, {way}: {compared} inputs, {len(differing)} differ")
        if not differing:
            yield f"{what}: {way} does not notice it"
    if tried != program.wrong_count:
        yield f"{tried} wrong programs were tried, and not {program.wrong_count}"


def main():
    file = os.path.abspath(sys.argv[1])
    program = PROGRAMS[os.path.basename(file)]
    found = list(control(program, file) if sys.argv[2:] == ["--control"] else test(program, [file]))
    for complaint in found:
        print(complaint)
    sys.exit(1 if found else 0)


if __name__ == "__main__":
    main()
