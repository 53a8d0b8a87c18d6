# What a frame's instructions are for: the turns of its lookups, clearing, and the rest, in which the screening is.
# Run: python3 tests/speed/parts.py PROGRAM FUNCTION prints the three numbers of one call of the function. PROGRAM is a frame_speed that is
# linked at fixed addresses, as objdump prints them; callgrind counts the frames that it compares before it does anything else.
import collections
import re
import subprocess
import sys

# What runs so often in a frame is in the turns: there are 51200 of them, and of all else at most 632, one for each random byte.
OFTEN = 1000
OPTIONS = ("--tool=callgrind", "--dump-instr=yes", "--compress-pos=no", "--compress-strings=no")


# How often each instruction of each function ran, while the given one did.
def counts(program, function):
    file = f"{program}.counts"
    command = ["valgrind", *OPTIONS, f"--toggle-collect={function}", f"--callgrind-out-file={file}", program, "nothing_frame", "0"]
    subprocess.run(command, check=True, stderr=subprocess.DEVNULL)
    found, within, of_callee = collections.Counter(), None, False
    for line in open(file):
        if line.startswith("fn="):
            within = line
        elif line.startswith("0x") and not of_callee:
            address, _, count = line.split()
            found[within, int(address, 16)] += int(count)
        of_callee = line.startswith("calls=")
    return found


# The addresses of the instructions that have a vector register.
def vector_addresses(program):
    text = subprocess.run(["objdump", "-d", "--no-show-raw-insn", program], check=True, capture_output=True, text=True).stdout
    return {int(address, 16) for address in re.findall(r"^ *([0-9a-f]+):.*%xmm", text, re.MULTILINE)}


def main():
    found, vectors = counts(*sys.argv[1:]), vector_addresses(sys.argv[1])
    calls = min(found.values())
    turns = {key: count for key, count in found.items() if count // calls >= OFTEN}
    # The function that has the turns clears by vector instructions, and has no other. The last of 201 clearings follows the last lookup.
    looks_up = {within for within, _ in turns}
    clearing = sum(count for (within, address), count in found.items() if within in looks_up and address in vectors) * 201 // 200
    rest = sum(found.values()) - sum(turns.values()) - clearing
    print(*(part // calls for part in (sum(turns.values()), clearing, rest)))


main()
