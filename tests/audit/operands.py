# Lists where the instructions of a program read and write memory, from objdump's listing of it.
# Run: objdump -d -M intel --no-show-raw-insn PROGRAM | python3 tests/audit/operands.py > TABLE
#
# A line of the table has the instruction's address and length, how it goes on and where to (WAYS), r (it reads), w (it writes) or -
# (neither), and the operand: its width in bytes, base, index, scale and displacement. A register is its place in GENERAL, -1 is none. An
# instruction that reads and writes has two lines.
# An instruction that is not known has none, and the audit ends where one would run: it names a register that is not watched, or takes
# memory in a way that is not written down here. One that writes memory without naming it is found out when memory changes.
import re
import sys

GENERAL = "rax rbx rcx rdx rsi rdi rbp rsp r8 r9 r10 r11 r12 r13 r14 r15".split()
RBP, RSP, NONE = GENERAL.index("rbp"), GENERAL.index("rsp"), -1
WIDTHS = {"BYTE": 1, "WORD": 2, "DWORD": 4, "QWORD": 8, "XMMWORD": 16, "YMMWORD": 32}

# Address, prefixes, mnemonic, operands, and the address that objdump works out for an operand relative to rip.
LINE = re.compile(r" *([0-9a-f]+):\t((?:(?:rep|repz|lock|bnd|notrack|data16|cs) )*)(\w+) *([^#]*?)(?: +# ([0-9a-f]+) <.*>)?")
MEMORY = re.compile(r"(\w+) PTR (?:[de]s:)?(?:\[(.+)\]|(0x[0-9a-f]+))")
GENERAL_REGISTER = r"[re]?[abcd]x|[abcd][lh]|[re]?[sd]i|[sd]il|[re]?[sb]p|[sb]pl|r\d+[dwb]?"
NOT_MEMORY = re.compile(GENERAL_REGISTER + r"|[xy]mm(?:\d|1[0-5])|0x[0-9a-f]+|\d+|[0-9a-f]+ <.+>")

# What an instruction does with memory that is its first operand. Memory that is any other operand is read.
FIRST = {
    "w": re.compile(r"v?mov\w*|set\w+|v?p?extr\w+|pop|stos"),
    "rw": re.compile(r"add|adc|sub|sbb|and|or|xor|inc|dec|neg|not|sh[lr]d?|sar|ro[lr]|rc[lr]|xchg|xadd|cmpxchg"),
    "r": re.compile(r"cmp|test|push|call|jmp|i?mul|i?div"),
}
# The stack, where an instruction takes it without naming it.
PUSHED, POPPED = (8, RSP, NONE, 1, -8), (8, RSP, NONE, 1, 0)
ON_STACK = {
    "push": ("w", PUSHED),
    "call": ("w", PUSHED),
    "pop": ("r", POPPED),
    "ret": ("r", POPPED),
    "leave": ("r", (8, RBP, NONE, 1, 0)),
}
WITHOUT_OPERANDS = "ret leave cbw cwde cdqe cwd cdq cqo endbr64 vzeroupper vzeroall".split()
WITHOUT_ACCESS = "lea nop".split()

# How an instruction goes on: n to the next; m to the next, and it names a place by its distance; j it jumps, b it branches, c it calls, r it
# returns; x otherwise, or it repeats itself.
PLACE = re.compile(r"([0-9a-f]+) <.+>")
WAYS = {"jmp": "j", "call": "c"}
LONGEST = 15


def in_memory(text, target):
    """The numbers of an operand in memory; None where it is none, or where general registers alone do not make its address."""
    match = MEMORY.fullmatch(text)
    if not match or match[1] not in WIDTHS:
        return None
    base, index, scale, displacement = NONE, NONE, 1, 0
    for sign, term in re.findall(r"([+-]?)([^+-]+)", match[2] or match[3]):
        register, _, factor = term.partition("*")
        if term == "rip" and target:
            return WIDTHS[match[1]], NONE, NONE, 1, int(target, 16)
        if factor and register in GENERAL:
            index, scale = GENERAL.index(register), int(factor)
        elif term in GENERAL:
            base = GENERAL.index(term)
        elif term.startswith("0x"):
            displacement = int(sign + term, 16)
        else:
            return None
    return WIDTHS[match[1]], base, index, scale, displacement


def accesses(mnemonic, operands, target):
    """What an instruction does with memory, each time r or w and an operand's numbers; None where it is not known."""
    if mnemonic in WITHOUT_ACCESS:
        return []
    if not operands and mnemonic not in WITHOUT_OPERANDS:
        return None
    found = [ON_STACK[mnemonic]] if mnemonic in ON_STACK else []
    for position, text in enumerate(operands):
        operand = in_memory(text, target)
        if operand:
            kinds = "r" if position else "".join(kinds for kinds, mnemonics in FIRST.items() if mnemonics.fullmatch(mnemonic))
            if not kinds:
                return None
            found += [(kind, operand) for kind in kinds]
        elif not NOT_MEMORY.fullmatch(text):
            return None
    kinds = [kind for kind, _ in found]
    return found if kinds.count("r") < 2 and kinds.count("w") < 2 else None


def way(prefixes, mnemonic, operands, target):
    """How an instruction goes on, and the place that it names: where to, or what is there."""
    place = PLACE.fullmatch(operands)
    if place:
        return WAYS.get(mnemonic, "b" if mnemonic.startswith("j") else "x"), place[1]
    if mnemonic == "ret":
        return "x" if operands else "r", "0"
    if mnemonic in WAYS or "rep" in prefixes:
        return "x", "0"
    return ("m", target) if target else ("n", "0")


listed = [match.groups() for match in (LINE.fullmatch(line.rstrip()) for line in sys.stdin) if match]
ends = [int(groups[0], 16) for groups in listed[1:]] + [0]
for (address, prefixes, mnemonic, operands, target), end in zip(listed, ends):
    known = accesses(mnemonic, operands.split(",") if operands else [], target)
    length = end - int(address, 16)
    goes_on = way(prefixes, mnemonic, operands, target) if 0 < length <= LONGEST else ("x", "0")
    if known is not None:
        for kind, numbers in known or [("-", (0, NONE, NONE, 1, 0))]:
            print(address, length, *goes_on, kind, *numbers)
