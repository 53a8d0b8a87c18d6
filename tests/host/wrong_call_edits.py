# How tests/host/wrong_calls.py edits the reference: the lines that edits put something before or after, and the forms of edits.

# The reference's lines that the edits put something before or after.
FIRST_LINE = "    unsigned number = refusal(call, scratch, scratch_length);\n"
TABLE_CHECKED = "    unsigned number = table_refusal(call);\n"
MASKS_CHECKED = "    number = mask_refusal(call);\n"
LENGTH_CHECK = "    if (scratch_length < needed(call)) {\n"
CLEAN_CHECK = "    if (!clean(scratch, needed(call))) {\n"
REFUSED = "    if (number != 0) {\n        return (uint16_t)"
LOOK_UP = "    uint8_t share = looked_up(call, scratch);\n"
LAST_LINE = "    return share;\n"
# How many bytes of scratch have an entry's place, under every method.
ENTRIES = "((size_t)1 << call.n)"


def before(line, *added):
    return line, "".join(f"    {each}\n" for each in added) + line


# A check that comes before the one that it should come after.
def check_before(line, condition, number):
    return before(line, f"if ({condition}) {{ return {number}; }}")


# What is done at each byte of scratch, up to a length.
def each_byte(length, statement):
    return f"for (size_t at = 0; at < {length}; at++) {{ {statement} }}"


# A byte is read though nothing is made of it, or written.
def touches(byte, written=""):
    return f"(void)(*(volatile uint8_t *)&{byte} {written});"


# Other bytes than those that are needed are looked at.
def looks_at(bytes):
    return CLEAN_CHECK, CLEAN_CHECK.replace("scratch, needed(call)", bytes)


# They are looked at under a condition only.
def looks_if(condition):
    return CLEAN_CHECK, CLEAN_CHECK.replace("(!", f"({condition} && !")


# Bytes far behind are looked at, since the place that is compared is cut.
def place_cut(limit):
    return before(CLEAN_CHECK, each_byte("scratch_length", f"if (at % {limit} < needed(call) && scratch[at] != 0) {{ return 19; }}"))


# The bytes are joined into one, and that is looked at.
def looks_at_joined(operation):
    return before(CLEAN_CHECK, "uint8_t all = 0;", each_byte("needed(call)", f"all {operation} scratch[at];"), "if (all == 0) { return 0; }")


# Whether scratch is dirty, asked before n and its length are known to be right.
DIRTY = "call.n <= 8 && scratch_length >= needed(call) && !clean(scratch, needed(call))"
# The same of scratch that is too short.
DIRTY_AS_FAR_AS_IT_GOES = "!clean(scratch, scratch_length < needed(call) ? scratch_length : needed(call))"
CLEAR = each_byte("needed(call)", "scratch[at] = 0;")
