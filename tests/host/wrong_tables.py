# Wrong calls for tests/host/wrong_calls.py that take other tables for fit: edits of the reference.

FIT_CHECK = "    if (!fit(call.table, entries)) {\n"
FIT = "    return equally_often(&found) && closed(&found);\n"


# The table is fit on another condition. Which values occur in it, and how often, is in `found`.
def fit_if(condition):
    return FIT, f"    return {condition};\n"


# Fit by differences, as the library finds it out: for each highest bit one difference from the first entry to a value that occurs, which
# must be a period of how often the values occur. As it stands here it is right; each piece of it may be another.
def fit_by_periods(
    first="table[0]", start="low", end="2 * low", low_end="256", values="256", differs="found.times[v ^ d] != found.times[v]", then="break;"
):
    return FIT, f"""
    for (unsigned low = 1; low < {low_end}; low *= 2) {{
        for (unsigned d = {start}; d < {end}; d++) {{
            if (found.times[{first} ^ d] != 0) {{
                for (unsigned v = 0; v < {values}; v++) {{ if ({differs}) {{ return false; }} }}
                {then}
            }}
        }}
    }}
    return true;
"""


EVERY_TABLE = {"every table accepted": ("return 7;", "return 0;")}
OLD_RULE = {
    "balanced tables alone": (FIT_CHECK, FIT_CHECK.replace("(!", "(occurring_in(call.table, entries).values != values || !")),
    "4 for m above n": ("call.m > 8", "call.m > call.n"),
}
# One half of what fit is, or something like it.
OTHER_RULES = {
    "unequal counts accepted": fit_if("closed(&found)"),
    "unclosed tables accepted": fit_if("equally_often(&found)"),
    "closed under pairs": ("found->times[pair ^ found->value[three]] == 0", "found->times[pair] == 0"),
    "a sum for an exclusive or": ("found->times[pair ^ found->value[three]]", "found->times[(pair + found->value[three]) % 256]"),
    "a first entry of n bits": fit_if("equally_often(&found) && closed(&found) && found.value[0] < entries"),
}
FIT_TABLES = {
    **OLD_RULE,
    **OTHER_RULES,
    "constant tables refused": fit_if("found.values > 1 && equally_often(&found) && closed(&found)"),
    "unclosed tables of 64 values accepted": fit_if("equally_often(&found) && (found.values == 64 || closed(&found))"),
    "unequal counts of 64 values accepted": fit_if("closed(&found) && (found.values == 64 || equally_often(&found))"),
    "counts compared by 4 bits": ("!= found->times[found->value[0]]", "% 16 != found->times[found->value[0]] % 16"),
    "the counts of two values compared": ("each < found->values; each++", "each < found->values && each < 2; each++"),
    "the first entry taken for 0": fit_by_periods(first="0"),
    "powers of two alone as differences": fit_by_periods(end="low + 1"),
    "powers of two not among the differences": fit_by_periods(start="low + 1"),
    "the last difference left out": fit_by_periods(end="2 * low - (low > 1)"),
    "differences below 128": fit_by_periods(low_end="128"),
    "the first difference alone": fit_by_periods(then="return true;"),
    "a period of the lower half": fit_by_periods(values="128"),
    "a period of 2^n values": fit_by_periods(values="entries"),
    "a period of what occurs": fit_by_periods(differs="(found.times[v ^ d] == 0) != (found.times[v] == 0)"),
    "counts that only grow": fit_by_periods(differs="v < (v ^ d) && found.times[v ^ d] < found.times[v]"),
}
