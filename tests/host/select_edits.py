# Wrong selections and wrong references, for tests/host/wrong_selects.py: a right selection, and edits of it and of the reference by the group
# of tests/host/select_test.c that must notice each.

# It takes each half from a pair, where the reference divides. No index leads astray, whatever is not checked.
RIGHT = """#include "cippazhey.h"
struct word { uint32_t half[2]; };
static struct word taken(uint32_t word, uint32_t width) {
    struct word halves = {{word >> width, word & ((1u << width) - 1)}};
    return halves;
}
uint32_t cippazhey_select(uint32_t width, uint32_t z0, uint32_t z1, uint32_t z2, uint32_t c0, uint32_t c1, uint32_t c2,
                          uint32_t t1, uint32_t t2, uint32_t b, uint8_t *share0, uint8_t *share1, uint8_t *share2) {
    uint8_t A[2] = {0}, B[2] = {0}, C[2] = {0};
    if (width < 1) return 20;
    if (width > 8) return 20;
    uint32_t words = 1u << 2 * width, halves = 1u << width;
    if (z0 >= words) return 21;
    if (z1 >= words) return 21;
    if (z2 >= words) return 21;
    if (c0 >= 2) return 21;
    if (c1 >= 2) return 21;
    if (c2 >= 2) return 21;
    if (b >= 2) return 21;
    if (t1 >= halves) return 21;
    if (t2 >= halves) return 21;
    uint32_t c3 = ((c1 ^ b) ^ c2) % 2, c = c0 % 2, other = 1 - c, at = b % 2;
    struct word h0 = taken(z0, width), h1 = taken(z1, width), h2 = taken(z2, width);
    A[c3] = h0.half[c] ^ t1;
    B[c3] = h1.half[c] ^ t2;
    C[c3] = h2.half[c] ^ t1 ^ t2;
    A[1 - c3] = h0.half[other] ^ t1;
    B[1 - c3] = h1.half[other] ^ t2;
    C[1 - c3] = h2.half[other] ^ t1 ^ t2;
    *share0 = A[at];
    *share1 = B[at];
    *share2 = C[at];
    return 0;
}
"""
# The pieces of it that the edits replace, or put something before.
FIRST_CHECK = "    if (width < 1) return 20;\n"
FIRST_STEP = "    A[c3] ="
LAST = "    return 0;\n"
HIGH, LOW = "word >> width", "word & ((1u << width) - 1)"
HALVES = f"{{{{{HIGH}, {LOW}}}}}"
C3 = "(c1 ^ b) ^ c2"
BOUNDS = {"z0": "words", "z1": "words", "z2": "words", "c0": "2", "c1": "2", "c2": "2", "b": "2", "t1": "halves", "t2": "halves"}
CHECKS = {name: f"if ({name} >= {bound}) return 21;" for name, bound in BOUNDS.items()}


def before(piece, added):
    return piece, f"    {added}\n{piece}"


# A number's check as another one.
def checks(name, condition):
    return CHECKS[name], f"if ({condition}) return 21;"


# The results are made of other registers.
def results(first="A[at]", second="B[at]", third="C[at]"):
    def assigned(*values):
        return "".join(f"    *share{place} = {value};\n" for place, value in enumerate(values))

    return assigned("A[at]", "B[at]", "C[at]"), assigned(first, second, third)


# A right selection but for where a condition holds.
def wrong_where(condition):
    return "*share0 = A[at];", f"*share0 = A[at] ^ ({condition});"


STEPS = {
    "the halves exchanged": (HALVES, f"{{{{{LOW}, {HIGH}}}}}"),
    "the high half twice": (HALVES, f"{{{{{HIGH}, {HIGH}}}}}"),
    "the low half twice": (HALVES, f"{{{{{LOW}, {LOW}}}}}"),
    "chosen by c0": results("A[c3]", "B[c3]", "C[c3]"),
    "always the first register": results("A[0]", "B[0]", "C[0]"),
    "the contrary of b": results("A[1 - at]", "B[1 - at]", "C[1 - at]"),
    "c3 without b": (C3, "c1 ^ c2"),
    "c3 without c1": (C3, "b ^ c2"),
    "c3 without c2": (C3, "c1 ^ b"),
    "c3 with c0": (C3, "(c1 ^ b) ^ c2 ^ c0"),
    "c3 as a sum": (C3, "(c1 + b + c2) / 2"),
    "the same half in both registers": ("other = 1 - c,", "other = c,"),
    "one register's A of the other half": ("A[1 - c3] = h0.half[other]", "A[1 - c3] = h0.half[c]"),
    "one register's B of the other half": ("B[1 - c3] = h1.half[other]", "B[1 - c3] = h1.half[c]"),
    "one register's C of the other half": ("C[1 - c3] = h2.half[other]", "C[1 - c3] = h2.half[c]"),
    "A of z1": ("A[c3] = h0", "A[c3] = h1"),
    "B of z2": ("B[c3] = h1", "B[c3] = h2"),
    "C of z1": ("C[c3] = h2", "C[c3] = h1"),
    "A without t1": ("A[c3] = h0.half[c] ^ t1", "A[c3] = h0.half[c]"),
    "the other A without t1": ("h0.half[other] ^ t1", "h0.half[other]"),
    "A under t2": ("A[c3] = h0.half[c] ^ t1", "A[c3] = h0.half[c] ^ t2"),
    "B without t2": ("B[c3] = h1.half[c] ^ t2", "B[c3] = h1.half[c]"),
    "the other B without t2": ("h1.half[other] ^ t2", "h1.half[other]"),
    "C without t1": ("C[c3] = h2.half[c] ^ t1 ^ t2", "C[c3] = h2.half[c] ^ t2"),
    "C without t2": ("C[c3] = h2.half[c] ^ t1 ^ t2", "C[c3] = h2.half[c] ^ t1"),
    "the other C without t2": ("h2.half[other] ^ t1 ^ t2", "h2.half[other] ^ t1"),
    "t1 and t2 exchanged": before(FIRST_STEP, "uint32_t first = t1; t1 = t2, t2 = first;"),
    "masks that join as they are": results("A[at] ^ at", "B[at] ^ at"),
    "the first two results exchanged": results("B[at]", "A[at]"),
    "the last two results exchanged": results("A[at]", "C[at]", "B[at]"),
    "the half itself": results("A[at] ^ B[at] ^ C[at]", "0", "0"),
    "a result not written": ("    *share2 = C[at];\n", ""),
    "a result added": ("*share1 = B[at];", "*share1 ^= B[at];"),
    "a result joined by or": ("*share1 = B[at];", "*share1 |= B[at];"),
    "an accepted call's number": (LAST, "    return 1;\n"),
    "refused where c0 is 1": checks("c0", "c0 >= 1"),
    "refused where t1 is the greatest": checks("t1", "t1 + 1 >= halves"),
    "refused where z0 is the greatest": checks("z0", "z0 + 1 >= words"),
    "refused where b is 1": checks("b", "b >= 1"),
}
WIDTH_1 = STEPS
WIDTH_2 = {
    **{name: STEPS[name] for name in ("the halves exchanged", "chosen by c0", "t1 and t2 exchanged", "A without t1")},
    "one bit of a half": (LOW, "word & 1"),
    "a shift of 1": (HIGH, "(word >> 1) % (1u << width)"),
    "one set of numbers": wrong_where("width == 2 && z0 == 9 && z1 == 6 && z2 == 3 && c0 && !c1 && c2 && t1 == 2 && t2 == 1 && b"),
}
EXTREMES = {
    "width 8 as 7": before(FIRST_STEP, "if (width == 8) { h0 = taken(z0, 7), h1 = taken(z1, 7), h2 = taken(z2, 7); }"),
    "words of 8 bits": before("    struct word h0", "z0 %= 256, z1 %= 256, z2 %= 256;"),
    "words of 15 bits": before("    struct word h0", "z0 %= 32768, z1 %= 32768, z2 %= 32768;"),
    "masks of 7 bits": before(FIRST_STEP, "t1 %= 128, t2 %= 128;"),
    "width 8 refused": ("if (width > 8)", "if (width > 7)"),
    "width 1 refused": ("if (width < 1)", "if (width < 2)"),
    "a small limit of words": ("words = 1u << 2 * width", "words = 1u << (2 * width - 1)"),
    "words of 16 bits compared": ("words = 1u << 2 * width", "words = (uint16_t)(1u << 2 * width)"),
    "masks of 8 bits compared": ("halves = 1u << width", "halves = (uint8_t)(1u << width)"),
}
SINGLE_BITS = {
    f"a bit of {name} lost": before(FIRST_STEP if name[0] == "t" else "    struct word h0", f"{name} &= ~{mask}u;")
    for name, mask in (("z0", 128), ("z1", 512), ("z2", 16384), ("t1", 32), ("t2", 16))
} | {
    "a bit of a half lost": (LOW, f"{LOW} & 0xf7"),
    "a high bit of z0 doubled": before("    struct word h0", "z0 ^= z0 >> 1 & 4096;"),
}
RANDOM_CALLS = {
    "one width in eight": wrong_where("width == 6"),
    "one choice in 32": wrong_where("t1 % 32 == 7 && width > 4"),
    "where the halves of z0 are equal": wrong_where("z0 >> width == (z0 & ((1u << width) - 1)) && width < 4"),
}
REFUSED_WIDTHS = {
    "width 0 accepted": (FIRST_CHECK, ""),
    "width 9 accepted": ("if (width > 8)", "if (width > 9)"),
    "width cut to 8 bits": before(FIRST_CHECK, "width = (uint8_t)width;"),
    "width cut to 16 bits": before(FIRST_CHECK, "width = (uint16_t)width;"),
    "width cut to 24 bits": before(FIRST_CHECK, "width &= 0xffffff;"),
    "width with a sign": ("if (width > 8)", "if ((int32_t)width > 8)"),
    "width 0 as 21": ("if (width < 1) return 20", "if (width < 1) return 21"),
    "width 9 as 21": ("if (width > 8) return 20", "if (width > 8) return 21"),
    "a refused width as 3": ("if (width > 8) return 20", "if (width > 8) return 3"),
    "results cleared where the width is refused": ("if (width > 8) return 20", "if (width > 8) return *share0 = *share1 = *share2 = 0, 20"),
    "the numbers first": before(FIRST_CHECK, "if (t1 >= 256) return 21;"),
    "one width between": ("if (width > 8)", "if (width > 8 && width != 265)"),
}
REFUSED_NUMBERS = {
    **{f"{name} not checked": (check, "") for name, check in CHECKS.items()},
    **{f"{name} at the limit": (check, check.replace(">=", ">")) for name, check in CHECKS.items()},
    **{f"{name} cut to 8 bits": (check, check.replace(name, f"(uint8_t){name}")) for name, check in CHECKS.items()},
    **{f"{name} cut to 16 bits": (check, check.replace(name, f"(uint16_t){name}")) for name, check in CHECKS.items()},
    **{f"{name} with a sign": (check, check.replace(name, f"(int32_t){name}", 1).replace(">= ", ">= (int32_t)")) for name, check in CHECKS.items()},
    **{f"{name} as 20": (check, check.replace("21", "20")) for name, check in CHECKS.items()},
    "t1 below the words' limit": checks("t1", "t1 >= words"),
    "z2 below the halves' limit": checks("z2", "z2 >= halves"),
    "b below 256": checks("b", "b >= 256"),
    "a result written before the last check": ("    if (t2 >= halves)", "    *share0 = 0;\n    if (t2 >= halves)"),
    "the results written where t2 is too large": ("if (t2 >= halves) return 21", "if (t2 >= halves) return *share2 = 1, 21"),
}
SEVERAL_REFUSED = {
    "the bit joined and then checked": ("    if (c0 >= 2) return 21;\n    if (c1 >= 2) return 21;\n    if (c2 >= 2) return 21;\n",
                                        "    if ((c0 ^ c1 ^ c2) >= 2) return 21;\n    c0 &= 1, c1 &= 1, c2 &= 1;\n"),
    "the words joined and then checked": ("    if (z0 >= words) return 21;\n    if (z1 >= words) return 21;\n    if (z2 >= words) return 21;\n",
                                          "    if ((z0 ^ z1 ^ z2) >= words) return 21;\n    z0 %= words, z1 %= words, z2 %= words;\n"),
    "both masks joined and then checked": ("    if (t1 >= halves) return 21;\n    if (t2 >= halves) return 21;\n",
                                           "    if ((t1 ^ t2) >= halves) return 21;\n"),
    "only one of several refused": before(FIRST_CHECK, "if (width - 1 < 8 && (c0 >= 2) + (c1 >= 2) + (c2 >= 2) + (b >= 2) > 3) return 0;"),
    "a width behind the numbers": before(FIRST_CHECK, "if (c0 >= 2) return 21;"),
    "width 9 behind t2": before(FIRST_CHECK, "if (width == 9 && t2 >= 256) return 21;"),
}
RANDOM_NUMBERS = {
    "z1 not checked": (CHECKS["z1"], ""),
    "width 9 accepted": ("if (width > 8)", "if (width > 9)"),
    "one number in many": before(FIRST_CHECK, "if (c1 == 3) return 0;"),
}
PLACES = {
    "two results at once": ("    *share0 = A[at];\n    *share1 = B[at];\n",
                            "    if (share1 == share0 + 1) { *share0 = A[at]; share0[1] = 0; } else { *share0 = A[at]; *share1 = B[at]; }\n"),
    "places in rising order alone": ("    *share1 = B[at];\n", "    if (share1 > share0) { *share1 = B[at]; }\n"),
    "places in falling order alone": ("    *share2 = C[at];\n", "    if (share2 < share1) { *share2 = C[at]; }\n"),
    "16 bits of a result": ("    *share2 = C[at];\n", "    *share2 = C[at]; share2[1] = 0;\n"),
    "a byte before a result": ("    *share2 = C[at];\n", "    *share2 = C[at]; share2[-1] = 0;\n"),
    "32 bits of a result": ("    *share0 = A[at];\n", "    share0[0] = A[at], share0[1] = share0[2] = share0[3] = 0;\n"),
    "the last written over": (LAST, "    if (share2 + 1 == share0) { *share2 = 0; }\n    return 0;\n"),
    "a result cleared before": ("if (t1 >= halves) return 21", "if (t1 >= halves) return *share1 = 0, 21"),
}
ENDS_OF_PAGES = {
    "the byte behind read": before(LAST, "(void)((volatile uint8_t *)share1)[1];"),
    "the byte before read": before(LAST, "(void)((volatile uint8_t *)share2)[-1];"),
    "16 bits at once": ("    *share0 = A[at];\n", "    *share0 = A[at]; { volatile uint8_t *at = share0 + 1; *at = *at; }\n"),
    "a refused width writes back": ("if (width > 8) return 20", "if (width > 8) return *(volatile uint8_t *)share0 = *share0, 20"),
    "a refused number writes back": ("if (b >= 2) return 21", "if (b >= 2) return *(volatile uint8_t *)share2 = *share2, 21"),
}
WRONG_SELECTS = {
    "width_1": WIDTH_1,
    "width_2": WIDTH_2,
    "extremes": EXTREMES,
    "single_bits": SINGLE_BITS,
    "random_calls": RANDOM_CALLS,
    "refused_widths": REFUSED_WIDTHS,
    "refused_numbers": REFUSED_NUMBERS,
    "several_refused": SEVERAL_REFUSED,
    "random_numbers": RANDOM_NUMBERS,
    "places": PLACES,
    "ends_of_pages": ENDS_OF_PAGES,
}
# Edits of the reference.
COMMON_FAULTS = {
    "width_1": {
        "the halves exchanged": ("which == 0", "which == 1"),
        "one half alone": ("word / halves : word % halves", "word / halves : word / halves"),
        "c3 without b": ("c1 ^ b ^ c2", "c1 ^ c2"),
        "c3 without c2": ("c1 ^ b ^ c2", "c1 ^ b"),
        "the first register": ("a_register[b]", "a_register[0]"),
        "one register twice": ("c_register[1 - c3]", "c_register[c3]"),
        "t1 left out": ("half(c0, z0, width) ^ t1", "half(c0, z0, width)"),
        "t2 in place of t1": ("half(1 - c0, z0, width) ^ t1", "half(1 - c0, z0, width) ^ t2"),
        "the other half of z1": ("half(1 - c0, z1", "half(c0, z1"),
        "z1 in place of z2": ("half(c0, z2", "half(c0, z1"),
        "two results exchanged": ("*share0 = a_register[b];\n    *share1 = b_register[b];",
                                  "*share0 = b_register[b];\n    *share1 = a_register[b];"),
    },
    "refused_widths": {
        "width 0 accepted": ("width < 1 || ", ""),
        "width 9 accepted": ("width > 8", "width > 9"),
        "21 for a width": ("return 20", "return 21"),
    },
    "refused_numbers": {
        "a word at its limit": (">= (uint32_t)1 << 2 * width", "> (uint32_t)1 << 2 * width"),
        "a bit at its limit": ("bits[each] >= 2", "bits[each] > 2"),
        "a mask at its limit": ("masks[0] >= ", "masks[0] > "),
        "t2 not checked": ("|| masks[1] >= (uint32_t)1 << width ", ""),
        "b not checked": ("each < 4", "each < 3"),
        "z2 not checked": ("each < 3", "each < 2"),
        "20 for a mask": ("? 21 : 0", "? 20 : 0"),
    },
}
