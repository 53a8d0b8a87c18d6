# The control of tests/host/frame_test.c: wrong frames, each of which the group named beside it must notice. A wrong frame is the reference
# with an edit, exported in the place of the archive's call. In a common fault the reference that it is compared with has the edit too, and
# FIPS 197's figures, the model's shares or what a frame must leave have to notice it. Run: python3 tests/host/wrong_frames.py (status 0 if
# the unedited reference passes whole and every wrong frame is noticed, 1 otherwise, with a line for each that is not).
import signal
import subprocess
import sys
from pathlib import Path

from controls import end_control

HOST = Path(__file__).resolve().parent
sys.path.insert(0, str(HOST.parent / "model"))
import frame_cases
from edits import edited

# Fewer random frames than the test has are enough here.
COMPILE = ["cc", "-std=c99", "-O1", f"-I{HOST}", f"-I{HOST.parents[1] / 'include'}", "-DRANDOM_FRAMES=300"]
# The test, and the other calls of the archive, which it makes too.
TEST = ("frame_test", "frame_faults", "frame_buffers", "frame_trial", "frame_watch", "screen_reference", "runs", "pages", "numbers")
TEST += ("groups", "aes", "wrong_call", "reference")
EXPORTED = "-Dreference_encrypt_frame=cippazhey_encrypt_frame"

# The reference's lines that the edits put something before.
CHECK = "    uint32_t number = refusal(random, random_length, scratch_length);\n"
REFUSED = "    if (number != 0) {\n        return number;"
RANDOM_CHECK = "    if (random_length != RANDOM_LENGTH) {\n"
ENCRYPT = "    encrypt(state, words, (struct lent){random, scratch});\n"
RESULT = "        share1[place] = state[place][0];\n"
# What they replace.
SCREEN = "reference_screen(random, random_length)"
SCREENED = f"    if ({SCREEN} != UINT64_MAX) {{\n        return 27;\n    }}\n"
SHORT = "    if (scratch_length < SCRATCH_LENGTH) {\n        return 13;\n    }\n"
MASKS = "lent.random + 32 + 3 * (20 * (round - 1) + j)"
NAMED_MASKS = "s1 = masks[0], s2 = masks[1], r3 = masks[2]"
CONSTANT = "word[0][0] ^= round_constant(round);"
PLAINTEXT_MASKS = "r1 = random[place], r2 = random[16 + place]"
KEY_SHARES = "{key1[place], key2[place], key3[place]}"
CLEAR = "memset(lent.scratch, 0, SCRATCH_LENGTH);"
CLEAR_BEFORE = "    clear(lent);\n    for (int a = 0; a < 256; a++) {\n"
PLACE = "lent.scratch[a ^ r_prime]"
ENTRY = "(aes_sbox[x0 ^ a] ^ s1) ^ s2;"
WRITE = f"{PLACE} = {ENTRY}"
UNDER_S1 = "aes_sbox[x0 ^ a] ^ s1"
ANSWER = "    byte[0] = lent.scratch[r3];\n"
LAST_CLEAR = "        add_round_key(state, words, round);\n    }\n    clear(lent);\n"


# It puts together what must stay apart.
SECRET = "    *(volatile uint8_t *)&lent.scratch[7] = x0 ^ r1 ^ r2;\n"


def before(line, *added):
    return line, "".join(f"    {each}\n" for each in added) + line


# What stands at an entry's place before the entry does.
def written_first(value, where="1"):
    return WRITE, f"if ({where}) {{ *(volatile uint8_t *)&{PLACE} = {value}; }}\n        {WRITE}"


# An entry is written with the secret byte behind it, in one store. The next entry hides it, where its place is the next one.
def with_secret_behind(entry):
    wide = f"*(volatile uint16_t *)&{PLACE} = (uint16_t)(({entry}) | (x0 ^ r1 ^ r2) << 8);"
    return f"if (a % 2 == 0 && r_prime % 2 == 0) {{ {wide} }} else {{ *(volatile uint8_t *)&{PLACE} = {entry}; }}"


# What is done at each byte, up to a length.
def each_byte(length, statement):
    return f"for (size_t at = 0; at < {length}; at++) {{ {statement} }}"


# Another screen: so many of a value at most, in so many consecutive bytes.
def screened_by(most, window):
    look = f"for (size_t at = start; at < start + {window}; at++) {{ if (++counts[random[at]] > {most}) {{ return 27; }} }}"
    return SCREENED, f"for (size_t start = 0; start + {window} <= random_length; start++) {{ int counts[256] = {{0}}; {look} }}\n"


# A byte is read, whatever it is.
def reads(byte):
    return before(ENCRYPT, f"(void)*(volatile const uint8_t *)&{byte};")


# A byte is written, with what it holds.
def writes_back(line, byte):
    return before(line, f"*(volatile uint8_t *)&{byte} = {byte};")


# What the shares join to stays the same: only the shares tell.
OTHER_SHARES = {
    "round constant on the second share": (CONSTANT, "word[0][1] ^= round_constant(round);"),
    "round constant on the third share": (CONSTANT, "word[0][2] ^= round_constant(round);"),
    "round constant on all shares": (CONSTANT, "for (int share = 0; share < 3; share++) { word[0][share] ^= round_constant(round); }"),
    "state's masks before the key word's": (MASKS, MASKS.replace("+ j", "+ (j + 16) % 20")),
    "all key words' masks first": (MASKS, "lent.random + 32 + 3 * (j < 4 ? 4 * (round - 1) + j : 36 + 16 * (round - 1) + j)"),
    "rounds' masks from the last on": (MASKS, MASKS.replace("round - 1", "10 - round")),
    "lookups' masks before the plaintext's": (MASKS, MASKS.replace(" + 32", "")),
    "masks of the word before its rotation": ("look_up(word[j], round, j, lent)", "look_up(word[j], round, (j + 1) % 4, lent)"),
    "state's masks row by row": ("round, 4 + place, lent", "round, 4 + place % 4 * 4 + place / 4, lent"),
    "state's masks after its rows are shifted": ("round, 4 + place, lent", "round, 4 + (place * 13) % 16, lent"),
    "s1 and s2 exchanged": (NAMED_MASKS, "s1 = masks[1], s2 = masks[0], r3 = masks[2]"),
    "r3 before s1 and s2": (NAMED_MASKS, "s1 = masks[1], s2 = masks[2], r3 = masks[0]"),
    "s2 left out": (NAMED_MASKS, "s1 = masks[0], s2 = 0, r3 = masks[2]"),
    "s1 for s2 too": (NAMED_MASKS, "s1 = masks[0], s2 = s1, r3 = masks[2]"),
    "no s2 in the last lookup": (NAMED_MASKS, NAMED_MASKS.replace("masks[1]", "round == 10 && j == 19 ? 0 : masks[1]")),
    "the answer as second share": ("byte[0] = lent.scratch[r3];\n    byte[1] = s1;", "byte[1] = lent.scratch[r3];\n    byte[0] = s1;"),
    "key shares in another order": (KEY_SHARES, "{key2[place], key1[place], key3[place]}"),
    "key joined": (KEY_SHARES, "{key1[place] ^ key2[place] ^ key3[place], 0, 0}"),
    "results in another order": ("share2[place] = state[place][1];\n        share3", "share3[place] = state[place][1];\n        share2"),
    "result joined": before(RESULT, "state[place][0] ^= state[place][1] ^ state[place][2];", "state[place][1] = state[place][2] = 0;"),
}
OTHER_CIPHERS = {
    "rows shifted the other way": ("(c + r) % 4", "(c + 4 - r) % 4"),
    "rows not shifted": ("(c + r) % 4", "c"),
    "columns mixed in the last round": ("if (round < ROUNDS)", "if (round <= ROUNDS)"),
    "columns not mixed in round 9": ("if (round < ROUNDS)", "if (round < ROUNDS - 1)"),
    "columns mixed upside down": ("tripled(column[(r + 1) % 4][share])", "tripled(column[(r + 3) % 4][share])"),
    "the third share not mixed": ("state[place][share] = aes_doubled", "if (share < 2) state[place][share] = aes_doubled"),
    "key word not rotated": ("before[(j + 1) % 4]", "before[j]"),
    "key word rotated the other way": ("before[(j + 1) % 4]", "before[(j + 3) % 4]"),
    "round constants not reduced": ("aes_doubled(round_constant(round - 1))", "(uint8_t)(1 << (round - 1))"),
    "the first key not added": ("    add_round_key(state, words, 0);\n", ""),
    "the last key not added": ("add_round_key(state, words, round);", "if (round < ROUNDS) add_round_key(state, words, round);"),
    "nine rounds": ("round <= ROUNDS", "round < ROUNDS"),
    "plaintext row by row": ("(plaintext[place] ^ r1)", "(plaintext[place % 4 * 4 + place / 4] ^ r1)"),
    "all refused": (CHECK, "    uint32_t number = 26;\n"),
}
REFUSALS = {
    "13 before 26": before(RANDOM_CHECK, "if (scratch_length < SCRATCH_LENGTH) { return 13; }"),
    "13 for 26": ("return 26;", "return 13;"),
    "631 random bytes accepted": ("random_length != RANDOM_LENGTH", "random_length < RANDOM_LENGTH - 1 || random_length > RANDOM_LENGTH"),
    "more random bytes accepted": ("random_length != RANDOM_LENGTH", "random_length < RANDOM_LENGTH"),
    "fewer random bytes accepted": ("random_length != RANDOM_LENGTH", "random_length > RANDOM_LENGTH"),
    "scratch of 255 accepted": ("scratch_length < SCRATCH_LENGTH", "scratch_length < SCRATCH_LENGTH - 1"),
    "scratch of 256 refused": ("scratch_length < SCRATCH_LENGTH", "scratch_length <= SCRATCH_LENGTH"),
    "longer scratch refused": ("scratch_length < SCRATCH_LENGTH", "scratch_length != SCRATCH_LENGTH"),
    "results written on refusal": before(REFUSED, "if (number != 0) { memset(share1, 0, 16); }"),
    "the third result written on refusal": before(REFUSED, "if (number == 13) { share3[15] ^= 1; }"),
    "scratch cleared on refusal": before(REFUSED, "if (number == 26 && scratch_length > 0) { memset(scratch, 0, scratch_length); }"),
    "the last byte of a short scratch": before(REFUSED, "if (number == 13 && scratch_length > 0) { scratch[scratch_length - 1] ^= 1; }"),
}
FAULTS = {
    "27 left out": (SCREENED, ""),
    "27 after 13": (SCREENED + SHORT, SHORT + SCREENED),
    "27 before 26": before(RANDOM_CHECK, SCREENED),
    "26 for 27": ("return 27;", "return 26;"),
    "13 for 27": ("return 27;", "return 13;"),
    "all refused by 27": (f"{SCREEN} != UINT64_MAX", f"{SCREEN} <= UINT64_MAX"),
    "only the first window screened": (SCREEN, "reference_screen(random, 512)"),
    "only the last window screened": (SCREEN, "reference_screen(random + 120, 512)"),
    "the first byte not screened": (SCREEN, "reference_screen(random + 1, 631)"),
    "the last byte not screened": (SCREEN, "reference_screen(random, 631)"),
    "only the lookups' masks screened": (SCREEN, "reference_screen(random + 32, 600)"),
    "only a fault at the start": (f"{SCREEN} != UINT64_MAX", f"{SCREEN} == 0"),
    "only a fault behind the start": (f"{SCREEN} != UINT64_MAX", f"{SCREEN} - 1 < 120"),
    "19 of a value at most": screened_by(19, 512),
    "21 of a value at most": screened_by(21, 512),
    "windows of 511": screened_by(20, 511),
    "windows of 513": screened_by(20, 513),
    "all random bytes as one window": screened_by(20, 632),
    "results written on 27": before(REFUSED, "if (number == 27) { memset(share2, 0, 16); }"),
    "scratch cleared on 27": before(REFUSED, "if (number == 27) { memset(scratch, 0, scratch_length); }"),
    "random bytes cleared on 27": before(REFUSED, "if (number == 27) { memset((uint8_t *)random, 0, random_length); }"),
    "the frame after it refused": before(
        REFUSED, "static uint32_t last;", "if (last == 27 && number == 0) { last = 0; return 27; }", "last = number;"
    ),
}
CONTENTS = {
    "scratch not cleared after the last lookup": (LAST_CLEAR, LAST_CLEAR.replace("    clear(lent);\n", "")),
    "255 bytes cleared": (CLEAR, CLEAR.replace("SCRATCH_LENGTH", "255")),
    "257 bytes cleared": (CLEAR, CLEAR.replace("SCRATCH_LENGTH", "257")),
    "tail cleared too": before(ENCRYPT, "memset(scratch, 0, scratch_length);"),
    "scratch cleared from its end": before(ENCRYPT, "scratch += scratch_length - SCRATCH_LENGTH;"),
    "dirty scratch refused": before(ENCRYPT, each_byte("SCRATCH_LENGTH", "if (scratch[at] != 0) { return 19; }")),
    "dirty byte 255 refused": before(ENCRYPT, "if (scratch[255] != 0) { return 19; }"),
    "a byte of 77 refused": before(ENCRYPT, "if (scratch[9] == 77) { return 19; }"),
    "dirt in the result": before(ENCRYPT, "state[0][0] ^= scratch[200];"),
    "scratch given back": (ENCRYPT, f"uint8_t given[256]; memcpy(given, scratch, 256);\n{ENCRYPT} memcpy(scratch, given, 256);\n"),
}
IN_A_ROW = {
    "the first frame's share kept": before(
        RESULT, "static uint8_t kept[16], n;", "if (n < 16) { kept[place] = state[place][0]; n++; }", "state[place][0] = kept[place];"
    ),
    "a frame after a refused one": before(
        REFUSED, "static uint32_t last;", "if (last == 26 && number == 0) { last = 0; return 26; }", "last = number;"
    ),
}
LONG_BUFFERS = {
    f"{name} cut to {bits} bits": before(CHECK, f"{name} &= {hex(2**bits - 1)}u;")
    for name in ("random_length", "scratch_length")
    for bits in (8, 16, 32)
}
ENDS_OF_PAGES = {
    "random byte 632 read": reads("random[632]"),
    "the byte before the random ones read": reads("random[-1]"),
    "random byte 632 screened": (SCREEN, "reference_screen(random, random_length + 1)"),
    "plaintext's byte 16 read": reads("plaintext[16]"),
    "the byte before the first key share read": reads("key1[-1]"),
    "byte 16 of the third key share read": reads("key3[16]"),
    "the byte behind scratch read": reads("scratch[scratch_length]"),
    "byte 16 of a result read": reads("share2[16]"),
    "the byte before a result written": writes_back(ENCRYPT, "share1[-1]"),
    "plaintext written back": writes_back(ENCRYPT, "((uint8_t *)plaintext)[0]"),
    "a key share written back": writes_back(ENCRYPT, "((uint8_t *)key2)[15]"),
    "a random byte written back": writes_back(ENCRYPT, "((uint8_t *)random)[631]"),
    "a result written back on refusal": writes_back(REFUSED, "share3[15]"),
    "scratch written back on refusal": before(REFUSED, "if (scratch_length > 0) { *(volatile uint8_t *)scratch = scratch[0]; }"),
}
# Right too: each entry is written under s1 alone first.
TWICE = written_first(UNDER_S1)
# What no result shows. To watch takes a second.
WATCHED = {
    "scratch not cleared before a lookup": (CLEAR_BEFORE, CLEAR_BEFORE.replace("    clear(lent);\n", "")),
    "the r3 of the lookup before": (NAMED_MASKS, NAMED_MASKS.replace("masks[2]", "masks[-1]")),
    "no r3 in one lookup": (NAMED_MASKS, NAMED_MASKS.replace("masks[2]", "round == 10 && j == 19 ? 0 : masks[2]")),
    "plaintext not masked": (PLAINTEXT_MASKS, "r1 = 0, r2 = 0"),
    "plaintext's masks in turns": (PLAINTEXT_MASKS, "r1 = random[2 * place], r2 = random[2 * place + 1]"),
    "another mask for the other entries": (ENTRY, ENTRY.replace("^ s2", "^ ((a ^ r_prime) == r3 ? s2 : 0)")),
    "an entry written without masks first": written_first("aes_sbox[x0 ^ a]"),
    "an entry written under s2 first": written_first("aes_sbox[x0 ^ a] ^ s2"),
    "an entry written under s2 first in one lookup": (TWICE[0], TWICE[1].replace("^ s1; }", "^ (round == 5 && j == 9 ? s2 : s1); }")),
    "only entry 0 written twice": written_first(UNDER_S1, "a == 0"),
    "three writes an entry": (WRITE, f"*(volatile uint8_t *)&{PLACE} = {UNDER_S1};\n        {TWICE[1]}"),
    "two writes an entry in one lookup": written_first(UNDER_S1, "round == 5 && j == 9"),
    "one write an entry in one lookup of two": written_first(UNDER_S1, "round != 5 || j != 9"),
    "two writes an entry in every other lookup": written_first(UNDER_S1, "j % 2"),
    "the secret byte behind an entry": (WRITE, with_secret_behind(ENTRY.rstrip(";"))),
    "the secret byte behind the first of two writes": (WRITE, f"{with_secret_behind(UNDER_S1)}\n        {WRITE}"),
    "an answer read twice": (ANSWER, f"    (void)*(volatile uint8_t *)&lent.scratch[r3];\n{ANSWER}"),
    "the secret byte left after a lookup": (ANSWER, ANSWER + SECRET),
    "the secret byte left before a lookup": (CLEAR_BEFORE, SECRET + CLEAR_BEFORE),
    "a byte behind long scratch read": before(ENCRYPT, "if (scratch_length > 256) { (void)*(volatile uint8_t *)&scratch[256]; }"),
}
RANDOM_FRAMES = {
    **{name: OTHER_SHARES[name] for name in ("round constant on the second share", "s1 and s2 exchanged", "results in another order")},
    "one plaintext in sixteen": before(ENCRYPT, "state[5][1] ^= plaintext[3] % 16 == 7;"),
    "one key in sixteen": before(ENCRYPT, "words[2][1][2] ^= key3[9] % 16 == 7;"),
    "one alignment of scratch": before(ENCRYPT, "state[0][0] ^= (uintptr_t)scratch % 16 == 9;"),
    "a random byte changed": before(ENCRYPT, "((uint8_t *)random)[300] ^= 1;"),
    "a key share cleared": before(ENCRYPT, "memset((uint8_t *)key3, 0, 16);"),
    "the byte behind a result": before(ENCRYPT, "share3[16] ^= 1;"),
    "the byte before scratch": before(ENCRYPT, "scratch[-1] ^= 1;"),
    "the byte behind a long scratch": before(ENCRYPT, "scratch[scratch_length] ^= scratch_length > 400;"),
}
WRONG_FRAMES = {
    "fips_197": OTHER_CIPHERS,
    "refusals": REFUSALS,
    "faulty_random": FAULTS,
    "contents_of_scratch": CONTENTS,
    "in_a_row": IN_A_ROW,
    "long_buffers": LONG_BUFFERS,
    "ends_of_pages": ENDS_OF_PAGES,
    "watched_scratch": WATCHED,
    "random_frames": RANDOM_FRAMES,
}
COMMON_FAULTS = {
    "stored_frames": OTHER_SHARES,
    "fips_197": {name: OTHER_CIPHERS[name] for name in ("rows shifted the other way", "columns mixed in the last round")},
    "refusals": {name: REFUSALS[name] for name in ("13 before 26", "results written on refusal", "scratch cleared on refusal")},
    "faulty_random": FAULTS,
    "contents_of_scratch": {name: CONTENTS[name] for name in ("scratch not cleared after the last lookup", "tail cleared too")},
    "random_frames": {name: OTHER_CIPHERS[name] for name in ("rows shifted the other way", "round constants not reduced")},
}


def build(*words):
    subprocess.run([*COMPILE, *words], check=True, timeout=60)


def build_objects(folder):
    (folder / "frame_cases.c").write_text(frame_cases.in_c())
    build("-c", folder / "frame_cases.c", "-o", folder / "frame_cases.o")
    for name in (*TEST, "frame_reference"):
        build("-c", HOST / f"{name}.c", "-o", folder / f"{name}.o")


# The test program over a copy of the reference, run on a group, or on all. In a common fault the copy is also what it is compared with.
def run(folder, copy, *group, common=False):
    (folder / "copy.c").write_text(copy)
    objects = [folder / f"{name}.o" for name in (*TEST, "frame_cases")]
    other = ["-Wl,--defsym=cippazhey_encrypt_frame=reference_encrypt_frame"] if common else [EXPORTED, folder / "frame_reference.o"]
    build(folder / "copy.c", *objects, *other, "-o", folder / "test")
    return subprocess.run([folder / "test", *group], capture_output=True, text=True, timeout=60)


# A wrong one makes a comparison come out ill, or is stopped by the system.
def noticed(done):
    return done.returncode == -signal.SIGSEGV or (done.returncode == 1 and "DIFFERS: " in done.stdout)


def complaints(folder):
    build_objects(folder)
    reference = (HOST / "frame_reference.c").read_text()
    for right, *group in ([reference], [edited(reference, *TWICE), "watched_scratch"]):
        done = run(folder, right, *group)
        if noticed(done) or done.returncode != 0:
            yield f"the reference itself, or with two writes an entry, does not pass\n{done.stdout}"
    for common, groups in ((False, WRONG_FRAMES), (True, COMMON_FAULTS)):
        for group, frames in groups.items():
            for name, (old, new) in frames.items():
                done = run(folder, edited(reference, old, new), group, common=common)
                if not noticed(done):
                    yield f"{name}, {common=}: {group} does not notice it\n{done.stdout}"
        print(sum(map(len, groups.values())), "common faults" if common else "wrong frames")


end_control(complaints)
