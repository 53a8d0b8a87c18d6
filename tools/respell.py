#!/usr/bin/env python3
# Brings the repository's own definitions and lemmas to the spelling of today's Rattle, once, right after the kit's port.py: words in snake
# case (any-from is any_from), types in camel case (Log-read-back is LogReadBack), no middle dot in a name (Print·print is print_print).
# Names of the kit's libraries and those that Rattle makes keep theirs. Run at the top: python3 tools/respell.py. It rewrites files in place,
# and says where two names would fall together.
import re
import sys
from collections import defaultdict
from pathlib import Path

CRATES = Path("crates")
OWN = {folder.name for folder in CRATES.iterdir()}
WORD = r"[A-Za-z][\w'⊕]*(?:-[\w'⊕]+)*"
TOKEN = re.compile(r"(?<![\w'⊕·-])(?:[A-Za-z_][\w'⊕]*)(?:[-·][\w'⊕]+)+")
USE = re.compile(r"^(?:ghost )?use ([^\s{;]+?)(?:\.\{([^}]*)\})?(?: as ([^\s;]+))?;?$", re.MULTILINE)
MADE = ("Need-", "invariant-loop", "decreases-loop", "loop-test")


def respelt(name):
    parts = re.split("[-·]", name)
    if name[0].isupper() and "·" not in name:
        return "".join(part[0].upper() + part[1:] for part in parts)
    return "_".join(part[0].lower() + part[1:] if "·" in name else part for part in parts)


def is_own(path):
    found = re.match(r"Rattle[.·](\w+)[.·]", path)
    return bool(found) and found.group(1) in OWN


# The names that a file brings in from the kit's libraries, and those that it has from this repository.
def brought_in(text):
    foreign, own = set(), set()
    for path, names, _ in USE.findall(text):
        for name in names.split(","):
            (own if is_own(path) else foreign).add(name.split(" as ")[0].strip())
    return foreign, own


def is_made(token):
    return token.startswith(MADE)


# Where a function's proof stands, only names that are brought in are this repository's own.
def respell(text, in_function_proof):
    foreign, own = brought_in(text)

    def new(found):
        token = found.group(0)
        before = text[: found.start()]
        if token in foreign or is_made(token) or before.endswith(("tie.", "goal.", "given.")):
            return token
        if in_function_proof and token not in own and not token.endswith("-spec"):
            return token
        return respelt(token)

    return TOKEN.sub(new, text)


# A comment's words with a dash are words of English, unless they stand in backticks.
def respell_commented(text, comment, in_function_proof, known):
    lines = []
    for line in text.split("\n"):
        code, mark, words = line.partition(comment)
        if mark:
            words = re.sub(r"`[^`]*`", lambda quoted: TOKEN.sub(lambda t: respelt(t.group(0)) if t.group(0) in known else t.group(0), quoted.group(0)), words)
        lines.append((code, mark + words))
    whole = "\n".join(code for code, _ in lines)
    changed = respell(whole, in_function_proof).split("\n")
    return "\n".join(code + rest for code, (_, rest) in zip(changed, lines, strict=True))


# What each of the logic's names is in a source. Where the source has a function, a local or a label of that name, it gets its module's before
# it: add-round-key of Cipher is cipher_add_round_key.
def source_names(text, known):
    code = re.sub(r"//.*", "", text)
    taken = set(re.findall(r"[A-Za-z_]\w*", TOKEN.sub("", code)))
    foreign, _ = brought_in(text)
    module = {name.split(" as ")[0].strip(): path.split(".")[-1] for path, names, _ in USE.findall(text) for name in names.split(",")}
    names = {}
    for token in set(TOKEN.findall(code)) & known - foreign:
        new = respelt(token)
        if new in taken and token in module:
            new = module[token][0].lower() + module[token][1:] + "_" + new
        names[token] = new
    return names


# What is brought in under another name says so.
def respell_source(text, names):
    new = lambda found: names.get(found.group(0), found.group(0))

    def use(line):
        path, brace, rest = line.partition("{")
        items = []
        for item in rest.rstrip("};").split(","):
            old, _, alias = item.strip().partition(" as ")
            word = names.get(alias or old, alias or old)
            plain = respelt(old) if old in names or alias and "-" in old else old
            items.append(plain if plain == word else f"{plain} as {word}")
        return path + brace + ", ".join(items) + "};"

    lines = []
    for line in text.split("\n"):
        lines.append(use(line) if re.match(r"ghost use Rattle\.\w+\.specs[^{]*\{.*\};$", line) else TOKEN.sub(new, line))
    return "\n".join(lines)


# An edit's pieces have the names of the file that they are pieces of.
def respell_edit(edit, known, sources):
    text, mapping = edit.read_text(), {}
    lines = []
    for line in text.split("\n"):
        if line.startswith("file: "):
            target = edit.parent.parent / line[len("file: ") :].strip()
            if target in sources:
                mapping = sources[target]
            else:
                foreign, _ = brought_in(target.read_text())
                mapping = {name: respelt(name) for name in known - foreign}
        whole = re.match("(old|new): ", line) is not None
        change = lambda t: mapping.get(t.group(0), respelt(t.group(0)) if t.group(0) in known else t.group(0))
        lines.append(TOKEN.sub(change, line) if whole else re.sub("`[^`]*`", lambda q: TOKEN.sub(change, q.group(0)), line))
    return "\n".join(lines)


DECLARED = re.compile(rf"^\s*(?:(?:abbrev|unfoldable|pub|record|data|ruleset|let) )*({WORD})\s*(?:[({{:]|=)", re.MULTILINE)


def declared(files):
    names = defaultdict(set)
    for file in files:
        for name in DECLARED.findall(file.read_text()):
            if "-" in name and not is_made(name):
                names[name].add(file)
    return names


def collisions(names, files):
    made = defaultdict(set)
    for name in names:
        made[respelt(name)].add(name)
    for new, old in sorted(made.items()):
        if len(old) > 1:
            yield f"{', '.join(sorted(old))} would all be {new}"
    for file in files:
        text = file.read_text()
        tokens = set(re.findall(r"[\w'⊕]+(?:-[\w'⊕]+)*", re.sub(r"--.*", "", text)))
        for token in sorted(tokens):
            if "-" in token and respelt(token) in tokens and token in names:
                yield f"{file}: {token} would be {respelt(token)}, which it has already"


def main():
    logic = sorted(file for file in CRATES.glob("*/**/*.antt") if "out" not in file.parts)
    sources = sorted(file for file in CRATES.glob("*/src/**/*.rt"))
    edits = sorted(CRATES.glob("*/must-fail/*.edit"))
    names = declared(logic)
    aliases = {token for file in sources for token in TOKEN.findall(file.read_text()) if "·" in token and not token.startswith("Rattle·")}
    used = {name for file in [*logic, *sources] for name in brought_in(file.read_text())[1] if "-" in name}
    known = set(names) | aliases | used
    for line in collisions(names, logic):
        print(line)
    if "--check" in sys.argv:
        return
    by_source = {file: source_names(file.read_text(), known) for file in sources}
    changed = {edit: respell_edit(edit, known, by_source) for edit in edits}
    for file, names in by_source.items():
        changed[file] = respell_source(file.read_text(), names)
    for file in logic:
        inner = re.search(r"/proofs/[^/]+/[^/]+$", str(file)) is not None
        changed[file] = respell_commented(file.read_text(), "--", inner, known)
    for file, text in changed.items():
        file.write_text(text)
    for page in [Path("README.md"), Path("CONTRIBUTING.md"), *Path("docs").glob("*.md")]:
        text = re.sub(r"`[^`\n]*`", lambda q: TOKEN.sub(lambda t: respelt(t.group(0)) if t.group(0) in known else t.group(0), q.group(0)), page.read_text())
        page.write_text(text)


if __name__ == "__main__":
    main()
