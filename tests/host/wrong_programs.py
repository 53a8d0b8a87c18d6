# Wrong programs over a right one that answers sheets, $0 in the shell: what tests/host/print_test.py tries as its control. That one is left
# out is noticed there, by their number.

# Those of the page alone: what is wrong, on how many sheets that must show, and how the shell makes it so. A kind's line alone has two
# numbers, and a full line of entries fifteen.
PAGE_FAULTS = (
    ("a short line that is not filled", 1, """"$0" | sed 's/ *$//'"""),
    ("a short line that is filled too far", 1, """"$0" | sed '5s/$/ /'"""),
    ("a full line followed by an empty one", 583, """"$0" | awk 'NF == 2 && before == 15 {print ""} {print; before = NF}'"""),
    ("a kind's figure", 1, """"$0" | sed 's/^     5         2$/     5         1/'"""),
    ("kinds that fall", 1, """"$0" | awk 'NF == 2 {held = $0 "\\n" held; next} {printf "%s%s\\n", held, $0; held = ""}'"""),
    ("a total that is one less", 1, """"$0" | sed '$s/22$/21/'"""),
    ("an answer's line", 1, """"$0"; echo '     0     1    22'"""),
)


# What is wrong, the way that must notice it, on how many inputs, and how the shell makes it so. Some of them read all first. They are given
# what the program says at a terminal, and the ways to run it.
def wrong_programs(program, waiting, ways):
    every = program.sheet_count
    say = f"echo '{waiting.strip()}' >&2"
    hand_on = "printf %s \"${text%.}\""
    refusal, other = program.refusal
    return [
        ("a refusal's number", "files", every, f'"$0" | sed "s/^{refusal:6}$/{other:6}/"'),
        ("a refusal in four columns", "files", every, f'"$0" | sed "s/^{refusal:6}$/{refusal:4}/"'),
        ("the last line left out", "files", 20, """"$0" | sed '$d'"""),
        ("no last line feed", "files", 20, '"$0" | head -c -1'),
        ("a line of the longest print", "files", every, f'"$0" | sed "{program.last_line}s/.$/x/"'),
        ("a sheet that goes on behind its end", "files", every, f'head -c {program.longest} | "$0"'),
        ("only the first read", "pieces", 20, 'dd bs=4096 count=1 2>/dev/null | "$0"'),
        ("only the front of long input", "long", 1, f'head -c {len(program.sample)} | "$0"'),
        ("bytes from 128 on as spaces", "mutated", 400, r"""tr '\200-\377' ' ' | "$0" """),
        # those that are silent take LONGEST_SILENCE for each input
        ("silence at a terminal", "terminal", 1, 'cat | "$0"'),
        ("what is said at a terminal, printed", "terminal", 1, '"$0" 2>&1'),
        ("what is said at a terminal, said when the input has ended", "terminal", 1, f'text=$(cat; echo .); {say}; {hand_on} | "$0"'),
        ("what is said at a terminal, said twice", "terminal", 4, f'{say}; "$0"'),
        ("a word where there is no terminal", "files", 20, 'echo waiting >&2; "$0"'),
        ("silence where nothing can be written", "full", 4, '"$0" 2>/dev/null'),
        *((what, "files", limit, script) for what, limit, script in program.own_faults),
        *(("the status", way, 20, '"$0"; exit 3') for way in ways),
        *(("a signal", way, 20, '"$0"; kill -KILL $$') for way in ways),
    ]
