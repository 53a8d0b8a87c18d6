# Edits of a text, for controls: what a test must notice. The pieces that an edit names must each stand in the text exactly once: an edit
# that no longer fits would control nothing.
import re


def require_once(text, piece):
    times = text.count(piece)
    if times != 1:
        raise ValueError(f"{piece!r} stands in the text {times} times")


# The text with one piece of it replaced.
def edited(text, old, new):
    require_once(text, old)
    return text.replace(old, new)


# The text with two pieces of it exchanged.
def exchanged(text, first, second):
    require_once(text, first)
    require_once(text, second)
    return re.sub(f"{re.escape(first)}|{re.escape(second)}", lambda found: second if found[0] == first else first, text)
