# The screening of random bytes in plain Python, written from the requirements alone. It shares nothing with the proved code.
# A run is a list of bytes, or bytes.
from collections import Counter


# The windows of a run, from its start on: each 512 consecutive bytes. A shorter run is one window.
def windows(run):
    if len(run) < 512:
        return [run]
    return (run[start : start + 512] for start in range(len(run) - 511))


# Whether some value stands in a window more than 20 times.
def faulty(window):
    return any(times > 20 for times in Counter(window).values())


# The start of the first faulty window, or None.
def report(run):
    return next((start for start, window in enumerate(windows(run)) if faulty(window)), None)
