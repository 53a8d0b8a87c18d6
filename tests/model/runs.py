# Runs of bytes that are just faulty, or just not, for the tests of the screening and of the frame.


# So many values in turn. 26 are the fewest that make no fault: each stands 19 or 20 times in any 512 consecutive bytes.
def in_turn(values, length):
    return [place % values for place in range(length)]


# The run with a value in the places of some ranges, as far as it goes.
def placed(run, value, *ranges):
    return [value if any(place in places for places in ranges) else byte for place, byte in enumerate(run)]


# 21 places among so many consecutive ones, the first and the last of these with them: evenly spread, early and late; each as two ranges.
def spreads(start, length):
    first, last = range(start, start + 1), range(start + length - 1, start + length)
    return [
        (range(start, start + 500, 25), last),
        (range(start, start + 20), last),
        (first, range(last.stop - 20, last.stop)),
    ]
