# The figures that the requirements give, as they print them. Nothing here is computed, and nothing is taken from the code.

# The program's sample, whole, in the old edition's four columns.
OLD_SAMPLE_INPUT = b"""\
   2   1   1   0   1   0   0   1   1   0
   1
   0
"""
OLD_SAMPLE_OUTPUT = b"""\
   0  10   0
   1   1   1
   2   2   0
   3   3   0
   4   4   1
   5   5   1
   6   6   0
   7   7   0
   8   8   0
   9   9   0
  10  11   0
  11  12   1
  12  13   1
  13  14   0
  14   8   1
  15   9   1
  16  11   1
  17  12   0
  18  13   0
  19  14   1
  20   5   1
  21  15   1
   0   1  22
"""
# The same with each number in the six columns that took their place.
SAMPLE_INPUT = b"""\
     2     1     1     0     1     0     0     1     1     0
     1
     0
"""
SAMPLE_OUTPUT = b"""\
     0    10     0
     1     1     1
     2     2     0
     3     3     0
     4     4     1
     5     5     1
     6     6     0
     7     7     0
     8     8     0
     9     9     0
    10    11     0
    11    12     1
    12    13     1
    13    14     0
    14     8     1
    15     9     1
    16    11     1
    17    12     0
    18    13     0
    19    14     1
    20     5     1
    21    15     1
     0     1    22
"""
TABLE_A = [2, 0, 3, 1]

# The kinds of a log in order, for each method: the head, what each number a adds in a pass over them, for each pass, the end.
KINDS = {
    2: ([10, 1, 2, 3, 4, 5, 6, 7], [[8, 9, 11, 12, 13, 14]], [5, 15]),
    3: ([11, 1, 2, 3, 4, 6, 5, 18], [[7, 8, 9, 17, 10, 12, 13, 14, 15]], [6, 16]),
    5: ([1, 2, 3, 4, 5], [[6, 7, 8, 9], [6, 10, 11, 12]], [1, 13]),
}

# The log's length, for each method and n. For method 5 it is printed as 7 + 8Q alone, and Q is 2, 4 and 256.
LENGTHS = {2: {1: 22, 2: 34, 8: 1546}, 3: {1: 28, 2: 46, 8: 2314}, 5: {1: 23, 2: 39, 8: 2055}}

# The kinds of a log of choosing a half, in order: rows of the source's Table 3, which has no row 24.
SELECTION_KINDS = [
    *(1, 2, 3, 11, 4, 5, 6, 7, 8, 9, 10),
    *(12, 13, 14, 15, 16, 17, 18),
    *(19, 20, 21, 22, 23, 25, 26),
    *(27, 28, 29),
]
