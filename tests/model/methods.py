# The methods in plain Python, written from the requirements alone. They share nothing with the proved code.
# Each takes an accepted case, a table and a scratch, and hands back the answer, the whole scratch and the log as (kind, value) pairs.


def run_method_2(case, table, scratch):
    _, n, _, x0, r1, r2, s1, s2, r3, _ = case
    scratch = list(scratch)
    mixed = r1 ^ r3
    r_prime = mixed ^ r2
    log = [(10, x0), (1, r1), (2, r2), (3, s1), (4, s2), (5, r3), (6, mixed), (7, r_prime)]
    for a in range(2**n):
        place = a ^ r_prime
        entry = table[x0 ^ a]
        scratch[place] = entry ^ s1 ^ s2
        log += [(8, a), (9, place), (11, x0 ^ a), (12, entry), (13, entry ^ s1), (14, entry ^ s1 ^ s2)]
    answer = scratch[r3]
    log += [(5, r3), (15, answer)]
    return answer, scratch, log


def run_method_3(case, table, scratch):
    _, n, _, x0, r1, r2, s1, s2, r3, b = case
    scratch = [1 - b] * 2**n + list(scratch[2**n :])
    scratch[r3] = b
    registers = [0, 0]
    log = [(11, x0), (1, r1), (2, r2), (3, s1), (4, s2), (6, b), (5, r3), (18, 1 - b)]
    for a in range(2**n):
        place = r1 ^ a ^ r3 ^ r2
        cmp = scratch[place]
        entry = table[x0 ^ a]
        registers[cmp] = entry ^ s1 ^ s2
        log += [(7, a), (8, r1 ^ a), (9, r1 ^ a ^ r3), (17, place), (10, cmp)]
        log += [(12, x0 ^ a), (13, entry), (14, entry ^ s1), (15, entry ^ s1 ^ s2)]
    answer = registers[b]
    log += [(6, b), (16, answer)]
    return answer, scratch, log


# A pass of method 5, which makes a table of another: the new table, and what the log shows of it. The kinds are those of the place, of the
# byte that is read there, and of that byte masked.
def recomputed(table, input_mask, output_mask, kinds):
    made, log = [], []
    for a in range(len(table)):
        place = a ^ input_mask
        byte = table[place]
        made.append(byte ^ output_mask)
        log += [(6, a), *zip(kinds, (place, byte, made[a]))]
    return made, log


def run_method_5(case, table, scratch):
    _, _, _, x0, r1, r2, s1, s2, _, _ = case
    first, first_log = recomputed(table, r1, s1, (7, 8, 9))
    second, second_log = recomputed(first, r2, s2, (10, 11, 12))
    answer = second[x0]
    head, end = [(1, x0), (2, r1), (3, r2), (4, s1), (5, s2)], [(1, x0), (13, answer)]
    scratch = first + second + list(scratch[2 * len(table) :])
    return answer, scratch, head + first_log + second_log + end
