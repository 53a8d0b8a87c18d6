# Holds the model to the requirements: their figures, their laws, every refusal with what is just inside, and the order of the refusals.
# Run: python3 tests/model/check.py (status 0 when all agree, 1 otherwise, with a line for each that does not).
import sys

import check_calls
import check_chain
import check_chain_leaks
import check_conversion
import check_counts
import check_frame
import check_leaks
import check_methods
import check_page
import check_print
import check_sbox
import check_screening
import check_selection
import check_small
import check_tables

# For each module, what holds it to them. The quick parts come first: a wrong model is then noticed sooner.
PARTS = {
    "methods": (check_methods,),
    "editions": (check_print, check_conversion),
    "model": (check_small, check_print, check_calls, check_tables, check_page, check_methods, check_leaks),
    "page": (check_page,),
    "conversion": (check_conversion,),
    "counts": (check_counts,),
    "chain": (check_chain, check_chain_leaks),
    "sbox": (check_sbox,),
    "screening": (check_screening,),
    "frame": (check_frame,),
    "selection": (check_selection,),
}

# How many comparisons each makes: a group that is left out, or that compares nothing, is missed here alone.
COMPARISONS = {
    check_small: 1253,
    check_print: 716,
    check_page: 2368,
    check_conversion: 2008,
    check_calls: 35113,
    check_tables: 1340,
    check_methods: 169939,
    check_leaks: 357,
    check_counts: 18158,
    check_chain: 66166,
    check_chain_leaks: 91,
    check_sbox: 7,
    check_screening: 420,
    check_frame: 467,
    check_selection: 33429,
}


def compared(part):
    for group in part.GROUPS:
        yield from group()


# The name, what the module says and what it should say, of all that differs.
def differences(module):
    for part in PARTS[module]:
        yield from ((name, got, wanted) for name, got, wanted in compared(part) if got != wanted)


def main():
    found = []
    for part, number in COMPARISONS.items():
        results = list(compared(part))
        found += [(name, got, wanted) for name, got, wanted in results if got != wanted]
        found += [(f"comparisons of {part.__name__}", len(results), number)] if len(results) != number else []
    for name, got, wanted in found:
        print(f"{name}: {got} and not {wanted}")
    sys.exit(1 if found or {part for parts in PARTS.values() for part in parts} != set(COMPARISONS) else 0)


if __name__ == "__main__":
    main()
