# The converters of case sheets from one edition to the other, in plain Python, written from the requirements alone. They share nothing with
# the proved code.
import editions
from model import Case


# The same numbers, line by line, in the other edition, or a refusal's number alone. Only the form counts, and whether each number fits.
def converted(text, source, target):
    sheet = editions.read_sheet(source, text, Case)
    if sheet is None:
        return editions.print_line(1)
    case, table = sheet
    if max(*case, *table) > target.largest:
        return editions.print_line(22)
    return editions.print_sheet(target, case, table)


def to_six_columns(text):
    return converted(text, editions.OLD, editions.NEW)


def to_four_columns(text):
    return converted(text, editions.NEW, editions.OLD)
