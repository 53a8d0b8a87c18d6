# How a control of a test ends: what it complains of is printed, and its status is 0 if that is nothing.
import sys
import tempfile
from pathlib import Path


# The complaints are made in a folder that is gone afterwards.
def end_control(complaints):
    with tempfile.TemporaryDirectory() as folder:
        found = list(complaints(Path(folder)))
    for complaint in found:
        print(complaint)
    sys.exit(1 if found else 0)
