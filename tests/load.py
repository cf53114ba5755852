"""Loads the shared library that is named and asks it to admit Figure 2(b)."""
import ctypes
import pathlib
import sys

CHART = pathlib.Path(__file__).parent.parent / "charts" / "figure-2b.chart"
NODES, BARRIERS, PHASES = 13, 6, 8

library = ctypes.CDLL(str(pathlib.Path(sys.argv[1]).resolve()))
library.bohrali_admit.argtypes = [ctypes.c_char_p, ctypes.c_size_t]
library.bohrali_admit.restype = ctypes.c_int64

chart = CHART.read_bytes()
number = library.bohrali_admit(chart, len(chart))
expected = NODES + 256 * BARRIERS + 65536 * PHASES
if number != expected:
    sys.exit(f"admit: {number} and not {expected}")
