"""Prints the units of a recording as it is read, a line each: its row numbers, then its lags.

    PYTHONPATH=python/src python3 python/examples/units.py [TARGET LOOP RECORDING]
"""

import sys
from pathlib import Path

from thoquenry import Recording

samples = Path(__file__).resolve().parents[2] / "samples" / "recordings"
target, loop, file = sys.argv[1:] or (1, samples / "two-rates.bin", samples / "two-rates.ts")

recording = Recording(Path(loop).read_bytes())
recording.feed_from(file)
for unit in recording.units(int(target)).units:
    print(*(part.row for part in unit), *(part.lag for part in unit))
