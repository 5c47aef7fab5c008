"""How long reading loop A takes from Python, in microseconds: the least of many rounds. Ends with status 1 where it is more than 40."""

import sys
from pathlib import Path
from timeit import repeat

from thoquenry import Reading, read_loop

loop = (Path(__file__).resolve().parents[2] / "samples" / "loop-a.bin").read_bytes()
calls = 500
least = min(repeat(lambda: read_loop(Reading.EDITION_2015, loop), number=calls, repeat=200)) / calls * 1e6
print(f"loop A is read in {least:.1f} microseconds")
sys.exit(least > 40)
