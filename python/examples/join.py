"""Reads the sample loop A and joins a table of four rows over its layers 0 and 1.

    PYTHONPATH=python/src python3 python/examples/join.py [FILE]
"""

import sys
from pathlib import Path

from thoquenry import Reading, Row, import_, read_loop

sample = Path(__file__).resolve().parents[2] / "samples" / "loop-a.bin"
loop = Path(sys.argv[1] if len(sys.argv) > 1 else sample).read_bytes()

for entry in read_loop(Reading.EDITION_2015, loop):
    print("pid", entry.elementary_pid, "type", entry.stream_type)

rows = [Row(0, 9000, 9000), Row(1, 9000, 9000), Row(0, 12600, 12600), Row(1, 12000, 12600)]
joined = import_(Reading.EDITION_2015, loop, 1, rows)
for unit in joined.units:
    parts = [f"layer {rows[part.row].layer_index} row {part.row} lag {part.lag}" for part in unit]
    print("unit", *parts)
