#!/usr/bin/env python3
"""Writes the loop of the two streams that the tests record, by the library's own writer: a base layer on PID 256, a layer above it on PID 257 that has every second picture, and audio."""

import sys

from thoquenry import Entry, Hierarchy, write_loop

BASE = Hierarchy(True, True, True, True, 15, 0, True, 63, 0)
UPPER = Hierarchy(True, False, True, True, 3, 1, True, 0, 1)
sys.stdout.buffer.write(write_loop([Entry(0x1B, 256, BASE), Entry(0x1B, 257, UPPER), Entry(0x03, 259)]))
