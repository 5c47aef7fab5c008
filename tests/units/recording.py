#!/usr/bin/env python3
"""recording.py TEXT: writes the recording of a text to standard output, in the notation of crates/packet_cases.

The text has bytes as two hexadecimal digits (47), or a byte N times (FF*N, N in decimal). A slash ends a packet, which is filled with FF to 188 bytes; what stands behind the last
slash is a part of a packet, as it is. 'times N' between two slashes has all packets before it N times. A line that begins with # says something to a reader, and is skipped.
"""

import sys
from pathlib import Path

PACKET = 188


def bytes_of(words):
    for word in words:
        digits, _, times = word.partition("*")
        yield from bytes([int(digits, 16)]) * int(times or 1)


def recording(text):
    lines = [line for line in text.splitlines() if not line.startswith("#")]
    *packets, last = [part.split() for part in " ".join(lines).split("/")]
    written = b""
    for words in packets:
        if words[:1] == ["times"]:
            written *= int(words[1])
        else:
            written += bytes(bytes_of(words)).ljust(PACKET, b"\xff")
    return written + bytes(bytes_of(last))


if __name__ == "__main__":
    if len(sys.argv) != 2:
        raise SystemExit("usage: recording.py TEXT")
    sys.stdout.buffer.write(recording(Path(sys.argv[1]).read_text()))
