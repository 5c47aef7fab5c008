#!/usr/bin/env python3
"""Says what the rows and the units of a recording have to be, by what ffprobe lists of it.

    probed.py rows RECORDING LAYER=PID..     a line for each packet of video: number, transport packet, layer, decoding time, match time, TREF sent
    probed.py units RECORDING LAYER=PID..    a line for each picture of the lowest layer: the rows of all layers that are shown at its time, then their lags behind the uppermost

ffprobe tells positions, PTS and DTS. It knows no TREF: the match time of a layer above the lowest is the decoding time of the picture of the lowest layer that is shown at the same time, which is what
`change.py tref` has written; without a 'tref' as the last word it is the decoding time.
"""

import json
import subprocess
import sys

PACKET = 188
TURN = 1 << 33


def probed(recording, pids):
    """For each packet of video its transport packet, its layer, PTS and DTS, in order of position."""
    wanted = "packet=stream_index,pos,pts,dts:stream=index,id,codec_type"
    command = ["ffprobe", "-v", "error", "-show_packets", "-show_streams", "-show_entries", wanted, "-of", "json", recording]
    told = json.loads(subprocess.run(command, check=True, stdout=subprocess.PIPE).stdout)
    layers = {stream["index"]: pids[int(stream["id"], 0)] for stream in told["streams"] if int(stream["id"], 0) in pids}
    if len(layers) != len(pids):
        raise SystemExit("probed.py: ffprobe has not found every PID")
    rows = []
    for packet in told["packets"]:
        if packet["stream_index"] in layers:
            position = int(packet["pos"])
            if position % PACKET:
                raise SystemExit("probed.py: a position that is no packet's")
            pts = int(packet["pts"])
            rows.append((position // PACKET, layers[packet["stream_index"]], pts % TURN, int(packet.get("dts", pts)) % TURN))
    return sorted(rows)


def main(words):
    has_tref = words[-1] == "tref"
    kind, recording, *given = words[: len(words) - has_tref]
    pids = {int(pid): int(layer) for layer, pid in (word.split("=") for word in given)}
    rows = probed(recording, pids)
    lowest = min(pids.values())
    decodings = {pts: dts for _, layer, pts, dts in rows if layer == lowest}
    if kind == "rows":
        for number, (packet, layer, pts, dts) in enumerate(rows):
            sent = has_tref and layer != lowest
            print(number, packet, layer, dts, decodings.get(pts, pts) if sent else dts, int(sent))
        return
    by_time = {}
    for number, (_, layer, pts, dts) in enumerate(rows):
        by_time.setdefault(pts, []).append((layer, number, dts))
    units = []
    for members in by_time.values():
        members.sort()
        head = members[-1]
        units.append((head[2], head[0], [number for _, number, _ in members], [dts - head[2] for _, _, dts in members]))
    for _, _, numbers, lags in sorted(units):
        print(*numbers, *lags)


if __name__ == "__main__":
    main(sys.argv[1:])
