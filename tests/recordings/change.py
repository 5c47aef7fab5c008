#!/usr/bin/env python3
"""Makes one recording of transport packets from another.

    change.py FROM TO tref UPPER LOWER    each unit on the PID UPPER is sent a TREF: the decoding time of the unit on the PID LOWER that is shown at the same time
    change.py FROM TO repeat TIMES        the recording so many times, one after another, with counters and times that go on
    change.py FROM TO first COUNT         its first packets
    change.py FROM TO KIND UPPER LOWER    something done to a packet of these PIDs, of a kind in KINDS; what a reader has to answer is printed: 'units' where the units
                                          stay, or the refusal

It knows of transport packets what the tests need of it and no more, and shares nothing with the library.
"""

import sys

PACKET = 188
TURN = 1 << 33


def pid_of(packet):
    return (packet[1] & 0x1F) << 8 | packet[2]


def starts_unit(packet):
    return packet[1] & 0x40 != 0


def has_payload(packet):
    return packet[3] & 0x10 != 0


def payload_at(packet):
    """Where the payload of a packet begins."""
    return 5 + packet[4] if packet[3] & 0x20 else 4


def packets_of(data):
    if len(data) % PACKET:
        raise SystemExit("change.py: not whole packets")
    return [bytearray(data[at : at + PACKET]) for at in range(0, len(data), PACKET)]


def time_at(data, at):
    return (data[at] >> 1 & 7) << 30 | data[at + 1] << 22 | (data[at + 2] >> 1) << 15 | data[at + 3] << 7 | data[at + 4] >> 1


def time_field(prefix, time):
    return bytes(
        [prefix << 4 | (time >> 30 & 7) << 1 | 1, time >> 22 & 255, (time >> 15 & 127) << 1 | 1, time >> 7 & 255, (time & 127) << 1 | 1]
    )


def header_times(data, at):
    """PTS and decoding time of the PES header at a place."""
    pts = time_at(data, at + 9)
    return pts, time_at(data, at + 14) if data[at + 7] & 0x40 else pts


def time_places(data, at):
    """Where the times of the PES header at a place stand: PTS, DTS, and a TREF as `with_tref` writes it."""
    flags = data[at + 7]
    places = [at + 9] if flags & 0x80 else []
    if flags & 0x40:
        places.append(at + 14)
    if flags & 0x01:
        places.append(at + 9 + data[at + 8] - 5)
    return places


def with_tref(unit, tref):
    """The bytes of a unit, its header with a TREF."""
    if unit[7] & 0x3F:
        raise SystemExit("change.py: a header with other fields than PTS and DTS")
    end = 9 + unit[8]
    length = unit[4] << 8 | unit[5]
    length = length + 8 if 0 < length < 0xFFF8 else 0
    head = unit[:4] + bytes([length >> 8, length & 255, unit[6], unit[7] | 1, unit[8] + 8]) + unit[9:end]
    return head + b"\x0f\x86\xfe" + time_field(0x0F, tref) + unit[end:]


def clock_field(packet):
    """The flags and the PCR of a packet's adaptation field, without its stuffing, or nothing where it has none."""
    if not packet[3] & 0x20 or packet[4] == 0 or packet[5] == 0:
        return b""
    if packet[5] & 0x0F:
        raise SystemExit("change.py: an adaptation field with other parts than a PCR")
    return bytes(packet[5 : 12 if packet[5] & 0x10 else 6])


def laid(model, start, field, payload):
    """A packet like another one, with this adaptation field and as much of the payload as it takes; and what is left of that."""
    room = PACKET - 4 - (1 + len(field) if field else 0)
    if len(payload) < room:
        # Stuffing stands in the adaptation field.
        field = field or b""
        lacking = PACKET - 5 - len(field) - len(payload)
        if not field and lacking > 0:
            field, lacking = b"\x00", lacking - 1
        field += b"\xff" * lacking
        packet = bytearray([0x47, model[1] & 0x1F | start << 6, model[2], 0x30, len(field)]) + field + payload
    elif field:
        packet = bytearray([0x47, model[1] & 0x1F | start << 6, model[2], 0x30, len(field)]) + field + payload[:room]
    else:
        packet = bytearray([0x47, model[1] & 0x1F | start << 6, model[2], 0x10]) + payload[:room]
    if len(packet) != PACKET:
        raise SystemExit("change.py: a packet of another length")
    return packet, payload[room:]


def tref(packets, upper, lower):
    """The recording whose units on one PID are sent a TREF."""
    shown = {}
    for packet in packets:
        if pid_of(packet) == lower and starts_unit(packet):
            pts, decoding = header_times(packet, payload_at(packet))
            shown[pts] = decoding
    out = []
    units = []  # the places in `out` of a unit's packets, and its bytes
    for packet in packets:
        out.append([packet])
        if pid_of(packet) == upper and has_payload(packet):
            if starts_unit(packet):
                units.append(([], bytearray()))
            if not units:
                raise SystemExit("change.py: the recording does not begin with a unit")
            units[-1][0].append(len(out) - 1)
            units[-1][1].extend(packet[payload_at(packet) :])
    for places, unit in units:
        pts, _ = header_times(unit, 0)
        rest = with_tref(bytes(unit), shown.get(pts, pts))
        model = out[places[0]][0]
        for place in places:
            packet, rest = laid(model, place == places[0], clock_field(out[place][0]), rest)
            out[place] = [packet]
        while rest:
            packet, rest = laid(model, False, b"", rest)
            out[places[-1]].append(packet)
    packets = [packet for several in out for packet in several]
    counter = 15
    for packet in packets:
        if pid_of(packet) == upper:
            counter = (counter + has_payload(packet)) % 16
            packet[3] = packet[3] & 0xF0 | counter
    return packets


def repeat(packets, times):
    """The bytes of the recording so many times, counters and times going on."""
    data = bytearray().join(packets)
    counts, decodings = {}, []
    fields, clocks = [], []
    pids = [pid_of(packet) for packet in packets]
    for number, packet in enumerate(packets):
        at = number * PACKET
        pid = pids[number]
        counts[pid] = counts.get(pid, 0) + has_payload(packet)
        if packet[3] & 0x20 and packet[4] >= 7 and packet[5] & 0x10:
            clocks.append(at + 6)
        payload = payload_at(packet)
        if starts_unit(packet) and packet[payload : payload + 3] == b"\0\0\1":
            fields.extend(at + place for place in time_places(packet, payload))
            decodings.append(header_times(packet, payload)[1])
    # Every stream begins anew half a second after the last one has ended.
    duration = (max(decodings) - min(decodings) + 45000) // 3600 * 3600
    whole = []
    for _ in range(times):
        whole.append(bytes(data))
        for place in fields:
            data[place : place + 5] = time_field(data[place] >> 4, (time_at(data, place) + duration) % TURN)
        for place in clocks:
            base = int.from_bytes(data[place : place + 5], "big") >> 7
            rest = data[place + 4] & 0x7F
            data[place : place + 5] = (((base + duration) % TURN) << 7 | rest).to_bytes(5, "big")
        steps = {pid: count % 16 for pid, count in counts.items()}
        for number, pid in enumerate(pids):
            at = number * PACKET + 3
            data[at] = data[at] & 0xF0 | (data[at] + steps[pid]) & 0x0F
    return b"".join(whole)


def places_of(packets, pids, wanted):
    """The places of packets on these PIDs that are as wanted, without the first and the last of each PID."""
    of_pids = [[place for place, packet in enumerate(packets) if pid_of(packet) == pid] for pid in pids]
    inner = sorted(place for places in of_pids for place in places[1:-1])
    found = [place for place in inner if wanted(packets[place])]
    if not found:
        raise SystemExit("change.py: no such packet")
    return found


def middle(found):
    return found[len(found) // 2]


def next_of(packets, place):
    """The place of the next packet on the same PID."""
    pid = pid_of(packets[place])
    return next(later for later in range(place + 1, len(packets)) if pid_of(packets[later]) == pid)


def inside(packet):
    return not starts_unit(packet) and packet[3] & 0x30 == 0x10


def with_clock(packet):
    return has_payload(packet) and packet[3] & 0x20 and packet[4] >= 7 and packet[5] & 0x10


def gap(packets, pids):
    place = middle(places_of(packets, pids, inside))
    after = next_of(packets, place)
    del packets[place]
    return f"refused 31 place {after - 1}"


def told_gap(packets, pids):
    """A packet that is lost and told by the discontinuity indicator of the next."""
    clocked = places_of(packets, pids, with_clock)
    place = middle([place for place in clocked if previous(packets, place) is not None])
    packets[place][5] |= 0x80
    del packets[previous(packets, place)]
    return "units"


def previous(packets, place):
    """The place of the packet before on the same PID, where that starts no unit."""
    pid = pid_of(packets[place])
    earlier = [before for before in range(place) if pid_of(packets[before]) == pid]
    return earlier[-1] if earlier and inside(packets[earlier[-1]]) else None


def copies(packets, pids):
    """Each seventh packet of the layers once more, some others between."""
    out, number = [], 0
    for packet in packets:
        out.append(packet)
        if pid_of(packet) in pids and has_payload(packet):
            number += 1
            if number % 7 == 0:
                out.append(bytearray(b"\x47\x1f\xff\x10" + b"\xff" * 184))
                out.append(bytearray(packet))
    packets[:] = out
    return "units"


def clocked_copy(packets, pids):
    """A packet with a PCR once more, with another PCR, and once more."""
    place = middle(places_of(packets, pids, with_clock))
    for step in (1, 2):
        copy = bytearray(packets[place])
        copy[9] = (copy[9] + step) % 256
        packets.insert(place + 1, copy)
    return "units"


def other_copy(packets, pids):
    """A packet once more, with another last byte."""
    place = middle(places_of(packets, pids, inside))
    copy = bytearray(packets[place])
    copy[-1] ^= 1
    packets.insert(place + 1, copy)
    return f"refused 31 place {place + 1}"


def scrambled(packets, pids):
    place = middle(places_of(packets, pids, inside))
    packets[place][3] |= 0x80
    return f"refused 33 place {place}"


def error(packets, pids):
    """A packet with its error bit set is none, so that the counter of the next is wrong."""
    place = middle(places_of(packets, pids, inside))
    packets[place][1] |= 0x80
    return f"refused 31 place {next_of(packets, place)}"


def other_pids(packets, pids):
    """All that can be wrong with packets of other PIDs."""
    for number, packet in enumerate(packets):
        if pid_of(packet) not in pids:
            packet[1] ^= 0x40 if number % 2 else 0x80
            packet[3] = number * 7 % 256
            packet[4] = 255
    return "units"


def lost(packets, pids):
    place = middle([place for place, packet in enumerate(packets) if pid_of(packet) not in pids])
    packets[place][0] = 0x48
    return f"refused 30 place {place}"


def overlong(packets, pids):
    place = middle(places_of(packets, pids, inside))
    packets[place][3] |= 0x20
    packets[place][4] = 184
    return f"refused 32 place {place}"


def long_header(packets, pids):
    place = middle(places_of(packets, pids, starts_unit))
    at = payload_at(packets[place])
    packets[place][at + 8] = PACKET - at - 9 + 1
    return f"refused 32 place {place}"


def no_header(packets, pids):
    place = middle(places_of(packets, pids, starts_unit))
    packets[place][payload_at(packets[place]) + 2] = 2
    return f"refused 20 place {place}"


def no_time(packets, pids):
    place = middle(places_of(packets, pids, starts_unit))
    packets[place][payload_at(packets[place]) + 7] &= 0x3F
    return f"refused 21 place {place}"


def wrong_marker(packets, pids):
    place = middle(places_of(packets, pids, starts_unit))
    packets[place][payload_at(packets[place]) + 13] &= 0xFE
    return f"refused 23 place {place}"


def cut(packets, pids):
    packets[-1] = packets[-1][:100]
    return f"refused 30 place {len(packets) - 1}"


KINDS = {
    "gap": gap,
    "told-gap": told_gap,
    "copies": copies,
    "clocked-copy": clocked_copy,
    "other-copy": other_copy,
    "scrambled": scrambled,
    "error": error,
    "other-pids": other_pids,
    "lost": lost,
    "overlong": overlong,
    "long-header": long_header,
    "no-header": no_header,
    "no-time": no_time,
    "wrong-marker": wrong_marker,
    "cut": cut,
}


def main(words):
    try:
        source, target, kind = words[:3]
        numbers = [int(word) for word in words[3:]]
    except ValueError:
        raise SystemExit(__doc__)
    with open(source, "rb") as file:
        packets = packets_of(file.read())
    if kind == "tref" and len(numbers) == 2:
        packets = tref(packets, *numbers)
        data = b"".join(packets)
    elif kind == "repeat" and len(numbers) == 1:
        data = repeat(packets, *numbers)
    elif kind == "first" and len(numbers) == 1:
        data = b"".join(packets[: numbers[0]])
    elif kind in KINDS and len(numbers) == 2:
        print(KINDS[kind](packets, numbers))
        data = b"".join(packets)
    else:
        raise SystemExit(__doc__)
    with open(target, "wb") as file:
        file.write(data)


if __name__ == "__main__":
    main(sys.argv[1:])
