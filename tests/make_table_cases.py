#!/usr/bin/env python3
"""Writes the run cases of the loader: crates/loader_cases/data/cases.bin, and crates/loader_cases/stdout.

A case is a label and a table. The expected verdict is that of the judge below, which is written from document 01
alone and shares nothing with the code or the model. cases.bin has for each case: the label's length (1 byte), the
table's length (2 bytes, low byte first), the label, the table. A line of stdout is 'label: accepted' or
'label: NUMBER RECORD'. Run it in the repository's root.
"""
import pathlib
import random

SIZE = 48


# ---- records, as 01 lays them out

def window(partition=0, length=10):
    return bytes([1, partition]) + length.to_bytes(2, "little") + bytes(44)


def port(owner=0, mode=0, direction=0, largest=4, depth=0, refresh=0, name=b"A"):
    head = bytes([2, owner, mode, direction])
    numbers = b"".join(n.to_bytes(4, "little") for n in (largest, depth, refresh))
    return head + numbers + name.ljust(30, b"\0") + bytes(2)


def channel(source=1, destinations=(2,), count=None):
    ids = b"".join(i.to_bytes(2, "little") for i in destinations)
    count = len(destinations) if count is None else count
    return bytes([3, count]) + source.to_bytes(2, "little") + ids.ljust(16, b"\0") + bytes(28)


def put(record, at, value):
    """The record with a byte replaced."""
    return record[:at] + bytes([value]) + record[at + 1:]


def label_name(k):
    return b"N%02d" % k


def sampling_source(name=b"S", **more):
    return port(name=name, **more)


def sampling_destination(name=b"D", **more):
    return port(direction=1, refresh=20, name=name, **more)


def queuing_source(name=b"S", **more):
    return port(mode=1, depth=3, name=name, **more)


def queuing_destination(name=b"D", **more):
    return port(mode=1, direction=1, depth=3, name=name, **more)


# ---- the judge, from 01's "Tables" and "Load refusals"

def number(record, low, high):
    return int.from_bytes(record[low:high + 1], "little")


def window_in_range(r):
    return (r[1] in range(16) or r[1] == 32) and 1 <= number(r, 2, 3) <= 10_000 and not any(r[4:])


def port_in_range(r):
    owner, mode, direction = r[1], r[2], r[3]
    largest, depth, refresh = number(r, 4, 7), number(r, 8, 11), number(r, 12, 15)
    if owner > 15 or mode > 1 or direction > 1 or not 1 <= largest <= 64:
        return False
    if (depth not in range(1, 9)) if mode == 1 else depth != 0:
        return False
    wants_refresh = mode == 0 and direction == 1
    if (not 1 <= refresh <= 1_000_000) if wants_refresh else refresh != 0:
        return False
    return r[46:] == b"\0\0"


def channel_in_range(r):
    count = r[1]
    return 1 <= count <= 8 and not any(r[4 + 2 * count:])


def name_of(r):
    return r[16:46]


def name_is_right(r):
    text = name_of(r).rstrip(b"\0")
    return len(text) > 0 and 0 not in text


def ends_of(r):
    return [number(r, 2 + 2 * j, 3 + 2 * j) for j in range(r[1] + 1)]


def ends_are_right(r, ports, named):
    """named: the ids in earlier channels."""
    ids = ends_of(r)
    if any(not 1 <= i <= len(ports) for i in ids):
        return False
    rows = [ports[i - 1] for i in ids]
    if rows[0][3] != 0 or any(row[3] != 1 for row in rows[1:]):
        return False
    if any(row[2] != rows[0][2] for row in rows):
        return False
    if rows[0][2] == 1 and r[1] != 1:
        return False
    if any(number(row, 4, 7) < number(rows[0], 4, 7) for row in rows[1:]):
        return False
    return len(set(ids)) == len(ids) and not set(ids) & named


def judge(table):
    if len(table) == 0 or len(table) % SIZE:
        return 20, 0
    records = [table[i:i + SIZE] for i in range(0, len(table), SIZE)]
    windows, ports, channels, named, kind_before = 0, [], 0, set(), 1
    for at, r in enumerate(records):
        kind = r[0]
        if kind not in (1, 2, 3) or kind < kind_before:
            return 21, at
        kind_before = kind
        if kind == 1:
            windows += 1
            if windows > 64:
                return 22, at
            if not window_in_range(r):
                return 23, at
        elif kind == 2:
            if len(ports) == 64:
                return 22, at
            if not port_in_range(r):
                return 23, at
            if not name_is_right(r) or any(p[1] == r[1] and name_of(p) == name_of(r) for p in ports):
                return 24, at
            ports.append(r)
        else:
            channels += 1
            if channels > 32:
                return 22, at
            if not channel_in_range(r):
                return 23, at
            if not ends_are_right(r, ports, named):
                return 25, at
            named |= set(ends_of(r))
    return (26, len(records)) if windows == 0 else None


# ---- the cases

CASES = []


def case(label, *records):
    CASES.append((label, b"".join(records)))


W = window()
PAIR = [sampling_source(), sampling_destination()]          # ports 1 and 2: a sampling channel's
QUEUES = [queuing_source(), queuing_destination()]          # the same, queuing


def lengths():
    full = W * 3
    for n in (0, 1, 47, 48, 49, 95, 96, 97, 144):
        case(f"length {n}", full[:n])


def counts():
    for n in (63, 64, 65, 66):
        case(f"{n} windows", *[W] * n)
    for n in (0, 1, 63, 64, 65, 66):
        case(f"{n} ports", W, *[port(name=label_name(k)) for k in range(n)])
    ports = [p for k in range(32) for p in (sampling_source(b"S%02d" % k), sampling_destination(b"D%02d" % k))]
    channels = [channel(2 * k + 1, (2 * k + 2,)) for k in range(32)]
    for n in (0, 1, 31, 32):
        case(f"{n} channels", W, *ports, *channels[:n])
    case("33 channels", W, *ports, *channels, channels[0])
    case("34 channels", W, *ports, *channels, channels[0], channels[1])
    case("full tables", *[W] * 64, *ports, *channels)
    case("full tables and a window more", *[W] * 65, *ports, *channels)
    long_ports = [port(name=b"x" * 29 + bytes([33 + k])) for k in range(64)]
    case("full tables with names sharing 29 bytes", *[W] * 64, *long_ports)


def kinds():
    for k in (0, 1, 2, 3, 4, 255):
        case(f"first kind {k}", put(W, 0, k))
        case(f"second kind {k}", W, put(W, 0, k))
    case("port before window", PAIR[0], W)
    case("channel before port", W, PAIR[0], channel(1, (2,)), PAIR[1])
    case("channel before window", W, *PAIR, channel(), W)
    case("window after port", W, PAIR[0], W)
    case("channels straight after windows", W, channel())


def window_fields():
    for p in (0, 1, 15, 16, 17, 31, 32, 33, 64, 255):
        case(f"window of partition {p}", window(partition=p))
    for n in (0, 1, 2, 255, 256, 9_999, 10_000, 10_001, 65_535):
        case(f"window of length {n}", window(length=n))
    for at in range(4, SIZE):
        case(f"window with byte {at}", put(W, at, 1))


def port_fields():
    for n in (0, 1, 15, 16, 32, 255):
        case(f"port of owner {n}", W, port(owner=n))
    for n in (0, 1, 2, 255):
        case(f"port of mode {n} and depth 0", W, port(mode=n))
        case(f"port of mode {n} and depth 1", W, port(mode=n, depth=1))
        case(f"port of direction {n} and refresh 0", W, port(direction=n))
        case(f"port of direction {n} and refresh 1", W, port(direction=n, refresh=1))
    for n in (0, 1, 2, 63, 64, 65, 256, 257, 65_537, 16_777_217, 2**32 - 1):
        case(f"port with largest {n}", W, port(largest=n))
    for n in (0, 1, 7, 8, 9, 256, 257, 65_537, 2**32 - 1):
        case(f"sampling port with depth {n}", W, port(depth=n))
        case(f"queuing port with depth {n}", W, port(mode=1, depth=n))
    for n in (0, 1, 2, 999_999, 1_000_000, 1_000_001, 2**24, 2**32 - 1):
        case(f"sampling source with refresh {n}", W, port(refresh=n))
        case(f"sampling destination with refresh {n}", W, port(direction=1, refresh=n))
        case(f"queuing source with refresh {n}", W, port(mode=1, depth=1, refresh=n))
        case(f"queuing destination with refresh {n}", W, port(mode=1, direction=1, depth=1, refresh=n))
    for at in (46, 47):
        case(f"port with byte {at}", W, put(port(name=b"x" * 30), at, 1))


def names():
    for n in (0, 1, 2, 29, 30):
        case(f"name of {n} bytes", W, port(name=b"x" * n))
    for k in range(29):
        case(f"name with a gap at {k}", W, port(name=b"x" * k + b"\0" + b"x" * (29 - k)))
    case("name with a byte after the end", W, put(port(name=b"AB"), 45, 7))
    case("name of high bytes", W, port(name=b"\xff" * 30))
    case("one name, one owner", W, port(name=b"SKY"), port(name=b"SKY"))
    case("one name, two owners", W, port(name=b"SKY"), port(owner=1, name=b"SKY"))
    case("one name, one owner, two directions", W, sampling_source(b"SKY"), sampling_destination(b"SKY"))
    case("one name, one owner, two modes", W, sampling_source(b"SKY"), queuing_source(b"SKY"))
    case("one name in first and last port", W, *[port(name=label_name(k)) for k in range(5)], port(name=label_name(0)))
    case("one name, one owner, with others between", W, port(owner=3, name=b"A"), port(owner=4, name=b"A"), port(owner=3, name=b"A"))
    case("names that share 29 bytes", W, port(name=b"x" * 29 + b"1"), port(name=b"x" * 29 + b"2"))
    case("names of 30 bytes, the same", W, port(name=b"x" * 30), port(name=b"x" * 30))
    case("a name that begins another", W, port(name=b"SKY"), port(name=b"SKYE"))
    case("names that differ in the first byte", W, port(name=b"1" + b"x" * 29), port(name=b"2" + b"x" * 29))


def channel_fields():
    many = [sampling_source(), *[sampling_destination(label_name(k)) for k in range(9)]]
    for n in range(1, 9):
        case(f"channel of {n} destinations", W, *many, channel(1, range(2, 2 + n)))
    for n in (0, 9, 10, 128, 255):
        case(f"channel with count {n}", W, *many, channel(1, (2,), count=n))
    for n in range(1, 8):
        case(f"count {n} of 8 ids", W, *many, channel(1, range(2, 10), count=n))
    for at in range(6, 20):
        case(f"channel with byte {at} of an unused id", W, *many, put(channel(1, (2,)), at, 1))
    for at in range(20, SIZE):
        case(f"channel with byte {at}", W, *many, put(channel(1, range(2, 10)), at, 1))


def channel_ends():
    for i in (0, 1, 2, 3, 255, 256, 257, 65_535):
        case(f"source id {i} of 2 ports", W, *PAIR, channel(i, (2,)))
        case(f"destination id {i} of 2 ports", W, *PAIR, channel(1, (i,)))
    case("ids with no ports", W, channel())
    case("last destination with no row", W, *PAIR, sampling_destination(b"E"), channel(1, (2, 3, 4)))
    case("source that is a destination", W, sampling_destination(b"S"), PAIR[1], channel())
    case("destination that is a source", W, PAIR[0], sampling_source(b"D"), channel())
    case("channel the wrong way round", W, *PAIR, channel(2, (1,)))
    case("second destination that is a source", W, *PAIR, sampling_source(b"E"), channel(1, (2, 3)))
    case("sampling to queuing", W, PAIR[0], QUEUES[1], channel())
    case("queuing to sampling", W, QUEUES[0], PAIR[1], channel())
    case("sampling to sampling and queuing", W, *PAIR, queuing_destination(b"E"), channel(1, (2, 3)))
    case("queuing to one", W, *QUEUES, channel())
    case("queuing to two", W, *QUEUES, queuing_destination(b"E"), channel(1, (2, 3)))
    case("sampling to two", W, *PAIR, sampling_destination(b"E"), channel(1, (2, 3)))
    for n in (1, 3, 4, 5, 64):
        case(f"destination's largest {n}, source's 4", W, PAIR[0], sampling_destination(largest=n), channel())
        case(f"second destination's largest {n}, source's 4", W, *PAIR, sampling_destination(b"E", largest=n), channel(1, (2, 3)))
    case("source named again as destination", W, *PAIR, channel(1, (1,)))
    case("destination named twice", W, *PAIR, channel(1, (2, 2)))
    three = [PAIR[0], sampling_destination(), sampling_destination(b"E")]
    case("destination named twice, apart", W, *three, channel(1, (2, 3, 2)))
    four = [sampling_source(b"S"), sampling_source(b"T"), sampling_destination(b"D"), sampling_destination(b"E")]
    case("two channels", W, *four, channel(1, (3,)), channel(2, (4,)))
    case("source in an earlier channel", W, *four, channel(1, (3,)), channel(1, (4,)))
    case("destination in an earlier channel", W, *four, channel(1, (3,)), channel(2, (3,)))
    six = [*four, sampling_destination(b"F"), sampling_source(b"U")]
    case("destination in the last end of an earlier channel", W, *six, channel(1, (3, 4)), channel(2, (5, 4)))
    case("destination in the first of two earlier channels", W, *six, channel(1, (3,)), channel(2, (4,)), channel(6, (3,)))
    case("port in no channel", W, *six, channel(1, (3,)))
    queued = [queuing_source(b"S"), queuing_destination(b"D"), queuing_source(b"T"), queuing_destination(b"E")]
    case("two queuing channels", W, *queued, channel(1, (2,)), channel(3, (4,)))
    case("destination's largest 63, source's 64", W, port(largest=64), sampling_destination(largest=63), channel())


def order():
    bad_window = window(partition=99)
    unnamed = port(name=b"")
    case("21 before 23", W, put(bad_window, 0, 9))
    case("22 before 23", *[W] * 64, bad_window)
    case("22 before 24", W, *[port(name=label_name(k)) for k in range(64)], unnamed)
    ports = [p for k in range(32) for p in (sampling_source(b"S%02d" % k), sampling_destination(b"D%02d" % k))]
    channels = [channel(2 * k + 1, (2 * k + 2,)) for k in range(32)]
    case("22 before 25", W, *ports, *channels, channel(0, (0,)))
    case("23 before 24", W, port(owner=16, name=b""))
    case("23 before 25", W, *PAIR, put(channel(0, (0,)), 47, 1))
    case("21 before 24 and 25", W, *PAIR, channel(), unnamed)
    case("first record of several", W, port(owner=16), unnamed, channel())
    case("24 in an earlier record than 23", W, unnamed, port(owner=16))
    case("25 in an earlier record than 21", W, *PAIR, channel(0, (2,)), W)
    case("23 in an earlier record than 21", bad_window, put(W, 0, 9))
    case("20 before all", bad_window, b"\0")
    case("no window, two ports", *PAIR)
    case("no window, a channel", *PAIR, channel())
    case("no window, a fault", port(owner=16))
    case("no window, a channel alone", channel())
    case("26 after 25", *PAIR, channel(0, (2,)))
    case("a fault in the last record", W, *PAIR, channel(), channel())


def sample(rng):
    """A small table near the edge of right and wrong."""
    records = [window(rng.choice([0, 1, 15, 32]), rng.choice([1, 10, 10_000])) for _ in range(rng.randint(1, 2))]
    ports = []
    for k in range(rng.randint(0, 6)):
        mode, direction = rng.randint(0, 1), rng.randint(0, 1)
        refresh = 20 if (mode, direction) == (0, 1) else 0
        ports.append(port(rng.randint(0, 2), mode, direction, rng.choice([4, 8, 64]), 3 * mode, refresh, label_name(rng.randint(0, 9))))
    channels = []
    for _ in range(rng.randint(0, 2)):
        few = rng.choice([1, 1, 1, 2, 3])
        channels.append(channel(rng.randint(1, max(1, len(ports))), [rng.randint(1, max(1, len(ports))) for _ in range(few)]))
    table = bytearray(b"".join(records + ports + channels))
    for _ in range(rng.choice([0, 0, 1, 2])):
        table[rng.randrange(len(table))] = rng.choice([0, 1, 2, 3, 255])
    return bytes(table)


def samples():
    rng = random.Random(653)
    for k in range(200):
        case(f"sample {k}", sample(rng))


def main():
    for group in (lengths, counts, kinds, window_fields, port_fields, names, channel_fields, channel_ends, order, samples):
        group()
    room = pathlib.Path("crates/loader_cases")
    data, out = bytearray(), []
    for label, table in CASES:
        text = label.encode()
        data += bytes([len(text)]) + len(table).to_bytes(2, "little") + text + table
        verdict = judge(table)
        out.append(f"{label}: accepted" if verdict is None else f"{label}: {verdict[0]} {verdict[1]}")
    (room / "data").mkdir(exist_ok=True)
    (room / "data" / "cases.bin").write_bytes(data)
    (room / "stdout").write_text("\n".join(out) + "\n")
    print(f"{len(CASES)} cases, {len(data)} bytes")


main()
