"""A plain runner in Python, written from 01 alone: what the runner must print for tables and events. Nothing of the kernel is used here."""

import struct

RECORD, EVENT, NOBODY, MOVER = 48, 80, 255, 32
# code -> (needed mode, needed direction or None)
NEEDS = {2: (0, 0), 3: (0, 1), 5: (0, None), 7: (1, 0), 8: (1, 1), 10: (1, None), 11: (1, 1)}


def u16(b, at):
    return struct.unpack_from("<H", b, at)[0]


def u32(b, at):
    return struct.unpack_from("<I", b, at)[0]


def judge(length, t):
    """None, or (number, record), of tables of a length whose first records are t."""
    if length == 0 or length % RECORD:
        return 20, 0
    counts, last, ports, used = {1: 0, 2: 0, 3: 0}, 1, [], set()
    for k in range(len(t) // RECORD):
        r = t[RECORD * k : RECORD * (k + 1)]
        kind = r[0]
        if kind not in counts or kind < last:
            return 21, k
        last = kind
        counts[kind] += 1
        if counts[kind] > {1: 64, 2: 64, 3: 32}[kind]:
            return 22, k
        if kind == 1:
            if not (r[1] <= 15 or r[1] == MOVER) or not 1 <= u16(r, 2) <= 10000 or any(r[4:]):
                return 23, k
        elif kind == 2:
            owner, mode, direction, largest, depth, refresh = r[1], r[2], r[3], u32(r, 4), u32(r, 8), u32(r, 12)
            ok = owner <= 15 and mode <= 1 and direction <= 1 and 1 <= largest <= 64
            ok = ok and (1 <= depth <= 8 if mode == 1 else depth == 0)
            ok = ok and (1 <= refresh <= 1000000 if (mode, direction) == (0, 1) else refresh == 0)
            if not ok or any(r[46:]):
                return 23, k
            name = r[16:46]
            bare = name.rstrip(b"\0")
            if not bare or 0 in bare or any(p["owner"] == owner and p["name"] == name for p in ports):
                return 24, k
            ports.append(dict(owner=owner, mode=mode, direction=direction, largest=largest, depth=depth, refresh=refresh, name=name))
        else:
            n = r[1]
            if not 1 <= n <= 8 or any(r[4 + 2 * n :]):
                return 23, k
            ids = [u16(r, 2 + 2 * i) for i in range(n + 1)]
            if any(not 1 <= i <= len(ports) for i in ids) or len(set(ids)) != len(ids) or used & set(ids):
                return 25, k
            ends = [ports[i - 1] for i in ids]
            source = ends[0]
            if source["direction"] != 0 or any(p["direction"] != 1 or p["mode"] != source["mode"] or p["largest"] < source["largest"] for p in ends[1:]):
                return 25, k
            if source["mode"] == 1 and n != 1:
                return 25, k
            used |= set(ids)
    if not counts[1]:
        return 26, len(t) // RECORD
    return None


class Kernel:
    def __init__(self, t):
        rows = [t[i : i + RECORD] for i in range(0, len(t), RECORD)]
        self.windows = [(r[1], u16(r, 2)) for r in rows if r[0] == 1]
        self.ports = [
            dict(owner=r[1], mode=r[2], direction=r[3], largest=u32(r, 4), depth=u32(r, 8), refresh=u32(r, 12), name=r[16:46],
                 made=False, arrival=0, valid=0, store=[])
            for r in rows if r[0] == 2
        ]
        self.channels = [(u16(r, 2), [u16(r, 4 + 2 * i) for i in range(r[1])]) for r in rows if r[0] == 3]
        self.window, self.time, self.modes = 0, 0, [1] * 16

    def answer(self, e):
        code = e[0]
        who = self.windows[self.window][0]
        if not 1 <= code <= 14:
            return self.no(19, NOBODY)
        if code <= 12 and who == MOVER:
            return self.no(16, NOBODY)
        if code == 14 and who != MOVER:
            return self.no(17, NOBODY)
        if code == 14 and u16(e, 2) >= len(self.channels):
            return self.no(18, NOBODY)
        if code == 13:
            self.time = (self.time + self.windows[self.window][1]) % 2**32
            self.window = (self.window + 1) % len(self.windows)
            return self.yes(MOVER, number=self.time)
        if code == 14:
            return self.move(u16(e, 2))
        if self.modes[who] == 0:
            return self.no(15, who)
        return self.call(code, who, e)

    @staticmethod
    def no(code, doer):
        return dict(code=code, doer=doer, id=0, number=0, size=0, valid=0, direction=0, depth=0, message=b"")

    @classmethod
    def yes(cls, doer, **told):
        return {**cls.no(0, doer), **told}

    def move(self, number):
        source, dests = self.channels[number]
        store = self.ports[source - 1]["store"]
        if not store:
            return self.no(1, 64 + number)
        message = store.pop(0)
        for d in dests:
            p = self.ports[d - 1]
            if not p["made"]:
                continue
            if p["mode"] == 0:
                p["store"], p["arrival"] = [message], self.time
            elif len(p["store"]) < p["depth"]:
                p["store"].append(message)
        return self.yes(64 + number)

    def call(self, code, who, e):
        if code in (1, 6, 4, 9):
            mode = 0 if code in (1, 4) else 1
            found = [(i, p) for i, p in enumerate(self.ports, 1) if (p["owner"], p["mode"], p["name"]) == (who, mode, e[16:46])]
            if code in (4, 9):
                return self.yes(who, id=found[0][0]) if found and found[0][1]["made"] else self.no(4, who)
            if not found:
                return self.no(4, who)
            i, p = found[0]
            if p["made"]:
                return self.no(1, who)
            if (u32(e, 8), e[1], u32(e, 4)) != (p["largest"], p["direction"], p["refresh"] if code == 1 else p["depth"]):
                return self.no(4, who)
            if self.modes[who] == 3:
                return self.no(5, who)
            p["made"] = True
            return self.yes(who, id=i)
        if code == 12:
            mode = e[1]
            if mode > 3:
                return self.no(3, who)
            if (mode, self.modes[who]) == (3, 3):
                return self.no(1, who)
            if (mode, self.modes[who]) == (2, 1):
                return self.no(5, who)
            self.modes[who] = mode
            for p in self.ports:
                if mode < 3 and p["owner"] == who:
                    p.update(made=False, arrival=0, valid=0, store=[])
            return self.yes(who)
        mode, direction = NEEDS[code]
        i = u16(e, 2)
        p = self.ports[i - 1] if 1 <= i <= len(self.ports) else None
        if p is None or p["owner"] != who or p["mode"] != mode or not p["made"]:
            return self.no(3, who)
        size = u32(e, 8)
        if code in (2, 7):
            if size == 0:
                return self.no(3, who)
            if size > p["largest"]:
                return self.no(4, who)
        if direction is not None and p["direction"] != direction:
            return self.no(5, who)
        if code == 2:
            p["store"] = [e[16 : 16 + size]]
        if code == 7 and len(p["store"]) < p["depth"]:
            p["store"].append(e[16 : 16 + size])
        if code == 11:
            p["store"] = []
        if code == 3:
            if not p["store"]:
                return self.no(1, who)
            p["valid"] = int((self.time - p["arrival"]) % 2**32 <= p["refresh"])
            return self.yes(who, size=len(p["store"][0]), valid=p["valid"], message=p["store"][0])
        if code == 8:
            if not p["store"]:
                return self.no(2, who)
            message = p["store"].pop(0)
            return self.yes(who, size=len(message), message=message)
        if code == 5:
            return self.yes(who, number=p["refresh"], size=p["largest"], valid=p["valid"], direction=p["direction"])
        if code == 10:
            count = len(p["store"]) if p["direction"] == 1 else 0
            return self.yes(who, number=count, size=p["largest"], direction=p["direction"], depth=p["depth"])
        return self.yes(who)


def listing(tables, events):
    """What the runner prints for the bytes of tables.bin and of standard input."""
    refused = judge(len(tables), tables[: 161 * RECORD])
    if refused:
        return b"tables refused %d at %d\n" % refused
    kernel, out = Kernel(tables), []
    for n in range(len(events) // EVENT):
        e = events[EVENT * n : EVENT * (n + 1)]
        a = kernel.answer(e)
        text = a["message"].hex() if a["code"] == 0 and e[0] in (3, 8) else "-"
        out.append(f"{n} {a['doer']} {a['code']} {a['id']} {a['number']} {a['size']} {a['valid']} {a['direction']} {a['depth']} {text}\n")
    if len(events) % EVENT:
        out.append("events refused 27\n")
    return "".join(out).encode()
