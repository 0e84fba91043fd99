#!/usr/bin/env python3
"""Makes the inputs of the comparison.

    inputs.py OUT RANDOM SEED

writes OUT/inputs, a line `KIND HEX SORT` for each, and OUT/framed, the same as our program deposits reads them. RANDOM is how many are
made at random.
"""

import json
import random
import sys
from pathlib import Path

ROOT = Path(__file__).resolve().parents[2]
VECTORS = ROOT / 'tests/vectors'
# What `deposits` takes.
GREATEST = 4096
KINDS = range(1, 21)

ALGS = [1, *range(3, 9), *range(0xA, 0xE), 0x10, *range(0x12, 0x1E), *range(0x20, 0x24), *range(0x25, 0x2F), *range(0x3F, 0x45)]
CURVES = [*range(6), 0x10, 0x11, 0x20, 0x30, 0x31, 0x32, 0x40, 0x41]
ATTEST = [0x8014, 0x8015, 0x8016, 0x8017, 0x8018, 0x8019, 0x801A, 0x801C]
DIGESTS = {4: 20, 0x2C: 24, 0xB: 32, 0x12: 32, 0x27: 32, 0x2D: 32, 0xC: 48, 0x28: 48, 0xD: 64, 0x29: 64, 0x2E: 64, 0x10: 0}
# The capabilities; 7 has no arm. Of each of the others, how many items its list takes in the crate (text/data/mod.rs), and here.
CAPS = range(11)
CAPACITIES = {
    0: (64, 128), 1: (128, 128), 2: (256, 128), 3: (256, 128), 4: (256, 128), 5: (8, 16), 6: (64, 128), 8: (64, 128), 9: (8, 16), 10: (8, 16),
}
# The structure tags, handle types and permanent handles that the crate's TpmSt, TpmHt and TpmRh have here (rebuilt/data/enum.rs). Of these ours
# are the attestation types, the tags of each ticket, the handle types of NV areas, and the hierarchies.
STRUCTURES = [0xC4, 0x8000, 0x8001, 0x8002, *ATTEST, 0x8021, 0x8022, 0x8023, 0x8024, 0x8025, 0x8029]
TAGS = {17: [0x8021], 18: [0x8022], 19: [0x8024], 20: [0x8023, 0x8025]}
# Kinds of a case that replace the hierarchy of a ticket.
HIERARCHY_OF = dict(zip(range(31, 35), TAGS))
HANDLES = [0x00, 0x01, 0x02, 0x03, 0x11, 0x12, 0x40, 0x80, 0x81, 0x90]
AREAS = [0x01, 0x11, 0x12]
PERMANENT = range(0x40000000, 0x4000000E)
HIERARCHIES = [0x40000001, 0x40000007, 0x4000000B, 0x4000000C]
# Selectors whose arm has a hash in the signing schemes, but for Hmac, and all that have an arm in the asymmetric ones.
HASHED = [0x14, 0x16, 0x18, 0x1A, 0x1B, 0x1C]
ASYM = [*HASHED, 0x17, 0x19, 0x1D, 0x15, 0x10]
OBJECTS = [1, 8, 0x23, 0x25, 0x10]
# Codes in and about the lists.
NEAR = [*range(0x60), 0xFF, 0x100, 0x104, 0x110, 0x7FFF, 0xFFFF, *range(0x8000, 0x8030)]
NEAR_BY_SIZE = {1: range(256), 2: NEAR, 4: [*NEAR, *(0x40000000 + near for near in NEAR), 0x01000040, 0x41000001, 0xC0000001, 0xFFFFFFFF]}


def be(value, size):
    return value.to_bytes(size, 'big')


class Maker:
    """Records along their layouts, with random arms, codes, lengths and bodies, and a fault here and there."""

    def __init__(self, rng, is_crates=False):
        self.r = rng
        self.rate = 0.0
        self.is_crates = is_crates

    def fault(self):
        return bool(self.rate) and self.r.random() < self.rate

    def has_crates_form(self):
        """Xor with a mode, Ecdaa without a count (docs/DIFFERENCES.md, 2.10): if the records are to be the crate's, or at a fault."""
        return self.is_crates or self.fault()

    def code(self, listed):
        r = self.r
        if self.fault():
            return be(r.choice(NEAR) if r.random() < .7 else r.randrange(65536), 2)
        return be(r.choice(listed), 2)

    def alg(self):
        return self.code(ALGS)

    def sel(self, arms):
        """A selector; at a fault it may be any listed code or none."""
        r = self.r
        if self.fault():
            return be(r.choice(ALGS) if r.random() < .6 else r.choice(NEAR), 2)
        return be(r.choice(arms), 2)

    def num(self, size):
        r = self.r
        return r.choice((bytes(size), b'\xff' * size, r.randbytes(size), be(r.randrange(256), size)))

    def buf(self, limit):
        r = self.r
        n = r.choice((0, 0, 1, r.randrange(limit + 1), min(limit, r.randrange(33)), min(limit, 32), limit))
        if self.fault():
            another = r.choice((32, 33, 64, 65, 66, 67, 256, 257, 512, 513, 2048, 2049))
            claimed = r.choice((limit + 1, limit, 65535, r.randrange(limit, 65536), another, n + 1, max(0, n - 1)))
            n = claimed if claimed < 3000 and r.random() < .5 else n
            return be(claimed, 2) + r.randbytes(n)
        return be(n, 2) + r.randbytes(n)

    def yes_no(self):
        return be(self.r.randrange(256) if self.fault() else self.r.randrange(2), 1)

    def k1(self):
        s = self.sel(list(DIGESTS))
        n = DIGESTS.get(int.from_bytes(s, 'big'), 20)
        return s + self.r.randbytes(max(0, n - self.fault()))

    def k2(self):
        s = self.sel([6, 6, 0x13, 0x26, 0xA, 0x10])
        v = int.from_bytes(s, 'big')
        if v == 0x10:
            return s
        if v == 0xA:
            return s + self.alg() + (self.alg() if self.has_crates_form() else b'')
        return s + self.num(2) + self.alg()

    def hashed(self, arms, empty=(0x10,), counted=()):
        s = self.sel(arms)
        v = int.from_bytes(s, 'big')
        if v in empty:
            return s
        return s + self.alg() + (self.num(2) if v in counted and not self.has_crates_form() else b'')

    def k3(self):
        return self.hashed([7, 0x20, 0x21, 0x22, 0x10])

    def k4(self):
        s = self.sel([5, 0xA, 0x10])
        v = int.from_bytes(s, 'big')
        return s if v == 0x10 else s + self.alg() + (self.alg() if v == 0xA else b'')

    def k5(self):
        return self.hashed([5, *HASHED, 0x10], counted=(0x1A,))

    def k6(self):
        return self.hashed(ASYM, (0x10, 0x15), counted=(0x1A,))

    k7 = k8 = k6

    def parms(self, v):
        if v == 8:
            return self.k4()
        if v == 0x25:
            return self.k2()
        if v == 1:
            return self.k2() + self.k6() + self.num(2) + self.num(4)
        if v == 0x23:
            return self.k2() + self.k7() + self.code(CURVES) + self.k3()
        return b''

    def k9(self):
        s = self.sel(OBJECTS)
        return s + self.parms(int.from_bytes(s, 'big'))

    def k10(self):
        s = self.sel([0x14, 0x16, 0x18, 0x1A, 0x1B, 0x1C, 5, 0x10])
        v = int.from_bytes(s, 'big')
        if v in (0x14, 0x16):
            return s + self.alg() + self.buf(512)
        if v in (0x18, 0x1A, 0x1B, 0x1C):
            return s + self.alg() + self.buf(66) + self.buf(66)
        return s + self.k1() if v == 5 else s

    def unique(self, v):
        if v == 0x23:
            return self.buf(66) + self.buf(66)
        limit = {8: 64, 0x25: 32, 1: 512}.get(v)
        return self.buf(limit) if limit else b''

    def k11(self):
        s = self.sel(OBJECTS)
        v = int.from_bytes(s, 'big')
        w = self.r.choice(OBJECTS) if self.fault() else v
        return s + self.alg() + self.num(4) + self.buf(64) + self.parms(v) + self.unique(w)

    def k12(self):
        s = self.sel([1, 8, 0x23, 0x25])
        v = int.from_bytes(s, 'big')
        limit = {1: 256, 8: 256, 0x23: 66, 0x25: 32}.get(v)
        return s + self.buf(64) + self.buf(64) + (self.buf(limit) if limit else b'')

    def clock(self):
        return self.num(8) + self.num(4) + self.num(4) + self.yes_no()

    def k13(self):
        r = self.r
        magic = r.choice((bytes(4), b'\xffTCF', r.randbytes(4))) if self.fault() else b'\xffTCG'
        s = be(r.choice((*range(0x8000, 0x8030), 0xC4, 0x10)), 2) if self.fault() else be(r.choice(ATTEST), 2)
        v = int.from_bytes(s, 'big')
        head = magic + s + self.buf(66) + self.buf(66) + self.clock() + self.num(8)
        arm = {
            0x8017: lambda: self.buf(66) + self.buf(66), 0x801A: lambda: self.buf(66) + self.buf(64),
            0x8018: lambda: self.k14() + self.buf(64), 0x8015: lambda: self.num(8) + self.alg() + self.buf(64) + self.buf(64),
            0x8016: lambda: self.yes_no() + self.buf(64), 0x8019: lambda: self.num(8) + self.clock() + self.num(8),
            0x8014: lambda: self.buf(66) + self.num(2) + self.buf(2048), 0x801C: lambda: self.buf(66) + self.buf(64),
        }.get(v, lambda: r.randbytes(r.randrange(40)))
        return head + arm()

    def k14(self):
        r = self.r
        n = r.choice((0, 1, 1, 2, 2, 3, 4, 5, 6, 7, 8, 8, 9, 16)) if r.random() < .9 else r.randrange(17)
        return self.counted(n, self.selection, (8, 16))

    def selection(self):
        size = self.r.randrange(5)
        claimed = self.r.randrange(256) if self.fault() else size
        return self.alg() + be(claimed, 1) + self.r.randbytes(size)

    def counted(self, n, item, capacities):
        """A list of so many items; at a fault its count is another."""
        r = self.r
        items = b''.join(item() for _ in range(n))
        if self.fault():
            about = [most + more for most in capacities for more in (0, 1)]
            n = r.choice((n + 1, max(0, n - 1), *about, 18, 255, 256, 65536, 2**31, 2**32 - 1, r.randrange(2**32)))
        return be(n, 4) + items

    def cap(self):
        r = self.r
        if self.fault():
            return r.choice((7, 11, 0x100, r.choice(CAPS), r.choice(NEAR), r.randrange(2**32)))
        return r.choice(list(CAPACITIES))

    def cap_item(self, cap):
        """An item of the list of that capability."""
        if cap == 5:
            return self.selection()
        if cap == 9:
            return self.num(4) + self.k1()
        code = {0: self.alg, 8: lambda: self.code(CURVES)}.get(cap, bytes)()
        return code + b''.join(self.num(4) for _ in range({6: 2, 8: 0, 10: 3}.get(cap, 1)))

    def capability(self, cap, n):
        """A capability with so many items; one that has no list has that of another behind it."""
        listed = cap if cap in CAPACITIES else self.r.choice(list(CAPACITIES))
        return be(cap, 4) + self.counted(n, lambda: self.cap_item(listed), CAPACITIES[listed])

    def k15(self):
        """Lists are short for the most part, and else as long as one of the two sides takes, or as both."""
        r, cap = self.r, self.cap()
        lesser, greater = sorted(CAPACITIES.get(cap, (64, 128)))
        n = r.choice((0, 1, 1, 2, 2, 3, 4, 5, 6, 7, 8, 8, lesser, lesser + 1, greater)) if r.random() < .9 else r.randrange(greater + 1)
        return self.capability(cap, n)

    def k16(self):
        r = self.r
        code = r.choice((r.choice(HANDLES), r.randrange(256))) if self.fault() else r.choice(AREAS)
        area = r.choice(AREAS) if self.fault() else code
        return be(code, 1) + self.num(4) + self.alg() + self.num(8 if area == 0x11 else 4) + self.buf(64) + self.num(2)

    def ticket(self, kind):
        r = self.r
        tag, hierarchy = r.choice(TAGS[kind]), r.choice(HIERARCHIES)
        if self.fault():
            tag = r.choice(STRUCTURES) if r.random() < .6 else r.choice(NEAR)
        if self.fault():
            hierarchy = r.choice(PERMANENT) if r.random() < .6 else r.choice(NEAR_BY_SIZE[4])
        return be(tag, 2) + be(hierarchy, 4) + self.buf(64)

    def record(self, kind):
        return self.ticket(kind) if kind in TAGS else getattr(self, f'k{kind}')()


def damaged(r, data):
    """One to five bytes turned, replaced or dropped, more often near the beginning, or a code put over two."""
    data = bytearray(data)
    for _ in range(r.choice((1, 1, 1, 2, 3, 5))):
        if not data:
            break
        at = min(r.randrange(len(data)), r.randrange(len(data)))
        how = r.randrange(5)
        if how < 2:
            data[at] ^= 1 << r.randrange(8)
        elif how == 2:
            data[at] = r.randrange(256)
        elif how == 3:
            del data[at]
        else:
            data[at:at + 2] = be(r.choice(NEAR), 2)
    return bytes(data)


class Out:
    def __init__(self, folder):
        self.lines = open(folder / 'inputs', 'w', encoding='ascii', buffering=1 << 20)
        self.framed = open(folder / 'framed', 'wb', buffering=1 << 20)
        self.count = 0

    def put(self, sort, kind, data):
        if kind in KINDS and len(data) <= GREATEST:
            self.lines.write(f'{kind} {data.hex()} {sort}\n')
            self.framed.write(be(len(data) + 1, 2) + bytes([kind]) + data)
            self.count += 1

    def close(self):
        self.lines.close()
        self.framed.close()


def real_records():
    """Each different real record: its kind, its bytes, and its fields, or None where it is refused."""
    seen = {}
    for name in ('real.jsonl', 'real-refused.jsonl'):
        with open(VECTORS / name, encoding='utf-8') as lines:
            for entry in map(json.loads, lines):
                if entry['kind'] in KINDS:
                    seen.setdefault((entry['kind'], bytes.fromhex(entry['hex'])), entry.get('fields'))
    return [(kind, data, fields) for (kind, data), fields in seen.items()]


def samples():
    """The deposits that our program is tested with: kind and bytes."""
    stream = (ROOT / 'crates/deposits/stdin').read_bytes()
    at = 0
    while at < len(stream):
        size = int.from_bytes(stream[at:at + 2], 'big')
        if size:
            yield stream[at + 2], stream[at + 3:at + 2 + size]
        at += 2 + size


def layout(kind, fields):
    """Two records with one layout have the same codes, and byte fields that are empty in the same places."""
    return kind, tuple(
        (f['what'], bool(f['size']) if f['what'] == 'bytes' else f['size'], f['value'] if f['what'] == 'code' else None) for f in fields)


def smallest_of_each_layout(real):
    chosen = {}
    for kind, data, fields in real:
        if fields:
            key = layout(kind, fields)
            if key not in chosen or len(data) < len(chosen[key][1]):
                chosen[key] = (kind, data, fields)
    return chosen.values()


# Enough for any arm of the parameters, and for any digest.
PARMS = '000b 0043 000b 0010' + '00' * 72
DIGEST = bytes(range(64)).hex()
# Where two bytes take all 65,536 values: `*` in a record of that kind. They are a code, or half of one, or the tag of a ticket, but for Ecdaa's count
# and what follows Xor's hash; and a handle type, with the first byte of an index.
SWEEPS = [
    (1, '*'), (1, f'* {DIGEST}'),
    (2, '* 0080 0043'), (2, '* 000b 0043'), (2, '0006 0080 *'), (2, '000a * 0043'), (2, '000a 000b *'), (2, '0013 0080 *'), (2, '0026 0080 *'),
    (3, '* 000b'), (3, '0007 *'),
    (4, '* 000b 0020'), (4, '0005 *'), (4, '000a * 0020'), (4, '000a 000b *'),
    (5, '* 000b'), (5, '0014 *'), (6, '* 000b'), (6, '0014 *'), (7, '* 000b'), (7, '0014 *'), (8, '* 000b'), (8, '0014 *'),
    (5, '001a * 0001'), (7, '001a 000b *'), (9, '0023 0010 001a 000b 0001 * 0010'),
    (9, f'* {PARMS}'), (9, f'0001 * {PARMS}'), (9, f'0001 0010 * {PARMS}'), (9, '0023 0010 * 000b 0003 0010'), (9, '0023 0010 0010 * 0010'),
    (9, '0023 0010 0010 0003 * 000b'), (9, '0008 * 000b 0020'), (9, '0025 * 0080 0043'),
    (10, f'* 000b {"00" * 64}'), (10, f'0005 * {"00" * 64}'), (10, '0014 * 0000'), (10, '0018 * 0000 0000'),
    (11, f'* 000b 00000000 0000 0010 0010 0010 0010 0000 0000 {"00" * 8}'), (11, '0010 * 00000000 0000'),
    (12, '* 0000 0000 0000'), (12, '* 0000 0000'),
    (13, f'ff544347 * {"00" * 70}'), (13, f'ff544347 8015 0000 0000 {"00" * 33} * 0000 0000'),
    (14, '00000001 * 00'),
    (15, '0000 * 00000000'), (15, '* 0008 00000000'), (15, '00000000 00000001 * 00000000'), (15, '00000005 00000001 * 00'),
    (15, '00000008 00000001 *'), (15, f'00000009 00000001 40000001 * {DIGEST}'),
    (16, '* 800001 000b 00000004 0000 0008'), (16, '01 01800001 * 00000004 0000 0008'), (16, '11 01800001 * 0000000000000004 0000 0008'),
    (16, '12 01800001 * 00000004 0000 0008'),
    *((kind, '* 40000001 0000') for kind in TAGS), *((kind, f'{tags[-1]:04x} 4000 * 0000') for kind, tags in TAGS.items()),
    (17, '8021 * 0001 0000'),
]


def sweeps():
    """The kind, and what stands ahead of the code and behind it."""
    for kind, record in SWEEPS:
        ahead, behind = record.split('*')
        yield kind, bytes.fromhex(ahead), bytes.fromhex(behind)


def put_whole(out, r, real):
    for kind, data, _ in real:
        out.put('real', kind, data)
        out.put('real-tail', kind, data + r.randbytes(r.randrange(1, 9)))
    for kind, data in samples():
        out.put('sample', kind, data)


def put_small_changes(out, r, real):
    """Of each layout the smallest record: cut at every byte, each bit of its first 48 bytes turned, each code and each tag replaced."""
    for kind, data, fields in smallest_of_each_layout(real):
        for size in range(len(data)):
            out.put('cut', kind, data[:size])
        for bit in range(8 * min(len(data), 48)):
            hit = bytearray(data)
            hit[bit // 8] ^= 1 << bit % 8
            out.put('bit', kind, bytes(hit))
        for field in fields:
            at, size = field['place'], field['size']
            if field['what'] == 'code' or kind in TAGS and at == 0:
                for code in [*NEAR_BY_SIZE[size], *(r.randrange(min(65536, 256 ** size)) for _ in range(16))]:
                    out.put('code', kind, data[:at] + be(code, size) + data[at + size:])


def put_damage(out, r, real):
    for kind, data, _ in real:
        for _ in range(6):
            out.put('cut', kind, data[:r.randrange(len(data) + 1)])
        for _ in range(24):
            out.put('damage', kind, damaged(r, data))
        for other in KINDS:
            out.put('other-kind', other, data)


# Where in an item its code stands.
CODE_IN_ITEM = {0: 0, 5: 0, 8: 0, 9: 4}


def put_capacities(out, r):
    """Of each capability lists about the capacities of both sides, whole, cut, with a bad code in the last item; and every count up to 300 alone."""
    maker = Maker(r)
    for cap, (crates, ours) in CAPACITIES.items():
        head = be(cap, 4)
        for count in range(300):
            out.put('capacity', 15, head + be(count, 4))
        for count in sorted({1, 2, crates, crates + 1, ours, ours + 1}):
            items = [maker.cap_item(cap) for _ in range(count)]
            ahead = head + be(count, 4) + b''.join(items[:-1])
            whole = ahead + items[-1]
            for data in (whole, whole + r.randbytes(1), whole + r.randbytes(r.randrange(2, 20)), whole[:-1], ahead, ahead[:-1], whole[:-2]):
                out.put('capacity', 15, data)
            if cap in CODE_IN_ITEM:
                at = len(ahead) + CODE_IN_ITEM[cap]
                for code in (0, 1, 2, 6, 0x10, 0xFFFF):
                    out.put('capacity', 15, whole[:at] + be(code, 2) + whole[at + 2:])


def put_sweeps(out):
    for kind, front, back in sweeps():
        for code in range(65536):
            out.put('sweep', kind, front + be(code, 2) + back)


def put_random(out, r, count):
    maker = Maker(r)
    kinds = [*range(1, 9), 9, 9, 10, 10, 12, 12, 14, 14, 14, *[11] * 5, *[13] * 6, *[15] * 3, 16, 16, 16, *TAGS]
    for turn in range(count):
        kind = kinds[turn % len(kinds)]
        maker.rate = r.choice((0, 0, 0, .05, .1, .3))
        data = maker.record(kind)
        how = r.random()
        if how < .12:
            data = data[:r.randrange(len(data) + 1)]
        elif how < .3:
            data = damaged(r, data)
        elif how < .34:
            data = r.randbytes(r.randrange(40))
        if r.random() < .25:
            data += r.randbytes(r.randrange(1, 12))
        out.put('random', kind, data)


def main(folder, count, seed):
    out = Out(Path(folder))
    r = random.Random(int(seed))
    real = real_records()
    put_whole(out, r, real)
    put_small_changes(out, r, real)
    put_damage(out, r, real)
    put_capacities(out, r)
    put_sweeps(out)
    put_random(out, r, int(count))
    out.close()


if __name__ == '__main__':
    main(*sys.argv[1:])
