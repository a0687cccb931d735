#!/usr/bin/env python3
"""Compares check_trace with a second implementation of the rules, written from docs/RULES.md and docs/FORMAT.md, on many random traces.

usage: tests/compare.py [COUNT] [SEED]     (after 'rt run' in crates/check_trace)

Not part of the gate. Traces are grown by mostly sensible calls, then some are cut, changed in a byte or lengthened.
"""
import os
import random
import subprocess
import sys

TOP = os.path.dirname(os.path.dirname(os.path.abspath(__file__)))
PROGRAM = os.path.join(TOP, 'crates', 'check_trace', 'out', 'check_trace')
BODY = {4: 2, 10: 2, 11: 2, 8: 4, 9: 4, 12: 4, 13: 4, 14: 6}
LAYER = {1: 'bytes', 2: 'bytes', 3: 'stage', 18: 'bytes', 19: 'bytes'}


class Refused(Exception):
    pass


class Session:
    def __init__(self):
        self.prefix, self.stage, self.trail, self.working = [], 'naming', [], []
        self.db = {'clauses': [], 'cubes': []}
        self.left = {'clauses': 16384, 'cubes': 256}
        self.cost = {'clauses': lambda n: n + 2, 'cubes': lambda n: 1}
        self.side = None

    def own(self, side, v):
        return self.prefix[v - 1] == ('e' if side == 'clauses' else 'u')

    def named(self, v):
        return 1 <= v <= len(self.prefix)

    def at(self, stage):
        if self.stage != stage:
            raise Refused(3)

    def numbered(self, side, n):
        if not 1 <= n <= len(self.db[side]):
            raise Refused(8)
        return self.db[side][n - 1]

    def reduce(self, side, c):
        own = [l // 2 for l in c if self.own(side, l // 2)]
        return [l for l in c if own and l // 2 <= max(own)]

    def add(self, side):
        cost = self.cost[side](len(self.working))
        if self.left[side] < cost:
            raise Refused((16, side))
        self.left[side] -= cost
        self.db[side].append(list(self.working))
        self.working = []

    def call(self, kind, a, b):
        codes = {l for l, _ in self.trail}
        is_set = lambda v: 2 * v in codes or 2 * v + 1 in codes
        if kind in (1, 2):
            self.at('naming')
            if len(self.prefix) >= 512:
                raise Refused(4)
            self.prefix.append('e' if kind == 1 else 'u')
        elif kind == 3:
            self.at('naming')
            self.stage = 'loading'
        elif kind == 4:
            self.at('loading')
            if not self.named(a // 2):
                raise Refused(5)
            if self.working and a // 2 <= self.working[-1] // 2:
                raise Refused(6)
            self.working.append(a)
        elif kind in (5, 6):
            self.at('loading')
            self.add('clauses' if kind == 5 else 'cubes')
        elif kind == 7:
            self.at('loading')
            if self.working:
                raise Refused(7)
            self.stage = 'working'
        elif kind in (8, 9):
            self.at('working')
            side = 'clauses' if kind == 8 else 'cubes'
            c = self.numbered(side, a)
            good = (lambda l: l) if side == 'clauses' else (lambda l: l ^ 1)
            if any(good(l) in codes for l in c):
                raise Refused(11)
            rest = self.reduce(side, [l for l in c if not is_set(l // 2)])
            if len(rest) != 1:
                raise Refused(11)
            self.trail.append((good(rest[0]), True))
        elif kind == 10:
            self.at('working')
            v = a // 2
            if not self.named(v):
                raise Refused(5)
            if is_set(v):
                raise Refused(9)
            start = v
            while start > 1 and self.prefix[start - 2] == self.prefix[v - 1]:
                start -= 1
            if any(not is_set(w) for w in range(1, start)):
                raise Refused(10)
            self.trail.append((a, False))
        elif kind == 11:
            self.at('working')
            places = [i for i, (_, implied) in enumerate(self.trail) if not implied]
            if a >= len(places):
                raise Refused(12)
            self.trail = self.trail[:places[a]]
        elif kind in (12, 13):
            self.at('working')
            side = 'clauses' if kind == 12 else 'cubes'
            self.working = list(self.numbered(side, a))
            self.stage, self.side = 'deriving', side
        elif kind == 14:
            self.at('deriving')
            if not self.named(b):
                raise Refused(5)
            d = self.numbered(self.side, a)
            if not self.own(self.side, b):
                raise Refused(13)
            clash = {l // 2 for l in self.working if l ^ 1 in d}
            if b not in clash:
                raise Refused(14)
            if clash != {b}:
                raise Refused(15)
            self.working = sorted({l for l in self.working + d if l // 2 != b})
        elif kind == 15:
            self.at('deriving')
            self.working = self.reduce(self.side, self.working)
        elif kind == 16:
            self.at('deriving')
            self.add(self.side)
            self.stage = 'working'
        elif kind == 17:
            self.at('deriving')
            self.working, self.stage = [], 'working'
        else:
            self.at('working')
            if [] not in self.db['clauses' if kind == 18 else 'cubes']:
                raise Refused(17)
            self.stage = 'closed false' if kind == 18 else 'closed true'


def expected(trace):
    if len(trace) > 65536:
        return 'refused 19 bytes record 0 byte 65536'
    session, place, record = Session(), 0, 1
    while place < len(trace):
        kind = trace[place]
        if not 1 <= kind <= 19:
            return 'refused 1 bytes record %d byte %d' % (record, place)
        n = BODY.get(kind, 0)
        body = trace[place + 1:place + 1 + n]
        if len(body) < n:
            return 'refused 2 bytes record %d byte %d' % (record, place)
        a = int.from_bytes(body[:4] if n == 6 else body, 'little')
        b = int.from_bytes(body[4:], 'little') if n == 6 else 0
        try:
            session.call(kind, a, b)
        except Refused as r:
            number, layer = r.args[0] if isinstance(r.args[0], tuple) else (r.args[0], LAYER.get(r.args[0], 'rule'))
            return 'refused %d %s record %d byte %d' % (number, layer, record, place)
        place, record = place + 1 + n, record + 1
    if session.stage.startswith('closed'):
        return 'verdict ' + session.stage[7:]
    return 'refused 18 bytes record %d byte %d' % (record, place)


def grow(rng):
    """a trace whose calls are mostly taken: each step is tried on a copy of the session"""
    session, out = Session(), bytearray()
    most = rng.choice([1, 2, 3, 4, 6, 9])
    for _ in range(rng.choice([5, 20, 60, 150])):
        for _ in range(6):
            kinds = {'naming': [1, 2, 1, 2, 3], 'loading': [4, 4, 4, 4, 5, 6, 5, 7], 'working': [8, 9, 8, 9, 10, 11, 12, 13, 12, 13, 18, 19],
                     'deriving': [14, 14, 14, 15, 16, 16, 17]}.get(session.stage, [1])
            kind = rng.choice(kinds)
            if session.stage == 'naming' and len(session.prefix) >= most:
                kind = 3
            variable, side = rng.randint(1, max(1, len(session.prefix))), session.side or 'clauses'
            number = rng.randint(1, 1 + max(len(session.db['clauses']), len(session.db['cubes'])))
            a = {4: 2 * variable + rng.randint(0, 1), 10: 2 * variable + rng.randint(0, 1), 11: rng.randint(0, 2)}.get(kind, number)
            b = variable if kind == 14 else 0
            n = BODY.get(kind, 0)
            body = a.to_bytes(2, 'little') if n == 2 else a.to_bytes(4, 'little') if n >= 4 else b''
            body += b.to_bytes(2, 'little') if n == 6 else b''
            trail, working, stage, had = list(session.trail), list(session.working), session.stage, session.side
            try:
                session.call(kind, a, b)
            except Refused:
                session.trail, session.working, session.stage, session.side = trail, working, stage, had
                if rng.random() < 0.02:
                    return bytes(out) + bytes([kind]) + body
                continue
            out += bytes([kind]) + body
            break
        if session.stage.startswith('closed') and rng.random() < 0.8:
            break
    return bytes(out)


def harm(rng, trace):
    way = rng.random()
    if way < 0.6 or not trace:
        return trace
    if way < 0.75:
        return trace[:rng.randrange(len(trace))]
    if way < 0.95:
        place = rng.randrange(len(trace))
        return trace[:place] + bytes([rng.choice([rng.randrange(256), rng.randrange(21)])]) + trace[place + 1:]
    return trace + bytes([rng.randrange(256)])


def edges():
    """traces at the limits: 512 and 513 variables, full databases, 65,536 and 65,537 bytes, a resolution over 512 variables"""
    codes = lambda first: b''.join(b'\x04' + (2 * v).to_bytes(2, 'little') for v in range(first, 513))
    full = b'\x01' * 512 + b'\x03'
    wide = full + b'\x04\x02\x00' + codes(2) + b'\x05' + b'\x04\x03\x00' + codes(2) + b'\x05\x07'
    resolve = b'\x0c\x01\x00\x00\x00\x0e\x02\x00\x00\x00\x01\x00'
    return [b'', b'\x01' * 512, b'\x01' * 513, full + b'\x04\x00\x04', full + b'\x04\x01\x04', full + b'\x04\x02\x04',
            b'\x01\x03' + b'\x06' * 256, b'\x01\x03' + b'\x06' * 257, b'\x01\x03' + b'\x05' * 8192, b'\x01\x03' + b'\x05' * 8193,
            wide + resolve, wide + resolve + b'\x10', wide + resolve + b'\x0f\x10\x12', b'\x01' * 65536, b'\x01' * 65537,
            b'\x03\x07' + b'\x0a\x02\x00' * 21844 + b'\x12\x12', b'\x01\x03\x05\x07\x12', b'\x01\x03\x05\x07\x12\x12', b'\x01\x03\x05\x07\x12\x14', b'\x01\x03\x05\x07\x12\x04']


def main():
    count = int(sys.argv[1]) if len(sys.argv) > 1 else 2000
    rng = random.Random(int(sys.argv[2]) if len(sys.argv) > 2 else 1)
    seen, bad = {}, 0
    traces = edges()
    for k in range(count + len(traces)):
        trace = traces[k] if k < len(traces) else harm(rng, grow(rng))
        line = subprocess.run([PROGRAM], input=trace, capture_output=True).stdout.decode().strip()
        want = expected(trace)
        key = ' '.join(want.split()[:2])
        seen[key] = seen.get(key, 0) + 1
        if line != want:
            bad += 1
            print('differs on %s: %r, not %r' % (trace.hex(), line, want))
    for key in sorted(seen):
        print('%6d  %s' % (seen[key], key))
    print('%d traces, %d differ' % (count + len(traces), bad))
    sys.exit(1 if bad else 0)


if __name__ == '__main__':
    main()
