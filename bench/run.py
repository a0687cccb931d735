#!/usr/bin/env python3
"""Makes long traces and prints how many instructions check_trace spends on a record of each, and the wall time.

usage: bench/run.py        (after 'rt run' in crates/check_trace; needs valgrind)

Not part of the gate. A record's cost should not grow with the number of constraints in a database or with the length of the trail, so each
trace is run at a quarter of its length and at its whole length; the last column is what a record costs in the part that is added.
"""
import os
import re
import subprocess
import tempfile
import time

TOP = os.path.dirname(os.path.dirname(os.path.abspath(__file__)))
PROGRAM = os.path.join(TOP, 'crates', 'check_trace', 'out', 'check_trace')
MOST = 65536


def two(n):
    return n.to_bytes(2, 'little')


def four(n):
    return n.to_bytes(4, 'little')


def names(prefix):
    return [b'\x01' if q == 'e' else b'\x02' for q in prefix] + [b'\x03']


def loads(count):
    """one existential variable, and as many unit clauses as the clause database holds"""
    return names('e') + [b'\x04' + two(2), b'\x05'] * min(count, 5461)


def resolutions(count):
    """two clauses over 512 variables that clash on the first; begin, resolve, abandon, again and again"""
    records = names('e' * 512)
    for sign in (0, 1):
        records += [b'\x04' + two(2 + sign)] + [b'\x04' + two(2 * v) for v in range(2, 513)] + [b'\x05']
    return records + [b'\x07'] + [b'\x0c' + four(1), b'\x0e' + four(2) + two(1), b'\x11'] * count


def trails(count):
    """a unit clause for each of 512 variables; all are implied, then undone after one decision, again and again"""
    records = names('e' * 512)
    for v in range(2, 513):
        records += [b'\x04' + two(2 * v), b'\x05']
    records += [b'\x07']
    for k in range(count):
        records += [b'\x0a' + two(2)] + [b'\x08' + four(1 + (k + i) % 511) for i in range(0, 300, 3)] + [b'\x0b' + two(0)]
    return records


def cut(records):
    out, size = [], 0
    for r in records:
        if size + len(r) > MOST:
            break
        out.append(r)
        size += len(r)
    return out


def measure(records):
    with tempfile.TemporaryDirectory() as folder:
        path = os.path.join(folder, 'trace')
        with open(path, 'wb') as f:
            f.write(b''.join(records))
        start = time.time()
        line = subprocess.run([PROGRAM], stdin=open(path, 'rb'), capture_output=True, text=True).stdout.strip()
        wall = time.time() - start
        said = subprocess.run(['valgrind', '--tool=callgrind', '--callgrind-out-file=' + os.path.join(folder, 'out'), PROGRAM],
                              stdin=open(path, 'rb'), capture_output=True, text=True).stderr
        count = re.search(r'Collected\s*:\s*(\d+)', said)
    return int(count.group(1)) if count else 0, wall, line


def main():
    print('%-12s %8s %16s %10s %16s  %s' % ('trace', 'records', 'per record', 'wall ms', 'per added record', 'answer'))
    for name, make in (('loads', loads), ('resolutions', resolutions), ('trails', trails)):
        whole = cut(make(30000))
        part = whole[:max(1, len(whole) // 4)] if name != 'resolutions' else whole[:1600]
        few, _, _ = measure(part)
        all_, wall, line = measure(whole)
        added = (all_ - few) // max(1, len(whole) - len(part))
        print('%-12s %8d %16d %10.1f %16d  %s' % (name, len(whole), all_ // len(whole), 1000 * wall, added, line))


if __name__ == '__main__':
    main()
