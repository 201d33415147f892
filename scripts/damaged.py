#!/usr/bin/env python3
"""Damages inputs of `quote` and compares what it prints with an independent program.

  python3 scripts/damaged.py [PROGRAM] [COUNT] [SEED]     from the repository's root

PROGRAM is crates/quote/out/quote unless given (`rt run` in crates/quote makes it). Each of COUNT inputs (1,000) is one of
crates/vectors/data with some bytes flipped, cut, doubled, inserted or swapped. The program below is written
from docs/FORMAT.md, and not from the code. Prints each input that differs, and the count.
"""
import glob
import random
import subprocess
import sys

LONGEST, RECORDS, WORTHS = 32768, 2048, 32


class Fault(Exception):
    def __init__(self, number, *places):
        super().__init__(number)
        self.number, self.places = number, (list(places) + [0, 0, 0])[:3]


def well_formed(text, signed):
    if signed and text[:1] == b"-":
        return text[1:] != b"0" and well_formed(text[1:], False)
    if not text or any(b not in b"0123456789" for b in text):
        return False
    return text == b"0" or text[0] != ord("0")


def number(fields, line, place, low, high, signed=False):
    text = fields[place - 1]
    if not well_formed(text, signed):
        raise Fault(22, line, place)
    value = int(text)
    if not low <= value <= high:
        raise Fault(23, line, place)
    return value


class Lines:
    def __init__(self, data):
        self.data, self.at = data, 0

    def next(self, line, forms):
        """The fields of the next line; forms gives the count of fields of each letter that may stand."""
        end = self.data.find(b"\n", self.at)
        if end < 0:
            raise Fault(26, line)
        fields = self.data[self.at:end].split(b"\t")
        self.at = end + 1
        if fields[0] not in forms:
            raise Fault(20, line, 1)
        if len(fields) != forms[fields[0]]:
            raise Fault(21, line)
        return fields


def read(lines):
    fields = lines.next(1, {b"B": 4})
    c, r, p = number(fields, 1, 2, 1, 32), number(fields, 1, 3, 1, 8), number(fields, 1, 4, 1, 1000)
    records, worths, line = [], [], 1
    while True:
        line += 1
        if len(worths) == c:
            lines.next(line, {b"E": 1})
            if lines.at < len(lines.data):
                raise Fault(26, line + 1)
            return c, r, p, records, worths
        fields = lines.next(line, {b"C": 3} if worths else {b"R": 6, b"C": 3})
        if fields[0] == b"R":
            key = (number(fields, line, 2, 0, c - 1), number(fields, line, 3, 0, r - 1), number(fields, line, 4, 0, c - 1))
            share = number(fields, line, 5, 1, p)
            amount = number(fields, line, 6, -10**6, 10**6, signed=True)
            if records and records[-1][0] >= key:
                raise Fault(24, line)
            if len(records) == RECORDS:
                raise Fault(25, line)
            records.append((key, share, amount))
        else:
            condition = number(fields, line, 2, 0, c - 1)
            worth = number(fields, line, 3, -10**6, 10**6, signed=True)
            if condition != len(worths):
                raise Fault(24, line)
            if len(worths) == WORTHS:
                raise Fault(25, line)
            worths.append(worth)


def plan(h, letter, book):
    c, r, p, records, worths = book
    rows = {}
    for (s, x, j), share, amount in records:
        rows.setdefault((s, x), []).append((j, share, amount))
    for s in range(c):
        if not any((s, x) in rows for x in range(r)):
            raise Fault(7, 1, s)
    for s, x in sorted(rows):
        if sum(share for _, share, _ in rows[s, x]) != p:
            raise Fault(8, 1, s, x)
    peak = max([1] + [abs(w) for w in worths] + [abs(a) for _, _, a in records])
    if p**h * (h + 1) * peak > 2**62:
        raise Fault(9)
    later, table = worths, []
    for left in range(1, h + 1):
        row = []
        for s in range(c):
            best = None
            for x in range(r):
                if (s, x) not in rows:
                    continue
                if letter == b"M":
                    value = sum(share * (p**(left - 1) * amount + later[j]) for j, share, amount in rows[s, x])
                else:
                    value = min(amount + later[j] for j, _, amount in rows[s, x])
                if best is None or value > best[1]:
                    best = (x, value)
            row.append(best)
        table.insert(0, row)
        later = [value for _, value in row]
    return table


def quote(data):
    try:
        if len(data) > LONGEST:
            raise Fault(25)
        lines = Lines(data)
        fields = lines.next(0, {b"Q": 3})
        h = number(fields, 0, 2, 1, 48)
        if fields[2] not in (b"M", b"F"):
            raise Fault(20, 0, 3)
        table = plan(h, fields[2], read(lines))
    except Fault as f:
        return b"N\t%d\t%d\t%d\t%d\n" % (f.number, *f.places)
    out = [b"P\t%d\t%d\t%d\t%d\n" % (n, s, *entry) for n, row in enumerate(table, 1) for s, entry in enumerate(row)]
    return b"".join(out) + b"T\t%d\n" % len(out)


def damaged(data, chance):
    data = bytearray(data)
    for _ in range(chance.choice([1, 1, 1, 2, 3])):
        at, kind = chance.randrange(len(data) + 1), chance.randrange(7)
        end = min(len(data), at + chance.choice([1, 1, 2, 8, 40]))
        if kind == 0 and at < len(data):
            data[at] ^= 1 << chance.randrange(8)
        elif kind == 1:
            del data[at:end]
        elif kind == 2:
            del data[at:]
        elif kind == 3:
            data[end:end] = data[at:end]
        elif kind == 4:
            data[at:at] = chance.choice([b"\t", b"\n", b"-", b"0", b"9", b"R", b"C", b"E", b"\r", b"\0", b" "])
        elif kind == 5:
            start = data.rfind(b"\n", 0, at) + 1
            stop = data.find(b"\n", at) + 1
            data[start:start] = data[start:stop]
        elif at < len(data):
            data[at] = chance.choice(b"0123456789-\t\nRCEBQMF")
        if not data:
            break
    return bytes(data)


def main():
    program = sys.argv[1] if len(sys.argv) > 1 else "crates/quote/out/quote"
    count = int(sys.argv[2]) if len(sys.argv) > 2 else 1000
    chance = random.Random(int(sys.argv[3]) if len(sys.argv) > 3 else 2048)
    sources = [open(f, "rb").read() for f in sorted(glob.glob("crates/vectors/data/*/*.in"))]
    sources = [s for s in sources if s]
    kinds, differ = {}, 0
    for i in range(count):
        data = damaged(chance.choice(sources), chance)
        said = subprocess.run([program], input=data, capture_output=True).stdout
        expected = quote(data)
        key = expected.split(b"\t")[1] if expected[:1] == b"N" else b"planned"
        kinds[key] = kinds.get(key, 0) + 1
        if said != expected:
            differ += 1
            print("differs:", i, data[:80], said[:60], expected[:60])
    print(", ".join("%s %d" % (k.decode(), n) for k, n in sorted(kinds.items())))
    print("%d of %d agree" % (count - differ, count))
    return 1 if differ else 0


sys.exit(main())
