#!/usr/bin/env python3
"""Reads a disk of the voice manager, by docs/DISK.md alone; it writes nothing to it.
read_disk.py DISK            lists what it holds
read_disk.py DISK ROPE OUT   writes the samples of a rope into the file OUT
Exit status: 0 done, 1 the disk is damaged, 2 anything else."""
import sys
from collections import Counter

CLASSES = {0: '-', 1: 'held', 2: 'until', 3: 'listed'}
MOST_ROPE, MOST_MOMENT, MOST_SAMPLES = 2 ** 48, 2 ** 40, 2 ** 30
KINDS = 'recorded edited retained forgotten census swept advanced base file base_rope recorded base file base_rope'.split()

class Damaged(Exception): pass

def need(condition, place=None):
    if not condition:
        raise Damaged(place)

class Fields:                       # of a payload, one behind the other
    def __init__(self, payload): self.payload, self.at = payload, 0
    def bytes(self, width):
        self.at += width
        need(self.at <= len(self.payload))
        return self.payload[self.at - width:self.at]
    def number(self, width, low, high):
        n = int.from_bytes(self.bytes(width), 'big')
        need(low <= n <= high)
        return n
    def rope(self): return self.number(8, 1, MOST_ROPE)
    def key(self): return self.bytes(self.number(1, 1, 64))
    def pieces(self):
        pieces = []
        for _ in range(self.number(2, 0, 4096)):
            file, start = self.rope(), self.number(4, 0, MOST_SAMPLES)
            pieces.append((file, start, self.number(4, 1, MOST_SAMPLES - start)))
        need(sum(p[2] for p in pieces) <= MOST_SAMPLES)
        need(all(p[0] != q[0] or p[1] + p[2] != q[1] for p, q in zip(pieces, pieces[1:])))
        return pieces

class Disk:
    def __init__(self, image):
        self.image = image
        self.read_superblock()
        # ropes: number to (pieces, idle, last); rows: (class, key) to (rope, note); uses: block to live ropes; kept: rope to rows
        self.ropes, self.rows, self.addresses, self.uses, self.kept = {}, {}, {}, Counter(), Counter()
        self.moment, self.next, self.form = 0, 1, self.version
        self.phase = 'begun'        # then 'files' and 'ropes' while a base stands, and 'later'
        for gate, payload in self.records():
            try:
                self.change(Fields(payload))
            except Damaged:
                raise Damaged(gate)
        self.forget_unused()
    def number(self, at, width): return int.from_bytes(self.image[at:at + width], 'big')
    def read_superblock(self):
        need(len(self.image) >= 64 and self.image[:8] == b'VOICDISK', 0)
        self.version = self.number(8, 4)
        need(self.version in (1, 2), 8)
        self.block, self.blocks, self.area = (self.number(at, 4) for at in (12, 16, 20))
        self.lanes, end = self.number(28, 2), 30 if self.version == 1 else 42
        self.graces = [self.number(at, 4) for at in ((24,) * 4 if self.version == 1 else (24, 30, 34, 38))]
        self.data = 64 + 2 * self.area
        need(self.block % 8 == 0 and 8 <= self.block <= 8192 and 1 <= self.blocks <= (65535 if self.version == 1 else 1048576)
             and 512 <= self.area <= 2 ** 24 and 1 <= self.lanes <= 16 and self.data + self.block * self.blocks <= len(self.image), 12)
        need(not any(self.image[end:64]), end)
        starts = [s for s in (64, 64 + self.area) if self.image[s] == 1 and 1 <= self.number(s + 8, 8) <= 2 ** 48]
        heads = [(self.number(s + 8, 8), s) for s in starts]
        need(heads and (len(heads) == 1 or heads[0][0] != heads[1][0]), 64)
        self.epoch, self.start = max(heads)
    def records(self):
        records, gate, end = [], self.start + 16, self.start + self.area
        while self.image[gate] == 1:
            length = self.number(gate + 1, 4)
            need(gate + 5 + length < end, gate)
            records.append((gate, self.image[gate + 5:gate + 5 + length]))
            gate += 5 + length
        self.left = end - 1 - gate
        return records
    def blocks_of(self, pieces):
        return {(f, i) for f, at, n in pieces for i in range(at // self.block, (at + n - 1) // self.block + 1)}
    def forget_unused(self):
        self.addresses = {pair: a for pair, a in self.addresses.items() if self.uses[pair]}
        self.taken = set(self.addresses.values())
    def come(self, rope, pieces, idle, last):
        self.ropes[rope], self.next = (pieces, idle, last), max(self.next, rope + 1)
        self.uses.update(self.blocks_of(pieces))
    def lose(self, rows):
        for row in rows:
            rope, _ = self.rows.pop(row)
            self.kept[rope] -= 1
            if not self.kept[rope]:
                pieces, _, last = self.ropes[rope]
                self.ropes[rope] = (pieces, self.moment, row[0] if self.form == 2 else last)
    def change(self, f):
        kind = f.number(1, 1, 14)
        need(2 <= kind <= 7 or kind == 12 or (kind > 10) == (self.form == 2))
        if (kind < 8 or kind == 11) and self.phase != 'later':
            self.forget_unused()
            self.phase = 'later'
        for _ in getattr(self, KINDS[kind - 1])(f, 4 if kind > 10 else 2):      # its fields, and then what it does
            need(f.at == len(f.payload))
    def recorded(self, f, wide):
        rope, length = f.rope(), f.number(4, 0, MOST_SAMPLES)
        addresses = [f.number(wide, 0, self.blocks - 1) for _ in range(f.number(4, 0, 2 ** 32))]
        yield
        need(rope >= self.next and len(addresses) == -(-length // self.block) == len(set(addresses)) and not self.taken & set(addresses))
        self.addresses.update({(rope, i): a for i, a in enumerate(addresses)})
        self.taken.update(addresses)
        self.come(rope, [(rope, 0, length)] if length else [], self.moment, 0)
    def edited(self, f, _):
        rope, pieces = f.rope(), f.pieces()
        yield
        need(rope >= self.next and all(self.uses[pair] for pair in self.blocks_of(pieces)))
        self.come(rope, pieces, self.moment, 0)
    def retained(self, f, _):
        row, rope = (f.number(1, 1, 3), f.key()), f.rope()
        note = f.bytes(f.number(1, 0, 128))
        yield
        need(row[0] != 2 or (len(note) == 8 and int.from_bytes(note, 'big') <= MOST_MOMENT))
        need(rope in self.ropes and row not in self.rows)
        self.rows[row] = (rope, note)
        self.kept[rope] += 1
    def forgotten(self, f, _, rows=None):
        rows = rows or [(f.number(1, 1, 3), f.key())]
        yield
        need(len(set(rows)) == len(rows) and all(row in self.rows for row in rows))
        self.lose(rows)
    def census(self, f, _): return self.forgotten(f, _, [(3, f.key()) for _ in range(f.number(2, 1, 65535))])
    def swept(self, f, _):
        ropes = [f.rope() for _ in range(f.number(2, 0, 65535))]
        yield
        self.lose([row for row, (_, note) in self.rows.items() if row[0] == 2 and int.from_bytes(note, 'big') <= self.moment])
        need(ropes == sorted(set(ropes)) and all(rope in self.ropes and not self.kept[rope] for rope in ropes))
        for rope in ropes:
            self.uses.subtract(self.blocks_of(self.ropes.pop(rope)[0]))
        self.forget_unused()
    def advanced(self, f, _):
        moment = f.number(8, 1, MOST_MOMENT)
        yield
        need(moment > self.moment)
        self.moment = moment
    def base(self, f, wide):
        moment, after = f.number(8, 0, MOST_MOMENT), f.number(8, 1, MOST_ROPE + 1)
        yield
        need(self.phase == 'begun')
        self.moment, self.next, self.form, self.phase, self.taken = moment, after, wide // 2, 'files', set()
    def file(self, f, wide):
        file = f.rope()
        pairs = [(f.number(4, 0, 2 ** 32), f.number(wide, 0, self.blocks - 1)) for _ in range(f.number(4, 1, 2 ** 32))]
        yield
        need(self.phase == 'files' and next(reversed(self.addresses), (0,))[0] < file < self.next)
        addresses = {address for _, address in pairs}
        need(all(a[0] < b[0] for a, b in zip(pairs, pairs[1:])) and len(addresses) == len(pairs) and not addresses & self.taken)
        self.addresses.update({(file, index): address for index, address in pairs})
        self.taken |= addresses
    def base_rope(self, f, wide):
        rope, idle, last = f.rope(), f.number(8, 0, MOST_MOMENT), f.number(1, 0, 3) if wide == 4 else 0
        pieces = f.pieces()
        yield
        need(self.phase in ('files', 'ropes') and next(reversed(self.ropes), 0) < rope < self.next and idle <= self.moment)
        need(self.blocks_of(pieces) <= self.addresses.keys())
        self.come(rope, pieces, idle, last)
        self.phase = 'ropes'
    def samples(self, rope):
        out = bytearray()
        for file, at, n in self.ropes[rope][0]:
            while n:
                part = min(n, self.block - at % self.block)
                place = self.data + self.addresses[file, at // self.block] * self.block + at % self.block
                out += self.image[place:place + part]
                at, n = at + part, n - part
        return bytes(out)
    def listing(self):
        yield f'version {self.version} form {self.form} lanes {self.lanes} graces {" ".join(map(str, self.graces))}'
        yield f'block {self.block} blocks {self.blocks} area {self.area}'
        yield f'epoch {self.epoch} left {self.left} moment {self.moment} next {self.next}'
        for rope, (pieces, idle, last) in self.ropes.items():
            yield f'rope {rope} length {sum(p[2] for p in pieces)} pieces {len(pieces)} idle {idle} last {CLASSES[last]}'
        for (kind, key), (rope, note) in self.rows.items():
            yield f'row {CLASSES[kind]} {key.decode("ascii", "backslashreplace")} rope {rope} note {note.hex() or "-"}'
        yield f'used {len(self.addresses)} free {self.blocks - len(self.addresses)}'

def main(words):
    if len(words) not in (1, 3):
        return __doc__, 2
    try:
        disk = Disk(open(words[0], 'rb').read())
    except (Damaged, OSError) as e:
        return (f'damaged at byte {e}', 1) if isinstance(e, Damaged) else (e, 2)
    if len(words) == 1:
        return print('\n'.join(disk.listing())), 0
    if not words[1].isdigit() or int(words[1]) not in disk.ropes:
        return f'no rope {words[1]}', 2
    return open(words[2], 'wb').write(disk.samples(int(words[1]))) and None, 0

if __name__ == '__main__':
    text, status = main(sys.argv[1:])
    sys.stderr.write(f'{text}\n' if text else '')
    sys.exit(status)
