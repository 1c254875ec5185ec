#!/usr/bin/env python3
"""A random script of 80 lines, and a plain model of what it does, on lists of samples.
disk_model.py SEED FOLDER          writes the script random.vs, its sample files and a disk of zero bytes into the folder, and prints the words of `format` for it
disk_model.py SEED FOLDER PRINTED  compares what the program printed, and FOLDER/voice.disk as read_disk.py reads it, with the model
What is printed names the callers in the order of their calls, which need not be that of the lines: callers on threads choose it.
Disks of odd seeds have small areas, so that the journal switches and gets full, and those of even seeds few blocks; each fifth script plays much, and
each seventh records much in parts."""
import sys
from read_disk import Disk

BLOCK, GRACES, LANES, JOBS, LINES = 8, [30, 10, 20, 40], 3, 8, 80
LENGTHS = [0, 1, 7, 8, 9, 20, 64, 100]
CLASSES = ['held', 'until', 'listed']


def sizes(seed): return (64, 1024) if seed % 2 else (24, 1280)


class Draws:
    def __init__(self, seed): self.x = seed
    def draw(self, n):
        self.x = (self.x * 6364136223846793005 + 1442695040888963407) % 2 ** 64
        return (self.x >> 33) % n


def file_bytes(k): return bytes((7 * i + 31 * k + 1) % 256 for i in range(LENGTHS[k]))


def blocks_for(n): return -(-n // BLOCK)


class Model:
    """Ropes are lists of samples (byte, voice file, place); nothing is shared and nothing is counted beforehand."""
    def __init__(self, seed):
        self.seed, (self.blocks, self.area) = seed, sizes(seed)
        self.ropes, self.rows, self.moment, self.next = {}, {}, 0, 1      # ropes: number to [samples, idle, last]
        self.left, self.epoch = self.area - 17, 1
        self.lanes, self.job = [[] for _ in range(LANES)], 0              # the lanes' jobs: the passage, none where it is stopped
        self.takings = [None] * LANES                                     # the bytes of the lanes' open recordings, none where there is none
        self.files = {}                                                   # voice file to its length
    def copy(self):
        other = Model(self.seed)
        other.__dict__.update(self.__dict__, ropes={n: list(r) for n, r in self.ropes.items()}, rows=dict(self.rows), files=dict(self.files))
        return other
    def pieces(self, samples):
        return sum(k == 0 or samples[k - 1][1:] != (f, p - 1) for k, (_, f, p) in enumerate(samples))
    def used(self): return {(f, p // BLOCK) for samples, _, _ in self.ropes.values() for _, f, p in samples}
    def held(self): return {(f, p // BLOCK) for lane in self.lanes for samples in lane for _, f, p in samples or []}
    def free(self): return self.blocks - len(self.used() | self.held()) - sum(blocks_for(len(data)) for data in self.takings if data is not None)
    def crowded(self, need): return f'no no-room {need} {self.free()}' if need > self.free() else None
    def base(self):
        used = self.used()
        return (22 + 18 * len({f for f, _ in used}) + 8 * len(used) + sum(25 + 16 * self.pieces(r[0]) for r in self.ropes.values())
                + sum(17 + len(row[1]) + len(note) for row, (_, note) in self.rows.items()))
    def commit(self, change, payload, reply):
        """The change as a record behind the others, or by a base in the other area; or the refusal, and nothing is changed."""
        after = self.copy()
        change(after)
        need, fits = after.base(), payload + 5 <= self.left
        if need > self.area - 17 and not (fits and need <= self.base()):
            return f'no journal-full {need} {self.area - 17}'
        after.left, after.epoch = (self.left - payload - 5, self.epoch) if fits else (self.area - 17 - need, self.epoch + 1)
        self.__dict__.update(after.__dict__)
        return reply
    def add(self, samples): self.ropes[self.next], self.next = [samples, self.moment, 0], self.next + 1
    def edit(self, samples):
        return self.commit(lambda m: m.add(samples), 11 + 16 * self.pieces(samples), f'rope {self.next} length {len(samples)}')
    def record(self, data):
        def come(m):
            m.files[m.next] = len(data)
            m.add([(b, m.next, p) for p, b in enumerate(data)])
        return self.commit(come, 17 + 4 * blocks_for(len(data)), f'rope {self.next} length {len(data)}')
    def drop(self, rows):
        for row in rows:
            rope, _ = self.rows.pop(row)
            if rope not in [other for other, _ in self.rows.values()]:
                self.ropes[rope][1:] = [self.moment, CLASSES.index(row[0]) + 1]
    def expired(self): return [row for row, (_, note) in self.rows.items() if row[0] == 'until' and int.from_bytes(note, 'big') <= self.moment]
    def due(self, limit):
        m = self.copy()
        m.drop(m.expired())
        kept = [rope for rope, _ in m.rows.values()]
        return [n for n, (_, idle, last) in sorted(m.ropes.items()) if n not in kept and idle + GRACES[last] <= m.moment][:limit]
    def swept(self, gone):
        self.drop(self.expired())
        for n in gone:
            del self.ropes[n]
    def unknown(self, *ropes):
        return next((f'no unknown-rope {n}' for n in ropes if n not in self.ropes), None)
    def call(self, verb, *a):
        samples = lambda n: self.ropes[n][0]
        if verb == 'record':
            data = file_bytes(a[0])
            return self.crowded(blocks_for(len(data))) or self.record(data)
        if verb == 'concat':
            return self.unknown(*a) or self.edit([s for n in a for s in samples(n)])
        if verb == 'sub' or verb == 'replace':
            n, start, length, other = (a + (None,))[:4]
            if self.unknown(n, *a[3:]):
                return self.unknown(n, *a[3:])
            if start + length > len(samples(n)):
                return f'no bad-interval {len(samples(n))}'
            if verb == 'sub':
                return self.edit(samples(n)[start:start + length])
            return self.edit(samples(n)[:start] + samples(other) + samples(n)[start + length:])
        if verb == 'retain':
            row, rope, note = a
            if self.unknown(rope) or row in self.rows:
                return self.unknown(rope) or f'no key-taken {self.rows[row][0]}'
            return self.commit(lambda m: m.rows.update({row: (rope, note)}), 12 + len(row[1]) + len(note), 'done')
        if verb == 'forget':
            return self.commit(lambda m: m.drop([a[0]]), 3 + len(a[0][1]), 'done') if a[0] in self.rows else 'no no-interest'
        if verb == 'length':
            return self.unknown(*a) or f'number {len(samples(a[0]))}'
        if verb == 'lookup':
            rope, note = self.rows.get(a[0], (0, b''))
            return f'found {rope} {note.hex() or "-"}' if rope else 'no no-interest'
        if verb == 'census':
            gone = [row for row in self.rows if row[0] == 'listed' and row[1] not in a]
            return self.commit(lambda m: m.drop(gone), 3 + sum(1 + len(key) for _, key in gone), f'number {len(gone)}') if gone else 'number 0'
        if verb in ('play', 'stop', 'begin', 'add', 'end') and a[0] >= LANES:
            return f'no unknown-lane {LANES}'
        if verb == 'play':
            lane, n, start, length = a
            if self.unknown(n) or self.takings[lane] is not None:
                return self.unknown(n) or 'no lane-recording'
            if len(self.lanes[lane]) == JOBS:
                return 'no queue-full'
            if start + length > len(samples(n)):
                return f'no bad-interval {len(samples(n))}'
            self.lanes[lane].append(samples(n)[start:start + length])
            self.job += 1
            return f'job {self.job}'
        if verb == 'stop':
            count = sum(samples is not None for samples in self.lanes[a[0]])
            self.lanes[a[0]] = [None] * len(self.lanes[a[0]])
            return f'number {count}'
        if verb == 'begin':
            if self.takings[a[0]] is not None or self.lanes[a[0]]:
                return 'no lane-recording' if self.takings[a[0]] is not None else f'no lane-busy {len(self.lanes[a[0]])}'
            self.takings[a[0]] = b''
            return 'done'
        if verb in ('add', 'end') and self.takings[a[0]] is None:
            return 'no no-recording'
        if verb == 'add':
            before, data = self.takings[a[0]], self.takings[a[0]] + file_bytes(a[1])
            refused = self.crowded(blocks_for(len(data)) - blocks_for(len(before)))
            self.takings[a[0]] = before if refused else data
            return refused or f'number {len(data)}'
        if verb == 'end':
            reply = self.record(self.takings[a[0]])
            if reply.startswith('rope'):
                self.takings[a[0]] = None
            return reply
        if verb == 'advance':
            return 'done' if a[0] <= self.moment else self.commit(lambda m: setattr(m, 'moment', a[0]), 9, 'done')
        rows, gone = self.expired(), self.due(a[0])       # a sweep
        reply = f'swept {len(rows)} rows {len(gone)} ropes' + ''.join(f' {n}' for n in gone)
        return self.commit(lambda m: m.swept(gone), 3 + 8 * len(gone), reply) if rows or gone else reply


def calls(seed):
    """The calls of the script, each with its caller and its line; they are drawn so that most name what is there, in the order of the lines."""
    d, m, drawn = Draws(seed), Model(seed), []
    rope = lambda: list(m.ropes)[d.draw(len(m.ropes))] if m.ropes and d.draw(12) else d.draw(40)
    key = lambda: b'k%d' % d.draw(6)
    def interval(n):
        length = len(m.ropes[n][0]) if n in m.ropes else 9
        start = d.draw(length + 1)
        return start, d.draw(length - start + 2)
    def kind():
        if seed % 5 == 0 and d.draw(2):
            return 12
        return 16 if seed % 7 == 0 and d.draw(2) else d.draw(19)
    def lane(lanes): return lanes[d.draw(len(lanes))] if lanes and d.draw(8) else d.draw(LANES + 1)
    for k in range(LINES):
        o, caller = kind(), 1 + d.draw(3)
        if o < 3:
            call = ('record', d.draw(8))
            text = f'record f{call[1]}'
        elif o == 3:
            call = ('concat',) + tuple(rope() for _ in range(1 + d.draw(3)))
            text = ' '.join(map(str, call))
        elif o < 6:
            n = rope()
            call = ('sub', n, *interval(n)) if o == 4 else ('replace', n, *interval(n), rope())
            text = ' '.join(map(str, call))
        elif o < 9:
            row, n = (CLASSES[d.draw(3)], key()), rope()
            note = (10 * k + d.draw(100)).to_bytes(8, 'big') if row[0] == 'until' else bytes(range(d.draw(4)))
            call = ('retain', row, n, note) if o < 8 else ('forget', list(m.rows)[d.draw(len(m.rows))] if m.rows else row)
            text = f'{call[0]} {call[1][0]} {call[1][1].decode()}' + (f' {n} {note.hex() or "-"}' if o < 8 else '')
        elif o < 12:
            call = ('advance', 8 * k) if o < 11 else ('sweep', d.draw(5))
            text = f'{call[0]} {call[1]}'
        elif o < 14:
            n, on = rope(), d.draw(3) and d.draw(LANES + 1)
            call = ('play', on, n, *interval(n)) if o == 12 or d.draw(3) else ('stop', on)
            text = ' '.join(map(str, call)).replace('play', 'queue')
        elif o == 14:
            call = ('lookup', (CLASSES[d.draw(3)], key())) if d.draw(2) else ('length', rope())
            text = f'{call[0]} ' + (f'{call[1][0]} {call[1][1].decode()}' if call[0] == 'lookup' else str(call[1]))
        elif o > 15:
            part = d.draw(5)
            taking, quiet = [n for n in range(LANES) if m.takings[n] is not None], [n for n in range(LANES) if m.takings[n] is None and not m.lanes[n]]
            if part == 0 or not taking and d.draw(8):
                call = ('begin', lane(quiet))
            else:
                call = ('add', lane(taking), d.draw(8)) if part < 4 else ('end', lane(taking))
            text = f'{call[0]} {call[1]}' + (f' f{call[2]}' if call[0] == 'add' else '')
        else:
            call = ('census',) + tuple({key(): None for _ in range(1 + d.draw(4))})
            text = 'census ' + ' '.join(one.decode() for one in call[1:])
        m.call(*call)
        drawn.append((caller, call, f'{caller} {text}\n'))
    return drawn


def history(seed, drawn, callers):
    """What is printed where the callers come in that order, and the model after all calls."""
    m, own = Model(seed), {caller: [call for by, call, _ in drawn if by == caller] for caller in {by for by, _, _ in drawn}}
    printed = []
    for number, caller in enumerate(callers, 1):
        call = own[caller].pop(0)
        printed.append(f'{number} {caller} {call[0]}: {m.call(*call)}\n')
    return ''.join(printed), m


def differs(what, found, wanted):
    if found != wanted:
        sys.exit(f'{what}: found {found}, wanted {wanted}')


def main(seed, folder, printed=None):
    seed = int(seed)
    drawn = calls(seed)
    if printed is None:
        script, (blocks, area) = ''.join(line for _, _, line in drawn).encode(), sizes(seed)
        files = [('random.vs', script), ('voice.disk', bytes(64 + 2 * area + BLOCK * blocks))] + [(f'f{k}', file_bytes(k)) for k in range(8)]
        for name, data in files:
            with open(f'{folder}/{name}', 'wb') as out:
                out.write(data)
        common, held, until, listed = GRACES
        print(f'--block {BLOCK} --blocks {blocks} --area {area} --lanes {LANES} --grace {common} --held {held} --until {until} --listed {listed}')
        return
    with open(printed) as file:
        found = file.read()
    callers = [int(line.split()[1]) for line in found.splitlines()]
    differs('callers', sorted(callers), sorted(caller for caller, _, _ in drawn))
    text, m = history(seed, drawn, callers)
    for line, wanted in zip(found.splitlines(), text.splitlines()):
        differs('printed', line, wanted)
    with open(f'{folder}/voice.disk', 'rb') as file:
        disk = Disk(file.read())
    differs('ropes', {n: (disk.samples(n), idle, last) for n, (_, idle, last) in disk.ropes.items()},
            {n: (bytes(b for b, _, _ in samples), idle, last) for n, (samples, idle, last) in m.ropes.items()})
    differs('pieces', {n: len(r[0]) for n, r in disk.ropes.items()}, {n: m.pieces(r[0]) for n, r in m.ropes.items()})
    differs('rows', [(CLASSES[c - 1], key, rope, note) for (c, key), (rope, note) in disk.rows.items()], [row + kept for row, kept in m.rows.items()])
    differs('numbers', (disk.moment, disk.next, disk.left, disk.epoch), (m.moment, m.next, m.left, m.epoch))
    differs('blocks', set(disk.addresses), m.used())
    for (file, index), address in disk.addresses.items():
        block = disk.image[disk.data + BLOCK * address:disk.data + BLOCK * (address + 1)]
        behind = max(0, BLOCK * (index + 1) - m.files[file])
        differs('behind the last sample', block[BLOCK - behind:], bytes(behind))


if __name__ == '__main__':
    main(*sys.argv[1:])
