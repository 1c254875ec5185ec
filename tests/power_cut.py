#!/usr/bin/env python3
"""What a power cut leaves of a run of script.vs over voice.disk, as both stand in FOLDER.
power_cut.py trace FOLDER PROGRAM        runs each front of the script under strace, and keeps what it wrote, synced and left
power_cut.py images FOLDER PROGRAM N M   checks N images that a cut may leave, and lets the program open M of them; of those torn in a switch, twelve stay as cut.1 to cut.12
power_cut.py syncs FOLDER                leaves out each sync in turn: each time an image has to be wrong
Exit status: 0 all is as it has to be, 1 something isn't, and lines say what."""
import os, pickle, random, re, subprocess, sys
from read_disk import Damaged, Disk

SECTOR, SEED = 512, 25


def fail(text): sys.exit(f'power_cut: {text}')


def load(name):
    with open(name, 'rb') as file:
        return file.read()


def save(name, data):
    with open(name, 'wb') as file:
        file.write(data)


def ran(*words):
    done = subprocess.run(words, stdout=subprocess.PIPE, stderr=subprocess.STDOUT, timeout=60)
    return done.returncode, done.stdout.decode()


def state(image):
    """What stands on an image: all that read_disk.py lists, and the samples of each rope."""
    try:
        disk = Disk(image)
        return '\n'.join(disk.listing()), [disk.samples(rope) for rope in disk.ropes]
    except Damaged as e:
        return f'damaged at byte {e}', []


def written(image, writes):
    image = bytearray(image)
    for at, data in writes:
        image[at:at + len(data)] = data
    return bytes(image)


def plain(word): return bytes.fromhex(word.strip('"').replace('\\x', ''))


def events_of(trace):
    """The writes to voice.disk, (place, bytes), and its syncs, None, in the order in which they ended."""
    events, disk, begun = [], None, {}
    for line in trace.splitlines():
        process, call = line.split(None, 1)
        if call.endswith(' <unfinished ...>'):
            begun[process] = call[:-len(' <unfinished ...>')]
            continue
        if call.startswith('<... '):
            call = begun.pop(process) + call.split(' resumed>', 1)[1]
        found = re.match(r'(\w+)\((.*)\) += (-?\d+)', call)
        if not found:
            continue
        name, words, result = found[1], found[2].split(', '), int(found[3])
        if name == 'openat':
            if result >= 0 and plain(words[1]) == b'voice.disk':
                disk = str(result)
        elif words[0] == disk:
            if result < 0:
                fail(f'a call failed: {call}')
            if name == 'close':
                disk = None
            else:
                events.append((int(words[3]), plain(words[1])[:result]) if name == 'pwrite64' else None)
    return events


def trace(program):
    """Of each front of the script: how many events its run makes, and the image that it leaves."""
    base, script = load('voice.disk'), load('script.vs').splitlines(True)
    fronts, printed, before = [], '', []
    for k in range(len(script) + 1):
        save('voice.disk', base)
        save('front.vs', b''.join(script[:k]))
        status, text = ran('strace', '-f', '-qq', '-xx', '-s', '1000000', '-o', 'trace',
                           '-e', 'trace=openat,close,pwrite64,fsync,fdatasync', program, 'run', 'front.vs')
        events = events_of(load('trace').decode())
        fronts.append((len(events), load('voice.disk')))
        if status or not text.startswith(printed) or text.count('\n') != k:
            fail(f'the first {k} lines: status {status}\n{text}')
        if written(base, filter(None, events)) != fronts[k][1]:
            fail(f'the first {k} lines: the file differs from the writes of the trace')
        if events[:len(before)] != before or events[-1:] not in ([], [None]):
            fail(f'the first {k} lines: their calls are not those of one line less and then others, or end without a sync')
        printed, before = text, events
    save('traced', pickle.dumps((base, events, fronts)))
    disks = [Disk(image) for _, image in fronts]
    changes, switches = len({(disk.epoch, disk.left) for disk in disks}) - 1, disks[-1].epoch - disks[0].epoch
    again = len({(file, address) for disk in disks for (file, _), address in disk.addresses.items()})
    again -= len({address for disk in disks for address in disk.addresses.values()})
    print(f'{len(script)} lines, {changes} changes, {switches} switches, {again} blocks taken again')


class Cuts:
    """The moments of a cut in the traced run, and what may stand at each."""
    def __init__(self):
        self.base, self.events, self.fronts = pickle.loads(load('traced'))
        self.states = [state(image) for _, image in self.fronts]
    def moments(self, without=None):
        """Each moment: how many events are over, the image of the synced writes, and the other writes. The event `without` is no sync."""
        synced, pending = self.base, []
        yield 0, synced, pending
        for i, event in enumerate(self.events):
            if event:
                pending = pending + [event]
            elif i != without:
                synced, pending = written(synced, pending), []
            yield i + 1, synced, pending
    def may_stand(self, i):
        """The first and the last front that may stand after i events: what is acknowledged, and perhaps the call under way."""
        first = max((k for k, (count, _) in enumerate(self.fronts) if count <= i), default=0)
        return first, first + (i > self.fronts[first][0])
    def found(self, i, image):
        """The front that stands on an image after i events, and ''; or None, and what is wrong."""
        first, last = self.may_stand(i)
        stands = state(image)
        for k in range(first, last + 1):
            if stands == self.states[k]:
                return k, ''
        what = f'the state after {self.states.index(stands)} lines' if stands in self.states else f'no front of the script, but\n{stands[0]}\n'
        return None, f'{first} lines are acknowledged, and {what} stands'


def torn(draws, image, writes, kind):
    """The image with these writes done in part, in any order."""
    image = bytearray(image)
    for at, data in draws.sample(writes, len(writes)):
        share, sectors = draws.random(), [draws.random() < 0.5 for _ in range(2 + len(data) // SECTOR)]
        for i, byte in enumerate(data):
            if sectors[(at + i) // SECTOR - at // SECTOR] if kind == 'sectors' else draws.random() < share:
                image[at + i] = byte
            elif kind == 'others' and draws.random() < 0.5:
                image[at + i] = draws.randrange(256)
    return bytes(image)


def images(cuts, moments, most, rounds):
    """At most so many images, in which these moments take turns; none twice where the same may stand. The mixtures are of old and new bytes, of old and new sectors, and of old, new and other bytes."""
    draws, seen = random.Random(SEED), set()
    for k in range(rounds):
        kind = ('synced', 'written', 'sectors', 'bytes', 'others')[k if k < 2 else 2 + k % 3]
        for i, synced, pending in moments:
            image = synced if k == 0 else written(synced, pending) if k == 1 else torn(draws, synced, pending, kind)
            if (cuts.may_stand(i), image) not in seen:
                seen.add((cuts.may_stand(i), image))
                yield i, kind, image
                if len(seen) == most:
                    return


def opened(program, image):
    """What the program tells of an image, and what a later run tells and leaves, which hears each rope and records once more."""
    save('voice.disk', image)
    return ran(program, 'audit') + ran(program, 'run', 'later.vs') + state(load('voice.disk'))


def check_images(program, most, samples):
    cuts, counts, wanted, bad = Cuts(), {}, {}, 0
    last = max(Disk(image).next for _, image in cuts.fronts)
    save('later.vs', ''.join(f'1 levels {rope}\n' for rope in range(1, last)).encode() + b'1 record short\n')
    made = list(images(cuts, list(cuts.moments()), int(most), 1000))
    by_program = set(random.Random(SEED).sample(range(len(made)), min(int(samples), len(made))))
    for n, (i, kind, image) in enumerate(made):
        counts[kind] = counts.get(kind, 0) + 1
        front, wrong = cuts.found(i, image)
        if n in by_program and not wrong:
            wanted[front] = wanted.get(front) or opened(program, cuts.fronts[front][1])
            told = opened(program, image)
            if told != wanted[front] or told[0] or told[2]:
                wrong = f'the program tells {told}\nand of the disk after {front} lines {wanted[front]}'
        if wrong:
            bad += 1
            print(f'image {n} ({kind}) after {i} events: {wrong}')
    epochs = [Disk(image).epoch for _, image in cuts.fronts]
    switching = [image for i, kind, image in made if kind not in ('synced', 'written') and len({epochs[k] for k in cuts.may_stand(i)}) == 2]
    for n, image in enumerate(random.Random(SEED).sample(switching, min(12, len(switching)))):
        save(f'cut.{n + 1}', image)
    kinds, syncs = ', '.join(f'{n} {kind}' for kind, n in counts.items()), cuts.events.count(None)
    print(f'{len(made)} images of {len(cuts.events) - syncs} writes and {syncs} syncs ({kinds}), the program opened {len(by_program)}: {bad} wrong')
    if bad or len(made) < int(most):
        fail('the images are wrong, or too few')


def check_syncs():
    """Each sync behind a write is missed where it is left out: an image at some moment from then to the next sync is wrong."""
    cuts, left_out, bad = Cuts(), 0, 0
    for k, event in enumerate(cuts.events):
        if k and event is None and cuts.events[k - 1]:
            end = next((j for j in range(k + 1, len(cuts.events)) if cuts.events[j] is None), len(cuts.events))
            moments = [moment for moment in cuts.moments(k) if k < moment[0] <= end]
            left_out += 1
            if not any(cuts.found(i, image)[1] for i, _, image in images(cuts, moments, 1000, 300)):
                bad += 1
                print(f'nothing is wrong without the sync of event {k}')
    print(f'{left_out} syncs left out in turn: {left_out - bad} missed')
    if bad or not left_out:
        fail('the images are too tame')


if __name__ == '__main__':
    task, folder, *words = sys.argv[1:]
    words = [os.path.abspath(word) for word in words[:1]] + words[1:]
    os.chdir(folder)
    {'trace': trace, 'images': check_images, 'syncs': check_syncs}[task](*words)
