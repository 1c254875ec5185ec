#!/usr/bin/env python3
"""Builds a program of this repository, crate by crate, each as soon as those below it are built: builder.py PROGRAM

It says which crate of how many it proves. As many are proved side by side as there are processors, and as memory has
3 GB for each. A crate whose library is newer than its sources, and than the libraries below it, is not built again."""
import os
import subprocess
import sys
import threading

TOP = os.path.dirname(os.path.abspath(__file__))


def libraries():
    """The crates of crates.txt, each with the crates of this repository that it uses."""
    uses = {}
    with open(f'{TOP}/crates.txt', encoding='utf-8') as lines:
        for line in lines:
            head, _, used = line.partition(':')
            if line.strip() and not line.startswith('#'):
                uses[head.split()[0]] = used.split()
    return {name: [it for it in used if it in uses] for name, used in uses.items()}


def below(uses, name, found):
    """The crates on which a crate stands, lowest first."""
    for used in uses[name]:
        if used not in found:
            below(uses, used, found)
            found.append(used)
    return found


def workers():
    """How many crates are proved side by side."""
    with open('/proc/meminfo', encoding='utf-8') as lines:
        free = next(int(line.split()[1]) for line in lines if line.startswith('MemAvailable:'))
    return max(1, min(os.cpu_count() or 1, free // 3_000_000))


class Builder:
    def __init__(self, program):
        uses = libraries()
        self.program = program
        self.order = below(uses, program, [])
        self.uses = uses
        self.built, self.failed, self.begun = set(), None, 0
        self.turn = threading.Condition()

    def next(self):
        """A crate whose libraries are built, or None once all are, or one failed."""
        with self.turn:
            while True:
                if self.failed or not self.order:
                    return None
                for name in self.order:
                    if all(used in self.built for used in self.uses[name]):
                        self.order.remove(name)
                        self.begun += 1
                        print(f'{self.program}: {self.begun} of {self.begun + len(self.order) + 1}: {name}', file=sys.stderr)
                        return name
                self.turn.wait()

    def work(self):
        while (name := self.next()) is not None:
            done = run('lib', name)
            with self.turn:
                self.built.add(name)
                if done.returncode:
                    self.failed = (name, done.stdout)
                self.turn.notify_all()

    def build(self):
        threads = [threading.Thread(target=self.work) for _ in range(workers())]
        for thread in threads:
            thread.start()
        for thread in threads:
            thread.join()
        if not self.failed:
            print(f'{self.program}: the program itself', file=sys.stderr)
            run('run', self.program)
            if not os.access(f'{TOP}/crates/{self.program}/out/{self.program}', os.X_OK):
                self.failed = (self.program, run('check', self.program).stdout)
        if self.failed:
            sys.stderr.buffer.write(self.failed[1])
            print(f'{self.program}: {self.failed[0]} is not built', file=sys.stderr)
        return 70 if self.failed else 0


def run(word, name):
    """A command of the toolchain in a crate's folder, with what it said."""
    return subprocess.run(['rt', word, '--jobs', '1'] if word != 'run' else ['rt', 'run'], cwd=f'{TOP}/crates/{name}', stdin=subprocess.DEVNULL, stdout=subprocess.PIPE, stderr=subprocess.STDOUT, check=False)


sys.exit(Builder(sys.argv[1]).build())
