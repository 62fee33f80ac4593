"""Random traces for the slow writers: small ones in which texts, places, times and sizes often meet."""

import os
import random
import subprocess
import sys

NAMES = [b"main", b"f", b"g", b"malloc", b"operator new", b"a;b", b"", b" g", b"\xc3\xa9", b"\xff", b"h\ti", b"leak"]
FILES = [b"a.c", b"b.c", b"dir/a.c", b"q;\"r\\"]
MODULES = [b"app", b"libc.so", b""]


class TraceWriter:
    """Writes lines at random, each one of what the lines before allow."""

    def __init__(self, random):
        self.random = random
        self.version = random.choice([1, 2, 3])
        self.lines = [b"# begins" for _ in range(random.randrange(2))]
        self.lines.append(b"v 10500" if self.version == 1 else b"v 10500 %d" % self.version)
        self.strings, self.instructions, self.infos, self.clock, self.last = 0, 0, [], 0, None
        self.depths = [0]
        self.live = {}
        self.sizes = random.choice([[0, 1, 16, 17, 100], [64], [8, 1 << 20], [1, 1 << 40], range(3000)])
        self.depth = random.choice([2, 5, 40, 300])

    def text(self, kind, text):
        if self.version == 3 and self.random.randrange(4):
            text = b"%x %s" % (len(text), text)
        self.lines.append(kind + b" " + text)

    def numbers(self, kind, *numbers):
        digits = b"%X" if self.random.randrange(9) == 0 else b"%x"
        self.lines.append(kind + b" " + b" ".join(digits % number for number in numbers))

    def string(self):
        self.text(b"s", self.random.choice(NAMES + FILES + MODULES))
        self.strings += 1

    def instruction(self):
        name = lambda: self.random.randrange(self.strings + 1)
        triples = lambda: [number for _ in range(self.random.choice([0, 0, 1, 3]))
                           for number in (name(), name(), self.random.randrange(3))]
        form = self.random.randrange(4)
        frames = [[], [name()], [name(), name(), self.random.randrange(100)] + triples(), [name()] + triples()][form]
        self.numbers(b"i", self.random.choice([0, 1, 1024, 1 << 63]) + self.random.randrange(3), name(), *frames)
        self.instructions += 1

    def node(self):
        parent = self.random.choice([0, len(self.depths) - 1, self.random.randrange(len(self.depths))])
        if self.depths[parent] < self.depth:
            self.numbers(b"t", self.random.randrange(self.instructions + 1), parent)
            self.depths.append(self.depths[parent] + 1)

    def info(self):
        self.infos.append(self.random.choice(self.sizes))
        self.numbers(b"a", self.infos[-1], self.random.randrange(len(self.depths)))

    def event(self, frees):
        if self.infos:
            info = self.random.randrange(len(self.infos))
            if self.live and self.random.random() < frees:
                again = self.last in self.live and self.random.randrange(3) == 0
                info = self.last if again else self.random.choice(list(self.live))
            if info in self.live and self.random.random() < frees:
                self.numbers(b"-", info)
                self.live[info] -= 1
                if not self.live[info]:
                    del self.live[info]
            else:
                self.numbers(b"+", info)
                self.live[info] = self.live.get(info, 0) + 1
                self.last = info

    def tick(self):
        self.clock += self.random.choice([0, 0, 1, 10, 1000])
        self.numbers(b"c", self.random.choice([self.clock, self.clock, self.random.randrange(self.clock + 1)]))

    def other(self):
        pattern = self.random.choice([b"leak:", b"", b"#"]) + self.random.choice(NAMES)
        self.random.choice([
            lambda: self.lines.append(b"# \xff a comment"),
            lambda: self.lines.append(b"R 100"),
            lambda: self.text(b"X", b" " * self.random.randrange(3) + self.random.choice(NAMES)),
            lambda: self.text(b"S", pattern)])()

    def write(self):
        calls = [self.string] * 3 + [self.instruction] * 3 + [self.node] * 4 + [self.info] * 3
        for _ in range(self.random.choice([0, 5, 30, 100])):
            self.random.choice(calls)()
        calls += [self.tick] * self.random.choice([0, 1, 20]) + [self.other]
        frees, length = self.random.choice([0.1, 0.5, 0.9]), self.random.choice([0, 3, 30, 100, 400])
        rare = self.random.choice([0.01, 0.1, 0.5])
        for _ in range(length):
            if self.random.random() < rare:
                self.random.choice(calls)()
            else:
                self.event(frees)
        return b"\n".join(self.lines) + self.random.choice([b"", b"\n"])


def compare(program, words, data, expected):
    """Whether the program writes what is expected, which may depend on what it writes; where it doesn't, the input and what was
    expected are kept."""
    ran = subprocess.run([program, *words], input=data, capture_output=True)
    if callable(expected):
        expected = expected(ran.stdout)
    if ran.returncode == 0 and ran.stdout == expected:
        return True
    folder = "/tmp/random-%d" % os.getpid()
    os.makedirs(folder, exist_ok=True)
    for name, content in ("input", data), ("expected", expected), ("written", ran.stdout):
        with open(os.path.join(folder, name), "wb") as file:
            file.write(content)
    print("differs (status %d): %s %r < %s/input" % (ran.returncode, program, words, folder), file=sys.stderr)
    return False


def arguments(folder, cases):
    """The program, the number of cases and a random draw, by the arguments: without one the program is bin/heapsuite at the top
    of the repository."""
    words = dict(enumerate(sys.argv))
    program = os.path.realpath(words.get(1, os.path.join(folder, "../bin/heapsuite")))
    return program, int(words.get(2, cases)), random.Random(int(words.get(3, 1)))
