"""A trace as its lines say it, read slowly and without any code of the suite: what stacks and events it has, and what is live
when. It takes well-formed traces alone."""

from collections import namedtuple

# A frame's text in both styles, and the name of its function, or None.
Frame = namedtuple("Frame", "plain addressed function")
# One `+` or `-`: the stack and size of its info, and the greatest clock value before it.
Event = namedtuple("Event", "allocates info stack size clock")

NO_STACK = Frame(b"(no stack)", b"(no stack)", None)
UNKNOWN = Frame(b"??", b"??", None)


def text_of(line, version):
    """The text of a line after its kind and one blank; version 3 may say how long it is."""
    text = line[2:]
    size, blank, rest = text.partition(b" ")
    if version == 3 and blank and 1 <= len(size) <= 16 and all(byte in b"0123456789abcdefABCDEF" for byte in size):
        if int(size, 16) == len(rest):
            return rest
    return text


class Trace:
    def __init__(self, data):
        self.strings, self.instructions, self.nodes = [b""], [[UNKNOWN]], [None]
        self.infos, self.events, self.patterns = [], [], []
        self.command = None
        version, clock = None, 0
        for line in data.split(b"\n"):
            kind = line[:1]
            if kind == b"v":
                version = int((line[1:].split() + [b"1"])[1], 16)
            elif kind == b"X" and self.command is None:
                self.command = text_of(line, version)
            elif kind == b"S":
                self.suppress(text_of(line, version))
            elif kind == b"s":
                self.strings.append(text_of(line, version))
            elif kind in (b"i", b"t", b"a", b"c", b"+", b"-"):
                numbers = [int(field, 16) for field in line[1:].split()]
                if kind == b"i":
                    self.instructions.append(self.frames_of_instruction(numbers))
                elif kind == b"t":
                    self.nodes.append(tuple(numbers))
                elif kind == b"a":
                    self.infos.append(tuple(numbers))
                elif kind == b"c":
                    clock = max(clock, numbers[0])
                else:
                    size, stack = self.infos[numbers[0]]
                    self.events.append(Event(kind == b"+", numbers[0], stack, size, clock))

    def suppress(self, text):
        pattern = text[5:] if text.startswith(b"leak:") else text
        if pattern and not text.startswith(b"#"):
            self.patterns.append(pattern)

    def frames_of_instruction(self, numbers):
        ip, module, *rest = numbers
        if len(numbers) % 3 == 0:
            rest[1:1] = [0, 0]
        elif not rest:
            rest = [0, 0, 0]
        return [self.frame(ip, module, *rest[i:i + 3]) for i in range(0, len(rest), 3)]

    def frame(self, ip, module, function, file, line):
        address = b"0x%x" % ip
        name = self.strings[function] if function else None
        if file:
            plain, addressed = (b" (%s:%d)" % (self.strings[file], line),) * 2
        elif module:
            plain, addressed = b" in " + self.strings[module], b" (in %s)" % self.strings[module]
        else:
            plain = addressed = b""
        return Frame((address if name is None else name) + plain,
                     address + b": " + (b"???" if name is None else name) + addressed, name)

    def frames(self, stack):
        """The frames of a stack, innermost first."""
        if stack == 0:
            return [NO_STACK]
        frames = []
        while stack:
            instruction, stack = self.nodes[stack]
            frames += self.instructions[instruction]
        return frames

    def stacks(self):
        return range(len(self.nodes))

    def live(self, stack, place):
        """The live bytes of a stack after so many events."""
        return sum(event.size if event.allocates else -event.size for event in self.events[:place] if event.stack == stack)

    def all_live(self, place):
        """The live bytes of each stack after so many events."""
        live = [0] * len(self.nodes)
        for event in self.events[:place]:
            live[event.stack] += event.size if event.allocates else -event.size
        return live

    def shown_command(self):
        """What profiles say of the command."""
        return (self.command or b"").lstrip(b" ") or b"(none)"


def fronts_with_costs(lists, costs, depth):
    """The fronts of at most so many texts: the sum of the costs of the lists that begin with each, and the first such list."""
    sums, least = {}, {}
    for number, texts in enumerate(lists):
        if costs[number]:
            for length in range(min(depth, len(texts)) + 1):
                front = tuple(texts[:length])
                sums[front] = sums.get(front, 0) + costs[number]
                least.setdefault(front, number)
    return sums, least


def children_of(sums):
    """The fronts below each front, one text longer."""
    children = {}
    for front in sums:
        if front:
            children.setdefault(front[:-1], []).append(front)
    return children
