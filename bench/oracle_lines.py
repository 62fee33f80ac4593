"""What `interpret` has to write of a raw trace, `gen` of its options, `heaprec` of scripts in a given order of threads, and
`ms_print` of a Massif file, worked out slowly from what they are defined as. The inputs are well formed."""

from oracle_reports import joined, percent
from oracle_trace import text_of


def hexadecimal(kind, *numbers):
    return kind + b"".join(b" %x" % number for number in numbers)


def symbols_of(data):
    """The symbols of a table: module, start, size, and the texts of the frames, which are one function, or a function, a file and
    a line each."""
    symbols = []
    for line in data.split(b"\n"):
        if line and not line.startswith(b"#"):
            module, start, size, *frames = line.split(b"\t")
            symbols.append((module, int(start, 16), int(size, 16), frames))
    return symbols


def interpreted(symbols, raw):
    out, names, ips, infos, modules, held = [], [], [], [], [], {}
    version = 1

    def name(text):
        if text not in names:
            names.append(text)
            out.append(b"s %x %s" % (len(text), text) if version == 3 else b"s " + text)
        return names.index(text) + 1

    def instruction(ip):
        around = [(module, start) for module, start, ranges in modules if any(low <= ip < low + size for low, size in ranges)]
        if not around:
            return [ip, 0]
        module, start = around[-1]
        numbers = [ip, name(module)]
        for of, low, size, frames in symbols:
            if of == module and start <= ip and low <= ip - start < low + size:
                for place, text in enumerate(frames):
                    numbers.append(int(text) if place % 3 == 2 else name(text))
        return numbers

    for line in raw.split(b"\n"):
        kind, fields = line[:1], line[1:].split()
        if kind == b"v":
            version = int(fields[1], 16) if len(fields) > 1 else 1
            out.append(hexadecimal(b"v", int(fields[0], 16), version))
        elif kind == b"m":
            if version == 3:
                size, _, rest = line[2:].partition(b" ")
                module, numbers = rest[:int(size, 16)], rest[int(size, 16):].split()
            else:
                module, *numbers = fields
            if numbers:
                start, *ranges = [int(number, 16) for number in numbers]
                modules.append((module, start, [(start + low, size) for low, size in zip(ranges[::2], ranges[1::2])]))
            else:
                modules = []
        elif kind == b"t":
            ip, parent = [int(field, 16) for field in fields]
            if ip and ip not in ips:
                ips.append(ip)
                numbers = instruction(ip)
                out.append(hexadecimal(b"i", *numbers))
            out.append(hexadecimal(b"t", ips.index(ip) + 1 if ip else 0, parent))
        elif kind == b"+":
            size, stack, pointer = [int(field, 16) for field in fields]
            if (size, stack) not in infos:
                infos.append((size, stack))
                out.append(hexadecimal(b"a", size, stack))
            held[pointer] = infos.index((size, stack))
            out.append(hexadecimal(b"+", held[pointer]))
        elif kind == b"-":
            pointer = int(fields[0], 16)
            if pointer in held:
                out.append(hexadecimal(b"-", held.pop(pointer)))
        else:
            out.append(line)
    if raw.endswith(b"\n"):
        out.pop()
    return joined(out)


def generated(seed, events, stacks):
    state, live = seed, {}

    def draw(bound):
        nonlocal state
        state = (1103515245 * state + 12345) % 2 ** 31
        return state // 65536 % bound

    out = [b"v 10500 2", b"X gen", b"s m"] + [b"s f%d" % k for k in range(1, stacks + 1)]
    out += [hexadecimal(b"i", k, 1, k + 1) for k in range(1, stacks + 1)]
    out += [hexadecimal(b"t", k, draw(k)) for k in range(1, stacks + 1)]
    out += [hexadecimal(b"a", 1 + draw(4096), k) for k in range(1, stacks + 1)]
    for _ in range(events):
        info, chosen = draw(stacks), draw(2)
        frees = chosen == 0 and live.get(info, 0) > 0
        live[info] = live.get(info, 0) + (-1 if frees else 1)
        out.append(hexadecimal(b"-" if frees else b"+", info))
    return joined(out)


def events_of_script(script):
    """Allocations as ID, size and ips, and frees as the ID alone."""
    events = []
    for line in script.split(b"\n"):
        if line and not line.startswith(b"#"):
            block, *numbers = [int(field, 16) for field in line[1:].split()]
            if line[:1] != b"a":
                events.append((block,))
            if line[:1] != b"f":
                events.append((block, numbers[0], numbers[1:]))
    return events


def spelled(trace):
    """The threads of a recording's events, in order."""
    order, thread = [], None
    for line in trace.split(b"\n"):
        if line.startswith(b"# thread "):
            thread = int(line[9:])
        elif line[:1] in (b"+", b"-"):
            order.append(thread)
    return order


def recorded(scripts, modules, order, with_summary):
    scripts = [events_of_script(script) for script in scripts]
    places, live, handed, nodes, fresh = [0] * len(scripts), [{} for _ in scripts], {}, [], 0x10000
    out = [b"v 10500 2", b"X heaprec"] + modules
    total = peak = calls = allocated = 0
    for before, thread in zip([None] + order, order):
        if thread != before:
            out.append(b"# thread %d" % thread)
        block, *allocation = scripts[thread][places[thread]]
        places[thread] += 1
        if allocation:
            size, ips = allocation
            for length in range(1, len(ips) + 1):
                if ips[-length:] not in nodes:
                    nodes.append(ips[-length:])
                    out.append(hexadecimal(b"t", ips[-length], nodes.index(ips[1 - length:]) + 1 if length > 1 else 0))
            room = max(16, -(-size // 16) * 16)
            taken = {address for blocks in live for address, _ in blocks.values()}
            free = [address for address in handed.get(room, []) if address not in taken]
            address = min(free) if free else fresh
            if not free:
                handed.setdefault(room, []).append(fresh)
                fresh += room
            live[thread][block] = (address, size)
            out.append(hexadecimal(b"+", size, nodes.index(ips) + 1 if ips else 0, address))
            total, calls, allocated = total + size, calls + 1, allocated + size
            peak = max(peak, total)
        else:
            address, size = live[thread].pop(block)
            out.append(hexadecimal(b"-", address))
            total -= size
    if with_summary:
        peaks = [peak_of(script) for script in scripts]
        out += [b"# threads: %d" % len(scripts), b"# events: %d" % len(order), b"# calls: %d" % calls,
                b"# allocated: %d" % allocated, b"# leaked: %d in %d blocks" % (total, sum(map(len, live))),
                b"# peak: %d from %d to %d" % (peak, max(peaks), sum(peaks))]
    return joined(out)


def peak_of(script):
    live, peak = {}, 0
    for block, *allocation in script:
        live[block] = allocation[0] if allocation else 0
        peak = max(peak, sum(live.values()))
    return peak


def snapshots_of(lines):
    """The snapshots of a Massif file's lines after its header: time, heap, extra, stacks, mark and tree, a tree being bytes, label
    and children."""
    lines = [line for line in lines if line and not line.startswith(b"#")]
    snapshots = []

    def tree():
        count, size, *label = lines.pop(0).lstrip(b" ").split(b" ", 2)
        children = [tree() for _ in range(int(count[1:-1]))]
        return int(size), label[0] if label else b"", children

    while lines:
        values = [lines.pop(0).partition(b"=")[2] for _ in range(6)]
        mark = values.pop()
        snapshots.append((*map(int, values[1:]), mark, None if mark == b"empty" else tree()))
    return snapshots


def label(value, unit):
    """A number with its unit, in at most five places."""
    factor = 1024 if unit == b"B" else 1000
    prefixes = [b""] if unit == b"ms" else [b"", b"K" if unit == b"B" else b"k", b"M", b"G", b"T"]
    power = max([power for power in range(len(prefixes)) if factor ** power <= value], default=0)
    whole, rest = divmod(value, factor ** power)
    text = b"%d" % whole
    if power and len(text) < 5:
        text = (b"%s.%03d" % (text, rest * 1000 // factor ** power))[:5].rstrip(b".")
    return text, prefixes[power] + unit


def graph(width, height, peak, end, snapshots):
    """The rows of the graph, from the top row down."""
    ranks = {b"empty": 0, b"detailed": 1, b"peak": 2}
    bars = {}
    for time, heap, extra, stacks, mark, _ in snapshots:
        column = 1 + time * (width - 1) // end if end else 1
        bar = ranks[mark], (heap + extra + stacks) * height // peak if peak else 0
        if column not in bars or bars[column][0] <= bar[0]:
            bars[column] = bar

    def cell(x, y):
        columns = [column for column in bars if column <= x]
        if not columns:
            return b" "
        rank, top = bars[max(columns)]
        return b":@#"[rank:rank + 1] if (y <= top if x in bars else y == top) else b" "

    return [b"".join(cell(x, y) for x in range(1, width + 1)) for y in range(height, 0, -1)]


def put_tree(tree, total, threshold, lines):
    def text(size, of):
        return b"%s (%sB) %s" % (percent(min(size, total), total), format(size, ",").encode(), of)

    def put_below(children, prefix):
        shown = [child for child in children if 10000 * child[0] >= threshold * total]
        hidden = [child[0] for child in children if 10000 * child[0] < threshold * total]
        if hidden:
            places = b"in 1 place" if len(hidden) == 1 else b"in %d places, all" % len(hidden)
            places += b"," if len(hidden) == 1 else b""
            share = b"(%02d.%02d%%)" % divmod(threshold, 100)
            shown.append((sum(hidden), places + b" below ms_print's threshold " + share, []))
        for place, (size, of, below) in enumerate(shown, 1):
            lines.append(prefix + b"->" + text(size, of))
            deeper = prefix + (b"  " if place == len(shown) else b"| ")
            put_below(below, deeper)
            if not below:
                lines.append(deeper)

    lines.append(text(tree[0], tree[1]))
    put_below(tree[2], b"")


def page(width, height, threshold, words, profile):
    desc, cmd, unit, *rest = profile.split(b"\n")
    desc, cmd, unit = [line.partition(b":")[2].lstrip(b" ") for line in (desc, cmd, unit)]
    snapshots = snapshots_of(rest)
    sums = [heap + extra + stacks for _, heap, extra, stacks, _, _ in snapshots]
    peak, end = max(sums), snapshots[-1][0]
    rule = b"-" * 80
    lines = [rule, b"Command:            " + cmd, b"Massif arguments:   " + desc, b"ms_print arguments: " + words, rule, b"", b""]
    top, top_unit = label(peak, b"B")
    last, last_unit = label(end, unit)
    lines.append(b"    " + top_unit)
    heads = [top.rjust(5) + b"^"] + [b"     |"] * (height - 1)
    lines += [head + row for head, row in zip(heads, graph(width, height, peak, end, snapshots))]
    lines += [b"   0 +" + b"-" * (width - 1) + b">" + last_unit, b"     0" + last.rjust(width - 1), b""]
    detailed = [b"%d%s" % (number, b" (peak)" * (snapshot[4] == b"peak"))
                for number, snapshot in enumerate(snapshots) if snapshot[5]]
    lines += [b"Number of snapshots: %d" % len(snapshots), b" Detailed snapshots: [%s]" % b", ".join(detailed), b""]

    def row(*cells):
        return b" ".join(cell.rjust(places) for cell, places in zip(cells, (3, 14, 16, 16, 13, 12)))

    head = [rule, row(b"n", b"time(%s)" % unit, b"total(B)", b"useful-heap(B)", b"extra-heap(B)", b"stacks(B)"), rule]
    lines += head
    for number, (total, (time, heap, extra, stacks, _, tree)) in enumerate(zip(sums, snapshots)):
        lines.append(row(b"%d" % number, *(format(figure, ",").encode() for figure in (time, total, heap, extra, stacks))))
        if tree:
            put_tree(tree, total, threshold, lines)
            lines.append(b"")
            if number + 1 < len(snapshots):
                lines += head
    return joined(lines)
