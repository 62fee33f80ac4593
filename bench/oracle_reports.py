"""What `summary`, `print`, `flame`, `dhat` and `dhat_view` have to write, worked out slowly from what they are defined as."""

import json
from collections import namedtuple

from oracle_trace import children_of, fronts_with_costs

PrintOptions = namedtuple("PrintOptions", "allocators peaks leaks temporary merge histogram limit sub_limit",
                          defaults=(1, 1, 1, 1, 1, 0, 10, 5))


def percent(part, whole):
    hundredths = (20000 * part + whole) // (2 * whole) if whole else 0
    return b"%02d.%02d%%" % divmod(hundredths, 100)


class Figures:
    """What each stack's events come to, and the first place of the greatest total."""

    def __init__(self, trace):
        self.trace = trace
        count = len(trace.nodes)
        self.calls, self.allocated, self.temporary = [0] * count, [0] * count, [0] * count
        for before, event in zip([None] + trace.events, trace.events):
            if event.allocates:
                self.calls[event.stack] += 1
                self.allocated[event.stack] += event.size
            elif before.allocates and before.info == event.info:
                self.temporary[event.stack] += 1
        totals = [0]
        for event in trace.events:
            totals.append(totals[-1] + (event.size if event.allocates else -event.size))
        self.peak = totals.index(max(totals))
        self.end = len(trace.events)
        self.peak_live, self.leaked = trace.all_live(self.peak), trace.all_live(self.end)

    def blocks(self, stack, place):
        return sum(1 if event.allocates else -1 for event in self.trace.events[:place] if event.stack == stack)

    def summary(self):
        return [b"events: %d" % self.end, b"calls: %d" % sum(self.calls), b"temporary: %d" % sum(self.temporary),
                b"allocated: %d" % sum(self.allocated), b"peak: %d at event %d" % (sum(self.peak_live), self.peak),
                b"leaked: %d in %d blocks" % (
                    sum(self.leaked), sum(self.blocks(stack, self.end) for stack in self.trace.stacks()))]


def joined(lines):
    return b"".join(line + b"\n" for line in lines)


def summary_text(trace):
    return joined(Figures(trace).summary())


def section(options, trace, heading, figure, unit):
    """The lines of a section up to its empty line."""
    texts = [[frame.plain for frame in trace.frames(stack)] for stack in trace.stacks()]
    whole = sum(figure)
    shown = [stack for stack in trace.stacks() if figure[stack]]
    lines = [heading] + [b"(none)"] * (not shown)

    def fig(part):
        return b"%d %s (%s)" % (part, unit, percent(part, whole))

    by_figure = sorted(shown, key=lambda stack: -figure[stack])
    if not options.merge:
        for stack in by_figure[:options.limit]:
            lines.append(b"%s at %s in stack %d" % (fig(figure[stack]), texts[stack][0], stack))
            lines += [b"  " + text for text in texts[stack][1:]]
        return lines + [b"more stacks: %d" % (len(shown) - options.limit)] * (len(shown) > options.limit)
    groups = {}
    for stack in by_figure:
        groups.setdefault(texts[stack][0], []).append(stack)
    in_order = sorted(groups.items(), key=lambda group: (-sum(figure[stack] for stack in group[1]), min(group[1])))
    for text, stacks in in_order[:options.limit]:
        lines.append(b"%s at %s" % (fig(sum(figure[stack] for stack in stacks)), text))
        for stack in stacks[:options.sub_limit]:
            lines.append(b"  %s in stack %d" % (fig(figure[stack]), stack))
            lines += [b"    " + text for text in texts[stack][1:]]
        lines += [b"  more stacks: %d" % (len(stacks) - options.sub_limit)] * (len(stacks) > options.sub_limit)
    return lines + [b"more places: %d" % (len(groups) - options.limit)] * (len(groups) > options.limit)


def histogram(trace):
    bounds = [8, 16, 32, 64, 128, 256, 512, 1024]
    counts = [0] * 9
    for event in trace.events:
        if event.allocates:
            counts[sum(event.size > bound for bound in bounds)] += 1
    ranges = [b"%d to %d" % (low + (low > 0), high) for low, high in zip([0] + bounds, bounds)] + [b"1025 and more"]
    return [b"SIZE HISTOGRAM"] + [b"%s: %d calls" % pair for pair in zip(ranges, counts)] + [b""]


def print_text(options, patterns, trace):
    """`patterns` are those of a suppressions file."""
    figures = Figures(trace)
    patterns = patterns + trace.patterns
    suppressed = [any(pattern in frame.plain for frame in trace.frames(stack) for pattern in patterns)
                  for stack in trace.stacks()]
    hidden = sum(leak for leak, is_suppressed in zip(figures.leaked, suppressed) if is_suppressed)
    leaks = [0 if is_suppressed else leak for leak, is_suppressed in zip(figures.leaked, suppressed)]
    lines = []
    if options.allocators:
        lines += section(options, trace, b"MOST CALLS TO ALLOCATION FUNCTIONS", figures.calls, b"calls") + [b""]
    if options.peaks:
        lines += section(options, trace, b"PEAK MEMORY CONSUMERS", figures.peak_live, b"bytes") + [b""]
    if options.leaks:
        lines += section(options, trace, b"MEMORY LEAKS", leaks, b"bytes")
        lines += [b"suppressed: %d bytes" % hidden] * (hidden > 0) + [b""]
    if options.temporary:
        lines += section(options, trace, b"MOST TEMPORARY ALLOCATIONS", figures.temporary, b"temporary") + [b""]
    return joined(lines + histogram(trace) * options.histogram + figures.summary())


def flame_text(cost, trace):
    figures = Figures(trace)
    costs = dict(allocations=figures.calls, temporary=figures.temporary, leaked=figures.leaked, peak=figures.peak_live)[cost]
    lists = [tuple(frame.plain for frame in reversed(trace.frames(stack))) for stack in trace.stacks()]
    sums, least = fronts_with_costs(lists, costs, max(map(len, lists)))
    children = children_of(sums)
    lines = []

    def walk(front):
        own = sum(cost for texts, cost in zip(lists, costs) if texts == front)
        if own:
            lines.append(b"%s %d" % (b";".join(text.replace(b";", b":") for text in front), own))
        for child in sorted(children.get(front, []), key=least.get):
            walk(child)

    walk(())
    return joined(lines)


def dhat_profile(trace):
    figures = Figures(trace)
    table, points = {"[root]": 0}, []
    for stack in trace.stacks():
        if not figures.calls[stack]:
            continue
        lives = [trace.live(stack, place) for place in range(figures.end + 1)]
        greatest = lives.index(max(lives))
        left = figures.blocks(stack, figures.end)
        lived = sum(-place if event.allocates else place
                    for place, event in enumerate(trace.events, 1) if event.stack == stack)
        texts = [text_of_json(frame.addressed) for frame in trace.frames(stack)]
        points.append(dict(tb=figures.allocated[stack], tbk=figures.calls[stack], tl=lived + figures.end * left,
                           mb=lives[greatest], mbk=figures.blocks(stack, greatest),
                           gb=figures.peak_live[stack], gbk=figures.blocks(stack, figures.peak),
                           eb=figures.leaked[stack], ebk=left, fs=[table.setdefault(text, len(table)) for text in texts]))
    return dict(dhatFileVersion=2, mode="heap", verb="Allocated", bklt=True, bkacc=False, tu="events", Mtu="Mevents", tuth=500,
                cmd=text_of_json(trace.shown_command()), pid=0, te=figures.end, tg=figures.peak, ftbl=list(table), pps=points)


def text_of_json(text):
    try:
        return text.decode()
    except UnicodeDecodeError:
        return bytes(byte if byte < 128 else ord("?") for byte in text).decode()


def dhat_text(trace):
    profile = dhat_profile(trace)
    return json.dumps(profile, sort_keys=True, separators=(",", ":"), ensure_ascii=False).encode() + b"\n"


def shown(text):
    masked = "".join("?" if byte < " " else byte for byte in text)
    return ("?" + masked[1:] if text[:1] in ("", " ") else masked).encode()


def view_text(key, threshold, depth, profile):
    lists = [tuple(shown(profile["ftbl"][frame]) for frame in point["fs"]) for point in profile["pps"]]
    costs = [point[key] for point in profile["pps"]]
    whole = sum(costs)
    sums, least = fronts_with_costs(lists, costs, depth)
    children = children_of(sums)
    lines = [b"command: " + shown(profile["cmd"]), b"points: %d" % len(lists), b"%s: %d" % (key.encode(), whole), b""]

    def add(level, cost, text):
        lines.append(b"%s%s (%s) %s" % (b"  " * level, percent(cost, whole), format(cost, ",").encode(), text))

    def walk(front):
        below = children.get(front, [])
        gathered = [sums[child] for child in below if 10000 * sums[child] < threshold * whole]
        for child in sorted(below, key=lambda child: (-sums[child], least[child])):
            if 10000 * sums[child] >= threshold * whole:
                add(len(front), sums[child], child[-1])
                walk(child)
        if gathered:
            places = b"1 place" if len(gathered) == 1 else b"%d places" % len(gathered)
            add(len(front), sum(gathered), b"in %s below %s" % (places, b"%02d.%02d%%" % divmod(threshold, 100)))

    walk(())
    return joined(lines)
