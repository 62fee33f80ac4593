"""The text that `heapsuite massif` has to write of a trace, worked out slowly from the rules of sampling: every place is offered by
its definition, a cull rebuilds the list of snapshots, and the tree of a snapshot is made of all fronts of all stacks."""

from collections import namedtuple

from oracle_trace import children_of, fronts_with_costs

# Percentages are hundredths of a percent, and a list of functions is one of names.
Options = namedtuple("Options", "threshold inaccuracy detailed_freq max_snapshots depth admin alignment unit alloc_fns ignore_fns",
                     defaults=(100, 100, 10, 100, 30, 8, 16, "B", (), ()))
Snapshot = namedtuple("Snapshot", "place time total kind")


class Sampling:
    """The figures that the rules of taking speak of, at each place: so many events after the first."""

    def __init__(self, options, trace):
        self.options, self.trace = options, trace
        self.trimmed = [self.trim(trace.frames(stack)) for stack in trace.stacks()]
        self.ignored = [bool(frames) and frames[0].function in options.ignore_fns for frames in self.trimmed]
        self.time, self.heap, self.total = [0], [0], [0]
        for event in trace.events:
            counted = not self.ignored[event.stack]
            gross = -(-event.size // options.alignment) * options.alignment + options.admin
            sign = counted * (1 if event.allocates else -1)
            self.heap.append(self.heap[-1] + sign * event.size)
            self.total.append(self.total[-1] + sign * gross)
            passed = {"B": gross, "e": 1}.get(options.unit, 0) * counted
            self.time.append(event.clock if options.unit == "ms" else self.time[-1] + passed)

    def trim(self, frames):
        while frames and frames[0].function in self.options.alloc_fns:
            frames = frames[1:]
        return frames

    def cull(self, kept):
        for _ in range(len(kept) // 2):
            removable = [i for i in range(1, len(kept) - 1) if kept[i].kind != "peak"]
            least = min(removable, key=lambda i: kept[i + 1].time - kept[i - 1].time)
            kept = kept[:least] + kept[least + 1:]
        return kept

    def kept(self):
        """The snapshots that are left after the last event."""
        kept, interval, last_peak, normal_taken = [], 0, 0, 0

        def offers():
            yield 0, False
            for place, event in enumerate(self.trace.events, 1):
                if not self.ignored[event.stack]:
                    if not event.allocates:
                        yield place - 1, True
                    yield place, False

        for place, is_peak in offers():
            time, total = self.time[place], self.total[place]
            if is_peak:
                if total <= last_peak + last_peak * self.options.inaccuracy // 10000:
                    continue
                last_peak = total
                kept = [snapshot._replace(kind="empty") if snapshot.kind == "peak" else snapshot for snapshot in kept]
                kept.append(Snapshot(place, time, total, "peak"))
            else:
                if kept and time < kept[-1].time + interval:
                    continue
                normal_taken += 1
                kind = "empty" if normal_taken % self.options.detailed_freq else "detailed"
                kept.append(Snapshot(place, time, total, kind))
            if len(kept) >= self.options.max_snapshots:
                kept = self.cull(kept)
                interval = min(after.time - before.time for before, after in zip(kept, kept[1:]))
        return kept

    def tree(self, snapshot):
        """The lines of a snapshot's tree."""
        options = self.options
        lists = [tuple(frame.addressed for frame in frames) for frames in self.trimmed]
        costs = [0 if ignored else live for ignored, live in zip(self.ignored, self.trace.all_live(snapshot.place))]
        sums, least = fronts_with_costs(lists, costs, options.depth)
        children = children_of(sums)
        lines = []

        def add(level, count, cost, label):
            lines.append(b"%sn%d: %d %s" % (b" " * level, count, cost, label))

        def walk(front, label):
            below = children.get(front, [])
            shown = [child for child in below if 10000 * sums[child] >= options.threshold * snapshot.total]
            gathered = [sums[child] for child in below if child not in shown]
            add(len(front), len(shown) + bool(gathered), sums.get(front, 0), label)
            for child in sorted(shown, key=lambda child: (-sums[child], least[child])):
                walk(child, child[-1])
            if gathered:
                places = b"1 place," if len(gathered) == 1 else b"%d places, all" % len(gathered)
                share = b"(%d.%02d%%)" % divmod(options.threshold, 100)
                add(len(front) + 1, 0, sum(gathered), b"in %s below massif's threshold %s" % (places, share))

        walk((), b"(heap allocation functions) malloc/new/new[], --alloc-fns, etc.")
        return lines


def massif_text(options, trace):
    sampling = Sampling(options, trace)
    lines = [b"desc: heapsuite massif", b"cmd: " + trace.shown_command(), b"time_unit: " + options.unit.encode()]
    for number, snapshot in enumerate(sampling.kept()):
        heap = sampling.heap[snapshot.place]
        lines += [b"#-----------", b"snapshot=%d" % number, b"#-----------", b"time=%d" % snapshot.time,
                  b"mem_heap_B=%d" % heap, b"mem_heap_extra_B=%d" % (snapshot.total - heap), b"mem_stacks_B=0",
                  b"heap_tree=" + snapshot.kind.encode()]
        if snapshot.kind != "empty":
            lines += sampling.tree(snapshot)
    return b"".join(line + b"\n" for line in lines)
